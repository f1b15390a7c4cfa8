package bulkhead.hystrix.strategy.concurrency;

import java.io.Closeable;
import java.lang.ref.Cleaner;
import java.util.concurrent.ConcurrentHashMap;

/**
 * A request, which threads belong to and request variables have values of. It ends by {@link #shutdown}, or after nothing
 * leads to it any more. The values end with it.
 *
 * <p>A request may be that of several threads at a time; a worker that runs a command has that of its caller.
 */
public class HystrixRequestContext implements Closeable {
    private static final ThreadLocal<HystrixRequestContext> CURRENT = new ThreadLocal<>();
    private static final Cleaner CLEANER = Cleaner.create();

    private final Values values = new Values();
    private final Cleaner.Cleanable end = CLEANER.register(this, values);

    private HystrixRequestContext() {}

    /** Begins a request, of which this thread is from now on. */
    public static HystrixRequestContext initializeContext() {
        HystrixRequestContext made = new HystrixRequestContext();
        CURRENT.set(made);
        return made;
    }

    /** Returns whether this thread has a request, which was not shut down. */
    public static boolean isCurrentThreadInitialized() {
        return getContextForCurrentThread() != null;
    }

    /** Returns the request of this thread; null where it has none, or one that was shut down. */
    public static HystrixRequestContext getContextForCurrentThread() {
        HystrixRequestContext found = CURRENT.get();
        return found == null || found.values.isOver ? null : found;
    }

    /** Gives this thread another request, or none by null. */
    public static void setContextOnCurrentThread(HystrixRequestContext state) {
        if (state == null) {
            CURRENT.remove();
        } else {
            CURRENT.set(state);
        }
    }

    /** Ends the values of the request, once. It is that of no thread from then on. */
    public void shutdown() {
        end.clean();
    }

    /** The same as {@link #shutdown}. */
    @Override
    public void close() {
        shutdown();
    }

    @SuppressWarnings("unchecked") // the variable made it
    <T> T value(HystrixRequestVariableDefault<T> variable) {
        Object found = values.get(variable);
        if (found == null) {
            found = values.computeIfAbsent(variable, made -> Values.held(variable.initialValue()));
        }
        checkIsOpen();
        return (T) Values.given(found);
    }

    <T> void setValue(HystrixRequestVariableDefault<T> variable, T value) {
        values.put(variable, Values.held(value));
        checkIsOpen();
    }

    <T> void removeValue(HystrixRequestVariableDefault<T> variable) {
        values.end(variable);
    }

    private void checkIsOpen() {
        if (values.isOver) {
            throw new IllegalStateException("The HystrixRequestContext was shut down.");
        }
    }

    /** The values by their variables. It does not lead to the request, which nothing else would let go otherwise. */
    private static final class Values extends ConcurrentHashMap<HystrixRequestVariableDefault<?>, Object> implements Runnable {
        private static final long serialVersionUID = 1L;
        private static final Object NULL = new Object();

        private volatile boolean isOver;

        static Object held(Object value) {
            return value == null ? NULL : value;
        }

        static Object given(Object held) {
            return held == NULL ? null : held;
        }

        @Override
        public void run() {
            isOver = true; // first: who comes in meanwhile sees it, or is seen below
            for (HystrixRequestVariableDefault<?> variable : keySet()) {
                end(variable);
            }
        }

        @SuppressWarnings("unchecked") // the variable made it
        <T> void end(HystrixRequestVariableDefault<T> variable) {
            Object held = remove(variable);
            if (held != null) {
                variable.shutdown((T) given(held));
            }
        }
    }
}
