package bulkhead.hystrix;

import bulkhead.hystrix.exception.HystrixRuntimeException;
import bulkhead.hystrix.strategy.HystrixPlugins;
import bulkhead.hystrix.strategy.concurrency.HystrixConcurrencyStrategy;
import bulkhead.hystrix.strategy.concurrency.HystrixConcurrencyStrategyDefault;
import bulkhead.hystrix.strategy.concurrency.HystrixRequestContext;
import bulkhead.rx.Observable;
import java.util.concurrent.Callable;
import java.util.concurrent.CompletableFuture;
import java.util.concurrent.Future;

/**
 * A call of a dependency, which has a limit, a timeout, a circuit breaker and perhaps a fallback. Whoever wants the value
 * makes an instance and executes it once. Instances of one command key share the circuit breaker and the metrics, and those
 * of one thread pool key the threads.
 *
 * <p>Properties and the pool are those of the first instance of a command key. An instance is made and executed by one
 * thread; {@link #run} and {@link #getFallback} are called from others.
 *
 * @param <R> the type of the value
 */
public abstract class HystrixCommand<R> extends AbstractCommand<R> implements HystrixExecutable<R> {
    private Callable<R> wrapped;

    /** A command of the group, whose key is the name of its class. */
    protected HystrixCommand(HystrixCommandGroupKey group) {
        this(Setter.withGroupKey(group));
    }

    /** The same, with a thread pool of another name than the group. */
    protected HystrixCommand(HystrixCommandGroupKey group, HystrixThreadPoolKey threadPool) {
        this(Setter.withGroupKey(group).andThreadPoolKey(threadPool));
    }

    /** A command of the group with a timeout of so many milliseconds. */
    protected HystrixCommand(HystrixCommandGroupKey group, int executionIsolationThreadTimeoutInMilliseconds) {
        this(group, null, executionIsolationThreadTimeoutInMilliseconds);
    }

    /** The same, with a thread pool of another name than the group. */
    protected HystrixCommand(
            HystrixCommandGroupKey group, HystrixThreadPoolKey threadPool, int executionIsolationThreadTimeoutInMilliseconds) {
        this(Setter.withGroupKey(group).andThreadPoolKey(threadPool).andCommandPropertiesDefaults(
                HystrixCommandProperties.Setter().withExecutionTimeoutInMilliseconds(executionIsolationThreadTimeoutInMilliseconds)));
    }

    /**
     * A command that the setter describes.
     *
     * @throws IllegalStateException where the setter has no group
     * @throws IllegalArgumentException where it is the first of its key, and a property is out of its range
     */
    protected HystrixCommand(Setter setter) {
        super(setter.groupKey, setter.commandKey, setter.threadPoolKey, setter.commandProperties, setter.poolProperties, true);
    }

    /** Gives the value. It is called once, in a thread of the pool or under SEMAPHORE in that of the caller. */
    protected abstract R run() throws Exception;

    /**
     * Gives a value in place of a run that was refused, failed or timed out. It uses no network.
     *
     * @throws UnsupportedOperationException where there is none, as here
     */
    protected R getFallback() {
        throw new UnsupportedOperationException("No fallback available.");
    }

    @Override
    public R execute() {
        waitHere();
        begin();
        attend();
        return answered();
    }

    @Override
    public Future<R> queue() {
        CompletableFuture<R> made = beginForPromise();
        if (isRefused()) {
            throw AbstractCommand.<RuntimeException>sneaky(made.handle((value, e) -> e).join());
        }
        return new CommandFuture<>(this, made);
    }

    @Override
    public Observable<R> observe() {
        isObserved = true;
        return Observable.from(beginForPromise());
    }

    @Override
    public Observable<R> toObservable() {
        return Observable.defer(this::observe);
    }

    /** Whether the call was not let in, and no fallback gave a value. */
    private boolean isRefused() {
        return outcome() == Reply.ERROR && cause != Reply.FAILURE && cause != Reply.TIMEOUT;
    }

    private CompletableFuture<R> beginForPromise() {
        CompletableFuture<R> made = new CompletableFuture<>();
        promise = made;
        isObserved |= hooks.areThere();
        begin();
        if (isRun || isToldBySubmit) {
            waitHere();
            attend();
            resolve();
        }
        return made;
    }

    /** Does what falls to this thread, and waits until there is an answer. */
    private void attend() {
        try {
            if (isRun) {
                command.pool.end(ticket, perform(ticket), this);
            }
            await();
            if (outcome() == Reply.RUN_FALLBACK) {
                command.pool.endFallback(ticket, ticket.owner.fallBack(ticket), this);
            }
        } catch (InterruptedException e) {
            boolean hasLeft = command.pool.leave(this);
            Thread.currentThread().interrupt();
            if (hasLeft || isOpen()) {
                throw Failures.interrupted(this, e);
            }
        }
    }

    @Override
    final void prepare() {
        HystrixConcurrencyStrategy strategy = HystrixPlugins.getInstance().getConcurrencyStrategy();
        if (command.values.isPooled && strategy != HystrixConcurrencyStrategyDefault.getInstance()) {
            wrapped = strategy.wrapCallable(this::runWithHooks);
        }
    }

    private R runWithHooks() throws Exception {
        return hooks.run(this, this::run);
    }

    @Override
    final int perform(Ticket of) {
        boolean isElsewhere = command.values.isPooled;
        try {
            if (isElsewhere) {
                HystrixRequestContext.setContextOnCurrentThread(context);
            }
            of.ranValue = wrapped == null ? runWithHooks() : wrapped.call();
            return Native.FINISH;
        } catch (Throwable e) {
            return failed(of, e);
        } finally {
            if (isElsewhere) {
                HystrixRequestContext.setContextOnCurrentThread(null);
            }
        }
    }

    @Override
    final int fallBack(Ticket of) {
        if (of.cause == Reply.FAILURE && Failures.isUnrecoverable(of.error)) {
            return Native.FALLBACK_MISSING;
        }
        try {
            of.fallbackValue = hooks.fallBack(this, this::getFallback);
            return Native.FALLBACK_SUCCESS;
        } catch (Throwable e) {
            return fallbackFailed(of, e);
        }
    }

    @Override
    final void answerFull() {
        if (!endFullWithoutFallback()) {
            endFull(fallBack(ticket));
        }
    }

    /** What a command is made by. It is not made for several threads. */
    public static final class Setter {
        private final HystrixCommandGroupKey groupKey;
        private HystrixCommandKey commandKey;
        private HystrixThreadPoolKey threadPoolKey;
        private HystrixCommandProperties.Setter commandProperties;
        private HystrixThreadPoolProperties.Setter poolProperties;

        private Setter(HystrixCommandGroupKey groupKey) {
            this.groupKey = groupKey;
        }

        /** Returns a setter with the group. */
        public static Setter withGroupKey(HystrixCommandGroupKey groupKey) {
            return new Setter(groupKey);
        }

        /** Sets the key; without one it is the name of the command's class. */
        public Setter andCommandKey(HystrixCommandKey commandKey) {
            this.commandKey = commandKey;
            return this;
        }

        /** Sets the thread pool; without one it is that of the group's name. */
        public Setter andThreadPoolKey(HystrixThreadPoolKey threadPoolKey) {
            this.threadPoolKey = threadPoolKey;
            return this;
        }

        /** Sets properties, which system properties of the command key go before. */
        public Setter andCommandPropertiesDefaults(HystrixCommandProperties.Setter commandPropertiesDefaults) {
            commandProperties = commandPropertiesDefaults;
            return this;
        }

        /** Sets properties, which system properties of the thread pool key go before. */
        public Setter andThreadPoolPropertiesDefaults(HystrixThreadPoolProperties.Setter threadPoolPropertiesDefaults) {
            poolProperties = threadPoolPropertiesDefaults;
            return this;
        }
    }
}
