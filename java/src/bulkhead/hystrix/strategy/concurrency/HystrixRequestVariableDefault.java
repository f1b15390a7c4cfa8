package bulkhead.hystrix.strategy.concurrency;

/**
 * A variable of requests. Any thread may use it; {@link #initialValue} is called by one thread alone for each request.
 *
 * @param <T> the type of the value
 */
public class HystrixRequestVariableDefault<T> implements HystrixRequestVariable<T> {
    /** A variable without a value anywhere. */
    public HystrixRequestVariableDefault() {}

    @Override
    public T get() {
        return current().value(this);
    }

    /** Gives the current request another value; the one before is not ended. */
    public void set(T value) {
        current().setValue(this, value);
    }

    /** Takes the value from the current request, and ends it. */
    public void remove() {
        current().removeValue(this);
    }

    @Override
    public T initialValue() {
        return null;
    }

    @Override
    public void shutdown(T value) {}

    private static HystrixRequestContext current() {
        HystrixRequestContext context = HystrixRequestContext.getContextForCurrentThread();
        if (context == null) {
            throw new IllegalStateException("HystrixRequestContext.initializeContext() must be called at the beginning of"
                    + " each request before request variables can be used.");
        }
        return context;
    }
}
