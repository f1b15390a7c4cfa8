package bulkhead.hystrix.strategy.concurrency;

/**
 * A variable of which each request has a value of its own.
 *
 * @param <T> the type of the value
 */
public interface HystrixRequestVariable<T> extends HystrixRequestVariableLifecycle<T> {
    /**
     * Returns the value of the current request.
     *
     * @throws IllegalStateException where this thread has no request, or the request was shut down
     */
    T get();
}
