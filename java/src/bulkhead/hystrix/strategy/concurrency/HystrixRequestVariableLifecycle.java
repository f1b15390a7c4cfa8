package bulkhead.hystrix.strategy.concurrency;

/**
 * How the value of a request begins and ends.
 *
 * @param <T> the type of the value
 */
public interface HystrixRequestVariableLifecycle<T> {
    /** Returns the value that a request begins with; it is called once a request. */
    T initialValue();

    /** Ends the value with its request: when that is shut down, or in another thread after nothing leads to it any more. */
    void shutdown(T value);
}
