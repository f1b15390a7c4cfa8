package bulkhead.hystrix.strategy.concurrency;

import java.util.concurrent.Callable;

/** What is done around a run in another thread than its caller's. Threads and queues are the pool's own, and stay so. */
public abstract class HystrixConcurrencyStrategy {
    /** A strategy that adds nothing. */
    protected HystrixConcurrencyStrategy() {}

    /**
     * Returns what is called in a worker in place of a run, and calls that. It is called in the thread of the caller, from
     * which it may keep what the run is to see.
     */
    public <T> Callable<T> wrapCallable(Callable<T> callable) {
        return callable;
    }
}
