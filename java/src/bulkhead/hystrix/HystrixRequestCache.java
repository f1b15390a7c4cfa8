package bulkhead.hystrix;

import bulkhead.hystrix.strategy.concurrency.HystrixConcurrencyStrategy;

/** The answers of a command that are shared in the current request. Any thread may use it. */
public class HystrixRequestCache {
    private final HystrixCommandKey key;

    private HystrixRequestCache(HystrixCommandKey key) {
        this.key = key;
    }

    /** Returns the cache of a command. The strategy has no effect. */
    public static HystrixRequestCache getInstance(HystrixCommandKey key, HystrixConcurrencyStrategy concurrencyStrategy) {
        return new HystrixRequestCache(key);
    }

    /**
     * Has the next call under the cache key run. The answer that it had keeps its slot until the request ends.
     *
     * @throws IllegalStateException where this thread has no request, or it was shut down
     */
    public void clear(String cacheKey) {
        PoolCommand command = AbstractCommand.known(key);
        if (command != null) {
            command.pool.clear(command, cacheKey);
        }
    }
}
