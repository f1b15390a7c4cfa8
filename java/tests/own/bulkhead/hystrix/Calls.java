package bulkhead.hystrix;

import bulkhead.hystrix.HystrixCommandProperties.ExecutionIsolationStrategy;
import java.util.concurrent.Callable;

/** Commands for tests of what is not seen from outside. */
final class Calls {
    private Calls() {}

    static HystrixCommandProperties.Setter pooled() {
        return HystrixCommandProperties.Setter().withExecutionTimeoutInMilliseconds(10_000);
    }

    static HystrixCommandProperties.Setter inline() {
        return pooled().withExecutionIsolationStrategy(ExecutionIsolationStrategy.SEMAPHORE)
                .withExecutionIsolationSemaphoreMaxConcurrentRequests(1000);
    }

    static HystrixCommand.Setter setter(String pool, String key, HystrixCommandProperties.Setter properties) {
        return HystrixCommand.Setter.withGroupKey(HystrixCommandGroupKey.Factory.asKey(pool))
                .andCommandKey(HystrixCommandKey.Factory.asKey(key))
                .andCommandPropertiesDefaults(properties);
    }

    /** A command whose fallback is {@code spare}, under a cache key that may be null. */
    static HystrixCommand<String> of(HystrixCommand.Setter setter, String cacheKey, Callable<String> body) {
        return new HystrixCommand<String>(setter) {
            @Override
            protected String run() throws Exception {
                return body.call();
            }

            @Override
            protected String getFallback() {
                return "spare";
            }

            @Override
            protected String getCacheKey() {
                return cacheKey;
            }
        };
    }

    /** What the core says of a command. */
    static long[] read(String key) {
        PoolCommand command = AbstractCommand.known(HystrixCommandKey.Factory.asKey(key));
        return command.pool.read(command);
    }

    /** Waits until no run of a command goes on, and returns how many slots are free. */
    static long freeAtRest(String key) throws InterruptedException {
        long[] metrics = read(key);
        for (int waited = 0; waited < 1000 && metrics[Metrics.BUSY] + metrics[Metrics.QUEUED] > 0; waited++) {
            Thread.sleep(10);
            metrics = read(key);
        }
        return metrics[Metrics.FREE];
    }
}
