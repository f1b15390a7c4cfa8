package shared;

import com.netflix.hystrix.HystrixCommand;
import com.netflix.hystrix.HystrixCommandGroupKey;
import com.netflix.hystrix.HystrixCommandKey;
import com.netflix.hystrix.HystrixCommandProperties;
import com.netflix.hystrix.HystrixCommandProperties.ExecutionIsolationStrategy;
import com.netflix.hystrix.HystrixThreadPoolProperties;
import java.util.concurrent.Callable;

/** A command for tests, of functions that the test gives. */
class Of<R> extends HystrixCommand<R> {
    private final Callable<R> body;
    private Callable<R> fallback;
    private String cacheKey;

    /** A command of a group and a key of the name. */
    Of(String name, HystrixCommandProperties.Setter properties, HystrixThreadPoolProperties.Setter pool, Callable<R> body) {
        super(Setter.withGroupKey(HystrixCommandGroupKey.Factory.asKey(name))
                .andCommandKey(HystrixCommandKey.Factory.asKey(name))
                .andCommandPropertiesDefaults(properties)
                .andThreadPoolPropertiesDefaults(pool));
        this.body = body;
    }

    Of(String name, HystrixCommandProperties.Setter properties, Callable<R> body) {
        this(name, properties, pool(), body);
    }

    Of<R> orElse(Callable<R> fallback) {
        this.fallback = fallback;
        return this;
    }

    Of<R> cachedAs(String cacheKey) {
        this.cacheKey = cacheKey;
        return this;
    }

    @Override
    protected R run() throws Exception {
        return body.call();
    }

    @Override
    protected R getFallback() {
        if (fallback == null) {
            return super.getFallback();
        }
        try {
            return fallback.call();
        } catch (RuntimeException e) {
            throw e;
        } catch (Exception e) {
            throw new IllegalStateException(e);
        }
    }

    @Override
    protected String getCacheKey() {
        return cacheKey;
    }

    /** Properties with a timeout that a busy machine does not reach. */
    static HystrixCommandProperties.Setter properties() {
        return HystrixCommandProperties.Setter().withExecutionTimeoutInMilliseconds(10_000);
    }

    /** The same for a command that runs in its caller's thread. */
    static HystrixCommandProperties.Setter inline() {
        return properties().withExecutionIsolationStrategy(ExecutionIsolationStrategy.SEMAPHORE);
    }

    static HystrixThreadPoolProperties.Setter pool() {
        return HystrixThreadPoolProperties.Setter();
    }
}
