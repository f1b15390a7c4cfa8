package bulkhead.hystrix.strategy.properties;

import bulkhead.hystrix.HystrixCollapserKey;
import bulkhead.hystrix.HystrixCollapserProperties;
import bulkhead.hystrix.HystrixCommandKey;
import bulkhead.hystrix.HystrixCommandProperties;
import bulkhead.hystrix.HystrixThreadPoolKey;
import bulkhead.hystrix.HystrixThreadPoolProperties;

/**
 * Where properties come from. Each method is called once for a key, when the first command of the key is made. Each property
 * that it returns is read then, and again by {@link bulkhead.hystrix.WatchedProperties}.
 */
public abstract class HystrixPropertiesStrategy {
    /** A strategy that finds properties as {@link HystrixCommandProperties} tells. */
    protected HystrixPropertiesStrategy() {}

    /** Returns the properties of a command, which was made with {@code builder}; that may be null. */
    public HystrixCommandProperties getCommandProperties(HystrixCommandKey key, HystrixCommandProperties.Setter builder) {
        return new HystrixPropertiesCommandDefault(key, builder);
    }

    /** Returns the properties of a thread pool, which was made with {@code builder}; that may be null. */
    public HystrixThreadPoolProperties getThreadPoolProperties(
            HystrixThreadPoolKey key, HystrixThreadPoolProperties.Setter builder) {
        return new HystrixPropertiesThreadPoolDefault(key, builder);
    }

    /** Returns the properties of a collapser, which was made with {@code builder}; that may be null. */
    public HystrixCollapserProperties getCollapserProperties(
            HystrixCollapserKey key, HystrixCollapserProperties.Setter builder) {
        return new HystrixPropertiesCollapserDefault(key, builder);
    }
}
