package bulkhead.hystrix.strategy.properties;

import bulkhead.hystrix.HystrixThreadPoolKey;
import bulkhead.hystrix.HystrixThreadPoolProperties;

/** The properties of a thread pool, as {@link HystrixThreadPoolProperties} finds them. */
public class HystrixPropertiesThreadPoolDefault extends HystrixThreadPoolProperties {
    /** The properties of a key, with what was set; {@code builder} may be null. */
    public HystrixPropertiesThreadPoolDefault(HystrixThreadPoolKey key, Setter builder) {
        super(key, builder);
    }
}
