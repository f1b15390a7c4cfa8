package bulkhead.hystrix.strategy.properties;

import bulkhead.hystrix.HystrixCommandKey;
import bulkhead.hystrix.HystrixCommandProperties;

/** The properties of a command, as {@link HystrixCommandProperties} finds them. */
public class HystrixPropertiesCommandDefault extends HystrixCommandProperties {
    /** The properties of a key, with what was set; {@code builder} may be null. */
    public HystrixPropertiesCommandDefault(HystrixCommandKey key, Setter builder) {
        super(key, builder);
    }
}
