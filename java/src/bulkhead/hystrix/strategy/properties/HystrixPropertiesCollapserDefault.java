package bulkhead.hystrix.strategy.properties;

import bulkhead.hystrix.HystrixCollapserKey;
import bulkhead.hystrix.HystrixCollapserProperties;

/** The properties of a collapser, as {@link HystrixCollapserProperties} finds them. */
public class HystrixPropertiesCollapserDefault extends HystrixCollapserProperties {
    /** The properties of a key, with what was set; {@code builder} may be null. */
    public HystrixPropertiesCollapserDefault(HystrixCollapserKey key, Setter builder) {
        super(key, builder);
    }
}
