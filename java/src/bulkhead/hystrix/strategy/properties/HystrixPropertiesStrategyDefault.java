package bulkhead.hystrix.strategy.properties;

/** The strategy where no other one was registered. */
public class HystrixPropertiesStrategyDefault extends HystrixPropertiesStrategy {
    private static final HystrixPropertiesStrategyDefault INSTANCE = new HystrixPropertiesStrategyDefault();

    private HystrixPropertiesStrategyDefault() {}

    /** Returns the one instance. */
    public static HystrixPropertiesStrategy getInstance() {
        return INSTANCE;
    }
}
