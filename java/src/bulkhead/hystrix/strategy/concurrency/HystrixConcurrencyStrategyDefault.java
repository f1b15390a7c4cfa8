package bulkhead.hystrix.strategy.concurrency;

/** The strategy where no other one was registered. */
public class HystrixConcurrencyStrategyDefault extends HystrixConcurrencyStrategy {
    private static final HystrixConcurrencyStrategy INSTANCE = new HystrixConcurrencyStrategyDefault();

    private HystrixConcurrencyStrategyDefault() {}

    /** Returns the one instance. */
    public static HystrixConcurrencyStrategy getInstance() {
        return INSTANCE;
    }
}
