package bulkhead.hystrix.strategy.executionhook;

/** The hook where no other one was registered. */
public class HystrixCommandExecutionHookDefault extends HystrixCommandExecutionHook {
    private static final HystrixCommandExecutionHookDefault INSTANCE = new HystrixCommandExecutionHookDefault();

    private HystrixCommandExecutionHookDefault() {}

    /** Returns the one instance. */
    public static HystrixCommandExecutionHook getInstance() {
        return INSTANCE;
    }
}
