package bulkhead.hystrix.strategy;

import bulkhead.hystrix.strategy.concurrency.HystrixConcurrencyStrategy;
import bulkhead.hystrix.strategy.concurrency.HystrixConcurrencyStrategyDefault;
import bulkhead.hystrix.strategy.executionhook.HystrixCommandExecutionHook;
import bulkhead.hystrix.strategy.executionhook.HystrixCommandExecutionHookDefault;
import bulkhead.hystrix.strategy.properties.HystrixPropertiesStrategy;
import bulkhead.hystrix.strategy.properties.HystrixPropertiesStrategyDefault;
import java.util.concurrent.atomic.AtomicReference;

/** What is registered in place of what is built in. Each kind may be registered once, before its first use. */
public class HystrixPlugins {
    private static final HystrixPlugins INSTANCE = new HystrixPlugins();

    private final AtomicReference<HystrixCommandExecutionHook> hook = new AtomicReference<>();
    private final AtomicReference<HystrixConcurrencyStrategy> concurrency = new AtomicReference<>();
    private final AtomicReference<HystrixPropertiesStrategy> properties = new AtomicReference<>();

    private HystrixPlugins() {}

    /** Returns the one instance. Any thread may use it. */
    public static HystrixPlugins getInstance() {
        return INSTANCE;
    }

    /** Forgets what was registered; what was made before keeps it. */
    public static void reset() {
        INSTANCE.hook.set(null);
        INSTANCE.concurrency.set(null);
        INSTANCE.properties.set(null);
    }

    /** Returns the hook that is registered, or that which is built in. */
    public HystrixCommandExecutionHook getCommandExecutionHook() {
        HystrixCommandExecutionHook found = hook.get();
        return found == null ? HystrixCommandExecutionHookDefault.getInstance() : found;
    }

    /**
     * Registers a hook.
     *
     * @throws IllegalStateException where one is registered
     */
    public void registerCommandExecutionHook(HystrixCommandExecutionHook impl) {
        register(hook, impl);
    }

    /** Returns the strategy that is registered, or that which is built in. */
    public HystrixConcurrencyStrategy getConcurrencyStrategy() {
        HystrixConcurrencyStrategy found = concurrency.get();
        return found == null ? HystrixConcurrencyStrategyDefault.getInstance() : found;
    }

    /**
     * Registers a strategy for threads.
     *
     * @throws IllegalStateException where one is registered
     */
    public void registerConcurrencyStrategy(HystrixConcurrencyStrategy impl) {
        register(concurrency, impl);
    }

    /** Returns the strategy that is registered, or that which is built in. */
    public HystrixPropertiesStrategy getPropertiesStrategy() {
        HystrixPropertiesStrategy found = properties.get();
        return found == null ? HystrixPropertiesStrategyDefault.getInstance() : found;
    }

    /**
     * Registers a strategy for properties. Commands that were made before keep theirs.
     *
     * @throws IllegalStateException where one is registered
     */
    public void registerPropertiesStrategy(HystrixPropertiesStrategy impl) {
        register(properties, impl);
    }

    private static <T> void register(AtomicReference<T> to, T impl) {
        if (!to.compareAndSet(null, impl)) {
            throw new IllegalStateException("Another strategy was already registered.");
        }
    }
}
