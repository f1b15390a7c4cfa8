package shared;

import static org.junit.Assert.assertEquals;
import static org.junit.Assert.assertTrue;
import static org.junit.Assert.fail;

import com.netflix.hystrix.Hystrix;
import com.netflix.hystrix.HystrixCommandKey;
import com.netflix.hystrix.HystrixCommandProperties;
import com.netflix.hystrix.HystrixInvokable;
import com.netflix.hystrix.exception.HystrixRuntimeException;
import com.netflix.hystrix.exception.HystrixRuntimeException.FailureType;
import com.netflix.hystrix.strategy.HystrixPlugins;
import com.netflix.hystrix.strategy.concurrency.HystrixConcurrencyStrategy;
import com.netflix.hystrix.strategy.executionhook.HystrixCommandExecutionHook;
import com.netflix.hystrix.strategy.properties.HystrixPropertiesCommandDefault;
import com.netflix.hystrix.strategy.properties.HystrixPropertiesStrategy;
import com.netflix.hystrix.strategy.properties.HystrixProperty;
import java.util.ArrayList;
import java.util.Arrays;
import java.util.Collections;
import java.util.List;
import java.util.concurrent.Callable;
import org.junit.After;
import org.junit.Before;
import org.junit.Test;

/** What may be registered: a hook, a strategy for properties, and one for what runs see of their callers. */
public class PluginsTest {
    @Before
    @After
    public void reset() {
        Hystrix.reset();
        HystrixPlugins.reset();
    }

    private static final class Noting extends HystrixCommandExecutionHook {
        final List<String> all = Collections.synchronizedList(new ArrayList<>());

        @Override
        public <T> void onStart(HystrixInvokable<T> command) {
            all.add("start");
        }

        @Override
        public <T> T onEmit(HystrixInvokable<T> command, T value) {
            all.add("emit");
            return value;
        }

        @Override
        public <T> Exception onError(HystrixInvokable<T> command, FailureType failureType, Exception e) {
            all.add("error " + failureType);
            return e;
        }

        @Override
        public <T> void onSuccess(HystrixInvokable<T> command) {
            all.add("success");
        }

        @Override
        public <T> void onThreadStart(HystrixInvokable<T> command) {
            all.add("thread");
        }

        @Override
        public <T> void onExecutionStart(HystrixInvokable<T> command) {
            all.add("run");
        }

        @Override
        public <T> Exception onExecutionError(HystrixInvokable<T> command, Exception e) {
            all.add("run failed");
            return e;
        }

        @Override
        public <T> void onExecutionSuccess(HystrixInvokable<T> command) {
            all.add("run succeeded");
        }

        @Override
        public <T> void onFallbackStart(HystrixInvokable<T> command) {
            all.add("fallback");
        }

        @Override
        public <T> void onFallbackSuccess(HystrixInvokable<T> command) {
            all.add("fallback succeeded");
        }

        @Override
        public <T> Exception onFallbackError(HystrixInvokable<T> command, Exception e) {
            all.add("fallback failed");
            return e;
        }
    }

    private static Of<String> failing() {
        return new Of<>("Hooked", Of.inline(), () -> {
            throw new IllegalStateException("down");
        });
    }

    @Test
    public void aHookIsToldOfEachStage() {
        Noting hook = new Noting();
        HystrixPlugins.getInstance().registerCommandExecutionHook(hook);
        new Of<>("HookedPool", Of.properties(), () -> "x").execute();
        assertEquals(Arrays.asList("start", "thread", "run", "run succeeded", "emit", "success"), hook.all);
        hook.all.clear();
        failing().orElse(() -> "spare").execute();
        assertEquals(Arrays.asList("start", "run", "run failed", "fallback", "fallback succeeded", "emit", "success"), hook.all);
        hook.all.clear();
        try {
            failing().orElse(() -> {
                throw new IllegalStateException("no spare");
            }).execute();
            fail("there is no value");
        } catch (HystrixRuntimeException e) {
            assertEquals(Arrays.asList("start", "run", "run failed", "fallback", "fallback failed", "error COMMAND_EXCEPTION"), hook.all);
        }
    }

    @Test
    public void aHookMayReplaceValues() {
        HystrixPlugins.getInstance().registerCommandExecutionHook(new HystrixCommandExecutionHook() {
            @Override
            @SuppressWarnings("unchecked")
            public <T> T onExecutionEmit(HystrixInvokable<T> command, T value) {
                return (T) (value + ", hooked");
            }
        });
        assertEquals("x, hooked", new Of<>("Replaced", Of.properties(), () -> "x").execute());
    }

    @Test
    public void oneStrategyOfAKindMayBeRegistered() {
        HystrixPlugins.getInstance().registerCommandExecutionHook(new Noting());
        try {
            HystrixPlugins.getInstance().registerCommandExecutionHook(new Noting());
            fail("one is registered");
        } catch (IllegalStateException e) {
            assertTrue(e.getMessage().contains("already registered"));
        }
    }

    @Test
    public void aStrategyGivesProperties() {
        HystrixPlugins.getInstance().registerPropertiesStrategy(new HystrixPropertiesStrategy() {
            @Override
            public HystrixCommandProperties getCommandProperties(HystrixCommandKey key, HystrixCommandProperties.Setter builder) {
                return new HystrixPropertiesCommandDefault(key, builder) {
                    @Override
                    public HystrixProperty<Boolean> circuitBreakerForceOpen() {
                        return HystrixProperty.Factory.asProperty(true);
                    }
                };
            }
        });
        Of<String> one = new Of<>("Strategic", Of.properties(), () -> "x").orElse(() -> "spare");
        assertEquals("spare", one.execute());
        assertTrue(one.isResponseShortCircuited());
    }

    private static final ThreadLocal<String> USER = new ThreadLocal<>();

    @Test
    public void aRunMaySeeWhatItsCallerHas() {
        HystrixPlugins.getInstance().registerConcurrencyStrategy(new HystrixConcurrencyStrategy() {
            @Override
            public <T> Callable<T> wrapCallable(Callable<T> callable) {
                String user = USER.get();
                return () -> {
                    USER.set(user);
                    try {
                        return callable.call();
                    } finally {
                        USER.remove();
                    }
                };
            }
        });
        USER.set("ann");
        assertEquals("ann", new Of<>("Wrapped", Of.properties(), USER::get).execute());
        USER.remove();
    }
}
