package shared;

import static org.junit.Assert.assertEquals;
import static org.junit.Assert.assertFalse;
import static org.junit.Assert.assertNull;
import static org.junit.Assert.assertSame;
import static org.junit.Assert.assertTrue;
import static org.junit.Assert.fail;

import com.netflix.hystrix.Hystrix;
import com.netflix.hystrix.HystrixCollapser;
import com.netflix.hystrix.HystrixCommand;
import com.netflix.hystrix.HystrixCommandGroupKey;
import com.netflix.hystrix.HystrixCommandKey;
import com.netflix.hystrix.HystrixEventType;
import com.netflix.hystrix.HystrixRequestCache;
import com.netflix.hystrix.HystrixRequestLog;
import com.netflix.hystrix.HystrixThreadPoolKey;
import com.netflix.hystrix.exception.HystrixRuntimeException;
import com.netflix.hystrix.strategy.concurrency.HystrixConcurrencyStrategyDefault;
import com.netflix.hystrix.strategy.concurrency.HystrixRequestContext;
import java.util.ArrayList;
import java.util.Arrays;
import java.util.Collection;
import java.util.Collections;
import java.util.List;
import java.util.concurrent.Future;
import org.junit.After;
import org.junit.Before;
import org.junit.Test;

/** The sections of the page How To Use from the request cache on, and its common patterns. */
public class PatternsTest {
    private HystrixRequestContext context;

    @Before
    public void begin() {
        context = HystrixRequestContext.initializeContext();
    }

    @After
    public void reset() {
        context.shutdown();
        HystrixRequestContext.setContextOnCurrentThread(null);
        Hystrix.reset();
    }

    private void beginAnotherRequest() {
        context.shutdown();
        context = HystrixRequestContext.initializeContext();
    }

    private static HystrixCommand.Setter setter(String group, String key) {
        return HystrixCommand.Setter.withGroupKey(HystrixCommandGroupKey.Factory.asKey(group))
                .andCommandKey(HystrixCommandKey.Factory.asKey(key))
                .andCommandPropertiesDefaults(Of.properties());
    }

    private static Of<Boolean> isEven(int value) {
        return new Of<>("IsEven", Of.properties(), () -> value % 2 == 0).cachedAs(String.valueOf(value));
    }

    @Test
    public void requestCache() {
        Of<Boolean> first = isEven(2);
        Of<Boolean> again = isEven(2);
        Of<Boolean> other = isEven(1);
        assertTrue(first.execute());
        assertFalse(first.isResponseFromCache());
        assertTrue(again.execute());
        assertTrue(again.isResponseFromCache());
        assertFalse(other.execute());
        assertFalse(other.isResponseFromCache());
        assertEquals(Arrays.asList(HystrixEventType.SUCCESS, HystrixEventType.RESPONSE_FROM_CACHE), again.getExecutionEvents());
        beginAnotherRequest();
        Of<Boolean> third = isEven(2);
        assertTrue(third.execute());
        assertFalse(third.isResponseFromCache());
    }

    @Test
    public void theRequestCacheWantsARequest() {
        context.shutdown();
        try {
            isEven(2).execute();
            fail("there is no request");
        } catch (IllegalStateException | HystrixRuntimeException e) {
            Throwable why = e instanceof HystrixRuntimeException ? e.getCause() : e;
            assertTrue(why.getMessage().contains("HystrixRequestContext"));
        }
    }

    @Test
    public void requestLog() {
        isEven(2).execute();
        isEven(2).execute();
        isEven(2).execute();
        String line = HystrixRequestLog.getCurrentRequest().getExecutedCommandsAsString();
        assertTrue(line, line.matches("IsEven\\[SUCCESS\\]\\[\\d+ms\\], IsEven\\[SUCCESS, RESPONSE_FROM_CACHE\\]\\[0ms\\]x2"));
        assertEquals(3, HystrixRequestLog.getCurrentRequest().getAllExecutedCommands().size());
    }

    private static class ValueForKey extends HystrixCollapser<List<String>, String, Integer> {
        private final Integer key;

        ValueForKey(Integer key) {
            this.key = key;
        }

        @Override
        public Integer getRequestArgument() {
            return key;
        }

        @Override
        protected HystrixCommand<List<String>> createCommand(Collection<CollapsedRequest<String, Integer>> requests) {
            return new HystrixCommand<List<String>>(setter("ExampleGroup", "GetValueForKey")) {
                @Override
                protected List<String> run() {
                    List<String> all = new ArrayList<>();
                    for (CollapsedRequest<String, Integer> request : requests) {
                        all.add("ValueForKey: " + request.getArgument());
                    }
                    return all;
                }
            };
        }

        @Override
        protected void mapResponseToRequests(List<String> response, Collection<CollapsedRequest<String, Integer>> requests) {
            int count = 0;
            for (CollapsedRequest<String, Integer> request : requests) {
                if (request.getArgument() < 0) {
                    request.setException(new IllegalArgumentException("below 0"));
                    count++;
                } else {
                    request.setResponse(response.get(count++));
                }
            }
        }
    }

    @Test
    public void requestCollapsing() throws Exception {
        List<Future<String>> all = new ArrayList<>();
        for (int key = 1; key <= 4; key++) {
            all.add(new ValueForKey(key).queue());
        }
        for (int key = 1; key <= 4; key++) {
            assertEquals("ValueForKey: " + key, all.get(key - 1).get());
        }
        assertTrue(HystrixRequestLog.getCurrentRequest().getAllExecutedCommands().size() <= 2);
        assertEquals("GetValueForKey", HystrixRequestLog.getCurrentRequest().getAllExecutedCommands()
                .iterator().next().getCommandKey().name());
        assertEquals("ValueForKey: 7", new ValueForKey(7).execute());
        assertEquals("ValueForKey: 8", new ValueForKey(8).observe().toBlocking().single());
        try {
            new ValueForKey(-1).execute();
            fail("its exception was set");
        } catch (RuntimeException e) {
            assertTrue(e instanceof IllegalArgumentException || e.getCause() instanceof IllegalArgumentException);
        }
    }

    @Test
    public void failFast() {
        try {
            new Of<String>("FailFast", Of.properties(), () -> {
                throw new IllegalStateException("down");
            }).execute();
            fail("it has no fallback");
        } catch (HystrixRuntimeException e) {
            assertEquals("down", e.getCause().getMessage());
        }
    }

    @Test
    public void failSilent() {
        assertNull(failing("FailSilently").orElse(() -> null).execute());
        List<String> none = new Of<List<String>>("FailSilentlyWithList", Of.properties(), () -> {
            throw new IllegalStateException("down");
        }).orElse(Collections::emptyList).execute();
        assertTrue(none.isEmpty());
    }

    private static Of<String> failing(String name) {
        return new Of<>(name, Of.properties(), () -> {
            throw new IllegalStateException("down");
        });
    }

    @Test
    public void staticAndStubbedFallbacks() {
        assertEquals("true", failing("Static").orElse(() -> "true").execute());
        String country = "ca";
        assertEquals("user of ca", failing("Stubbed").orElse(() -> "user of " + country).execute());
    }

    private static class ViaNetwork extends HystrixCommand<String> {
        ViaNetwork() {
            super(setter("RemoteServiceX", "GetValueCommand"));
        }

        @Override
        protected String run() {
            throw new IllegalStateException("force failure for example");
        }

        @Override
        protected String getFallback() {
            return new FromCache().execute();
        }

        private static class FromCache extends HystrixCommand<String> {
            FromCache() {
                super(setter("RemoteServiceX", "GetValueFallbackCommand")
                        .andThreadPoolKey(HystrixThreadPoolKey.Factory.asKey("RemoteServiceXFallback")));
            }

            @Override
            protected String run() {
                throw new IllegalStateException("the cache is down too");
            }

            @Override
            protected String getFallback() {
                return null;
            }
        }
    }

    @Test
    public void cacheViaNetworkAsFallback() {
        ViaNetwork one = new ViaNetwork();
        assertNull(one.execute());
        assertTrue(one.isResponseFromFallback());
        List<String> names = new ArrayList<>();
        HystrixRequestLog.getCurrentRequest().getAllExecutedCommands().forEach(each -> names.add(each.getCommandKey().name()));
        assertEquals(Arrays.asList("GetValueCommand", "GetValueFallbackCommand"), names);
    }

    private static class Facade extends HystrixCommand<String> {
        private final boolean usesPrimary;
        private final int id;

        Facade(boolean usesPrimary, int id) {
            super(setter("SystemX", "PrimarySecondaryCommand").andCommandPropertiesDefaults(Of.inline()));
            this.usesPrimary = usesPrimary;
            this.id = id;
        }

        @Override
        protected String run() {
            return new Part(usesPrimary ? "Primary" : "Secondary", id).execute();
        }

        @Override
        protected String getFallback() {
            return "static-fallback-" + id;
        }

        @Override
        protected String getCacheKey() {
            return String.valueOf(id);
        }

        private static class Part extends HystrixCommand<String> {
            private final String name;
            private final int id;

            Part(String name, int id) {
                super(setter("SystemX", name + "Command").andThreadPoolKey(HystrixThreadPoolKey.Factory.asKey(name + "Command")));
                this.name = name;
                this.id = id;
            }

            @Override
            protected String run() {
                return "responseFrom" + name + "-" + id;
            }
        }
    }

    @Test
    public void primaryAndSecondaryWithFallback() {
        assertEquals("responseFromPrimary-20", new Facade(true, 20).execute());
        assertEquals("responseFromPrimary-20", new Facade(false, 20).execute());
        beginAnotherRequest();
        assertEquals("responseFromSecondary-20", new Facade(false, 20).execute());
    }

    @Test
    public void clientWithoutNetworkAccess() {
        Of<Thread> one = new Of<>("Local", Of.inline(), Thread::currentThread);
        assertSame(Thread.currentThread(), one.execute());
        assertFalse(one.isExecutedInThread());
    }

    private static volatile String prefix;

    private static class Getter extends HystrixCommand<String> {
        private static final HystrixCommandKey KEY = HystrixCommandKey.Factory.asKey("GetterCommand");
        private final int id;

        Getter(int id) {
            super(setter("GetSetGet", KEY.name()));
            this.id = id;
        }

        @Override
        protected String run() {
            return prefix + id;
        }

        @Override
        protected String getCacheKey() {
            return String.valueOf(id);
        }

        static void flushCache(int id) {
            HystrixRequestCache.getInstance(KEY, HystrixConcurrencyStrategyDefault.getInstance()).clear(String.valueOf(id));
        }
    }

    private static class Putter extends HystrixCommand<Void> {
        private final int id;
        private final String to;

        Putter(int id, String to) {
            super(setter("GetSetGet", "SetterCommand"));
            this.id = id;
            this.to = to;
        }

        @Override
        protected Void run() {
            prefix = to;
            Getter.flushCache(id);
            return null;
        }
    }

    @Test
    public void getSetGetWithInvalidation() {
        prefix = "ValueBeforeSet_";
        assertEquals("ValueBeforeSet_1", new Getter(1).execute());
        Getter again = new Getter(1);
        assertEquals("ValueBeforeSet_1", again.execute());
        assertTrue(again.isResponseFromCache());
        new Putter(1, "ValueAfterSet_").execute();
        Getter after = new Getter(1);
        assertFalse(after.isResponseFromCache());
        assertEquals("ValueAfterSet_1", after.execute());
    }
}
