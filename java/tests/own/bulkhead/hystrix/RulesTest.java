package bulkhead.hystrix;

import static org.junit.Assert.assertEquals;
import static org.junit.Assert.assertFalse;
import static org.junit.Assert.assertNotSame;
import static org.junit.Assert.assertTrue;
import static org.junit.Assert.fail;

import bulkhead.hystrix.exception.HystrixRuntimeException;
import bulkhead.hystrix.strategy.concurrency.HystrixConcurrencyStrategyDefault;
import bulkhead.hystrix.strategy.concurrency.HystrixRequestContext;
import bulkhead.hystrix.strategy.concurrency.HystrixRequestVariableDefault;
import java.net.URL;
import java.net.URLClassLoader;
import java.util.concurrent.CountDownLatch;
import java.util.concurrent.ExecutionException;
import java.util.concurrent.Future;
import java.util.concurrent.TimeUnit;
import java.util.concurrent.atomic.AtomicInteger;
import org.junit.After;
import org.junit.Test;

/** What Java has to see to beside the core. */
public class RulesTest {
    private final CountDownLatch go = new CountDownLatch(1);

    @After
    public void reset() {
        go.countDown();
        System.clearProperty("bulkhead.slots");
        System.clearProperty("bulkhead.auditSteps");
        HystrixRequestContext.setContextOnCurrentThread(null);
        Hystrix.reset();
    }

    @Test
    public void whoFindsNoSlotGetsTheFallbackAndIsCountedBeside() {
        System.setProperty("bulkhead.slots", "2");
        HystrixRequestContext context = HystrixRequestContext.initializeContext();
        HystrixCommand.Setter setter = Calls.setter("Full", "Full", Calls.pooled());
        for (int at = 0; at < 2; at++) {
            assertEquals("v", Calls.of(setter, "key " + at, () -> "v").execute());
        }
        HystrixCommand<String> more = Calls.of(setter, "more", () -> "v");
        assertEquals("spare", more.execute());
        assertTrue(more.isResponseThreadPoolRejected());
        assertEquals(1, more.getMetrics().getSlotRejectedCount());
        assertEquals(0, more.getMetrics().getRollingCount(HystrixEventType.THREAD_POOL_REJECTED));
        HystrixCommand<String> joins = Calls.of(setter, "key 1", () -> "w");
        assertEquals("v", joins.execute());
        assertTrue(joins.isResponseFromCache());
        context.shutdown();
        HystrixRequestContext.initializeContext();
        assertEquals("v", Calls.of(setter, "more", () -> "v").execute());
    }

    @Test
    public void whatIsClearedKeepsItsSlotUntilTheRequestEnds() throws InterruptedException {
        HystrixRequestContext context = HystrixRequestContext.initializeContext();
        HystrixCommand.Setter setter = Calls.setter("Clear", "Clear", Calls.pooled());
        HystrixCommandKey key = HystrixCommandKey.Factory.asKey("Clear");
        AtomicInteger runs = new AtomicInteger();
        for (int at = 1; at <= 3; at++) {
            assertEquals("run " + at, Calls.of(setter, "k", () -> "run " + runs.incrementAndGet()).execute());
            HystrixRequestCache.getInstance(key, HystrixConcurrencyStrategyDefault.getInstance()).clear("k");
        }
        assertEquals(1024 - 3, Calls.freeAtRest("Clear"));
        context.shutdown();
        assertEquals(1024, Calls.freeAtRest("Clear"));
    }

    @Test(timeout = 60_000)
    public void aLateRunChangesNoAnswer() throws InterruptedException {
        HystrixRequestContext.initializeContext();
        HystrixCommand.Setter setter = Calls.setter("Late", "Late", Calls.pooled().withExecutionTimeoutInMilliseconds(500)
                .withExecutionIsolationThreadInterruptOnTimeout(false));
        CountDownLatch end = new CountDownLatch(1);
        HystrixCommand<String> slow = Calls.of(setter, "k", () -> {
            go.await();
            end.countDown();
            return "late";
        });
        assertEquals("spare", slow.execute());
        go.countDown();
        assertTrue(end.await(10, TimeUnit.SECONDS));
        Calls.freeAtRest("Late");
        assertEquals("spare", Calls.of(setter, "k", () -> "new").execute());
        assertTrue(slow.isResponseFromFallback());
    }

    @Test(timeout = 60_000)
    public void whatTimedOutBeforeItBeganDoesNotRun() throws Exception {
        HystrixCommand.Setter setter = Calls.setter("Began", "Began", Calls.pooled().withExecutionTimeoutInMilliseconds(100)
                        .withExecutionIsolationThreadInterruptOnTimeout(false).withCircuitBreakerEnabled(false))
                .andThreadPoolPropertiesDefaults(HystrixThreadPoolProperties.Setter().withCoreSize(1).withMaxQueueSize(3));
        AtomicInteger runs = new AtomicInteger();
        Future<String> first = Calls.of(setter, null, () -> {
            go.await();
            return "late";
        }).queue();
        Future<String> second = Calls.of(setter, null, () -> "ran " + runs.incrementAndGet()).queue();
        assertEquals("spare", first.get());
        assertEquals("spare", second.get());
        go.countDown();
        assertEquals(1024, Calls.freeAtRest("Began"));
        assertEquals(0, runs.get());
    }

    @Test(timeout = 60_000)
    public void resetTellsWhoeverWaits() throws InterruptedException {
        CountDownLatch in = new CountDownLatch(1);
        HystrixCommand.Setter setter = Calls.setter("Reset", "Reset", Calls.pooled());
        Future<String> one = Calls.of(setter, null, () -> {
            in.countDown();
            go.await();
            return "late";
        }).queue();
        in.await();
        Hystrix.reset();
        try {
            one.get();
            fail("its pool is closed");
        } catch (ExecutionException e) {
            assertTrue(e.getCause() instanceof HystrixRuntimeException);
        }
        go.countDown();
        assertEquals("v", Calls.of(setter, null, () -> "v").execute());
    }

    @Test(timeout = 60_000)
    public void aPoolThatHasMadeAllItsStepsIsOpenedAnew() {
        System.setProperty("bulkhead.auditSteps", "50");
        HystrixCommand.Setter setter = Calls.setter("Worn", "Worn", Calls.pooled());
        int values = 0;
        int stopped = 0;
        while (values < 40) {
            try {
                assertEquals("v", Calls.of(setter, null, () -> "v").execute());
                values++;
            } catch (HystrixRuntimeException e) {
                assertEquals("the service of the command was closed", e.getCause().getMessage());
                stopped++;
            }
        }
        assertTrue(stopped + " were stopped", stopped > 0 && stopped < 10);
    }

    @Test
    public void namesThatASettingsFileDoesNotTake() {
        String longName = "StockClient#itemsOfWarehouseByDate(Long,LocalDate)";
        assertEquals("v", Calls.of(Calls.setter("com.shop.Stock", longName, Calls.pooled()), null, () -> "v").execute());
        assertEquals("v", Calls.of(Calls.setter("default", "default", Calls.inline()), null, () -> "v").execute());
        assertEquals("v", Calls.of(Calls.setter("spare-01", "spare-01", Calls.inline()), null, () -> "v").execute());
        assertTrue(Names.spelled(longName).matches("[A-Za-z0-9_-]{1,32}"));
        assertFalse(Names.spelled("a.b").equals(Names.spelled("a_b")));
        assertEquals("GetUser", Names.spelled("GetUser"));
    }

    @Test
    public void aPropertyThatIsOutOfItsRangeIsRefusedByName() {
        try {
            Calls.of(Calls.setter("Range", "Range", Calls.pooled().withMetricsRollingStatisticalWindowBuckets(0)), null, () -> "v");
            fail("there are no 0 buckets");
        } catch (IllegalArgumentException e) {
            assertTrue(e.getMessage(), e.getMessage().contains("metrics.rollingStats.numBuckets"));
        }
    }

    @Test(timeout = 120_000)
    public void requestsThatNobodyEndsAreEndedWhenTheyAreCollected() throws InterruptedException {
        HystrixCommand.Setter setter = Calls.setter("Leak", "Leak", Calls.pooled());
        int requests = Integer.getInteger("tests.contexts", 1500);
        for (int at = 0; at < requests; at++) {
            HystrixRequestContext.initializeContext(); // the one before is dropped
            Calls.of(setter, "k", () -> "v").execute();
            if (at % 500 == 499) {
                awaitCollected(1023);
            }
        }
        HystrixRequestContext.setContextOnCurrentThread(null);
        awaitCollected(1024);
        assertEquals(1024, Calls.freeAtRest("Leak"));
    }

    private static void awaitCollected(long free) throws InterruptedException {
        for (int tries = 0; tries < 200 && Calls.freeAtRest("Leak") < free; tries++) {
            System.gc();
            Thread.sleep(20);
        }
    }

    @Test
    public void variablesOfARequestEndWithIt() {
        AtomicInteger ended = new AtomicInteger();
        HystrixRequestVariableDefault<String> variable = new HystrixRequestVariableDefault<>() {
            @Override
            public String initialValue() {
                return "new";
            }

            @Override
            public void shutdown(String value) {
                ended.incrementAndGet();
            }
        };
        HystrixRequestContext context = HystrixRequestContext.initializeContext();
        assertEquals("new", variable.get());
        variable.set("other");
        assertEquals("other", variable.get());
        context.shutdown();
        context.shutdown();
        assertEquals(1, ended.get());
        try {
            variable.get();
            fail("there is no request");
        } catch (IllegalStateException e) {
            assertTrue(e.getMessage().contains("initializeContext"));
        }
    }

    @Test(timeout = 60_000)
    public void eachClassLoaderHasALibraryOfItsOwn() throws Exception {
        URL[] path = {
            HystrixCommand.class.getProtectionDomain().getCodeSource().getLocation(),
            RulesTest.class.getProtectionDomain().getCodeSource().getLocation()
        };
        try (URLClassLoader other = new URLClassLoader(path, ClassLoader.getPlatformClassLoader())) {
            Class<?> there = other.loadClass(InAnotherLoader.class.getName());
            assertNotSame(InAnotherLoader.class, there);
            assertEquals("v", there.getMethod("call").invoke(null));
        }
        assertEquals("v", InAnotherLoader.call());
    }

    /** A call in the class loader of this class. */
    public static final class InAnotherLoader {
        private InAnotherLoader() {}

        /** Makes a call, and closes its pool. */
        public static String call() {
            String value = Calls.of(Calls.setter("Loader", "Loader", Calls.pooled()), null, () -> "v").execute();
            Hystrix.reset();
            return value;
        }
    }

    @Test(timeout = 60_000)
    public void aStackThatOverflowsLosesNoSlot() throws InterruptedException {
        HystrixCommand.Setter setter = Calls.setter("Deep", "Deep", Calls.inline());
        AtomicInteger overflows = new AtomicInteger();
        for (int at = 0; at < 20; at++) {
            Thread deep = new Thread(null, () -> {
                try {
                    descend(setter, 0);
                } catch (StackOverflowError e) {
                    overflows.incrementAndGet();
                }
            }, "deep", 512 * 1024 + at * 64);
            deep.start();
            deep.join();
        }
        assertEquals(20, overflows.get());
        assertEquals(1024, Calls.freeAtRest("Deep"));
        assertEquals("v", Calls.of(setter, null, () -> "v").execute());
    }

    private static int descend(HystrixCommand.Setter setter, int depth) {
        if (depth % 20 == 0) {
            Calls.of(setter, null, () -> "v").execute();
        }
        return 1 + descend(setter, depth + 1);
    }
}
