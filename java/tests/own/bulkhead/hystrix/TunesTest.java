package bulkhead.hystrix;

import static org.junit.Assert.assertEquals;
import static org.junit.Assert.assertFalse;
import static org.junit.Assert.assertNotSame;
import static org.junit.Assert.assertSame;
import static org.junit.Assert.assertTrue;
import static org.junit.Assert.fail;

import bulkhead.hystrix.strategy.HystrixPlugins;
import java.util.Properties;
import java.util.concurrent.CountDownLatch;
import java.util.concurrent.Future;
import java.util.concurrent.atomic.AtomicInteger;
import org.junit.After;
import org.junit.Test;

/** Properties that change while commands run. */
public class TunesTest {
    private static final String OWN = "hystrix.command.Tuned.";

    private final Properties said = new Properties();
    private final CountDownLatch go = new CountDownLatch(1);

    @After
    public void reset() {
        go.countDown();
        WatchedProperties.watch(new Properties());
        HystrixPlugins.reset();
        Hystrix.reset();
    }

    private void say(String name, Object value) {
        said.setProperty(name, String.valueOf(value));
        WatchedProperties.watch(said);
        WatchedProperties.refresh();
    }

    private HystrixCommand<String> waits(HystrixCommand.Setter setter) {
        return Calls.of(setter, null, () -> {
            go.await();
            return "v";
        });
    }

    @Test(timeout = 60_000)
    public void aCircuitIsHeldOpenAndLetGo() {
        HystrixCommand.Setter setter = Calls.setter("Tuned", "Tuned", Calls.inline());
        assertEquals("v", Calls.of(setter, null, () -> "v").execute());
        say(OWN + "circuitBreaker.forceOpen", true);
        HystrixCommand<String> held = Calls.of(setter, null, () -> "v");
        assertEquals("spare", held.execute());
        assertTrue(held.isResponseShortCircuited());
        assertTrue(held.isCircuitBreakerOpen());
        assertTrue(held.getProperties().circuitBreakerForceOpen().get());
        say(OWN + "circuitBreaker.forceOpen", false);
        assertEquals("v", Calls.of(setter, null, () -> "v").execute());
    }

    @Test(timeout = 60_000)
    public void aSystemPropertyGoesBeforeWhatIsWatched() {
        HystrixCommand.Setter setter = Calls.setter("Tuned", "Tuned", Calls.inline());
        HystrixCommand<String> any = Calls.of(setter, null, () -> "v");
        say(OWN + "circuitBreaker.forceOpen", true);
        assertTrue(any.isCircuitBreakerOpen());
        System.setProperty(OWN + "circuitBreaker.forceOpen", "false");
        try {
            WatchedProperties.refresh();
            assertFalse(any.isCircuitBreakerOpen());
        } finally {
            System.clearProperty(OWN + "circuitBreaker.forceOpen");
        }
        WatchedProperties.refresh();
        assertTrue(any.isCircuitBreakerOpen());
    }

    @Test(timeout = 60_000)
    public void whatIsWatchedIsSeenWithoutAWord() throws InterruptedException {
        HystrixCommand<String> any = Calls.of(Calls.setter("Tuned", "Tuned", Calls.inline()), null, () -> "v");
        WatchedProperties.watch(said);
        said.setProperty(OWN + "circuitBreaker.forceOpen", "true");
        while (!any.isCircuitBreakerOpen()) {
            Thread.sleep(10);
        }
    }

    @Test(timeout = 60_000)
    public void aShorterTimeoutEndsTheWaitOfWhoIsThere() throws Exception {
        HystrixCommand.Setter setter =
                Calls.setter("Tuned", "Tuned", Calls.pooled().withExecutionTimeoutInMilliseconds(1_000_000));
        HystrixCommand<String> slow = waits(setter);
        Future<String> waits = slow.queue();
        say(OWN + "execution.isolation.thread.timeoutInMilliseconds", 1);
        assertEquals("spare", waits.get());
        assertTrue(slow.isResponseTimedOut());
        assertEquals(1024, Calls.freeAtRest("Tuned"));
    }

    @Test(timeout = 60_000)
    public void aTimeoutThatIsTurnedOffEndsNobody() throws Exception {
        HystrixCommand.Setter setter = Calls.setter("Tuned", "Tuned", Calls.pooled().withExecutionTimeoutInMilliseconds(2000));
        HystrixCommand<String> slow = waits(setter);
        Future<String> waits = slow.queue();
        say(OWN + "execution.timeout.enabled", false);
        Thread.sleep(2200);
        assertFalse(slow.isExecutionComplete());
        go.countDown();
        assertEquals("v", waits.get());
    }

    @Test(timeout = 60_000)
    public void aLargerPoolBeginsWhatWaited() throws Exception {
        HystrixCommand.Setter setter = Calls.setter("Tuned", "Tuned", Calls.pooled().withExecutionTimeoutEnabled(false))
                .andThreadPoolPropertiesDefaults(HystrixThreadPoolProperties.Setter().withCoreSize(1).withMaxQueueSize(5));
        CountDownLatch three = new CountDownLatch(3);
        Future<?>[] all = new Future<?>[3];
        for (int at = 0; at < 3; at++) {
            all[at] = Calls.of(setter, null, () -> {
                three.countDown();
                go.await();
                return "v";
            }).queue();
        }
        say("hystrix.threadpool.Tuned.coreSize", 3);
        three.await(); // all three run at a time
        say("hystrix.threadpool.Tuned.coreSize", 1);
        go.countDown();
        for (Future<?> one : all) {
            assertEquals("v", one.get());
        }
        assertEquals("v", Calls.of(setter, null, () -> "v").execute());
        assertEquals(1024, Calls.freeAtRest("Tuned"));
    }

    @Test(timeout = 60_000)
    public void whatIsOutOfRangeChangesNothingAndIsNamed() {
        HystrixCommand<String> any = Calls.of(Calls.setter("Tuned", "Tuned", Calls.pooled()), null, () -> "v");
        CommandValues before = any.command.values;
        assertRefused("hystrix.threadpool.Tuned.coreSize", "65", "coreSize");
        assertRefused("hystrix.threadpool.Tuned.coreSize", "0", "coreSize");
        assertRefused(OWN + "circuitBreaker.requestVolumeThreshold", "-1", "requestVolumeThreshold");
        assertRefused(OWN + "circuitBreaker.requestVolumeThreshold", "many", "requestVolumeThreshold");
        assertSame(before, any.command.values);
        assertEquals("v", any.execute());
    }

    private void assertRefused(String name, String value, String told) {
        try {
            say(name, value);
            fail(name + " takes no " + value);
        } catch (IllegalArgumentException e) {
            assertTrue(e.getMessage(), e.getMessage().contains(told) && e.getMessage().contains(value));
        } finally {
            said.remove(name);
        }
    }

    @Test(timeout = 60_000)
    public void whatIsAmissOfOneKeyHindersNoOther() {
        HystrixCommand<String> bad = Calls.of(Calls.setter("Bad", "Bad", Calls.inline()), null, () -> "v");
        HystrixCommand<String> good = Calls.of(Calls.setter("Tuned", "Tuned", Calls.inline()), null, () -> "v");
        said.setProperty("hystrix.command.Bad.circuitBreaker.requestVolumeThreshold", "-5");
        try {
            say(OWN + "circuitBreaker.forceOpen", true);
            fail("a volume is not below 0");
        } catch (IllegalArgumentException e) {
            assertTrue(e.getMessage(), e.getMessage().startsWith("Bad: "));
        }
        assertTrue(good.isCircuitBreakerOpen());
        assertFalse(bad.isCircuitBreakerOpen());
    }

    @Test(timeout = 60_000)
    public void whatCannotChangeStaysUntilTheReset() {
        HystrixCommand.Setter setter = Calls.setter("Tuned", "Tuned", Calls.pooled());
        PoolCommand first = Calls.of(setter, null, () -> "v").command;
        say(OWN + "execution.isolation.strategy", "SEMAPHORE");
        say(OWN + "metrics.rollingStats.numBuckets", 5);
        assertTrue(first.values.isPooled);
        assertEquals("v", Calls.of(setter, null, () -> "v").execute());
        Hystrix.reset();
        assertFalse(Calls.of(setter, null, () -> "v").command.values.isPooled);
    }

    @Test(timeout = 60_000)
    public void eachCommandOfAPoolHasItsOwnProperties() {
        AtomicInteger limit = new AtomicInteger(100);
        PoolCommand first = Calls.of(Calls.setter("Many", "many0", pooledBy(limit)), null, () -> "v").command;
        for (int at = 1; at <= 15; at++) {
            PoolCommand next = Calls.of(Calls.setter("Many", "many" + at, pooledBy(limit)), null, () -> "v").command;
            assertSame(first.pool, next.pool);
            assertEquals(100 + at, next.values.volume);
        }
        PoolCommand beyond = Calls.of(Calls.setter("Many", "many16", pooledBy(limit)), null, () -> "v").command;
        assertNotSame(first.pool, beyond.pool);
        HystrixCommand.Setter held = Calls.setter("Many", "many3", Calls.pooled());
        say("hystrix.command.many3.circuitBreaker.forceOpen", true);
        assertEquals("spare", Calls.of(held, null, () -> "v").execute());
        assertEquals("v", Calls.of(Calls.setter("Many", "many4", Calls.pooled()), null, () -> "v").execute());
    }

    private static HystrixCommandProperties.Setter pooledBy(AtomicInteger limit) {
        return Calls.pooled().withCircuitBreakerRequestVolumeThreshold(limit.getAndIncrement());
    }

    @Test
    public void anotherWindowOfCountsIsAnotherPool() {
        PoolCommand first = Calls.of(Calls.setter("Window", "one", Calls.pooled()), null, () -> "v").command;
        PoolCommand other = Calls.of(
                Calls.setter("Window", "two", Calls.pooled().withMetricsRollingStatisticalWindowBuckets(5)), null, () -> "v").command;
        assertNotSame(first.pool, other.pool);
    }
}
