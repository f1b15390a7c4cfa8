package shared;

import static org.junit.Assert.assertEquals;
import static org.junit.Assert.assertFalse;
import static org.junit.Assert.assertTrue;

import com.netflix.hystrix.Hystrix;
import com.netflix.hystrix.HystrixCommandProperties;
import com.netflix.hystrix.HystrixCommandProperties.ExecutionIsolationStrategy;
import com.netflix.hystrix.HystrixEventType;
import com.netflix.hystrix.HystrixRequestLog;
import com.netflix.hystrix.HystrixThreadPoolProperties;
import com.netflix.hystrix.exception.HystrixRuntimeException;
import com.netflix.hystrix.strategy.concurrency.HystrixRequestContext;
import java.util.ArrayList;
import java.util.List;
import java.util.concurrent.CountDownLatch;
import java.util.concurrent.Future;
import java.util.concurrent.TimeUnit;
import java.util.concurrent.atomic.AtomicInteger;
import org.junit.After;
import org.junit.Test;

/** Each property, as a setter and as the command line say it, and what goes before what. */
public class PropertiesTest {
    private static final AtomicInteger NAMES = new AtomicInteger();

    private final List<String> said = new ArrayList<>();
    private final CountDownLatch go = new CountDownLatch(1);
    /** A key of this test alone, since properties of a key are read once. */
    private final String name = "Property" + NAMES.incrementAndGet();

    @After
    public void reset() {
        go.countDown();
        said.forEach(System::clearProperty);
        HystrixRequestContext.setContextOnCurrentThread(null);
        Hystrix.reset();
    }

    /** Says a property of the command as {@code -Dhystrix.command.KEY.PATH=VALUE} does. */
    private void say(String path, Object value) {
        sayFully("hystrix.command." + name + "." + path, value);
    }

    private void sayFully(String key, Object value) {
        System.setProperty(key, String.valueOf(value));
        said.add(key);
    }

    private Of<String> slow() {
        return new Of<String>(name, Of.properties(), () -> {
            go.await();
            return "slow";
        }).orElse(() -> "spare");
    }

    private Of<String> plain() {
        return new Of<>(name, Of.properties(), () -> "value").orElse(() -> "spare");
    }

    private Of<String> failing() {
        return new Of<String>(name, Of.properties(), () -> {
            throw new IllegalStateException("down");
        }).orElse(() -> "spare");
    }

    @Test
    public void strategy() {
        say("execution.isolation.strategy", "SEMAPHORE");
        Of<Thread> one = new Of<>(name, Of.properties(), Thread::currentThread);
        assertEquals(Thread.currentThread(), one.execute());
        assertEquals(ExecutionIsolationStrategy.SEMAPHORE, one.getProperties().executionIsolationStrategy().get());
    }

    @Test
    public void timeout() {
        say("execution.isolation.thread.timeoutInMilliseconds", 30);
        Of<String> one = slow();
        assertEquals("spare", one.execute());
        assertTrue(one.isResponseTimedOut());
        assertEquals(30, (int) one.getProperties().executionTimeoutInMilliseconds().get());
    }

    @Test
    public void timeoutEnabled() throws Exception {
        say("execution.isolation.thread.timeoutInMilliseconds", 1);
        say("execution.timeout.enabled", false);
        Future<String> one = slow().queue();
        Thread.sleep(50);
        assertFalse(one.isDone());
        go.countDown();
        assertEquals("slow", one.get());
    }

    @Test
    public void interruptOnTimeout() throws InterruptedException {
        say("execution.isolation.thread.timeoutInMilliseconds", 30);
        say("execution.isolation.thread.interruptOnTimeout", false);
        CountDownLatch end = new CountDownLatch(1);
        assertEquals("spare", new Of<>(name, Of.properties(), () -> {
            go.await();
            end.countDown();
            return "late";
        }).orElse(() -> "spare").execute());
        go.countDown();
        assertTrue("it was interrupted", end.await(10, TimeUnit.SECONDS));
    }

    @Test
    public void interruptOnFutureCancel() throws InterruptedException {
        say("execution.isolation.thread.interruptOnFutureCancel", true);
        CountDownLatch in = new CountDownLatch(1);
        CountDownLatch interrupted = new CountDownLatch(1);
        Future<String> one = new Of<>(name, Of.properties(), () -> {
            in.countDown();
            try {
                go.await();
            } catch (InterruptedException e) {
                interrupted.countDown();
            }
            return "x";
        }).queue();
        in.await();
        assertTrue(one.cancel(true));
        assertTrue(interrupted.await(10, TimeUnit.SECONDS));
    }

    @Test
    public void permits() {
        say("execution.isolation.strategy", "SEMAPHORE");
        say("execution.isolation.semaphore.maxConcurrentRequests", 0);
        Of<String> one = plain();
        assertEquals("spare", one.execute());
        assertTrue(one.isResponseSemaphoreRejected());
    }

    @Test
    public void fallbackPermits() {
        say("fallback.isolation.semaphore.maxConcurrentRequests", 0);
        Of<String> one = failing();
        try {
            one.execute();
        } catch (HystrixRuntimeException e) {
            assertEquals(HystrixRuntimeException.FailureType.REJECTED_SEMAPHORE_FALLBACK, e.getFailureType());
        }
        assertFalse(one.isResponseFromFallback());
    }

    @Test
    public void fallbackEnabled() {
        say("fallback.enabled", false);
        Of<String> one = failing();
        try {
            one.execute();
        } catch (HystrixRuntimeException e) {
            assertTrue(e.getMessage().endsWith("fallback disabled."));
        }
        assertFalse(one.isResponseFromFallback());
    }

    @Test
    public void circuitBreakerEnabled() {
        say("circuitBreaker.enabled", false);
        say("circuitBreaker.forceOpen", true);
        assertEquals("value", plain().execute());
        assertFalse(plain().isCircuitBreakerOpen());
    }

    @Test
    public void forceOpen() {
        say("circuitBreaker.forceOpen", true);
        Of<String> one = plain();
        assertEquals("spare", one.execute());
        assertTrue(one.isResponseShortCircuited());
        assertTrue(one.isCircuitBreakerOpen());
    }

    @Test
    public void forceClosed() throws InterruptedException {
        say("circuitBreaker.forceClosed", true);
        openQuickly();
        for (int i = 0; i < 5; i++) {
            failing().execute();
            Thread.sleep(2);
        }
        assertEquals("value", plain().execute());
    }

    /** Has the circuit go by what the last runs came to. */
    private void openQuickly() {
        say("circuitBreaker.requestVolumeThreshold", 2);
        say("metrics.healthSnapshot.intervalInMilliseconds", 1);
    }

    @Test
    public void volumeAndHealthInterval() throws InterruptedException {
        openQuickly();
        failing().execute();
        failing().execute();
        Thread.sleep(50);
        assertTrue(plain().isCircuitBreakerOpen());
        Of<String> one = plain();
        one.execute();
        assertTrue(one.isResponseShortCircuited());
    }

    @Test
    public void sleepWindow() throws InterruptedException {
        say("circuitBreaker.sleepWindowInMilliseconds", 30);
        volumeAndHealthInterval();
        Thread.sleep(60);
        assertEquals("value", plain().execute());
    }

    @Test
    public void errorThreshold() throws InterruptedException {
        say("circuitBreaker.errorThresholdPercentage", 90);
        openQuickly();
        for (int i = 0; i < 4; i++) {
            failing().execute();
            plain().execute();
            Thread.sleep(2);
        }
        assertFalse(plain().isCircuitBreakerOpen());
    }

    @Test
    public void rollingWindow() throws InterruptedException {
        say("metrics.rollingStats.timeInMilliseconds", 200);
        say("metrics.rollingStats.numBuckets", 2);
        plain().execute();
        Thread.sleep(450);
        assertEquals(0, plain().getMetrics().getRollingCount(HystrixEventType.SUCCESS));
    }

    @Test
    public void requestCacheEnabled() {
        say("requestCache.enabled", false);
        HystrixRequestContext context = HystrixRequestContext.initializeContext();
        AtomicInteger runs = new AtomicInteger();
        for (int i = 0; i < 2; i++) {
            new Of<>(name, Of.properties(), runs::incrementAndGet).cachedAs("k").execute();
        }
        context.shutdown();
        assertEquals(2, runs.get());
    }

    @Test
    public void requestLogEnabled() {
        say("requestLog.enabled", false);
        HystrixRequestContext context = HystrixRequestContext.initializeContext();
        plain().execute();
        assertTrue(HystrixRequestLog.getCurrentRequest().getAllExecutedCommands().isEmpty());
        context.shutdown();
    }

    /** How many calls that do not end a pool takes, of its threads and its queue together. */
    private int room(HystrixThreadPoolProperties.Setter pool) {
        int taken = 0;
        for (; ; taken++) {
            Of<String> one = new Of<>(name, Of.properties(), pool, () -> {
                go.await();
                return "x";
            });
            try {
                one.queue();
            } catch (HystrixRuntimeException e) {
                assertTrue(one.isResponseThreadPoolRejected());
                return taken;
            }
        }
    }

    @Test
    public void coreSizeAlone() {
        sayFully("hystrix.threadpool." + name + ".coreSize", 2);
        assertEquals(2, room(Of.pool().withCoreSize(7)));
    }

    @Test
    public void queue() {
        sayFully("hystrix.threadpool." + name + ".coreSize", 2);
        sayFully("hystrix.threadpool." + name + ".maxQueueSize", 3);
        sayFully("hystrix.threadpool." + name + ".queueSizeRejectionThreshold", 100);
        assertEquals(5, room(Of.pool()));
    }

    @Test
    public void queueThreshold() {
        sayFully("hystrix.threadpool." + name + ".coreSize", 1);
        sayFully("hystrix.threadpool." + name + ".maxQueueSize", 10);
        sayFully("hystrix.threadpool." + name + ".queueSizeRejectionThreshold", 2);
        assertEquals(3, room(Of.pool()));
    }

    @Test
    public void threadPoolKeyOverride() {
        say("threadPoolKeyOverride", name + "Other");
        assertTrue(new Of<>(name, Of.properties(), () -> Thread.currentThread().getName()).execute()
                .startsWith("hystrix-" + name + "Other-"));
    }

    @Test
    public void whatIsSaidOfTheKeyGoesBeforeASetterAndThatBeforeTheDefault() {
        sayFully("hystrix.command.default.execution.isolation.thread.timeoutInMilliseconds", 111);
        HystrixCommandProperties.Setter none = HystrixCommandProperties.Setter();
        assertEquals(111, timeoutOf(name, none));
        assertEquals(222, timeoutOf(name + "Set", HystrixCommandProperties.Setter().withExecutionTimeoutInMilliseconds(222)));
        sayFully("hystrix.command." + name + "Said.execution.isolation.thread.timeoutInMilliseconds", 333);
        assertEquals(333, timeoutOf(name + "Said", HystrixCommandProperties.Setter().withExecutionTimeoutInMilliseconds(222)));
    }

    private static int timeoutOf(String key, HystrixCommandProperties.Setter setter) {
        return new Of<>(key, setter, () -> "x").getProperties().executionTimeoutInMilliseconds().get();
    }
}
