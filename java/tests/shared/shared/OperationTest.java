package shared;

import static org.junit.Assert.assertEquals;
import static org.junit.Assert.assertFalse;
import static org.junit.Assert.assertTrue;
import static org.junit.Assert.fail;

import com.netflix.hystrix.Hystrix;
import com.netflix.hystrix.HystrixCircuitBreaker;
import com.netflix.hystrix.HystrixCommandKey;
import com.netflix.hystrix.HystrixCommandMetrics;
import com.netflix.hystrix.HystrixCommandProperties;
import com.netflix.hystrix.HystrixEventType;
import com.netflix.hystrix.HystrixThreadPoolProperties;
import com.netflix.hystrix.exception.HystrixRuntimeException;
import com.netflix.hystrix.exception.HystrixRuntimeException.FailureType;
import com.netflix.hystrix.strategy.concurrency.HystrixRequestContext;
import java.util.ArrayList;
import java.util.Arrays;
import java.util.List;
import java.util.concurrent.CountDownLatch;
import java.util.concurrent.Future;
import java.util.concurrent.TimeUnit;
import java.util.concurrent.atomic.AtomicBoolean;
import java.util.concurrent.atomic.AtomicInteger;
import java.util.concurrent.atomic.AtomicReference;
import org.junit.After;
import org.junit.Test;

/** What commands do under trouble: timeouts, interrupts, rejections, circuits, cancels. */
public class OperationTest {
    private final CountDownLatch go = new CountDownLatch(1);

    @After
    public void reset() {
        go.countDown();
        HystrixRequestContext.setContextOnCurrentThread(null);
        Hystrix.reset();
    }

    @Test(timeout = 60_000)
    public void aTimeoutInterruptsItsRunAndNoOther() throws InterruptedException {
        HystrixCommandProperties.Setter properties = Of.properties().withExecutionTimeoutInMilliseconds(100)
                .withCircuitBreakerEnabled(false);
        HystrixThreadPoolProperties.Setter pool = Of.pool().withCoreSize(1);
        CountDownLatch interrupted = new CountDownLatch(1);
        Of<String> slow = new Of<>("Slow", properties, pool, () -> {
            try {
                go.await();
            } catch (InterruptedException e) {
                interrupted.countDown();
            }
            return "never";
        }).orElse(() -> "late");
        long began = System.nanoTime();
        assertEquals("late", slow.execute());
        assertTrue(TimeUnit.NANOSECONDS.toMillis(System.nanoTime() - began) >= 99);
        assertEquals(Arrays.asList(HystrixEventType.TIMEOUT, HystrixEventType.FALLBACK_SUCCESS), slow.getExecutionEvents());
        assertTrue(interrupted.await(10, TimeUnit.SECONDS));
        for (int ran = 0; ran < 20; ) {
            Of<Boolean> next = new Of<>("Slow", properties, pool, () -> {
                boolean was = Thread.currentThread().isInterrupted();
                Thread.currentThread().interrupt(); // what a run leaves behind
                return was;
            });
            try {
                assertFalse(next.execute());
                ran++;
            } catch (HystrixRuntimeException e) { // the worker is not back yet
                assertTrue(e.getFailureType() == FailureType.REJECTED_THREAD_EXECUTION || e.getFailureType() == FailureType.TIMEOUT);
                Thread.sleep(1);
            }
        }
    }

    @Test(timeout = 60_000)
    public void aTimeoutUnderPermitsIsToldAtTheEndOfTheRun() {
        Of<String> slow = new Of<String>("SlowInline", Of.inline().withExecutionTimeoutInMilliseconds(50), () -> {
            Thread.sleep(200);
            return "never";
        }).orElse(() -> "late");
        assertEquals("late", slow.execute());
        assertTrue(slow.isResponseTimedOut());
    }

    @Test(timeout = 60_000)
    public void aPoolQueuesAndRejects() throws Exception {
        HystrixThreadPoolProperties.Setter pool = Of.pool().withCoreSize(2).withMaxQueueSize(3).withQueueSizeRejectionThreshold(3);
        List<Future<String>> all = new ArrayList<>();
        for (int i = 0; i < 5; i++) {
            all.add(new Of<>("Pool", Of.properties(), pool, () -> {
                go.await();
                return "done";
            }).queue());
        }
        Of<String> more = new Of<>("Pool", Of.properties(), pool, () -> "no");
        try {
            more.queue();
            fail("threads and queue are full");
        } catch (HystrixRuntimeException e) {
            assertEquals(FailureType.REJECTED_THREAD_EXECUTION, e.getFailureType());
        }
        assertTrue(more.isResponseThreadPoolRejected());
        assertTrue(more.isResponseRejected());
        go.countDown();
        for (Future<String> one : all) {
            assertEquals("done", one.get());
        }
    }

    @Test(timeout = 60_000)
    public void theCircuitOpensAndCloses() throws InterruptedException {
        AtomicBoolean isWell = new AtomicBoolean();
        HystrixCommandProperties.Setter properties = Of.properties().withCircuitBreakerRequestVolumeThreshold(4)
                .withCircuitBreakerSleepWindowInMilliseconds(1000).withMetricsHealthSnapshotIntervalInMilliseconds(1);
        HystrixCommandKey key = HystrixCommandKey.Factory.asKey("Circuit");
        for (int i = 0; i < 4; i++) {
            assertEquals("spare", circuit(properties, isWell).execute());
        }
        Thread.sleep(50);
        Of<String> one = circuit(properties, isWell);
        assertTrue(one.isCircuitBreakerOpen());
        assertTrue(HystrixCircuitBreaker.Factory.getInstance(key).isOpen());
        assertEquals("spare", one.execute());
        assertEquals(Arrays.asList(HystrixEventType.SHORT_CIRCUITED, HystrixEventType.FALLBACK_SUCCESS), one.getExecutionEvents());
        isWell.set(true);
        Thread.sleep(1100);
        assertEquals("up", circuit(properties, isWell).execute());
        assertFalse(circuit(properties, isWell).isCircuitBreakerOpen());
        assertTrue(HystrixCircuitBreaker.Factory.getInstance(key).allowRequest());
        assertEquals(0, HystrixCommandMetrics.getInstance(key).getHealthCounts().getErrorPercentage());
    }

    private static Of<String> circuit(HystrixCommandProperties.Setter properties, AtomicBoolean isWell) {
        return new Of<String>("Circuit", properties, () -> {
            if (!isWell.get()) {
                throw new IllegalStateException("down");
            }
            return "up";
        }).orElse(() -> "spare");
    }

    @Test(timeout = 60_000)
    public void whatIsCancelledInTheQueueDoesNotRun() throws Exception {
        AtomicInteger ran = new AtomicInteger();
        HystrixThreadPoolProperties.Setter pool = Of.pool().withCoreSize(1).withMaxQueueSize(5);
        Future<String> first = new Of<>("Cancel", Of.properties(), pool, () -> {
            go.await();
            return "done";
        }).queue();
        Future<String> second = new Of<>("Cancel", Of.properties(), pool, () -> "ran " + ran.incrementAndGet()).queue();
        assertTrue(second.cancel(true));
        assertTrue(second.isCancelled());
        assertFalse(second.cancel(true));
        go.countDown();
        assertEquals("done", first.get());
        assertEquals("ran 1", new Of<>("Cancel", Of.properties(), pool, () -> "ran " + ran.incrementAndGet()).queue().get());
        assertEquals(1, ran.get());
    }

    @Test(timeout = 60_000)
    public void aCallerThatIsInterruptedWaitsNoMore() throws InterruptedException {
        CountDownLatch in = new CountDownLatch(1);
        AtomicReference<Throwable> seen = new AtomicReference<>();
        Thread caller = new Thread(() -> {
            try {
                new Of<>("Left", Of.properties(), () -> {
                    in.countDown();
                    go.await();
                    return "x";
                }).execute();
            } catch (HystrixRuntimeException e) {
                seen.set(e.getCause());
            }
        });
        caller.start();
        in.await();
        caller.interrupt();
        caller.join();
        assertTrue(seen.get() instanceof InterruptedException);
        go.countDown();
        assertEquals("y", new Of<>("Left", Of.properties(), () -> "y").execute());
    }

    @Test(timeout = 60_000)
    public void aSharedFallbackRunsOnce() throws Exception {
        AtomicInteger fallbacks = new AtomicInteger();
        AtomicInteger runs = new AtomicInteger();
        HystrixRequestContext context = HystrixRequestContext.initializeContext();
        List<Future<String>> all = new ArrayList<>();
        for (int i = 0; i < 5; i++) {
            all.add(shared(runs, fallbacks).queue());
        }
        go.countDown();
        for (Future<String> one : all) {
            assertEquals("spare 1", one.get());
        }
        assertEquals("spare 1", shared(runs, fallbacks).execute());
        assertEquals(1, runs.get());
        assertEquals(1, fallbacks.get());
        context.shutdown();
    }

    private Of<String> shared(AtomicInteger runs, AtomicInteger fallbacks) {
        return new Of<String>("Shared", Of.properties(), () -> {
            runs.incrementAndGet();
            go.await();
            throw new IllegalStateException("no");
        }).orElse(() -> "spare " + fallbacks.incrementAndGet()).cachedAs("k");
    }

    @Test(timeout = 60_000)
    public void aNestedCommandInItsOwnFullPoolWaitsForItsTimeout() {
        HystrixCommandProperties.Setter properties = Of.properties().withExecutionTimeoutInMilliseconds(300);
        HystrixThreadPoolProperties.Setter pool = Of.pool().withCoreSize(1).withMaxQueueSize(1);
        Of<String> outer = new Of<>("Nested", properties, pool,
                () -> new Of<>("Nested", properties, pool, () -> "inner").execute()).orElse(() -> "outer");
        assertEquals("outer", outer.execute());
    }

    @Test(timeout = 60_000)
    public void anErrorOfTheVirtualMachineHasNoFallback() {
        try {
            new Of<String>("Error", Of.properties(), () -> {
                throw new StackOverflowError();
            }).orElse(() -> "spare").execute();
            fail("there is no fallback for it");
        } catch (HystrixRuntimeException e) {
            assertEquals(FailureType.COMMAND_EXCEPTION, e.getFailureType());
            assertTrue(e.getCause().getCause() instanceof StackOverflowError);
            assertTrue(e.getMessage(), e.getMessage().endsWith("encountered unrecoverable error."));
        }
        assertEquals("spare", new Of<String>("Assertion", Of.properties(), () -> {
            throw new AssertionError();
        }).orElse(() -> "spare").execute());
    }
}
