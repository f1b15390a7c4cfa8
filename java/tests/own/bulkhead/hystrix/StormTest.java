package bulkhead.hystrix;

import static org.junit.Assert.assertEquals;
import static org.junit.Assert.assertFalse;
import static org.junit.Assert.assertTrue;

import bulkhead.hystrix.exception.HystrixBadRequestException;
import bulkhead.hystrix.exception.HystrixRuntimeException;
import bulkhead.hystrix.strategy.concurrency.HystrixRequestContext;
import java.util.ArrayList;
import java.util.List;
import java.util.Random;
import java.util.concurrent.CancellationException;
import java.util.concurrent.ExecutionException;
import java.util.concurrent.ExecutorService;
import java.util.concurrent.Executors;
import java.util.concurrent.Future;
import java.util.concurrent.TimeUnit;
import java.util.concurrent.atomic.AtomicLong;
import org.junit.After;
import org.junit.Test;

/** Calls of every kind from 64 threads, for {@code tests.storm} seconds; behind them nothing is held, and nobody waits. */
public class StormTest {
    private static final int THREADS = 64;
    private static final String[] KEYS = {"StormPool", "StormOther", "StormInline"};

    private final HystrixCommandProperties.Setter pooled = Calls.pooled().withExecutionTimeoutInMilliseconds(3)
            .withCircuitBreakerSleepWindowInMilliseconds(5).withMetricsHealthSnapshotIntervalInMilliseconds(1)
            .withExecutionIsolationThreadInterruptOnFutureCancel(true);
    private final HystrixCommandProperties.Setter inline = Calls.inline().withExecutionTimeoutInMilliseconds(2)
            .withExecutionIsolationSemaphoreMaxConcurrentRequests(20).withCircuitBreakerSleepWindowInMilliseconds(5);
    private final HystrixThreadPoolProperties.Setter pool =
            HystrixThreadPoolProperties.Setter().withCoreSize(4).withMaxQueueSize(4).withQueueSizeRejectionThreshold(4);
    private final AtomicLong ended = new AtomicLong();
    private final AtomicLong leftInterrupts = new AtomicLong();

    @After
    public void reset() {
        Hystrix.reset();
    }

    @Test(timeout = 600_000)
    public void nothingIsHeldBehindAStorm() throws Exception {
        long until = System.nanoTime() + TimeUnit.SECONDS.toNanos(Integer.getInteger("tests.storm", 2));
        ExecutorService threads = Executors.newFixedThreadPool(THREADS);
        List<Future<?>> all = new ArrayList<>();
        for (int thread = 0; thread < THREADS; thread++) {
            Random random = new Random(thread);
            all.add(threads.submit(() -> {
                while (System.nanoTime() < until) {
                    request(random);
                }
                return null;
            }));
        }
        for (Future<?> one : all) {
            one.get();
        }
        threads.shutdown();
        assertTrue(ended.get() > THREADS);
        assertEquals(0, leftInterrupts.get());
        for (String key : KEYS) {
            assertEquals(key, 1024, Calls.freeAtRest(key));
        }
        assertNoWorkerIsInterrupted();
    }

    /** Makes some calls of one request, or one of none. */
    private void request(Random random) {
        boolean isShared = random.nextInt(3) == 0;
        HystrixRequestContext context = isShared ? HystrixRequestContext.initializeContext() : null;
        for (int call = 0; call < (isShared ? 3 : 1); call++) {
            call(random, isShared ? "k" + random.nextInt(2) : null);
            ended.incrementAndGet();
        }
        if (context != null) {
            context.shutdown();
            HystrixRequestContext.setContextOnCurrentThread(null);
        }
        if (Thread.interrupted()) {
            leftInterrupts.incrementAndGet();
        }
    }

    private void call(Random random, String cacheKey) {
        String key = KEYS[random.nextInt(KEYS.length)];
        HystrixCommandProperties.Setter properties = key.equals("StormInline") ? inline : pooled;
        HystrixCommand.Setter setter = Calls.setter("Storm", key, properties).andThreadPoolPropertiesDefaults(pool);
        int dice = random.nextInt(10);
        HystrixCommand<String> one = new HystrixCommand<String>(setter) {
            @Override
            protected String run() throws Exception {
                return ended(dice);
            }

            @Override
            protected String getFallback() {
                if (dice == 3) {
                    throw new UnsupportedOperationException();
                }
                return "spare";
            }

            @Override
            protected String getCacheKey() {
                return cacheKey;
            }
        };
        try {
            assertTrue(take(one, random.nextInt(8)).matches("value|spare"));
        } catch (HystrixRuntimeException | HystrixBadRequestException | ExecutionException | CancellationException expected) {
            boolean hasLeft = expected instanceof CancellationException || expected.getCause() instanceof InterruptedException;
            assertTrue(expected.toString(), hasLeft || one.isExecutionComplete());
        } catch (InterruptedException e) {
            throw new IllegalStateException(e);
        }
    }

    private static String ended(int dice) throws Exception {
        switch (dice) {
            case 0:
                Thread.sleep(5);
                return "value";
            case 1:
                throw new Exception("no");
            case 2:
                throw new HystrixBadRequestException("bad");
            default:
                return "value";
        }
    }

    private static String take(HystrixCommand<String> one, int way) throws InterruptedException, ExecutionException {
        switch (way) {
            case 0:
                return one.queue().get();
            case 1:
                Future<String> left = one.queue();
                left.cancel(true);
                return left.get();
            case 2:
                return one.observe().toBlocking().single();
            case 3:
                Thread.currentThread().interrupt(); // a caller that was interrupted
                try {
                    return one.execute();
                } finally {
                    Thread.interrupted();
                }
            default:
                return one.execute();
        }
    }

    private void assertNoWorkerIsInterrupted() throws InterruptedException {
        HystrixCommand.Setter setter = Calls.setter("Storm", "StormPool", pooled).andThreadPoolPropertiesDefaults(pool);
        for (int i = 0; i < 50; i++) {
            String told = Calls.of(setter, null, () -> String.valueOf(Thread.currentThread().isInterrupted())).execute();
            assertFalse(Boolean.parseBoolean(told));
        }
    }
}
