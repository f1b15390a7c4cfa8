package shared;

import static org.junit.Assert.assertEquals;
import static org.junit.Assert.assertNull;
import static org.junit.Assert.assertSame;
import static org.junit.Assert.assertTrue;
import static org.junit.Assert.fail;

import com.netflix.hystrix.Hystrix;
import com.netflix.hystrix.HystrixCommandProperties;
import com.netflix.hystrix.HystrixEventType;
import com.netflix.hystrix.exception.HystrixRuntimeException;
import com.netflix.hystrix.exception.HystrixRuntimeException.FailureType;
import com.netflix.hystrix.exception.HystrixTimeoutException;
import java.util.Arrays;
import java.util.concurrent.Callable;
import java.util.concurrent.CountDownLatch;
import java.util.concurrent.ExecutorService;
import java.util.concurrent.Executors;
import java.util.concurrent.Future;
import java.util.concurrent.RejectedExecutionException;
import org.junit.After;
import org.junit.Before;
import org.junit.Test;

/** Each way in which a run gives no value, with each kind of fallback: present, missing, failing, rejected, disabled. */
public class FailureTypesTest {
    private final CountDownLatch go = new CountDownLatch(1);
    private ExecutorService threads;

    @Before
    public void begin() {
        threads = Executors.newCachedThreadPool();
    }

    @After
    public void reset() {
        go.countDown();
        threads.shutdown();
        Hystrix.reset();
    }

    /** What a run comes to that is not let in or does not end well: it prepares the command, and makes calls of it. */
    private abstract static class Cause {
        final FailureType type;
        final HystrixEventType event;
        final Class<? extends Throwable> raised;

        Cause(FailureType type, HystrixEventType event, Class<? extends Throwable> raised) {
            this.type = type;
            this.event = event;
            this.raised = raised;
        }

        abstract HystrixCommandProperties.Setter properties();

        void prepare(String name, HystrixCommandProperties.Setter properties) throws Exception {}

        Callable<String> body() {
            return () -> "never";
        }
    }

    private Cause failure() {
        return new Cause(FailureType.COMMAND_EXCEPTION, HystrixEventType.FAILURE, IllegalArgumentException.class) {
            @Override
            HystrixCommandProperties.Setter properties() {
                return Of.properties();
            }

            @Override
            Callable<String> body() {
                return () -> {
                    throw new IllegalArgumentException("bad luck");
                };
            }
        };
    }

    private Cause timeout() {
        return new Cause(FailureType.TIMEOUT, HystrixEventType.TIMEOUT, HystrixTimeoutException.class) {
            @Override
            HystrixCommandProperties.Setter properties() {
                return Of.properties().withExecutionTimeoutInMilliseconds(20);
            }

            @Override
            Callable<String> body() {
                return () -> {
                    go.await();
                    return "late";
                };
            }
        };
    }

    private Cause shortCircuit() {
        return new Cause(FailureType.SHORTCIRCUIT, HystrixEventType.SHORT_CIRCUITED, RuntimeException.class) {
            @Override
            HystrixCommandProperties.Setter properties() {
                return Of.properties().withCircuitBreakerForceOpen(true);
            }
        };
    }

    private Cause poolRejection() {
        return new Cause(FailureType.REJECTED_THREAD_EXECUTION, HystrixEventType.THREAD_POOL_REJECTED, RejectedExecutionException.class) {
            @Override
            HystrixCommandProperties.Setter properties() {
                return Of.properties();
            }

            @Override
            void prepare(String name, HystrixCommandProperties.Setter properties) {
                new Of<>(name, properties, Of.pool().withCoreSize(1), () -> {
                    go.await();
                    return "first";
                }).queue();
            }
        };
    }

    private Cause permitRejection() {
        return new Cause(FailureType.REJECTED_SEMAPHORE_EXECUTION, HystrixEventType.SEMAPHORE_REJECTED, RuntimeException.class) {
            @Override
            HystrixCommandProperties.Setter properties() {
                return Of.inline().withExecutionIsolationSemaphoreMaxConcurrentRequests(1);
            }

            @Override
            void prepare(String name, HystrixCommandProperties.Setter properties) throws Exception {
                CountDownLatch in = new CountDownLatch(1);
                threads.submit(() -> new Of<>(name, properties, () -> {
                    in.countDown();
                    go.await();
                    return "first";
                }).execute());
                in.await();
            }
        };
    }

    private Cause[] all() {
        return new Cause[] {failure(), timeout(), shortCircuit(), poolRejection(), permitRejection()};
    }

    private static Of<String> call(Cause cause, String name, HystrixCommandProperties.Setter properties) {
        return new Of<>(name, properties, Of.pool().withCoreSize(1), cause.body());
    }

    private static HystrixRuntimeException raised(Of<String> call) {
        try {
            call.execute();
        } catch (HystrixRuntimeException e) {
            return e;
        }
        fail("there is no value");
        return null;
    }

    private static void assertIsOf(Cause cause, Of<String> call, HystrixEventType end) {
        assertEquals(Arrays.asList(cause.event, end), call.getExecutionEvents());
        assertEquals(cause.event == HystrixEventType.FAILURE, call.isFailedExecution());
        assertEquals(cause.event == HystrixEventType.TIMEOUT, call.isResponseTimedOut());
        assertEquals(cause.event == HystrixEventType.SHORT_CIRCUITED, call.isResponseShortCircuited());
        assertEquals(cause.event == HystrixEventType.THREAD_POOL_REJECTED, call.isResponseThreadPoolRejected());
        assertEquals(cause.event == HystrixEventType.SEMAPHORE_REJECTED, call.isResponseSemaphoreRejected());
        assertTrue(call.isExecutionComplete());
    }

    @Test
    public void present() throws Exception {
        for (Cause cause : all()) {
            String name = "Present" + cause.type;
            HystrixCommandProperties.Setter properties = cause.properties();
            cause.prepare(name, properties);
            Of<String> call = call(cause, name, properties).orElse(() -> "spare");
            assertEquals("spare", call.execute());
            assertIsOf(cause, call, HystrixEventType.FALLBACK_SUCCESS);
            assertTrue(call.isResponseFromFallback());
            assertEquals("spare", call(cause, name, properties).orElse(() -> "spare").queue().get());
            assertEquals("spare", call(cause, name, properties).orElse(() -> "spare").observe().toBlocking().single());
        }
    }

    @Test
    public void missing() throws Exception {
        for (Cause cause : all()) {
            String name = "Missing" + cause.type;
            HystrixCommandProperties.Setter properties = cause.properties();
            cause.prepare(name, properties);
            Of<String> call = call(cause, name, properties);
            HystrixRuntimeException e = raised(call);
            assertEquals(cause.type, e.getFailureType());
            assertTrue(e.getCause().toString(), cause.raised.isInstance(e.getCause()));
            assertTrue(e.getMessage(), e.getMessage().endsWith(" and no fallback available."));
            assertTrue(e.getFallbackException() instanceof UnsupportedOperationException);
            assertIsOf(cause, call, HystrixEventType.FALLBACK_MISSING);
        }
    }

    @Test
    public void failing() throws Exception {
        for (Cause cause : all()) {
            String name = "Failing" + cause.type;
            HystrixCommandProperties.Setter properties = cause.properties();
            cause.prepare(name, properties);
            RuntimeException own = new IllegalStateException("no spare");
            Of<String> call = call(cause, name, properties).orElse(() -> {
                throw own;
            });
            HystrixRuntimeException e = raised(call);
            assertEquals(cause.type, e.getFailureType());
            assertTrue(cause.raised.isInstance(e.getCause()));
            assertTrue(e.getMessage(), e.getMessage().endsWith(" and fallback failed."));
            assertSame(own, e.getFallbackException());
            assertIsOf(cause, call, HystrixEventType.FALLBACK_FAILURE);
        }
    }

    @Test
    public void rejected() throws Exception {
        for (Cause cause : all()) {
            String name = "Rejected" + cause.type;
            HystrixCommandProperties.Setter properties = cause.properties().withFallbackIsolationSemaphoreMaxConcurrentRequests(1);
            cause.prepare(name, properties);
            CountDownLatch in = new CountDownLatch(1);
            Future<String> first = threads.submit(() -> call(cause, name, properties).orElse(() -> {
                in.countDown();
                go.await();
                return "spare";
            }).execute());
            in.await();
            Of<String> call = call(cause, name, properties).orElse(() -> "never");
            HystrixRuntimeException e = raised(call);
            if (call.isResponseThreadPoolRejected() && cause.type != FailureType.REJECTED_THREAD_EXECUTION) {
                continue; // the one thread is still at the run that timed out
            }
            assertEquals(FailureType.REJECTED_SEMAPHORE_FALLBACK, e.getFailureType());
            assertNull(e.getFallbackException());
            assertIsOf(cause, call, HystrixEventType.FALLBACK_REJECTION);
            assertTrue(!first.isDone());
        }
    }

    @Test
    public void disabled() throws Exception {
        for (Cause cause : all()) {
            String name = "Disabled" + cause.type;
            HystrixCommandProperties.Setter properties = cause.properties().withFallbackEnabled(false);
            cause.prepare(name, properties);
            Of<String> call = call(cause, name, properties).orElse(() -> "never");
            HystrixRuntimeException e = raised(call);
            assertEquals(cause.type, e.getFailureType());
            assertTrue(e.getMessage(), e.getMessage().endsWith(" and fallback disabled."));
            assertNull(e.getFallbackException());
            assertEquals(cause.event, call.getExecutionEvents().get(0));
        }
    }

    @Test
    public void aRejectionWithoutFallbackIsRaisedByQueueItself() throws Exception {
        for (Cause cause : new Cause[] {shortCircuit(), poolRejection(), permitRejection()}) {
            String name = "Queue" + cause.type;
            HystrixCommandProperties.Setter properties = cause.properties();
            cause.prepare(name, properties);
            try {
                call(cause, name, properties).queue();
                fail("it is refused");
            } catch (HystrixRuntimeException e) {
                assertEquals(cause.type, e.getFailureType());
            }
        }
    }
}
