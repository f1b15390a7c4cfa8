package shared;

import static org.junit.Assert.assertEquals;
import static org.junit.Assert.assertFalse;
import static org.junit.Assert.assertSame;
import static org.junit.Assert.assertTrue;
import static org.junit.Assert.fail;

import com.netflix.hystrix.Hystrix;
import com.netflix.hystrix.HystrixCommand;
import com.netflix.hystrix.HystrixCommandGroupKey;
import com.netflix.hystrix.HystrixCommandKey;
import com.netflix.hystrix.HystrixEventType;
import com.netflix.hystrix.HystrixObservableCommand;
import com.netflix.hystrix.HystrixThreadPoolKey;
import com.netflix.hystrix.exception.HystrixBadRequestException;
import com.netflix.hystrix.exception.HystrixRuntimeException;
import com.netflix.hystrix.exception.HystrixRuntimeException.FailureType;
import com.netflix.hystrix.strategy.concurrency.HystrixRequestContext;
import java.util.ArrayList;
import java.util.Arrays;
import java.util.Collections;
import java.util.HashSet;
import java.util.List;
import java.util.concurrent.CountDownLatch;
import java.util.concurrent.ExecutionException;
import java.util.concurrent.Future;
import java.util.concurrent.TimeUnit;
import org.junit.After;
import org.junit.Test;
import rx.Observable;
import rx.Observer;
import rx.Subscriber;
import rx.functions.Action1;
import rx.schedulers.Schedulers;

/** The sections of the page How To Use, from Hello World to the request context. */
public class HowToUseTest {
    @After
    public void reset() {
        HystrixRequestContext.setContextOnCurrentThread(null);
        Hystrix.reset();
    }

    private static HystrixCommandGroupKey group(String name) {
        return HystrixCommandGroupKey.Factory.asKey(name);
    }

    private static class Greeting extends HystrixCommand<String> {
        private final String whom;

        Greeting(String whom) {
            super(group("GreetingGroup"), 10_000);
            this.whom = whom;
        }

        @Override
        protected String run() {
            return "Hello " + whom + "!";
        }
    }

    @Test
    public void helloWorldAndSynchronousExecution() {
        assertEquals("Hello World!", new Greeting("World").execute());
        assertEquals("Hello Bob!", new Greeting("Bob").execute());
    }

    @Test
    public void asynchronousExecution() throws Exception {
        Future<String> world = new Greeting("World").queue();
        Future<String> bob = new Greeting("Bob").queue();
        assertEquals("Hello World!", world.get());
        assertEquals("Hello Bob!", bob.get());
        assertTrue(bob.isDone());
        assertFalse(bob.isCancelled());
    }

    @Test
    public void reactiveExecution() throws InterruptedException {
        assertEquals("Hello World!", new Greeting("World").observe().toBlocking().single());
        assertEquals("Hello Bob!", new Greeting("Bob").toObservable().toBlocking().single());
        List<String> seen = Collections.synchronizedList(new ArrayList<>());
        CountDownLatch end = new CountDownLatch(2);
        new Greeting("a").observe().subscribe(new Observer<String>() {
            @Override
            public void onCompleted() {
                end.countDown();
            }

            @Override
            public void onError(Throwable e) {
                seen.add(e.toString());
            }

            @Override
            public void onNext(String value) {
                seen.add(value);
            }
        });
        new Greeting("b").observe().subscribe(new Action1<String>() {
            @Override
            public void call(String value) {
                seen.add(value);
                end.countDown();
            }
        });
        assertTrue(end.await(10, TimeUnit.SECONDS));
        assertEquals(new HashSet<>(Arrays.asList("Hello a!", "Hello b!")), new HashSet<>(seen));
    }

    @Test
    public void anObservableOfACommandThatIsHotTellsWhoComesLater() {
        Observable<String> hot = new Greeting("all").observe();
        assertEquals("Hello all!", hot.toBlocking().single());
        assertEquals("Hello all!", hot.toBlocking().single());
    }

    @Test
    public void anInstanceIsExecutedOnce() {
        Greeting one = new Greeting("once");
        one.execute();
        try {
            one.execute();
            fail("a second execution is refused");
        } catch (HystrixRuntimeException e) {
            assertEquals(FailureType.BAD_REQUEST_EXCEPTION, e.getFailureType());
            assertTrue(e.getCause() instanceof IllegalStateException);
        }
    }

    private static class SeveralWords extends HystrixObservableCommand<String> {
        private final boolean fails;

        SeveralWords(boolean fails) {
            super(group("Words"));
            this.fails = fails;
        }

        @Override
        protected Observable<String> construct() {
            return Observable.create(new Observable.OnSubscribe<String>() {
                @Override
                public void call(Subscriber<? super String> observer) {
                    try {
                        if (!observer.isUnsubscribed()) {
                            observer.onNext("Hello");
                            if (fails) {
                                throw new IllegalStateException("no second word");
                            }
                            observer.onNext("World!");
                            observer.onCompleted();
                        }
                    } catch (Exception e) {
                        observer.onError(e);
                    }
                }
            }).subscribeOn(Schedulers.io());
        }

        @Override
        protected Observable<String> resumeWithFallback() {
            return Observable.just("there");
        }
    }

    @Test
    public void reactiveCommands() {
        List<String> seen = new ArrayList<>();
        new SeveralWords(false).observe().toBlocking().forEach(seen::add);
        assertEquals(Arrays.asList("Hello", "World!"), seen);
        seen.clear();
        SeveralWords failed = new SeveralWords(true);
        failed.toObservable().toBlocking().forEach(seen::add);
        assertEquals(Arrays.asList("Hello", "there"), seen);
        assertTrue(failed.isResponseFromFallback());
        assertFalse(failed.isExecutedInThread());
    }

    private static class AlwaysFails extends HystrixCommand<String> {
        private final String whom;

        AlwaysFails(String whom) {
            super(group("FailGroup"), 10_000);
            this.whom = whom;
        }

        @Override
        protected String run() {
            throw new RuntimeException("this command always fails");
        }

        @Override
        protected String getFallback() {
            return "Hello Failure " + whom + "!";
        }
    }

    @Test
    public void fallback() {
        AlwaysFails one = new AlwaysFails("World");
        assertEquals("Hello Failure World!", one.execute());
        assertTrue(one.isFailedExecution());
        assertTrue(one.isResponseFromFallback());
        assertTrue(one.isExecutedInThread());
        assertFalse(one.isSuccessfulExecution());
        assertEquals("this command always fails", one.getFailedExecutionException().getMessage());
        assertEquals(Arrays.asList(HystrixEventType.FAILURE, HystrixEventType.FALLBACK_SUCCESS), one.getExecutionEvents());
    }

    private static class Raises extends HystrixCommand<String> {
        private final Exception raised;

        Raises(Exception raised) {
            super(group("RaisesGroup"), 10_000);
            this.raised = raised;
        }

        @Override
        protected String run() throws Exception {
            throw raised;
        }
    }

    @Test
    public void errorPropagation() throws InterruptedException {
        Exception own = new Exception("failure");
        Raises one = new Raises(own);
        try {
            one.execute();
            fail("it has no fallback");
        } catch (HystrixRuntimeException e) {
            assertEquals(FailureType.COMMAND_EXCEPTION, e.getFailureType());
            assertSame(own, e.getCause());
            assertTrue(e.getFallbackException() instanceof UnsupportedOperationException);
            assertEquals(Raises.class, e.getImplementingClass());
            assertEquals("Raises failed and no fallback available.", e.getMessage());
        }
        assertSame(own, one.getExecutionException());
        try {
            new Raises(own).queue().get();
            fail("it has no fallback");
        } catch (ExecutionException e) {
            assertTrue(e.getCause() instanceof HystrixRuntimeException);
        }
    }

    @Test
    public void aBadRequestIsNoFailure() throws InterruptedException {
        Raises bad = new Raises(new HystrixBadRequestException("no such item"));
        try {
            bad.execute();
            fail("the request is bad");
        } catch (HystrixBadRequestException e) {
            assertEquals("no such item", e.getMessage());
        }
        assertEquals(Collections.singletonList(HystrixEventType.BAD_REQUEST), bad.getExecutionEvents());
        assertFalse(bad.isFailedExecution());
        assertEquals(0, bad.getMetrics().getHealthCounts().getTotalRequests());
        try {
            new Raises(new HystrixBadRequestException("nor this")).queue().get();
            fail("the request is bad");
        } catch (ExecutionException e) {
            assertEquals("nor this", e.getCause().getMessage());
        }
    }

    private static class Named extends HystrixCommand<String> {
        Named() {
            super(Setter.withGroupKey(group("ExampleGroup"))
                    .andCommandKey(HystrixCommandKey.Factory.asKey("HelloWorld"))
                    .andThreadPoolKey(HystrixThreadPoolKey.Factory.asKey("HelloWorldPool"))
                    .andCommandPropertiesDefaults(Of.properties()));
        }

        @Override
        protected String run() {
            return Thread.currentThread().getName();
        }
    }

    @Test
    public void commandName() {
        assertEquals("HelloWorld", new Named().getCommandKey().name());
        assertEquals("Greeting", new Greeting("x").getCommandKey().name());
    }

    @Test
    public void commandGroup() {
        assertEquals("ExampleGroup", new Named().getCommandGroup().name());
        assertEquals("GreetingGroup", new Greeting("x").getCommandGroup().name());
    }

    @Test
    public void commandThreadPool() {
        Named one = new Named();
        assertTrue(one.execute().startsWith("hystrix-HelloWorldPool-"));
        assertEquals("HelloWorldPool", one.getThreadPoolKey().name());
        assertEquals("GreetingGroup", new Greeting("x").getThreadPoolKey().name());
    }

    @Test
    public void requestContextSetup() {
        assertFalse(HystrixRequestContext.isCurrentThreadInitialized());
        HystrixRequestContext context = HystrixRequestContext.initializeContext();
        try {
            assertSame(context, HystrixRequestContext.getContextForCurrentThread());
            assertSame(context, new Of<>("Context", Of.properties(), HystrixRequestContext::getContextForCurrentThread).execute());
        } finally {
            context.shutdown();
        }
        assertFalse(HystrixRequestContext.isCurrentThreadInitialized());
    }
}
