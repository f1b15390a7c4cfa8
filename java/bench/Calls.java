import bulkhead.hystrix.Hystrix;
import bulkhead.hystrix.HystrixCommand;
import bulkhead.hystrix.HystrixCommandGroupKey;
import bulkhead.hystrix.HystrixCommandKey;
import bulkhead.hystrix.HystrixCommandProperties;
import bulkhead.hystrix.HystrixCommandProperties.ExecutionIsolationStrategy;
import bulkhead.hystrix.HystrixThreadPoolKey;
import java.util.ArrayList;
import java.util.Arrays;
import java.util.List;
import java.util.concurrent.CyclicBarrier;
import java.util.concurrent.Executors;
import java.util.concurrent.Future;
import java.util.concurrent.LinkedBlockingQueue;
import java.util.concurrent.ScheduledThreadPoolExecutor;
import java.util.concurrent.Semaphore;
import java.util.concurrent.ThreadPoolExecutor;
import java.util.concurrent.TimeUnit;

/**
 * What a call costs in microseconds: of each kind the least and the middle of its rounds, all by turns in one run. Beside it
 * stand a bare call, a semaphore, and an executor with a timer task for each call, which is what a command under THREAD does.
 */
public final class Calls {
    private static final int WARM_UP = 3;
    private static final HystrixCommandGroupKey GROUP = HystrixCommandGroupKey.Factory.asKey("bench");

    static volatile Object sink;

    private Calls() {}

    /** So many calls one after the other, in the thread of a number. */
    private interface Loop {
        void run(int thread, int calls) throws Exception;
    }

    private static final class Kind {
        final String name;
        final int calls;
        final int threads;
        final Loop loop;
        final double[] took;

        Kind(String name, int calls, int threads, int rounds, Loop loop) {
            this.name = name;
            this.calls = calls;
            this.threads = threads;
            this.loop = loop;
            took = new double[rounds];
        }

        /** The microseconds of a call, over all threads. */
        double measure() throws Exception {
            CyclicBarrier begin = new CyclicBarrier(threads);
            Thread[] others = new Thread[threads - 1];
            for (int at = 0; at < others.length; at++) {
                int number = at + 1;
                others[at] = new Thread(() -> runAs(number, begin));
                others[at].start();
            }
            begin.await();
            long began = System.nanoTime();
            loop.run(0, calls);
            for (Thread other : others) {
                other.join();
            }
            return (System.nanoTime() - began) / 1e3 / calls / threads;
        }

        private void runAs(int number, CyclicBarrier begin) {
            try {
                begin.await();
                loop.run(number, calls);
            } catch (Exception e) {
                throw new IllegalStateException(e);
            }
        }
    }

    private static final class One extends HystrixCommand<Long> {
        private final long of;

        One(Setter setter, long of) {
            super(setter);
            this.of = of;
        }

        @Override
        protected Long run() {
            return body(of);
        }
    }

    private static final class Fails extends HystrixCommand<Long> {
        private static final RuntimeException WHY = new RuntimeException("no", null, false, false) {
            private static final long serialVersionUID = 1L;
        };

        Fails(Setter setter) {
            super(setter);
        }

        @Override
        protected Long run() {
            throw WHY;
        }

        @Override
        protected Long getFallback() {
            return -1L;
        }
    }

    private static Long body(long of) {
        return of & 127;
    }

    private static HystrixCommand.Setter setter(String name, ExecutionIsolationStrategy strategy) {
        return HystrixCommand.Setter.withGroupKey(GROUP)
                .andCommandKey(HystrixCommandKey.Factory.asKey(name))
                .andThreadPoolKey(HystrixThreadPoolKey.Factory.asKey("pool-" + name))
                .andCommandPropertiesDefaults(HystrixCommandProperties.Setter()
                        .withExecutionIsolationStrategy(strategy)
                        .withExecutionIsolationSemaphoreMaxConcurrentRequests(50)
                        .withExecutionTimeoutInMilliseconds(10_000)
                        .withCircuitBreakerForceClosed(name.equals("failing")));
    }

    private static Loop executed(HystrixCommand.Setter... setters) {
        return (thread, calls) -> {
            HystrixCommand.Setter own = setters[thread % setters.length];
            for (int i = 0; i < calls; i++) {
                sink = new One(own, i).execute();
            }
        };
    }

    private static HystrixCommand.Setter[] four(String name, ExecutionIsolationStrategy strategy) {
        HystrixCommand.Setter[] all = new HystrixCommand.Setter[4];
        Arrays.setAll(all, at -> setter(name + at, strategy));
        return all;
    }

    private static List<Kind> commands(int rounds) {
        HystrixCommand.Setter inline = setter("inline", ExecutionIsolationStrategy.SEMAPHORE);
        HystrixCommand.Setter failing = setter("failing", ExecutionIsolationStrategy.SEMAPHORE);
        HystrixCommand.Setter pooled = setter("pooled", ExecutionIsolationStrategy.THREAD);
        List<Kind> all = new ArrayList<>();
        all.add(new Kind("command under SEMAPHORE", 300_000, 1, rounds, executed(inline)));
        all.add(new Kind("the same, that fails and has a fallback", 200_000, 1, rounds, (thread, calls) -> {
            for (int i = 0; i < calls; i++) {
                sink = new Fails(failing).execute();
            }
        }));
        all.add(new Kind("four threads, one command under SEMAPHORE", 100_000, 4, rounds, executed(inline)));
        all.add(new Kind("four threads, each its own such command", 100_000, 4, rounds,
                executed(four("own", ExecutionIsolationStrategy.SEMAPHORE))));
        all.add(new Kind("command under THREAD", 20_000, 1, rounds, executed(pooled)));
        all.add(new Kind("the same, queue().get()", 20_000, 1, rounds, (thread, calls) -> {
            for (int i = 0; i < calls; i++) {
                sink = new One(pooled, i).queue().get();
            }
        }));
        all.add(new Kind("four threads, each its own pool", 10_000, 4, rounds,
                executed(four("pool", ExecutionIsolationStrategy.THREAD))));
        return all;
    }

    private static List<Kind> others(int rounds) {
        Semaphore permits = new Semaphore(50);
        ThreadPoolExecutor executor =
                new ThreadPoolExecutor(10, 10, 1, TimeUnit.MINUTES, new LinkedBlockingQueue<>(5), Calls::daemon);
        executor.prestartAllCoreThreads();
        ScheduledThreadPoolExecutor timer = new ScheduledThreadPoolExecutor(1, Calls::daemon);
        timer.setRemoveOnCancelPolicy(true);
        List<Kind> all = new ArrayList<>();
        all.add(new Kind("bare call", 2_000_000, 1, rounds, (thread, calls) -> {
            for (int i = 0; i < calls; i++) {
                sink = body(i);
            }
        }));
        all.add(new Kind("Semaphore, tryAcquire and release", 2_000_000, 1, rounds, (thread, calls) -> {
            for (int i = 0; i < calls; i++) {
                if (permits.tryAcquire()) {
                    sink = body(i);
                    permits.release();
                }
            }
        }));
        all.add(new Kind("ThreadPoolExecutor, submit().get()", 20_000, 1, rounds, (thread, calls) -> {
            for (int i = 0; i < calls; i++) {
                long of = i;
                sink = executor.submit(() -> body(of)).get();
            }
        }));
        all.add(new Kind("the same, and a timer task for each call", 20_000, 1, rounds, (thread, calls) -> {
            for (int i = 0; i < calls; i++) {
                long of = i;
                Future<Long> made = executor.submit(() -> body(of));
                Future<?> due = timer.schedule(() -> made.cancel(true), 10, TimeUnit.SECONDS);
                sink = made.get();
                due.cancel(false);
            }
        }));
        return all;
    }

    private static Thread daemon(Runnable work) {
        Thread made = Executors.defaultThreadFactory().newThread(work);
        made.setDaemon(true);
        return made;
    }

    /** Measures so many rounds, 25 where nothing is said. */
    public static void main(String[] words) throws Exception {
        int rounds = words.length > 0 ? Integer.parseInt(words[0]) : 25;
        List<Kind> all = others(rounds);
        all.addAll(commands(rounds));
        for (int round = -WARM_UP; round < rounds; round++) {
            for (Kind kind : all) {
                double took = kind.measure();
                if (round >= 0) {
                    kind.took[round] = took;
                }
            }
        }
        for (Kind kind : all) {
            Arrays.sort(kind.took);
            System.out.printf("%-44s %8.3f %8.3f%n", kind.name, kind.took[0], kind.took[rounds / 2]);
        }
        Hystrix.reset();
    }
}
