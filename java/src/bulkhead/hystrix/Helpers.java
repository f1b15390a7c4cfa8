package bulkhead.hystrix;

import java.util.concurrent.ExecutorService;
import java.util.concurrent.Executors;
import java.util.concurrent.LinkedBlockingQueue;
import java.util.concurrent.ScheduledExecutorService;
import java.util.concurrent.ThreadFactory;
import java.util.concurrent.ThreadPoolExecutor;
import java.util.concurrent.TimeUnit;

/** Threads for what neither a caller nor a worker does: fallbacks of futures, interrupts, batches. All are daemons. */
final class Helpers {
    private static final ExecutorService THREADS = Executors.newCachedThreadPool(daemons("hystrix-helper"));
    private static final ThreadPoolExecutor SPARE = new ThreadPoolExecutor(
            1, 1, 0, TimeUnit.SECONDS, new LinkedBlockingQueue<>(), daemons("hystrix-spare-helper"));

    static {
        SPARE.prestartCoreThread();
    }

    private Helpers() {}

    /** Has a thread do the work. Where the system has no further one, a thread that is kept for this does it. */
    static void run(Runnable work) {
        try {
            THREADS.execute(work);
        } catch (OutOfMemoryError e) {
            SPARE.execute(work);
        }
    }

    static ThreadFactory daemons(String name) {
        return work -> {
            Thread thread = new Thread(work, name);
            thread.setDaemon(true);
            return thread;
        };
    }

    /** A timer of one thread. */
    static ScheduledExecutorService timer(String name) {
        return Executors.newSingleThreadScheduledExecutor(daemons(name));
    }
}
