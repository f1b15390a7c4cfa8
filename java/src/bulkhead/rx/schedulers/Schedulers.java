package bulkhead.rx.schedulers;

import bulkhead.rx.Scheduler;
import java.util.concurrent.Executor;
import java.util.concurrent.Executors;

/** The schedulers that there are. Their threads are daemons. */
public final class Schedulers {
    private static final Scheduler IO = new Scheduler(Executors.newCachedThreadPool(Schedulers::thread));
    private static final Scheduler COMPUTATION =
            new Scheduler(Executors.newFixedThreadPool(Runtime.getRuntime().availableProcessors(), Schedulers::thread));

    private Schedulers() {}

    private static Thread thread(Runnable work) {
        Thread made = new Thread(work, "rx-thread");
        made.setDaemon(true);
        return made;
    }

    /** Returns a scheduler with as many threads as are wanted at a time. */
    public static Scheduler io() {
        return IO;
    }

    /** Returns a scheduler with a thread for each processor. */
    public static Scheduler computation() {
        return COMPUTATION;
    }

    /** Returns a scheduler that does what there is to do in the thread that asks for it. */
    public static Scheduler immediate() {
        return new Scheduler(Runnable::run);
    }

    /** Returns a scheduler on an executor. */
    public static Scheduler from(Executor executor) {
        return new Scheduler(executor);
    }
}
