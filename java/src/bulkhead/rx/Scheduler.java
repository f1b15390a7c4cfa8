package bulkhead.rx;

import java.util.Objects;
import java.util.concurrent.Executor;

/** Where signals are told, or a subscription is made. */
public final class Scheduler {
    private final Executor executor;

    /** A scheduler that has an executor do what there is to do. */
    public Scheduler(Executor executor) {
        this.executor = Objects.requireNonNull(executor);
    }

    void run(Runnable work) {
        executor.execute(work);
    }
}
