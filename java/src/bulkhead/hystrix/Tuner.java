package bulkhead.hystrix;

/** Changes properties of a pool and its commands while it is open. It is guarded by the lock of the pool. */
final class Tuner {
    private final Group group;
    private final Timeouts timeouts;
    private final Workers workers;
    /** The values of the pool in force; null where its one command runs under permits. */
    private PoolValues pool;

    Tuner(Group group, Timeouts timeouts, Workers workers, PoolValues pool) {
        this.group = group;
        this.timeouts = timeouts;
        this.workers = workers;
        this.pool = pool;
    }

    /** Has a command go by other values from the latest moment on, also for the tickets that are there. */
    void tune(PoolCommand command, CommandValues to) {
        CommandValues from = command.values;
        for (int at = 0; at < Tunable.OF_COMMAND; at++) {
            Tunable tunable = Tunable.at(at);
            tune(command.number, tunable, from.of(tunable), to.of(tunable));
        }
        command.values = to;
        timeouts.tuned();
    }

    /** Has the pool go by other values from the latest moment on. */
    void tune(PoolValues to) {
        tune(0, Tunable.CORE, pool.core, to.core);
        tune(0, Tunable.QUEUE_THRESHOLD, pool.queueThreshold, to.queueThreshold);
        pool = to;
        workers.setCore(to.core);
    }

    private void tune(int command, Tunable tunable, long from, long to) {
        if (from != to) {
            group.tune(command, tunable, to);
        }
    }
}
