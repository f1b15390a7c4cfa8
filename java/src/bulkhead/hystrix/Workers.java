package bulkhead.hystrix;

/** The workers of a pool: those that sleep, the last one first, and how many there are. Guarded by the pool's lock. */
final class Workers {
    private final Pool pool;
    private int core;
    private Worker idle;
    private int count;

    /**
     * No workers yet.
     *
     * @param core how many there may be
     */
    Workers(Pool pool, int core) {
        this.pool = pool;
        this.core = core;
    }

    /** Takes the worker that went to sleep last; null where none sleeps. */
    Worker take() {
        Worker taken = idle;
        if (taken != null) {
            idle = taken.nextIdle;
            taken.nextIdle = null;
        }
        return taken;
    }

    void put(Worker worker) {
        worker.nextIdle = idle;
        idle = worker;
    }

    /** A further worker, which is to be started; null where there are enough, or memory is refused. */
    Worker grow() {
        if (count >= core) {
            return null;
        }
        try {
            Worker made = new Worker(pool, count + 1);
            count++;
            return made;
        } catch (OutOfMemoryError e) {
            return null; // whoever waits, waits for another worker or times out
        }
    }

    /** Changes how many there may be. Those beyond sleep, as the core gives no run to them. */
    void setCore(int core) {
        this.core = core;
    }

    /** A worker could not be started. */
    void shrink() {
        count--;
    }

    /** Wakes all that sleep, so that they end. */
    void wakeAll() {
        for (Worker worker = idle; worker != null; worker = worker.nextIdle) {
            worker.wake();
        }
    }
}
