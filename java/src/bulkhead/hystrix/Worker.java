package bulkhead.hystrix;

import java.util.concurrent.locks.LockSupport;

/** A thread of a pool: it does one run after the other until the pool is closed. */
final class Worker implements Runnable {
    private final Pool pool;
    private final Thread thread;
    /** The worker that slept before; guarded by the lock of the pool. */
    Worker nextIdle;
    private volatile Ticket given;

    Worker(Pool pool, int number) {
        this.pool = pool;
        thread = Helpers.daemons("hystrix-" + pool.name + "-" + number).newThread(this);
    }

    /** Starts the thread, or tells the pool that the system has none. */
    void start() {
        try {
            thread.start();
        } catch (OutOfMemoryError e) {
            pool.dismiss();
        }
    }

    /** Gives a worker that sleeps its next run; {@link #wake} wakes it up. */
    void give(Ticket ticket) {
        given = ticket;
    }

    void wake() {
        LockSupport.unpark(thread);
    }

    @Override
    public void run() {
        Ticket ticket = pool.nextRun(this, null, 0);
        while (ticket != null || (ticket = sleep()) != null) {
            int operation = perform(ticket);
            ticket = pool.nextRun(this, ticket, operation);
        }
    }

    /** Sleeps until there is a run, or returns null where the pool was closed. */
    private Ticket sleep() {
        while (!pool.isOver()) {
            Ticket ticket = given;
            if (ticket != null) {
                given = null;
                return ticket;
            }
            LockSupport.park(this);
            Thread.interrupted();
        }
        return null;
    }

    /** Does a run, and returns the operation that tells its end. */
    private static int perform(Ticket ticket) {
        if (!ticket.begin()) { // it timed out, or was cancelled, before it began
            return Native.FAIL_BAD_REQUEST;
        }
        try {
            return ticket.owner.perform(ticket);
        } catch (Throwable e) { // the run has its own; this was raised around it, as by a memory that is full
            ticket.ranError = e;
            return Native.FAIL;
        } finally {
            ticket.end();
        }
    }
}
