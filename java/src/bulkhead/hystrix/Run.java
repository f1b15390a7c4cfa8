package bulkhead.hystrix;

import java.lang.invoke.MethodHandles;
import java.lang.invoke.VarHandle;

/**
 * The run of a ticket, of which its worker and whoever breaks it off agree: an interrupt reaches the thread while it is at
 * this run, or not at all.
 */
class Run {
    private static final int NEW = 0;
    private static final int RUNNING = 1;
    private static final int ENDED = 2;
    private static final int INTERRUPTING = 3;
    private static final int BROKEN = 4;
    private static final VarHandle STATE;

    static {
        try {
            STATE = MethodHandles.lookup().findVarHandle(Run.class, "state", int.class);
        } catch (ReflectiveOperationException e) {
            throw new ExceptionInInitializerError(e);
        }
    }

    private volatile int state;
    private volatile Thread runner;

    /** Begins the run in this thread, or returns false where it was broken off before. */
    final boolean begin() {
        runner = Thread.currentThread();
        return STATE.compareAndSet(this, NEW, RUNNING);
    }

    /** Ends a run that was begun in this thread: nobody interrupts the thread for it any more, and no interrupt is left. */
    final void end() {
        if (!STATE.compareAndSet(this, RUNNING, ENDED)) {
            while (state == INTERRUPTING) {
                Thread.onSpinWait();
            }
        }
        runner = null;
        Thread.interrupted();
    }

    /** Sees to it that the run does not begin, and returns false where it has begun. */
    final boolean prevent() {
        return STATE.compareAndSet(this, NEW, BROKEN);
    }

    /**
     * Interrupts the thread that is at the run, if one is. An interrupt may close a channel and take its time, so nobody
     * calls this under a lock or in the timer.
     */
    final void interrupt() {
        if (STATE.compareAndSet(this, RUNNING, INTERRUPTING)) {
            runner.interrupt();
            state = BROKEN;
        }
    }
}
