package bulkhead.hystrix;

import bulkhead.hystrix.strategy.concurrency.HystrixRequestContext;
import java.util.concurrent.locks.LockSupport;

/**
 * Somebody who asks for the answer of a ticket. What is not volatile is guarded by the lock of the pool until the outcome
 * is told, and belongs to the thread of the call from then on.
 */
abstract class Call {
    /** The outcome of a call whose service was closed. Beside this an outcome is the kind of a reply, and 0 before. */
    static final int STOPPED = -1;

    /** The ticket that the call is about, from its submit on. */
    Ticket ticket;
    /** What was told: the value; what was raised; the cause and the end of the fallback, as a reply has them. */
    Object answer;
    Throwable raised;
    int cause;
    int fallback;
    /** Whether its submit told the outcome already, so that its thread sees to all that follows. */
    boolean isToldBySubmit;
    /** Whether the thread of the turn takes the outcome, so that nobody has to tell it. */
    boolean isTaken;
    /** Whether telling runs foreign code, so that a worker tells it before it takes the next run. */
    boolean isObserved;
    /** Whether its holder waits no more. The core holds an answer for it still. */
    boolean hasLeft;
    /** The request of the call, until it was answered: a cached answer must not keep its request. */
    HystrixRequestContext context;

    Call nextHolder;
    Call nextTold;

    private volatile int outcome;
    // beside `outcome` volatile too: either the teller sees the thread, or the thread the outcome
    private volatile Thread waiter;

    /** What became of the call. */
    final int outcome() {
        return outcome;
    }

    /** Whether an answer is still to come. */
    final boolean isOpen() {
        return outcome == 0 || outcome == Reply.RUN_FALLBACK;
    }

    final void setOutcome(int outcome) {
        this.outcome = outcome;
    }

    /** Has this thread woken up by {@link #tell}, in place of {@link #told}. */
    final void waitHere() {
        waiter = Thread.currentThread();
    }

    /** Waits until there is an outcome, which {@link #waitHere} was said for. */
    final void await() throws InterruptedException {
        while (outcome == 0) {
            LockSupport.park(this);
            if (outcome == 0 && Thread.interrupted()) {
                throw new InterruptedException();
            }
        }
    }

    /** Tells of the outcome, outside of the lock. */
    final void tell(boolean byTimer) {
        Thread waits = waiter;
        if (waits != null) {
            LockSupport.unpark(waits);
        } else {
            told(byTimer);
        }
    }

    /** Whether no thread waits for the outcome. */
    final boolean isCalledBack() {
        return waiter == null;
    }

    /**
     * Takes the outcome of a call that no thread waits for.
     *
     * @param byTimer whether this is the timer's thread, which runs no foreign code
     */
    abstract void told(boolean byTimer);
}
