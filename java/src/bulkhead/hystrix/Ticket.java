package bulkhead.hystrix;

/**
 * One execution of a command, which the core holds under a number. Calls that share its answer wait in a list of it.
 *
 * <p>What is not final is guarded by the lock of the pool, but for what the run and the fallback gave: these are written by
 * the thread that is at them, before it tells the pool of the end. A late run changes only those, so no answer.
 */
final class Ticket extends Run {
    /** How far a ticket has come. */
    enum State {
        /** It waits for a worker, or runs. */
        LIVE,
        /** It needs a fallback. */
        DUE,
        /** Somebody runs its fallback. */
        IN_FALLBACK,
        /** There is an answer. */
        ANSWERED
    }

    final PoolCommand command;
    /** Whose functions are run. */
    final AbstractCommand<?> owner;

    long number;
    State state = State.LIVE;
    /** Moments in milliseconds; {@code ended} is -1 until the run ended or timed out. */
    long submitted;
    long started;
    long ended = -1;
    /** Why a fallback is due. */
    int cause;
    /** Whether calls of one context may share the answer. */
    boolean isShared;
    /** The answer, or what the run raised, once the core took its end. */
    Object value;
    Throwable error;

    Object ranValue;
    Throwable ranError;
    Object fallbackValue;
    Throwable fallbackError;

    // links of the lists that it stands in
    boolean isLive;
    boolean isQueued;
    Ticket previousLive;
    Ticket nextLive;
    Ticket nextQueued;
    Ticket nextBroken;
    private Call firstHolder;
    private Call lastHolder;

    Ticket(PoolCommand command, AbstractCommand<?> owner) {
        this.command = command;
        this.owner = owner;
    }

    /** Whether a Collect would be answered by more than Pending. */
    boolean isCollectable() {
        return state == State.ANSWERED || state == State.DUE;
    }

    Call firstHolder() {
        return firstHolder;
    }

    /** Whether one call alone waits, and has not left. */
    boolean hasOneHolder() {
        return firstHolder != null && firstHolder == lastHolder && !firstHolder.hasLeft;
    }

    void addHolder(Call call) {
        if (firstHolder == null) {
            firstHolder = call;
        } else {
            lastHolder.nextHolder = call;
        }
        lastHolder = call;
    }

    void putHolderFirst(Call call) {
        call.nextHolder = firstHolder;
        firstHolder = call;
        if (lastHolder == null) {
            lastHolder = call;
        }
    }

    Call takeFirstHolder() {
        Call taken = firstHolder;
        firstHolder = taken.nextHolder;
        if (firstHolder == null) {
            lastHolder = null;
        }
        taken.nextHolder = null;
        return taken;
    }

    /** Moves the first call that has not left to the front, if there is one. */
    void putPresentHolderFirst() {
        for (Call before = firstHolder; before != null && before.hasLeft; before = before.nextHolder) {
            Call next = before.nextHolder;
            if (next != null && !next.hasLeft) {
                before.nextHolder = next.nextHolder;
                if (lastHolder == next) {
                    lastHolder = before;
                }
                putHolderFirst(next);
                return;
            }
        }
    }
}
