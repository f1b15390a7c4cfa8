package bulkhead.hystrix;

/** Has tickets that wait begun by workers. It is guarded by the lock of its pool. */
final class Starter {
    private final Group group;
    private final QueuedTickets queue;
    private final Workers workers;
    // what the turn leaves to be done behind it
    private Worker woken;
    private Worker begun;

    Starter(Group group, QueuedTickets queue, Workers workers) {
        this.group = group;
        this.queue = queue;
        this.workers = workers;
    }

    /**
     * Has the first ticket that waits begun by a worker that sleeps, or lets a new one ask for it.
     *
     * @return whether a worker is to wake up or to begin behind the turn
     */
    boolean hand() {
        Worker sleeper = workers.take();
        if (sleeper == null) {
            begun = workers.grow();
            return begun != null;
        }
        Ticket given = start();
        if (given == null) {
            workers.put(sleeper);
            return false;
        }
        sleeper.give(given);
        woken = sleeper;
        return true;
    }

    /** The ticket that a worker is to run; where there is none, the worker sleeps from now on. */
    Ticket startBy(Worker worker) {
        Ticket next = start();
        if (next == null) {
            workers.put(worker);
        }
        return next;
    }

    /** Begins the run of the first ticket that waits; null where there is none, or no thread of the pool is free. */
    private Ticket start() {
        if (queue.isEmpty()) {
            return null;
        }
        long reply = group.step(Native.START, 0, 0);
        if (Reply.kind(reply) != Reply.ASSIGNED) {
            return null;
        }
        Ticket ticket = queue.take(Reply.number(reply));
        ticket.started = group.latest();
        return ticket;
    }

    /** Takes the worker that is to wake up behind the turn; may be null. */
    Worker takeWoken() {
        Worker taken = woken;
        woken = null;
        return taken;
    }

    /** Takes the worker whose thread is to be started behind the turn; may be null. */
    Worker takeBegun() {
        Worker taken = begun;
        begun = null;
        return taken;
    }
}
