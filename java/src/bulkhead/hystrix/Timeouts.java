package bulkhead.hystrix;

/** Which tickets of a pool time out when. All but {@link #looksAt} is guarded by the lock of the pool. */
final class Timeouts {
    private final Group group;
    private final PoolCommands commands;
    private final Collector collector;
    private final QueuedTickets queue;
    private volatile long looksAt = Long.MAX_VALUE;
    private long lookedAt = -1;

    Timeouts(Group group, PoolCommands commands, Collector collector, QueuedTickets queue) {
        this.group = group;
        this.commands = commands;
        this.collector = collector;
        this.queue = queue;
    }

    /** The moment at which the timer is to look next. */
    long looksAt() {
        return looksAt;
    }

    /** A ticket was submitted at the latest moment, and goes on. */
    void add(Ticket ticket) {
        ticket.submitted = group.latest();
        ticket.command.live.add(ticket);
        lookBy(dueOf(ticket));
    }

    /** Properties have changed, by which the tickets that are there time out at another moment. */
    void tuned() {
        lookBy(earliestDue());
    }

    private void lookBy(long moment) {
        if (moment < looksAt) {
            looksAt = moment;
            TimeoutTimer.wake(moment);
        }
    }

    /** The moment at which a ticket times out by the properties in force. */
    private static long dueOf(Ticket ticket) {
        CommandValues values = ticket.command.values;
        return values.isTimed ? ticket.submitted + values.timeout : Long.MAX_VALUE;
    }

    /** A ticket waits and runs no more. */
    void remove(Ticket ticket) {
        ticket.command.live.remove(ticket);
        queue.forget(ticket);
    }

    /** Has time out what is due, and returns the first of the pooled tickets that did, for {@link #breakOff}. */
    Ticket expire() {
        Ticket broken = null;
        if (earliestDue() <= Moments.now()) {
            long moment = group.moment();
            long reply = group.step(Native.EXPIRE, 0, 0);
            if (Reply.kind(reply) == Reply.EXPIRED) {
                for (PoolCommand command : commands.all()) {
                    broken = expire(command, moment, broken);
                }
            }
        }
        look();
        return broken;
    }

    private Ticket expire(PoolCommand command, long moment, Ticket before) {
        Ticket broken = before;
        for (Ticket ticket; (ticket = command.live.first()) != null && dueOf(ticket) <= moment; ) {
            remove(ticket);
            ticket.state = Ticket.State.DUE;
            ticket.ended = moment;
            if (command.values.isPooled) {
                ticket.nextBroken = broken;
                broken = ticket;
            }
            collector.settle(ticket);
        }
        return broken;
    }

    private long earliestDue() {
        long earliest = Long.MAX_VALUE;
        for (PoolCommand command : commands.all()) {
            Ticket first = command.live.first();
            if (first != null) {
                earliest = Math.min(earliest, dueOf(first));
            }
        }
        return earliest;
    }

    /**
     * Finds the moment to look next. While steps are made the timer looks again a timeout later, though nothing is due by
     * then; so a submit seldom has to wake it.
     */
    private void look() {
        long next = earliestDue();
        if (next == Long.MAX_VALUE && group.latest() > lookedAt) {
            next = leastTimeout();
            if (next != Long.MAX_VALUE) {
                next = group.latest() + Math.max(next, 1);
            }
        }
        lookedAt = group.latest();
        looksAt = next;
    }

    private long leastTimeout() {
        long least = Long.MAX_VALUE;
        for (PoolCommand command : commands.all()) {
            if (command.values.isTimed) {
                least = Math.min(least, command.values.timeout);
            }
        }
        return least;
    }

    /** Tells whoever waits for a ticket that goes on that all is over. */
    void stopAll() {
        for (PoolCommand command : commands.all()) {
            for (Ticket ticket; (ticket = command.live.first()) != null; ) {
                remove(ticket);
                collector.stop(ticket);
            }
        }
        looksAt = Long.MAX_VALUE;
    }

    /** Keeps runs that timed out from beginning, or has them interrupted where they began; outside of the lock. */
    static void breakOff(Ticket first) {
        for (Ticket ticket = first; ticket != null; ) {
            Ticket next = ticket.nextBroken;
            ticket.nextBroken = null;
            if (!ticket.prevent() && ticket.command.values.interruptsOnTimeout) {
                Helpers.run(ticket::interrupt);
            }
            ticket = next;
        }
    }
}
