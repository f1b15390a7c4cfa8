package bulkhead.hystrix;

/** Collects the answers of tickets for the calls that wait for them. It is guarded by the lock of its pool. */
final class Collector {
    private final Group group;
    private final ToldCalls told;

    /**
     * Collects in a group.
     *
     * @param told where calls that have to be told are put
     */
    Collector(Group group, ToldCalls told) {
        this.group = group;
        this.told = told;
    }

    /** Collects for those who wait for a ticket, as far as it has answers. */
    void settle(Ticket ticket) {
        while (ticket.firstHolder() != null && ticket.isCollectable()) {
            if (ticket.state == Ticket.State.DUE) {
                ticket.putPresentHolderFirst(); // one who is there runs the fallback
            }
            long reply = group.step(Native.COLLECT, 0, ticket.number);
            if (Reply.kind(reply) == Reply.RUN_FALLBACK && ticket.firstHolder().hasLeft) {
                ticket.cause = Reply.cause(reply);
                missFallback(ticket);
            } else {
                take(ticket, reply);
            }
        }
    }

    /** Nobody is there to run the fallback of a ticket. */
    void missFallback(Ticket ticket) {
        group.step(Native.FALLBACK_MISSING, 0, ticket.number);
        ticket.state = Ticket.State.ANSWERED;
    }

    /** Hands the reply to a Collect to the first who waits. */
    void take(Ticket ticket, long reply) {
        int kind = Reply.kind(reply);
        switch (kind) {
            case Reply.VALUE:
            case Reply.FALLBACK_VALUE:
            case Reply.ERROR:
            case Reply.BAD_REQUEST:
                ticket.state = Ticket.State.ANSWERED;
                break;
            case Reply.RUN_FALLBACK:
                ticket.state = Ticket.State.IN_FALLBACK;
                break;
            case Reply.WORN:
                stop(ticket);
                return;
            default:
                throw new IllegalStateException("a Collect of " + ticket.number + " was answered " + kind);
        }
        Call holder = ticket.takeFirstHolder();
        holder.answer = ticket.value;
        holder.raised = ticket.error;
        holder.cause = Reply.cause(reply);
        holder.fallback = Reply.fallback(reply);
        if (kind != Reply.RUN_FALLBACK) {
            holder.context = null;
        } else {
            ticket.cause = holder.cause;
        }
        tell(holder, kind);
    }

    /** Tells whoever waits for a ticket that its service is closed. */
    void stop(Ticket ticket) {
        while (ticket.firstHolder() != null) {
            tell(ticket.takeFirstHolder(), Call.STOPPED);
        }
    }

    private void tell(Call call, int outcome) {
        call.setOutcome(outcome);
        if (!call.isToldBySubmit && !call.isTaken) {
            told.add(call);
        }
    }
}
