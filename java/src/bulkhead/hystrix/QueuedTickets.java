package bulkhead.hystrix;

/** The tickets of a pool that wait for a worker, by their numbers. One that has timed out is passed over. */
final class QueuedTickets {
    private Ticket first;
    private Ticket last;
    private int count;

    boolean isEmpty() {
        return count == 0;
    }

    void add(Ticket ticket) {
        ticket.isQueued = true;
        if (first == null) {
            first = ticket;
        } else {
            last.nextQueued = ticket;
        }
        last = ticket;
        count++;
    }

    /** A ticket waits no more; it stays in the list until the next one behind it is taken. */
    void forget(Ticket ticket) {
        if (ticket.isQueued) {
            ticket.isQueued = false;
            count--;
        }
    }

    /** Takes the ticket of the number, with all before it. */
    Ticket take(long number) {
        for (;;) {
            Ticket taken = first;
            first = taken.nextQueued;
            if (first == null) {
                last = null;
            }
            taken.nextQueued = null;
            forget(taken);
            if (taken.number == number) {
                return taken;
            }
        }
    }
}
