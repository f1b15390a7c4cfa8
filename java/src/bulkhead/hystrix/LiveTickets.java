package bulkhead.hystrix;

/** The live tickets of a command by their submits, which is the order in which they time out. */
final class LiveTickets {
    private Ticket first;
    private Ticket last;
    private int count;
    private int most;

    Ticket first() {
        return first;
    }

    int count() {
        return count;
    }

    /** The most that there were at a time. */
    int most() {
        return most;
    }

    void add(Ticket ticket) {
        ticket.isLive = true;
        ticket.previousLive = last;
        if (last == null) {
            first = ticket;
        } else {
            last.nextLive = ticket;
        }
        last = ticket;
        most = Math.max(most, ++count);
    }

    /** Takes a ticket out, where it is in. */
    void remove(Ticket ticket) {
        if (!ticket.isLive) {
            return;
        }
        ticket.isLive = false;
        if (ticket.previousLive == null) {
            first = ticket.nextLive;
        } else {
            ticket.previousLive.nextLive = ticket.nextLive;
        }
        if (ticket.nextLive == null) {
            last = ticket.previousLive;
        } else {
            ticket.nextLive.previousLive = ticket.previousLive;
        }
        ticket.previousLive = ticket.nextLive = null;
        count--;
    }
}
