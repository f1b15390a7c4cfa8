package bulkhead.hystrix;

/** The parts of a reply, as the natives pack it into a {@code long} of 0 or above. */
final class Reply {
    // which reply it is
    static final int QUEUED = 1;
    static final int INLINE = 2;
    static final int FALLBACK_DUE = 3;
    static final int JOINED = 4;
    static final int GROUP_FULL = 5;
    static final int ASSIGNED = 6;
    static final int OK = 8;
    static final int EXPIRED = 11;
    static final int RUN_FALLBACK = 13;
    static final int VALUE = 14;
    static final int FALLBACK_VALUE = 15;
    static final int ERROR = 16;
    static final int BAD_REQUEST = 17;
    static final int CLOSED = 20;
    static final int METRICS = 21;
    static final int WORN = 22;
    static final int TUNED = 25;

    // why a fallback is due
    static final int SHORT_CIRCUITED = 1;
    static final int POOL_REJECTED = 2;
    static final int SEMAPHORE_REJECTED = 3;
    static final int FAILURE = 4;
    static final int TIMEOUT = 5;

    // why no fallback gave a value
    static final int FALLBACK_FAILED = 1;
    static final int FALLBACK_REJECTED = 2;
    static final int FALLBACK_NOT_THERE = 3;
    static final int FALLBACK_DISABLED = 4;

    private Reply() {}

    static int kind(long reply) {
        return (int) reply & 31;
    }

    static int cause(long reply) {
        return (int) reply >> 5 & 7;
    }

    static int fallback(long reply) {
        return (int) reply >> 8 & 7;
    }

    static int command(long reply) {
        return (int) reply >> 11 & 15;
    }

    /** The kind of the reply to the step before, where {@link Native#endAndCollect} made two; else 0. */
    static int before(long reply) {
        return (int) reply >> 15 & 31;
    }

    /** A ticket, or how many there were. */
    static long number(long reply) {
        return reply >>> 20;
    }
}
