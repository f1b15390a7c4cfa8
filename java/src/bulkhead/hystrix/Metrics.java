package bulkhead.hystrix;

/** What a Read tells of a command: where its numbers stand. */
final class Metrics {
    static final int CIRCUIT = 0;
    static final int ERRORS = 1;
    static final int TOTAL = 2;
    static final int PERCENT = 3;
    static final int BUSY = 4;
    static final int QUEUED = 5;
    static final int FREE = 6;
    /** The events of the rolling window, by the order of their names from here on. */
    static final int EVENTS = 7;

    /** The state of a circuit that lets calls pass. */
    static final long CLOSED = 1;

    private Metrics() {}

    /** The place of the count of an event; -1 where the core counts none. */
    static int placeOf(HystrixEventType type) {
        switch (type) {
            case BAD_REQUEST:
                return EVENTS;
            case EXCEPTION_THROWN:
                return EVENTS + 1;
            case FAILURE:
                return EVENTS + 2;
            case FALLBACK_FAILURE:
                return EVENTS + 3;
            case FALLBACK_MISSING:
                return EVENTS + 4;
            case FALLBACK_REJECTION:
                return EVENTS + 5;
            case FALLBACK_SUCCESS:
                return EVENTS + 6;
            case RESPONSE_FROM_CACHE:
                return EVENTS + 7;
            case SEMAPHORE_REJECTED:
                return EVENTS + 8;
            case SHORT_CIRCUITED:
                return EVENTS + 9;
            case SUCCESS:
                return EVENTS + 10;
            case THREAD_POOL_REJECTED:
                return EVENTS + 11;
            case TIMEOUT:
                return EVENTS + 12;
            default:
                return -1;
        }
    }

    /** Whether the next submit would find the circuit open: it is, or its health is as bad as that. */
    static boolean isOpen(long[] metrics, CommandValues values) {
        if (values.isForcedOpen || values.isForcedClosed || !values.hasCircuit) {
            return values.hasCircuit && values.isForcedOpen;
        }
        return metrics[CIRCUIT] != CLOSED
                || metrics[TOTAL] >= values.volume && metrics[PERCENT] >= values.percentage;
    }
}
