package bulkhead.hystrix;

/** What may happen in an execution. */
public enum HystrixEventType {
    EMIT(false),
    SUCCESS(true),
    FAILURE(false),
    TIMEOUT(false),
    BAD_REQUEST(true),
    SHORT_CIRCUITED(false),
    THREAD_POOL_REJECTED(false),
    SEMAPHORE_REJECTED(false),
    FALLBACK_EMIT(false),
    FALLBACK_SUCCESS(true),
    FALLBACK_FAILURE(true),
    FALLBACK_REJECTION(true),
    FALLBACK_DISABLED(true),
    FALLBACK_MISSING(true),
    EXCEPTION_THROWN(false),
    COMMAND_MAX_ACTIVE(false),
    CANCELLED(true),
    COLLAPSED(false),
    RESPONSE_FROM_CACHE(true);

    private final boolean isTerminal;

    HystrixEventType(boolean isTerminal) {
        this.isTerminal = isTerminal;
    }

    /** Returns whether nothing comes behind it in an execution. */
    public boolean isTerminal() {
        return isTerminal;
    }
}
