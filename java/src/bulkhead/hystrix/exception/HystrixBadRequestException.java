package bulkhead.hystrix.exception;

/** What a run raises where its request is bad: nothing counts it as an error, and there is no fallback. */
public class HystrixBadRequestException extends RuntimeException {
    private static final long serialVersionUID = 1L;

    /** A bad request, with what is wrong with it. */
    public HystrixBadRequestException(String message) {
        super(message);
    }

    /** A bad request, with what is wrong with it and why. */
    public HystrixBadRequestException(String message, Throwable cause) {
        super(message, cause);
    }
}
