package bulkhead.hystrix.exception;

/** The cause of what a command raises that timed out. */
public class HystrixTimeoutException extends Exception {
    private static final long serialVersionUID = 1L;

    /** A timeout. */
    public HystrixTimeoutException() {}
}
