package bulkhead.hystrix.exception;

import bulkhead.hystrix.HystrixInvokable;

/** What a command raises that has neither a value nor one of its fallback. Its cause is why the run gave no value. */
public class HystrixRuntimeException extends RuntimeException {
    private static final long serialVersionUID = 1L;

    /** Why there is no value. */
    public enum FailureType {
        /** The command was not used as it may be. */
        BAD_REQUEST_EXCEPTION,
        /** The run raised an exception. */
        COMMAND_EXCEPTION,
        /** The run timed out. */
        TIMEOUT,
        /** The circuit let no call pass. */
        SHORTCIRCUIT,
        /** The pool had neither a thread nor a place in its queue. */
        REJECTED_THREAD_EXECUTION,
        /** No permit was free. */
        REJECTED_SEMAPHORE_EXECUTION,
        /** No permit for a fallback was free. */
        REJECTED_SEMAPHORE_FALLBACK
    }

    private final FailureType failureType;
    private final transient Class<? extends HystrixInvokable<?>> implementingClass;
    private final Throwable fallbackException;

    /**
     * An exception of a command.
     *
     * @param implementingClass the class of the command
     * @param cause may be null
     * @param fallbackException what the fallback raised; may be null
     */
    @SuppressWarnings({"unchecked", "rawtypes"}) // Hystrix names the class without its type
    public HystrixRuntimeException(
            FailureType failureType,
            Class<? extends HystrixInvokable> implementingClass,
            String message,
            Throwable cause,
            Throwable fallbackException) {
        super(message, cause);
        this.failureType = failureType;
        this.implementingClass = (Class<? extends HystrixInvokable<?>>) implementingClass;
        this.fallbackException = fallbackException;
    }

    /** Returns why there is no value. */
    public FailureType getFailureType() {
        return failureType;
    }

    /** Returns the class of the command; null in an exception that was read from a stream. */
    @SuppressWarnings("rawtypes") // as Hystrix has it
    public Class<? extends HystrixInvokable> getImplementingClass() {
        return implementingClass;
    }

    /** Returns what the fallback raised, or null where none was run. */
    public Throwable getFallbackException() {
        return fallbackException;
    }
}
