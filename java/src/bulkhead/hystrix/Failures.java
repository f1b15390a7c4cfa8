package bulkhead.hystrix;

import bulkhead.hystrix.exception.ExceptionNotWrappedByHystrix;
import bulkhead.hystrix.exception.HystrixBadRequestException;
import bulkhead.hystrix.exception.HystrixRuntimeException;
import bulkhead.hystrix.exception.HystrixRuntimeException.FailureType;
import bulkhead.hystrix.exception.HystrixTimeoutException;
import java.util.concurrent.CancellationException;
import java.util.concurrent.RejectedExecutionException;

/** What calls raise that have no value, with the words of Hystrix. */
final class Failures {
    private Failures() {}

    /** What a run raised, as an exception; the error itself where memory is refused for that. */
    static Throwable exceptionOf(Throwable raised) {
        try {
            return raised instanceof Exception ? raised : new Exception("Throwable caught while executing.", raised);
        } catch (VirtualMachineError e) {
            return raised;
        }
    }

    /** Whether no fallback may follow on what a run raised. */
    static boolean isUnrecoverable(Throwable raised) {
        Throwable cause = raised == null || raised instanceof Error ? raised : raised.getCause();
        return cause instanceof VirtualMachineError || cause instanceof ThreadDeath || cause instanceof LinkageError;
    }

    /** What a second execution of an instance raises. */
    static HystrixRuntimeException begunTwice(AbstractCommand<?> call) {
        Throwable cause = new IllegalStateException(
                "This instance can only be executed once. Please instantiate a new instance.");
        return made(call, FailureType.BAD_REQUEST_EXCEPTION, "command executed multiple times - this is not permitted.", cause, null);
    }

    /** What a caller raises who was interrupted while it waited. */
    static HystrixRuntimeException interrupted(AbstractCommand<?> call, InterruptedException e) {
        return made(call, FailureType.COMMAND_EXCEPTION, "failed while executing.", e, null);
    }

    /** Why a call has no value: the failure type is that of {@link #typeOf}. */
    static Throwable of(AbstractCommand<?> call) {
        switch (call.outcome()) {
            case Reply.ERROR:
                return ofError(call);
            case Reply.BAD_REQUEST:
                if (call.raised instanceof HystrixBadRequestException) {
                    return call.raised;
                }
                return made(call, FailureType.COMMAND_EXCEPTION, "was cancelled.", new CancellationException(), null);
            default:
                Throwable closed = new IllegalStateException("the service of the command was closed");
                return made(call, FailureType.COMMAND_EXCEPTION, "had no answer when its service was closed.", closed, null);
        }
    }

    private static Throwable ofError(AbstractCommand<?> call) {
        if (call.fallback == Reply.FALLBACK_REJECTED) {
            return made(call, FailureType.REJECTED_SEMAPHORE_FALLBACK, "fallback execution rejected.", null, null);
        }
        Throwable cause = causeOf(call);
        if (cause instanceof ExceptionNotWrappedByHystrix) {
            return cause;
        }
        String message = wordOf(call) + endOf(call);
        boolean hadFallback = call.fallback == Reply.FALLBACK_FAILED || call.fallback == Reply.FALLBACK_NOT_THERE;
        return made(call, typeOf(call), message, cause, hadFallback ? call.ticket.fallbackError : null);
    }

    private static HystrixRuntimeException made(
            AbstractCommand<?> call, FailureType type, String message, Throwable cause, Throwable ofFallback) {
        String text = call.command.key.name() + " " + message;
        return new HystrixRuntimeException(type, call.getClass(), text, cause, ofFallback);
    }

    /** The failure type of a call's cause. */
    static FailureType typeOf(AbstractCommand<?> call) {
        switch (call.cause) {
            case Reply.SHORT_CIRCUITED:
                return FailureType.SHORTCIRCUIT;
            case Reply.POOL_REJECTED:
                return FailureType.REJECTED_THREAD_EXECUTION;
            case Reply.SEMAPHORE_REJECTED:
                return FailureType.REJECTED_SEMAPHORE_EXECUTION;
            case Reply.TIMEOUT:
                return FailureType.TIMEOUT;
            default:
                return FailureType.COMMAND_EXCEPTION;
        }
    }

    private static String wordOf(AbstractCommand<?> call) {
        switch (call.cause) {
            case Reply.SHORT_CIRCUITED:
                return "short-circuited";
            case Reply.POOL_REJECTED:
                return "could not be queued for execution";
            case Reply.SEMAPHORE_REJECTED:
                return "could not acquire a semaphore for execution";
            case Reply.TIMEOUT:
                return "timed-out";
            default:
                return "failed";
        }
    }

    private static Throwable causeOf(AbstractCommand<?> call) {
        switch (call.cause) {
            case Reply.SHORT_CIRCUITED:
                return new RuntimeException("Hystrix circuit short-circuited and is OPEN");
            case Reply.POOL_REJECTED:
                return new RejectedExecutionException(
                        call.isFull ? "no slot of the pool is free" : "neither a thread nor a place in the queue is free");
            case Reply.SEMAPHORE_REJECTED:
                return new RuntimeException(
                        call.isFull ? "no slot of the command is free" : "could not acquire a semaphore for execution");
            case Reply.TIMEOUT:
                return new HystrixTimeoutException();
            default:
                return call.raised;
        }
    }

    private static String endOf(AbstractCommand<?> call) {
        if (call.fallback == Reply.FALLBACK_DISABLED) {
            return " and fallback disabled.";
        }
        if (call.cause == Reply.FAILURE && isUnrecoverable(call.raised)) {
            return " and encountered unrecoverable error.";
        }
        return call.fallback == Reply.FALLBACK_FAILED ? " and fallback failed." : " and no fallback available.";
    }
}
