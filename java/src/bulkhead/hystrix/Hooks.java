package bulkhead.hystrix;

import bulkhead.hystrix.exception.HystrixRuntimeException;
import bulkhead.hystrix.exception.HystrixRuntimeException.FailureType;
import bulkhead.hystrix.strategy.HystrixPlugins;
import bulkhead.hystrix.strategy.executionhook.HystrixCommandExecutionHook;
import bulkhead.hystrix.strategy.executionhook.HystrixCommandExecutionHookDefault;
import java.util.concurrent.Callable;

/** Calls the registered hook around executions. Where none was registered it costs a compare. */
final class Hooks {
    private static final Hooks NONE = new Hooks(null);

    private final HystrixCommandExecutionHook hook;

    private Hooks(HystrixCommandExecutionHook hook) {
        this.hook = hook;
    }

    static Hooks registered() {
        HystrixCommandExecutionHook hook = HystrixPlugins.getInstance().getCommandExecutionHook();
        return hook == HystrixCommandExecutionHookDefault.getInstance() ? NONE : new Hooks(hook);
    }

    /** Whether there is a hook to call. */
    boolean areThere() {
        return hook != null;
    }

    void start(AbstractCommand<?> command) {
        if (hook != null) {
            hook.onStart(command);
        }
    }

    /** A call that may share an answer was submitted. */
    void startOrHit(AbstractCommand<?> command, boolean isHit) {
        if (hook == null) {
            return;
        }
        if (isHit) {
            hook.onCacheHit(command);
        } else {
            hook.onStart(command);
        }
    }

    /** Runs a function of a command; what the hook raises counts as raised by the run. */
    <R> R run(AbstractCommand<R> command, Callable<R> function) throws Exception {
        if (hook == null) {
            return function.call();
        }
        boolean isInThread = command.command.values.isPooled;
        try {
            if (isInThread) {
                hook.onThreadStart(command);
            }
            hook.onExecutionStart(command);
            R value = hook.onExecutionEmit(command, function.call());
            hook.onExecutionSuccess(command);
            return value;
        } catch (Exception e) {
            throw replaced(hook.onExecutionError(command, e), e);
        } finally {
            if (isInThread) {
                hook.onThreadComplete(command);
            }
        }
    }

    /** Runs the fallback of a command; what the hook raises counts as raised by the fallback. */
    <R> R fallBack(AbstractCommand<R> command, Callable<R> function) throws Exception {
        if (hook == null) {
            return function.call();
        }
        try {
            hook.onFallbackStart(command);
            R value = hook.onFallbackEmit(command, function.call());
            hook.onFallbackSuccess(command);
            return value;
        } catch (UnsupportedOperationException missing) {
            throw missing;
        } catch (Exception e) {
            throw replaced(hook.onFallbackError(command, e), e);
        }
    }

    /** The value that a call gets. */
    <R> R emitted(AbstractCommand<R> command, R value) {
        if (hook == null || command.isResponseFromCache()) {
            return value;
        }
        try {
            R given = hook.onEmit(command, value);
            hook.onSuccess(command);
            return given;
        } catch (RuntimeException dropped) {
            return value;
        }
    }

    /** What a call raises. */
    Throwable failed(AbstractCommand<?> command, Throwable raised) {
        if (hook == null || command.isResponseFromCache() || !(raised instanceof Exception)) {
            return raised;
        }
        FailureType type = raised instanceof HystrixRuntimeException
                ? ((HystrixRuntimeException) raised).getFailureType()
                : FailureType.BAD_REQUEST_EXCEPTION;
        try {
            return replaced(hook.onError(command, type, (Exception) raised), (Exception) raised);
        } catch (RuntimeException dropped) {
            return raised;
        }
    }

    private static Exception replaced(Exception by, Exception e) {
        return by == null ? e : by;
    }
}
