package bulkhead.hystrix.strategy.executionhook;

import bulkhead.hystrix.HystrixInvokable;
import bulkhead.hystrix.exception.HystrixRuntimeException.FailureType;

/**
 * What is called while commands are executed. Methods are called from the threads of callers, workers and helpers, several at
 * a time. One that raises around a run has the run fail; elsewhere what it raises is dropped.
 */
public abstract class HystrixCommandExecutionHook {
    /** A hook that does nothing. */
    protected HystrixCommandExecutionHook() {}

    /** An execution begins, which shares no earlier answer. */
    public <T> void onStart(HystrixInvokable<T> command) {}

    /** A value is handed to whoever asked, and may be replaced. */
    public <T> T onEmit(HystrixInvokable<T> command, T value) {
        return value;
    }

    /** An execution ended without a value. Returns what its caller gets as the exception, or an exception beside it. */
    public <T> Exception onError(HystrixInvokable<T> command, FailureType failureType, Exception e) {
        return e;
    }

    /** An execution ended with a value. */
    public <T> void onSuccess(HystrixInvokable<T> command) {}

    /** A worker has taken the run. */
    public <T> void onThreadStart(HystrixInvokable<T> command) {}

    /** A worker is through with the run. */
    public <T> void onThreadComplete(HystrixInvokable<T> command) {}

    /** The run begins, in the thread that it runs in. */
    public <T> void onExecutionStart(HystrixInvokable<T> command) {}

    /** The run gave a value, which may be replaced. */
    public <T> T onExecutionEmit(HystrixInvokable<T> command, T value) {
        return value;
    }

    /** The run raised an exception, which may be replaced. */
    public <T> Exception onExecutionError(HystrixInvokable<T> command, Exception e) {
        return e;
    }

    /** The run gave its last value. */
    public <T> void onExecutionSuccess(HystrixInvokable<T> command) {}

    /** The fallback begins, in the thread that it runs in. */
    public <T> void onFallbackStart(HystrixInvokable<T> command) {}

    /** The fallback gave a value, which may be replaced. */
    public <T> T onFallbackEmit(HystrixInvokable<T> command, T value) {
        return value;
    }

    /** The fallback raised an exception, which may be replaced; not where there is no fallback. */
    public <T> Exception onFallbackError(HystrixInvokable<T> command, Exception e) {
        return e;
    }

    /** The fallback gave its last value. */
    public <T> void onFallbackSuccess(HystrixInvokable<T> command) {}

    /** A call shares the answer of an earlier one. */
    public <T> void onCacheHit(HystrixInvokable<T> command) {}
}
