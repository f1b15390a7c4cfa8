package bulkhead.hystrix;

import java.util.List;

/**
 * What a command tells of itself and of its one execution. Any thread may ask. Until there is an answer nothing is said of
 * it: the answers are false, null or empty.
 *
 * @param <R> the type of its value
 */
public interface HystrixInvokableInfo<R> extends HystrixInvokable<R> {
    /** Returns the group of the command. */
    HystrixCommandGroupKey getCommandGroup();

    /** Returns the key of the command. */
    HystrixCommandKey getCommandKey();

    /** Returns the key of the thread pool, also where the command runs under permits. */
    HystrixThreadPoolKey getThreadPoolKey();

    /** Returns the key under which answers are shared in a request; null where they are not. */
    String getPublicCacheKey();

    /** Returns the metrics of all executions of the command. */
    HystrixCommandMetrics getMetrics();

    /** Returns the properties of the command. */
    HystrixCommandProperties getProperties();

    /** Returns whether the next call of the command would find its circuit open. */
    boolean isCircuitBreakerOpen();

    /** Returns whether there is an answer. */
    boolean isExecutionComplete();

    /** Returns whether the run was let into the thread pool. */
    boolean isExecutedInThread();

    /** Returns whether the run gave the value. */
    boolean isSuccessfulExecution();

    /** Returns whether the run raised an exception, other than of a bad request. */
    boolean isFailedExecution();

    /** Returns what the run raised, other than of a bad request; else null. */
    Throwable getFailedExecutionException();

    /** Returns what the run raised, also of a bad request; else null. */
    Throwable getExecutionException();

    /** Returns whether the fallback gave the value. */
    boolean isResponseFromFallback();

    /** Returns whether the run timed out. */
    boolean isResponseTimedOut();

    /** Returns whether the circuit let the call not pass. */
    boolean isResponseShortCircuited();

    /** Returns whether the answer is that of an earlier call of the request. */
    boolean isResponseFromCache();

    /** Returns whether there was no thread, no permit or no slot for the call. */
    boolean isResponseRejected();

    /** Returns whether there was no permit for the call. */
    boolean isResponseSemaphoreRejected();

    /** Returns whether there was no thread for the call. */
    boolean isResponseThreadPoolRejected();

    /** Returns what happened, in this order. The list cannot be changed. */
    List<HystrixEventType> getExecutionEvents();

    /** Returns the milliseconds from the begin of the run to its end or timeout; -1 where there was none of its own. */
    int getExecutionTimeInMilliseconds();
}
