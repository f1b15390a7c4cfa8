package bulkhead.hystrix;

import bulkhead.rx.Observable;
import java.util.concurrent.Future;

/**
 * What may be executed once, in one of three ways.
 *
 * @param <R> the type of its value
 */
public interface HystrixExecutable<R> extends HystrixInvokable<R> {
    /**
     * Executes it, and waits for the value.
     *
     * @throws bulkhead.hystrix.exception.HystrixRuntimeException where there is neither a value nor one of the fallback
     * @throws bulkhead.hystrix.exception.HystrixBadRequestException where the request is bad
     */
    R execute();

    /**
     * Begins the execution, and returns a future of the value.
     *
     * @throws bulkhead.hystrix.exception.HystrixRuntimeException where it is refused and no fallback gives a value
     */
    Future<R> queue();

    /** Begins the execution, and returns what tells the value to each who subscribes, also later. */
    Observable<R> observe();
}
