package bulkhead.hystrix;

import bulkhead.rx.Observable;

/**
 * What may be observed.
 *
 * @param <R> the type of its values
 */
public interface HystrixObservable<R> extends HystrixInvokable<R> {
    /** Begins the execution, and returns what tells the values to each who subscribes, also later. */
    Observable<R> observe();

    /** Returns what begins the execution when somebody subscribes. */
    Observable<R> toObservable();
}
