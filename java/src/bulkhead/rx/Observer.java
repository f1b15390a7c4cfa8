package bulkhead.rx;

/**
 * What is told values: {@link #onNext} any number of times, and then one of the others once. No two calls overlap.
 *
 * @param <T> the type of the values
 */
public interface Observer<T> {
    /** There are no further values. */
    void onCompleted();

    /** There are no further values, for this reason. */
    void onError(Throwable e);

    /** The next value, which may be null. */
    void onNext(T t);
}
