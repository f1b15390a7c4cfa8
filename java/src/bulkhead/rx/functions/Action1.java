package bulkhead.rx.functions;

/**
 * What is done with an argument.
 *
 * @param <T> the type of the argument
 */
public interface Action1<T> {
    /** Does it. */
    void call(T t);
}
