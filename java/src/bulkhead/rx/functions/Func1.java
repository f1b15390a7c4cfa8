package bulkhead.rx.functions;

/**
 * A function of an argument.
 *
 * @param <T> the type of the argument
 * @param <R> the type of its value
 */
public interface Func1<T, R> {
    /** Returns the value. */
    R call(T t);
}
