package bulkhead.rx.functions;

/**
 * A function without an argument.
 *
 * @param <R> the type of its value
 */
public interface Func0<R> {
    /** Returns the value. */
    R call();
}
