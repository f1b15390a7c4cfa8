package bulkhead.rx.functions;

/**
 * A function of two arguments.
 *
 * @param <A> the type of the first argument
 * @param <B> the type of the second argument
 * @param <R> the type of its value
 */
public interface Func2<A, B, R> {
    /** Returns the value. */
    R call(A a, B b);
}
