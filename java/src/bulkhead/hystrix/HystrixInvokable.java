package bulkhead.hystrix;

/**
 * What may be executed.
 *
 * @param <R> the type of its value
 */
public interface HystrixInvokable<R> {}
