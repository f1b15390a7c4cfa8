package bulkhead.hystrix.exception;

/** An exception that a command raises as it is, in place of one that has it as its cause. */
public interface ExceptionNotWrappedByHystrix {}
