package bulkhead.rx.functions;

/** What is done without an argument. */
public interface Action0 {
    /** Does it. */
    void call();
}
