package bulkhead.rx;

/** What an observer holds of what it observes. Any thread may use it. */
public interface Subscription {
    /** Asks for no further signals. The run behind them goes on. */
    void unsubscribe();

    /** Returns whether no further signals are asked for. */
    boolean isUnsubscribed();
}
