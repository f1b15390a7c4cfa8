package bulkhead.rx;

/**
 * An observer that may ask for no further signals.
 *
 * @param <T> the type of the values
 */
public abstract class Subscriber<T> implements Observer<T>, Subscription {
    private volatile boolean isUnsubscribed;

    /** A subscriber that asks for signals. */
    protected Subscriber() {}

    @Override
    public final boolean isUnsubscribed() {
        return isUnsubscribed;
    }

    @Override
    public final void unsubscribe() {
        isUnsubscribed = true;
    }
}
