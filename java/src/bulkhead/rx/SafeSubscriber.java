package bulkhead.rx;

/** Tells an observer what it has asked for: nothing behind the end, nothing once it unsubscribed, and what it raises itself. */
final class SafeSubscriber<T> extends Subscriber<T> {
    private final Observer<? super T> to;
    private final Subscription asked;
    private boolean isOver;

    SafeSubscriber(Observer<? super T> to) {
        this.to = to;
        asked = to instanceof Subscription ? (Subscription) to : this;
    }

    private boolean isDeaf() {
        return isOver || isUnsubscribed() || asked.isUnsubscribed();
    }

    @Override
    public void onNext(T value) {
        if (isDeaf()) {
            return;
        }
        try {
            to.onNext(value);
        } catch (RuntimeException e) {
            onError(e);
        }
    }

    @Override
    public void onCompleted() {
        if (!isDeaf()) {
            isOver = true;
            to.onCompleted();
        }
    }

    @Override
    public void onError(Throwable e) {
        if (!isDeaf()) {
            isOver = true;
            to.onError(e);
        }
    }
}
