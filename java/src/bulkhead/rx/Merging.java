package bulkhead.rx;

/** Tells an observer the values of several observables, one at a time; its end comes behind the last of theirs. */
final class Merging<T> implements Observer<T> {
    private final Observer<? super T> to;
    private int left;
    private boolean isOver;

    /** Merges so many observables. */
    Merging(Observer<? super T> to, int parts) {
        this.to = to;
        left = parts;
        if (parts == 0) {
            isOver = true;
            to.onCompleted();
        }
    }

    /** One observable more will be merged. */
    synchronized void addPart() {
        left++;
    }


    @Override
    public synchronized void onNext(T value) {
        if (!isOver) {
            to.onNext(value);
        }
    }

    @Override
    public synchronized void onCompleted() {
        if (!isOver && --left == 0) {
            isOver = true;
            to.onCompleted();
        }
    }

    @Override
    public synchronized void onError(Throwable e) {
        if (!isOver) {
            isOver = true;
            to.onError(e);
        }
    }
}
