package bulkhead.rx.subjects;

import bulkhead.rx.Observable;
import bulkhead.rx.Observer;
import bulkhead.rx.Subscriber;
import java.util.ArrayList;
import java.util.List;

/**
 * Keeps each signal that it is told, and tells all of them to each who subscribes, now or later. Any thread may tell it
 * signals. No lock is held while a subscriber is told.
 *
 * @param <T> the type of the values
 */
public final class ReplaySubject<T> extends Observable<T> implements Observer<T> {
    private final Log<T> log;

    private ReplaySubject(Log<T> log) {
        super(log::subscribe);
        this.log = log;
    }

    /** Returns a subject that was told nothing yet. */
    public static <T> ReplaySubject<T> create() {
        return new ReplaySubject<>(new Log<>());
    }

    @Override
    public void onNext(T value) {
        log.add(to -> to.onNext(value));
    }

    @Override
    public void onCompleted() {
        log.add(Observer::onCompleted);
    }

    @Override
    public void onError(Throwable e) {
        log.add(to -> to.onError(e));
    }

    private interface Signal<T> {
        void tell(Observer<? super T> to);
    }

    private static final class Log<T> {
        private final List<Signal<T>> signals = new ArrayList<>();
        private final List<Reader<T>> readers = new ArrayList<>();

        void subscribe(Subscriber<? super T> to) {
            Reader<T> reader = new Reader<>(to);
            synchronized (this) {
                readers.add(reader);
            }
            tell(reader);
        }

        void add(Signal<T> signal) {
            List<Reader<T>> told;
            synchronized (this) {
                signals.add(signal);
                told = new ArrayList<>(readers);
            }
            told.forEach(this::tell);
        }

        /** Tells a reader what it was not told, unless another thread is at that. */
        private void tell(Reader<T> reader) {
            for (Signal<T> signal; (signal = next(reader)) != null; ) {
                signal.tell(reader.to);
                synchronized (this) {
                    reader.isTold = false;
                }
            }
        }

        private synchronized Signal<T> next(Reader<T> reader) {
            if (reader.isTold || reader.at == signals.size()) {
                return null;
            }
            reader.isTold = true;
            return signals.get(reader.at++);
        }
    }

    private static final class Reader<T> {
        final Subscriber<? super T> to;
        int at;
        boolean isTold;

        Reader(Subscriber<? super T> to) {
            this.to = to;
        }
    }
}
