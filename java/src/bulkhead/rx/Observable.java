package bulkhead.rx;

import bulkhead.rx.functions.Action0;
import bulkhead.rx.functions.Action1;
import bulkhead.rx.functions.Func0;
import bulkhead.rx.functions.Func1;
import bulkhead.rx.functions.Func2;
import bulkhead.rx.observables.BlockingObservable;
import java.util.ArrayList;
import java.util.Arrays;
import java.util.List;
import java.util.concurrent.CompletionException;
import java.util.concurrent.CompletionStage;

/**
 * What tells values to whoever subscribes: as much of RxJava's as commands are used with. There is no back pressure, and
 * nothing is undone where somebody unsubscribes.
 *
 * <p>An observable has no state of its own, and any thread may subscribe.
 *
 * @param <T> the type of the values
 */
public class Observable<T> {
    /**
     * What is called for each subscriber.
     *
     * @param <T> the type of the values
     */
    public interface OnSubscribe<T> extends Action1<Subscriber<? super T>> {}

    private final OnSubscribe<T> onSubscribe;

    /** An observable whose subscribers are handed to {@code onSubscribe}. */
    protected Observable(OnSubscribe<T> onSubscribe) {
        this.onSubscribe = onSubscribe;
    }

    // -- made of

    /** Returns an observable whose subscribers are handed to {@code onSubscribe}. */
    public static <T> Observable<T> create(OnSubscribe<T> onSubscribe) {
        return new Observable<>(onSubscribe);
    }

    /** Returns an observable of one value. */
    public static <T> Observable<T> just(T value) {
        return from(Arrays.asList(value));
    }

    /** Returns an observable without a value. */
    public static <T> Observable<T> empty() {
        return create(Observer::onCompleted);
    }

    /** Returns an observable that fails. */
    public static <T> Observable<T> error(Throwable e) {
        return create(to -> to.onError(e));
    }

    /** Returns an observable of values. */
    public static <T> Observable<T> from(Iterable<? extends T> values) {
        return create(to -> {
            for (T value : values) {
                if (to.isUnsubscribed()) {
                    return;
                }
                to.onNext(value);
            }
            to.onCompleted();
        });
    }

    /** Returns an observable of the one value of a stage. */
    public static <T> Observable<T> from(CompletionStage<? extends T> stage) {
        return create(to -> stage.whenComplete((value, e) -> {
            if (e == null) {
                to.onNext(value);
                to.onCompleted();
            } else {
                to.onError(e instanceof CompletionException && e.getCause() != null ? e.getCause() : e);
            }
        }));
    }

    /** Returns an observable that is made anew for each subscriber. */
    public static <T> Observable<T> defer(Func0<Observable<T>> factory) {
        return create(to -> factory.call().subscribe(to));
    }

    /** Returns an observable of all values of several, in the order in which they come; it fails with the first that does. */
    @SafeVarargs
    public static <T> Observable<T> merge(Observable<? extends T>... all) {
        return create(to -> {
            Merging<T> merging = new Merging<>(to, all.length);
            for (Observable<? extends T> one : all) {
                one.subscribe(merging);
            }
        });
    }

    /** Returns an observable of what a function gives for the first values of two, the second values, and so on. */
    public static <A, B, R> Observable<R> zip(
            Observable<? extends A> first, Observable<? extends B> second, Func2<? super A, ? super B, ? extends R> zip) {
        return create(to -> first.toList().subscribe(collected(to, as -> second.toList().subscribe(collected(to, bs -> {
            for (int at = 0; at < Math.min(as.size(), bs.size()); at++) {
                to.onNext(zip.call(as.get(at), bs.get(at)));
            }
            to.onCompleted();
        })))));
    }

    private static <T> Observer<T> collected(Observer<?> to, Action1<T> then) {
        return observer(then, to::onError, () -> { });
    }

    // -- changed

    /** Returns an observable of what a function gives for each value. */
    public <R> Observable<R> map(Func1<? super T, ? extends R> function) {
        return create(to -> subscribe(observer(value -> to.onNext(function.call(value)), to::onError, to::onCompleted)));
    }

    /** Returns an observable of the values that pass a test. */
    public Observable<T> filter(Func1<? super T, Boolean> test) {
        return create(to -> subscribe(observer(value -> {
            if (test.call(value)) {
                to.onNext(value);
            }
        }, to::onError, to::onCompleted)));
    }

    /** Returns an observable of all values of what a function gives for each value. */
    public <R> Observable<R> flatMap(Func1<? super T, ? extends Observable<? extends R>> function) {
        return create(to -> {
            Merging<R> merging = new Merging<>(to, 1);
            subscribe(observer(value -> {
                merging.addPart();
                function.call(value).subscribe(merging);
            }, merging::onError, merging::onCompleted));
        });
    }

    /** Returns an observable of one value, the list of all. */
    public Observable<List<T>> toList() {
        return create(to -> {
            List<T> all = new ArrayList<>();
            subscribe(observer(all::add, to::onError, () -> {
                to.onNext(all);
                to.onCompleted();
            }));
        });
    }

    /** Returns an observable that tells a value in place of a failure. */
    public Observable<T> onErrorReturn(Func1<Throwable, ? extends T> function) {
        return onErrorResumeNext(e -> just(function.call(e)));
    }

    /** Returns an observable that goes on with another one in place of a failure. */
    public Observable<T> onErrorResumeNext(Func1<Throwable, ? extends Observable<? extends T>> function) {
        return create(to -> subscribe(observer(
                to::onNext, e -> function.call(e).subscribe(observer(to::onNext, to::onError, to::onCompleted)), to::onCompleted)));
    }

    /** Returns an observable that does something with each value before it tells it. */
    public Observable<T> doOnNext(Action1<? super T> action) {
        return map(value -> {
            action.call(value);
            return value;
        });
    }

    /** Returns an observable that is subscribed to on a scheduler. */
    public Observable<T> subscribeOn(Scheduler scheduler) {
        return create(to -> scheduler.run(() -> subscribe(to)));
    }

    // -- subscribed to

    /** Has a subscriber told the values. What is raised meanwhile it is told as the failure. */
    public Subscription subscribe(Observer<? super T> to) {
        Subscriber<T> safe = new SafeSubscriber<>(to);
        try {
            onSubscribe.call(safe);
        } catch (RuntimeException e) {
            safe.onError(e);
        }
        return to instanceof Subscription ? (Subscription) to : safe;
    }

    /** Has the values passed over. */
    public Subscription subscribe() {
        return subscribe(value -> { });
    }

    /** Has something done with each value; a failure is raised in the thread that tells it. */
    public Subscription subscribe(Action1<? super T> onNext) {
        return subscribe(onNext, e -> {
            throw new IllegalStateException("nothing is done about a failure", e);
        });
    }

    /** Has something done with each value, and with a failure. */
    public Subscription subscribe(Action1<? super T> onNext, Action1<Throwable> onError) {
        return subscribe(onNext, onError, () -> { });
    }

    /** Has something done with each value, with a failure, and at the end. */
    public Subscription subscribe(Action1<? super T> onNext, Action1<Throwable> onError, Action0 onCompleted) {
        return subscribe(observer(onNext, onError, onCompleted));
    }

    /** Returns what waits for the values. */
    public BlockingObservable<T> toBlocking() {
        return BlockingObservable.from(this);
    }

    private static <T> Observer<T> observer(Action1<? super T> onNext, Action1<Throwable> onError, Action0 onCompleted) {
        return new Observer<T>() {
            @Override
            public void onCompleted() {
                onCompleted.call();
            }

            @Override
            public void onError(Throwable e) {
                onError.call(e);
            }

            @Override
            public void onNext(T value) {
                onNext.call(value);
            }
        };
    }
}
