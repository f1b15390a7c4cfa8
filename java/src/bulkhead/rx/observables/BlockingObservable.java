package bulkhead.rx.observables;

import bulkhead.rx.Observable;
import bulkhead.rx.Observer;
import bulkhead.rx.functions.Action1;
import java.util.ArrayList;
import java.util.Iterator;
import java.util.List;
import java.util.NoSuchElementException;
import java.util.concurrent.CompletableFuture;
import java.util.concurrent.CompletionException;
import java.util.concurrent.ExecutionException;
import java.util.concurrent.Future;

/**
 * Waits for the values of an observable. Each method subscribes once. What the observable ends with is raised: a
 * {@code RuntimeException} or {@code Error} as it is, and others as the cause of a {@code RuntimeException}.
 *
 * @param <T> the type of the values
 */
public final class BlockingObservable<T> {
    private final Observable<? extends T> of;

    private BlockingObservable(Observable<? extends T> of) {
        this.of = of;
    }

    /** Returns what waits for the values of an observable. */
    public static <T> BlockingObservable<T> from(Observable<? extends T> of) {
        return new BlockingObservable<>(of);
    }

    /** Returns a future of the one value; its failure is that of {@link #single}. */
    public Future<T> toFuture() {
        return all().thenApply(BlockingObservable::single);
    }

    /**
     * Returns the one value.
     *
     * @throws NoSuchElementException where there is none
     * @throws IllegalArgumentException where there are several
     */
    public T single() {
        return single(waited());
    }

    /**
     * Returns the first value.
     *
     * @throws NoSuchElementException where there is none
     */
    public T first() {
        return some(waited()).get(0);
    }

    /** Returns the first value, or another one where there is none. */
    public T firstOrDefault(T other) {
        List<T> all = waited();
        return all.isEmpty() ? other : all.get(0);
    }

    /**
     * Returns the last value.
     *
     * @throws NoSuchElementException where there is none
     */
    public T last() {
        List<T> all = some(waited());
        return all.get(all.size() - 1);
    }

    /** Returns the values, in the order in which they came. */
    public Iterator<T> getIterator() {
        return waited().iterator();
    }

    /** Returns the values, in the order in which they came. */
    public Iterable<T> toIterable() {
        return waited();
    }

    /** Has something done with each value, in this thread. */
    public void forEach(Action1<? super T> action) {
        waited().forEach(action::call);
    }

    private List<T> waited() {
        try {
            return all().get();
        } catch (InterruptedException e) {
            Thread.currentThread().interrupt();
            throw new RuntimeException("Interrupted while waiting for subscription to complete.", e);
        } catch (ExecutionException e) {
            throw raised(e.getCause());
        }
    }

    private static RuntimeException raised(Throwable e) {
        if (e instanceof Error) {
            throw (Error) e;
        }
        return e instanceof RuntimeException && !(e instanceof CompletionException) ? (RuntimeException) e : new RuntimeException(e);
    }

    private CompletableFuture<List<T>> all() {
        CompletableFuture<List<T>> made = new CompletableFuture<>();
        List<T> values = new ArrayList<>();
        of.subscribe(new Observer<T>() {
            @Override
            public void onCompleted() {
                made.complete(values);
            }

            @Override
            public void onError(Throwable e) {
                made.completeExceptionally(e);
            }

            @Override
            public void onNext(T value) {
                values.add(value);
            }
        });
        return made;
    }

    private static <T> T single(List<T> all) {
        if (all.size() > 1) {
            throw new IllegalArgumentException("Sequence contains too many elements");
        }
        return some(all).get(0);
    }

    private static <T> List<T> some(List<T> all) {
        if (all.isEmpty()) {
            throw new NoSuchElementException("Sequence contains no elements");
        }
        return all;
    }
}
