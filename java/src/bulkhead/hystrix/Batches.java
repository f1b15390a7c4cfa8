package bulkhead.hystrix;

import bulkhead.hystrix.HystrixCollapser.Scope;
import bulkhead.hystrix.strategy.concurrency.HystrixRequestContext;
import bulkhead.hystrix.strategy.concurrency.HystrixRequestVariableDefault;
import java.util.Map;
import java.util.concurrent.CompletableFuture;
import java.util.concurrent.ConcurrentHashMap;
import java.util.concurrent.ScheduledExecutorService;
import java.util.concurrent.TimeUnit;

/** The batch that requests of one collapser join, in one context or in all. Any thread may use it. */
final class Batches {
    private static final ScheduledExecutorService TIMER = Helpers.timer("hystrix-collapser-timer");
    private static final Map<String, Batches> OF_ALL = new ConcurrentHashMap<>();
    private static final HystrixRequestVariableDefault<Map<String, Batches>> OF_REQUEST = new HystrixRequestVariableDefault<>() {
        @Override
        public Map<String, Batches> initialValue() {
            return new ConcurrentHashMap<>();
        }
    };

    private Batch<?, ?, ?> open;

    private Batches() {}

    /**
     * The batches of a collapser.
     *
     * @throws IllegalStateException where they are those of a context, and this thread has none, or it was shut down
     */
    static Batches of(Scope scope, HystrixCollapserKey key) {
        Map<String, Batches> all = scope == Scope.GLOBAL ? OF_ALL : OF_REQUEST.get();
        return all.computeIfAbsent(key.name(), made -> new Batches());
    }

    /** Puts a request into the batch that is open, and returns the promise of its value. */
    @SuppressWarnings("unchecked") // the batches of a key are of one collapser's type
    synchronized <B, R, A> CompletableFuture<R> join(
            HystrixCollapser<B, R, A> request, String cacheKey, HystrixCollapserProperties properties) {
        Batch<B, R, A> batch = (Batch<B, R, A>) open;
        if (batch == null) {
            batch = new Batch<>(request, HystrixRequestContext.getContextForCurrentThread());
            open = batch;
            Batch<B, R, A> made = batch;
            TIMER.schedule(() -> send(made), properties.timerDelayInMilliseconds().get(), TimeUnit.MILLISECONDS);
        }
        CompletableFuture<R> promise = batch.add(request.getRequestArgument(), cacheKey);
        if (batch.size() >= properties.maxRequestsInBatch().get()) {
            send(batch);
        }
        return promise;
    }

    /** Has a helper send a batch, where that was not done. */
    private synchronized void send(Batch<?, ?, ?> batch) {
        if (open == batch) {
            open = null;
            Helpers.run(batch::send);
        }
    }
}
