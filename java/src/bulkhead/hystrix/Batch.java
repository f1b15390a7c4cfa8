package bulkhead.hystrix;

import bulkhead.hystrix.HystrixCollapser.CollapsedRequest;
import bulkhead.hystrix.strategy.concurrency.HystrixRequestContext;
import java.util.ArrayList;
import java.util.Collection;
import java.util.HashMap;
import java.util.List;
import java.util.Map;
import java.util.concurrent.CompletableFuture;

/** Requests that become one command. They are added under a lock, and one thread sends them. */
final class Batch<B, R, A> {
    private final HystrixCollapser<B, R, A> collapser;
    private final HystrixRequestContext context;
    private final List<CollapsedRequest<R, A>> requests = new ArrayList<>();
    private final Map<String, CompletableFuture<R>> byCacheKey = new HashMap<>();

    /** An empty batch, which the functions of a collapser send in a request; that may be null. */
    Batch(HystrixCollapser<B, R, A> collapser, HystrixRequestContext context) {
        this.collapser = collapser;
        this.context = context;
    }

    int size() {
        return requests.size();
    }

    /** Adds a request, unless there is one of its cache key, and returns the promise of its value. */
    CompletableFuture<R> add(A argument, String cacheKey) {
        CompletableFuture<R> known = cacheKey == null ? null : byCacheKey.get(cacheKey);
        if (known != null) {
            return known;
        }
        Request<R, A> request = new Request<>(argument);
        requests.add(request);
        if (cacheKey != null) {
            byCacheKey.put(cacheKey, request);
        }
        return request;
    }

    /** Executes the commands of the batch, and answers each request. */
    void send() {
        HystrixRequestContext.setContextOnCurrentThread(context);
        try {
            for (Collection<CollapsedRequest<R, A>> shard : collapser.shardRequests(requests)) {
                send(shard);
            }
        } catch (RuntimeException e) {
            fail(requests, e);
        } finally {
            HystrixRequestContext.setContextOnCurrentThread(null);
        }
    }

    private void send(Collection<CollapsedRequest<R, A>> shard) {
        try {
            collapser.mapResponseToRequests(collapser.createCommand(shard).execute(), shard);
            fail(shard, new IllegalStateException("No response set by " + collapser.getCollapserKey().name() + " 'mapResponseToRequests' implementation."));
        } catch (RuntimeException e) {
            fail(shard, e);
        }
    }

    /** Fails those that were not answered. */
    private static <R, A> void fail(Collection<CollapsedRequest<R, A>> requests, Exception e) {
        for (CollapsedRequest<R, A> request : requests) {
            ((Request<R, A>) request).completeExceptionally(e);
        }
    }

    private static final class Request<R, A> extends CompletableFuture<R> implements CollapsedRequest<R, A> {
        private final A argument;

        Request(A argument) {
            this.argument = argument;
        }

        @Override
        public A getArgument() {
            return argument;
        }

        @Override
        public void setResponse(R response) {
            checkIsFirst(complete(response));
        }

        @Override
        public void setException(Exception exception) {
            checkIsFirst(completeExceptionally(exception));
        }

        private void checkIsFirst(boolean isFirst) {
            if (!isFirst && !isCancelled()) {
                throw new IllegalStateException("Response has already been set: " + argument);
            }
        }
    }
}
