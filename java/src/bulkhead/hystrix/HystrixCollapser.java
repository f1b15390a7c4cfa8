package bulkhead.hystrix;

import bulkhead.hystrix.exception.HystrixRuntimeException;
import bulkhead.hystrix.exception.HystrixRuntimeException.FailureType;
import bulkhead.hystrix.strategy.HystrixPlugins;
import bulkhead.rx.Observable;
import java.util.Collection;
import java.util.Collections;
import java.util.concurrent.CompletableFuture;
import java.util.concurrent.CompletionException;
import java.util.concurrent.ConcurrentHashMap;
import java.util.concurrent.Future;

/**
 * A request of which some, made within a few milliseconds, become one command. Batches are made by Java alone: the core
 * sees the command of a batch, and no requests.
 *
 * @param <B> the type of what a batch answers
 * @param <R> the type of the value of a request
 * @param <A> the type of the argument of a request
 */
public abstract class HystrixCollapser<B, R, A> implements HystrixExecutable<R>, HystrixObservable<R> {
    private static final ConcurrentHashMap<String, HystrixCollapserProperties> PROPERTIES = new ConcurrentHashMap<>();

    /** Which requests may be in one batch. */
    public enum Scope {
        /** Those of one {@link bulkhead.hystrix.strategy.concurrency.HystrixRequestContext}. */
        REQUEST,
        /** All. */
        GLOBAL
    }

    /**
     * A request in a batch. It is answered once; what comes later raises an {@link IllegalStateException}.
     *
     * @param <R> the type of its value
     * @param <A> the type of its argument
     */
    public interface CollapsedRequest<R, A> {
        /** Returns the argument. */
        A getArgument();

        /** Answers the request with a value, which may be null. */
        void setResponse(R response);

        /** Has whoever asked get this exception. */
        void setException(Exception exception);
    }

    private final HystrixCollapserKey key;
    private final Scope scope;
    private final HystrixCollapserProperties properties;

    /** A collapser of requests of one context, whose key is the name of its class. */
    protected HystrixCollapser() {
        this(Setter.withCollapserKey(null));
    }

    /** The same with a key; where it is null, the name of the class. */
    protected HystrixCollapser(HystrixCollapserKey collapserKey) {
        this(Setter.withCollapserKey(collapserKey));
    }

    /** A collapser that the setter describes. */
    protected HystrixCollapser(Setter setter) {
        key = setter.collapserKey == null
                ? HystrixCollapserKey.Factory.asKey(getClass().getName())
                : setter.collapserKey;
        scope = setter.scope;
        properties = PROPERTIES.computeIfAbsent(key.name(), name -> HystrixPlugins.getInstance()
                .getPropertiesStrategy().getCollapserProperties(key, setter.properties));
    }

    /** Returns the key. */
    public HystrixCollapserKey getCollapserKey() {
        return key;
    }

    /** Returns which requests may be in one batch. */
    public Scope getScope() {
        return scope;
    }

    /** Returns the argument of this request. */
    public abstract A getRequestArgument();

    /** Returns a new command that asks for all of a batch. */
    protected abstract HystrixCommand<B> createCommand(Collection<CollapsedRequest<R, A>> requests);

    /** Answers each request of a batch out of what its command answered. */
    protected abstract void mapResponseToRequests(B batchResponse, Collection<CollapsedRequest<R, A>> requests);

    /** Divides a batch into several, each of which becomes a command; here it stays one. */
    protected Collection<Collection<CollapsedRequest<R, A>>> shardRequests(Collection<CollapsedRequest<R, A>> requests) {
        return Collections.singletonList(requests);
    }

    /** Returns the key under which requests of one batch share a value; null, as here, where they do not. */
    protected String getCacheKey() {
        return null;
    }

    @Override
    public R execute() {
        try {
            return join().join();
        } catch (CompletionException e) {
            throw e.getCause() instanceof RuntimeException ? (RuntimeException) e.getCause() : wrapped(e.getCause());
        }
    }

    private RuntimeException wrapped(Throwable e) {
        String message = getClass().getSimpleName() + " HystrixCollapser failed while executing.";
        return new HystrixRuntimeException(FailureType.COMMAND_EXCEPTION, getClass(), message, e, null);
    }

    @Override
    public Future<R> queue() {
        return join();
    }

    @Override
    public Observable<R> observe() {
        return Observable.from(join());
    }

    @Override
    public Observable<R> toObservable() {
        return Observable.defer(this::observe);
    }

    private CompletableFuture<R> join() {
        String cacheKey = properties.requestCacheEnabled().get() ? getCacheKey() : null;
        return Batches.of(scope, key).join(this, cacheKey, properties);
    }

    /** What a collapser is made by. It is not made for several threads. */
    public static final class Setter {
        private final HystrixCollapserKey collapserKey;
        private Scope scope = Scope.REQUEST;
        private HystrixCollapserProperties.Setter properties;

        private Setter(HystrixCollapserKey collapserKey) {
            this.collapserKey = collapserKey;
        }

        /** Returns a setter with the key; where it is null, the key is the name of the class. */
        public static Setter withCollapserKey(HystrixCollapserKey collapserKey) {
            return new Setter(collapserKey);
        }

        /** Sets which requests may be in one batch. */
        public Setter andScope(Scope scope) {
            this.scope = scope;
            return this;
        }

        /** Sets properties, which system properties of the key go before. */
        public Setter andCollapserPropertiesDefaults(HystrixCollapserProperties.Setter propertiesDefaults) {
            properties = propertiesDefaults;
            return this;
        }
    }
}
