package bulkhead.hystrix;

import bulkhead.hystrix.strategy.concurrency.HystrixRequestContext;
import bulkhead.hystrix.strategy.concurrency.HystrixRequestVariableDefault;
import java.util.Map;
import java.util.concurrent.ConcurrentHashMap;

/** What the calls of one request share, by the pools. Any thread may use it. */
final class RequestShares {
    private static final HystrixRequestVariableDefault<RequestShares> OF_REQUEST = new HystrixRequestVariableDefault<>() {
        @Override
        public RequestShares initialValue() {
            return new RequestShares();
        }

        @Override
        public void shutdown(RequestShares value) {
            if (Native.hasStack()) {
                value.end();
            } else {
                Helpers.run(value::end);
            }
        }
    };

    private final Map<Pool, SharedKeys> byPool = new ConcurrentHashMap<>(4);

    private RequestShares() {}

    /**
     * What the current request shares in a pool.
     *
     * @throws IllegalStateException where this thread has no request, or it was shut down
     */
    static SharedKeys current(Pool pool) {
        if (!HystrixRequestContext.isCurrentThreadInitialized()) {
            throw new IllegalStateException(
                    "Request caching is not available. Maybe you need to initialize the HystrixRequestContext?");
        }
        return OF_REQUEST.get().byPool.computeIfAbsent(pool, made -> new SharedKeys());
    }

    private void end() {
        byPool.forEach(Pool::endContext);
    }
}
