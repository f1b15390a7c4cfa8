package bulkhead.hystrix;

import java.util.HashMap;
import java.util.Map;
import java.util.concurrent.atomic.AtomicLong;

/**
 * What the calls of one request share in one pool. The core knows a request and a cache key by a number each. A key that is
 * cleared gets a new number at its next call, and the answer of the old one keeps its slot until the request ends.
 *
 * <p>It is guarded by the lock of the pool.
 */
final class SharedKeys {
    private static final AtomicLong REQUESTS = new AtomicLong();

    /** A cache key of one command, and the latest ticket under it. */
    static final class Key {
        final long number;
        Ticket ticket;

        private Key(long number) {
            this.number = number;
        }
    }

    /** The number of the request. */
    final long context = REQUESTS.incrementAndGet();

    private final Map<String, Key> keys = new HashMap<>();
    private long given;
    private boolean isOver;

    /** The key of a command; null where the request has ended. */
    Key key(PoolCommand command, String cacheKey) {
        return isOver ? null : keys.computeIfAbsent(name(command, cacheKey), name -> new Key(given++));
    }

    void forget(PoolCommand command, String cacheKey) {
        keys.remove(name(command, cacheKey));
    }

    /** Ends the request here, and returns whether it had not ended before. */
    boolean end() {
        boolean isFirst = !isOver;
        isOver = true;
        keys.clear();
        return isFirst;
    }

    private static String name(PoolCommand command, String cacheKey) {
        return command.number + " " + cacheKey;
    }
}
