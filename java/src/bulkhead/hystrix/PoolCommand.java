package bulkhead.hystrix;

/** A command of a pool, under a number. Its tickets, times and count are guarded by the lock of the pool. */
final class PoolCommand {
    final Pool pool;
    final int number;
    final HystrixCommandKey key;
    final HystrixCommandGroupKey group;
    final HystrixThreadPoolKey poolKey;
    final HystrixCommandProperties properties;
    /** The values in force; they change under the lock of the pool. */
    volatile CommandValues values;
    /** Whether its values are still those of the spare command whose number it has. */
    boolean isNew = true;
    final LiveTickets live = new LiveTickets();
    final RunTimes times = new RunTimes();
    /** How many calls found no slot free, of which the core keeps no count. */
    long fullCount;

    PoolCommand(Pool pool, int number, CommandDescription of, CommandValues values) {
        this.pool = pool;
        this.number = number;
        key = of.key;
        group = of.group;
        poolKey = of.poolKey;
        properties = of.properties;
        this.values = values;
    }

    /** Whether the next submit would find the circuit open. It is asked outside of the lock. */
    boolean isCircuitOpen() {
        long[] metrics = pool.read(this);
        return metrics != null && Metrics.isOpen(metrics, values);
    }
}
