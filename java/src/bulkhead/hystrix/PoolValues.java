package bulkhead.hystrix;

/** The values of a thread pool's properties that may change while it is open, each read once. */
final class PoolValues {
    final int core;
    final int queueThreshold;

    /**
     * Reads the properties.
     *
     * @throws IllegalArgumentException where one is out of its range
     */
    PoolValues(HystrixThreadPoolProperties of) {
        core = (int) Tunable.CORE.number(of.coreSize().get());
        queueThreshold = (int) Tunable.QUEUE_THRESHOLD.number(of.queueSizeRejectionThreshold().get());
    }
}
