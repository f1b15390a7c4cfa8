package bulkhead.hystrix;

import java.util.function.Function;

/**
 * A property of commands, thread pools or collapsers: its path behind {@code hystrix.command.KEY.} and the like, how its
 * value is read from text, and the value that is built in.
 *
 * @param <T> the type of its value
 */
final class Property<T> {
    // of a command
    static final Property<String> STRATEGY = text("execution.isolation.strategy", "THREAD");
    static final Property<Integer> TIMEOUT = number("execution.isolation.thread.timeoutInMilliseconds", 1000);
    static final Property<Boolean> IS_TIMED = flag("execution.timeout.enabled", true);
    static final Property<Boolean> INTERRUPTS_ON_TIMEOUT = flag("execution.isolation.thread.interruptOnTimeout", true);
    static final Property<Boolean> INTERRUPTS_ON_CANCEL = flag("execution.isolation.thread.interruptOnFutureCancel", false);
    static final Property<Integer> PERMITS = number("execution.isolation.semaphore.maxConcurrentRequests", 10);
    static final Property<Integer> FALLBACK_PERMITS = number("fallback.isolation.semaphore.maxConcurrentRequests", 10);
    static final Property<Boolean> HAS_FALLBACK = flag("fallback.enabled", true);
    static final Property<Boolean> HAS_CIRCUIT = flag("circuitBreaker.enabled", true);
    static final Property<Integer> VOLUME = number("circuitBreaker.requestVolumeThreshold", 20);
    static final Property<Integer> SLEEP_WINDOW = number("circuitBreaker.sleepWindowInMilliseconds", 5000);
    static final Property<Integer> PERCENTAGE = number("circuitBreaker.errorThresholdPercentage", 50);
    static final Property<Boolean> IS_FORCED_OPEN = flag("circuitBreaker.forceOpen", false);
    static final Property<Boolean> IS_FORCED_CLOSED = flag("circuitBreaker.forceClosed", false);
    static final Property<Integer> WINDOW = number("metrics.rollingStats.timeInMilliseconds", 10_000);
    static final Property<Integer> BUCKETS = number("metrics.rollingStats.numBuckets", 10);
    static final Property<Boolean> HAS_PERCENTILES = flag("metrics.rollingPercentile.enabled", true);
    static final Property<Integer> PERCENTILE_WINDOW = number("metrics.rollingPercentile.timeInMilliseconds", 60_000);
    static final Property<Integer> PERCENTILE_BUCKETS = number("metrics.rollingPercentile.numBuckets", 6);
    static final Property<Integer> PERCENTILE_BUCKET_SIZE = number("metrics.rollingPercentile.bucketSize", 100);
    static final Property<Integer> HEALTH_INTERVAL = number("metrics.healthSnapshot.intervalInMilliseconds", 500);
    static final Property<Boolean> IS_CACHED = flag("requestCache.enabled", true);
    static final Property<Boolean> IS_LOGGED = flag("requestLog.enabled", true);
    static final Property<String> POOL_KEY = text("threadPoolKeyOverride", null);

    // of a thread pool
    static final Property<Integer> CORE = number("coreSize", 10);
    static final Property<Integer> MAXIMUM = number("maximumSize", 10);
    static final Property<Boolean> IS_MAXIMUM_ALLOWED = flag("allowMaximumSizeToDivergeFromCoreSize", false);
    static final Property<Integer> KEEP_ALIVE = number("keepAliveTimeMinutes", 1);
    static final Property<Integer> MAX_QUEUE = number("maxQueueSize", -1);
    static final Property<Integer> QUEUE_THRESHOLD = number("queueSizeRejectionThreshold", 5);

    // of a collapser
    static final Property<Integer> MAX_BATCH = number("maxRequestsInBatch", Integer.MAX_VALUE);
    static final Property<Integer> TIMER_DELAY = number("timerDelayInMilliseconds", 10);

    final String path;
    final T builtIn;
    private final Function<String, T> read;

    private Property(String path, Function<String, T> read, T builtIn) {
        this.path = path;
        this.read = read;
        this.builtIn = builtIn;
    }

    private static Property<Integer> number(String path, Integer builtIn) {
        return new Property<>(path, Integer::valueOf, builtIn);
    }

    private static Property<Boolean> flag(String path, Boolean builtIn) {
        return new Property<>(path, Boolean::valueOf, builtIn);
    }

    private static Property<String> text(String path, String builtIn) {
        return new Property<>(path, Function.identity(), builtIn);
    }

    /**
     * The value that {@link WatchedProperties} have of the name now, or null where there is none.
     *
     * @throws IllegalArgumentException where the text is no value of the property's type
     */
    T said(String name) {
        String text = WatchedProperties.get(name);
        if (text == null) {
            return null;
        }
        try {
            return read.apply(text.trim());
        } catch (NumberFormatException e) {
            throw new IllegalArgumentException(name + " is no whole number: " + text, e);
        }
    }
}
