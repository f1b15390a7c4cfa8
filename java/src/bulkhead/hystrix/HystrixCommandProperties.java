package bulkhead.hystrix;

import bulkhead.hystrix.strategy.properties.HystrixProperty;

/**
 * The properties of a command. What holds is, in
 * this order: the system property {@code hystrix.command.KEY.PATH}, what {@link Setter} was given, the system property
 * {@code hystrix.command.default.PATH}, and what is built in.
 *
 * <p>A property tells what is said when it is asked. {@link WatchedProperties} tells when a command goes by that; it goes by
 * the strategy, the thread pool, the window and the buckets of its first instance. Any thread may ask for values.
 */
public abstract class HystrixCommandProperties {
    /** Where a command runs. */
    public enum ExecutionIsolationStrategy {
        /** In a thread of its pool. */
        THREAD,
        /** In its caller's thread, under permits. */
        SEMAPHORE
    }

    private final PropertyValues values;

    /** The properties of a key for which nothing was set. */
    protected HystrixCommandProperties(HystrixCommandKey key) {
        this(key, new Setter(), "hystrix");
    }

    /** The properties of a key, with what was set. */
    protected HystrixCommandProperties(HystrixCommandKey key, Setter builder) {
        this(key, builder, "hystrix");
    }

    /** The same, with another word than {@code hystrix} in front of the system properties. */
    protected HystrixCommandProperties(HystrixCommandKey key, Setter builder, String propertyPrefix) {
        values = new PropertyValues(propertyPrefix + ".command", key.name(), builder == null ? new Given() : builder.given);
    }

    /** Returns a setter to which nothing was given yet. */
    public static Setter Setter() {
        return new Setter();
    }

    /** Where the command runs. */
    public HystrixProperty<ExecutionIsolationStrategy> executionIsolationStrategy() {
        HystrixProperty<String> name = values.property(Property.STRATEGY);
        return () -> ExecutionIsolationStrategy.valueOf(name.get());
    }

    /** After how many milliseconds from its begin a command times out, 0 to 2,147,483,647. */
    public HystrixProperty<Integer> executionTimeoutInMilliseconds() {
        return values.property(Property.TIMEOUT);
    }

    /** Whether a command times out. */
    public HystrixProperty<Boolean> executionTimeoutEnabled() {
        return values.property(Property.IS_TIMED);
    }

    /** Whether a run in the pool that timed out is interrupted. */
    public HystrixProperty<Boolean> executionIsolationThreadInterruptOnTimeout() {
        return values.property(Property.INTERRUPTS_ON_TIMEOUT);
    }

    /** Whether a run in the pool is interrupted where its future is cancelled so. */
    public HystrixProperty<Boolean> executionIsolationThreadInterruptOnFutureCancel() {
        return values.property(Property.INTERRUPTS_ON_CANCEL);
    }

    /** How many runs may go on at a time under SEMAPHORE, 0 to 2,147,483,647. */
    public HystrixProperty<Integer> executionIsolationSemaphoreMaxConcurrentRequests() {
        return values.property(Property.PERMITS);
    }

    /** How many fallbacks may go on at a time, 0 to 2,147,483,647. */
    public HystrixProperty<Integer> fallbackIsolationSemaphoreMaxConcurrentRequests() {
        return values.property(Property.FALLBACK_PERMITS);
    }

    /** Whether a fallback is run. */
    public HystrixProperty<Boolean> fallbackEnabled() {
        return values.property(Property.HAS_FALLBACK);
    }

    /** Whether there is a circuit breaker. */
    public HystrixProperty<Boolean> circuitBreakerEnabled() {
        return values.property(Property.HAS_CIRCUIT);
    }

    /** Below how many runs in the window the circuit does not open, 0 to 2,147,483,647. */
    public HystrixProperty<Integer> circuitBreakerRequestVolumeThreshold() {
        return values.property(Property.VOLUME);
    }

    /** How many milliseconds an open circuit lets no call pass, 0 to 2,147,483,647. */
    public HystrixProperty<Integer> circuitBreakerSleepWindowInMilliseconds() {
        return values.property(Property.SLEEP_WINDOW);
    }

    /** From how many errors of a hundred runs on the circuit opens, 0 to 100. */
    public HystrixProperty<Integer> circuitBreakerErrorThresholdPercentage() {
        return values.property(Property.PERCENTAGE);
    }

    /** Whether no call passes. */
    public HystrixProperty<Boolean> circuitBreakerForceOpen() {
        return values.property(Property.IS_FORCED_OPEN);
    }

    /** Whether each call passes. */
    public HystrixProperty<Boolean> circuitBreakerForceClosed() {
        return values.property(Property.IS_FORCED_CLOSED);
    }

    /** How many milliseconds the window of the counts has, 1 to 3,600,000, a multiple of its buckets. */
    public HystrixProperty<Integer> metricsRollingStatisticalWindowInMilliseconds() {
        return values.property(Property.WINDOW);
    }

    /** How many buckets that window has, 1 to 60. */
    public HystrixProperty<Integer> metricsRollingStatisticalWindowBuckets() {
        return values.property(Property.BUCKETS);
    }

    /** Whether the times of runs are kept. */
    public HystrixProperty<Boolean> metricsRollingPercentileEnabled() {
        return values.property(Property.HAS_PERCENTILES);
    }

    /** Can be said, and has no effect. */
    public HystrixProperty<Integer> metricsRollingPercentileWindowInMilliseconds() {
        return values.property(Property.PERCENTILE_WINDOW);
    }

    /** Can be said, and has no effect. */
    public HystrixProperty<Integer> metricsRollingPercentileWindowBuckets() {
        return values.property(Property.PERCENTILE_BUCKETS);
    }

    /** Can be said, and has no effect. */
    public HystrixProperty<Integer> metricsRollingPercentileBucketSize() {
        return values.property(Property.PERCENTILE_BUCKET_SIZE);
    }

    /** For how many milliseconds the circuit breaker goes by one count of health, 0 to 2,147,483,647. */
    public HystrixProperty<Integer> metricsHealthSnapshotIntervalInMilliseconds() {
        return values.property(Property.HEALTH_INTERVAL);
    }

    /** Whether calls of one request share answers. */
    public HystrixProperty<Boolean> requestCacheEnabled() {
        return values.property(Property.IS_CACHED);
    }

    /** Whether calls are noted in the log of their request. */
    public HystrixProperty<Boolean> requestLogEnabled() {
        return values.property(Property.IS_LOGGED);
    }

    /** The same as {@link #executionTimeoutInMilliseconds}. */
    @Deprecated
    public HystrixProperty<Integer> executionIsolationThreadTimeoutInMilliseconds() {
        return executionTimeoutInMilliseconds();
    }

    /** The same as {@link #metricsRollingPercentileWindowInMilliseconds}. */
    @Deprecated
    public HystrixProperty<Integer> metricsRollingPercentileWindow() {
        return metricsRollingPercentileWindowInMilliseconds();
    }

    /** The name of the thread pool in place of that which the command names; null where there is none. */
    public HystrixProperty<String> executionIsolationThreadPoolKeyOverride() {
        return values.property(Property.POOL_KEY);
    }

    /**
     * What the properties of a command are by its code. Whoever makes it hands it on; it is not made for several threads.
     * Each value has to lie in the range of its property, which is looked at when the first instance of the command is made.
     */
    public static class Setter {
        final Given given = new Given();

        Setter() {}

        /** Sets {@link HystrixCommandProperties#executionIsolationStrategy}. */
        public Setter withExecutionIsolationStrategy(ExecutionIsolationStrategy value) {
            return with(Property.STRATEGY, value.name());
        }

        /** Returns what was set, or null. */
        public ExecutionIsolationStrategy getExecutionIsolationStrategy() {
            String name = given.get(Property.STRATEGY);
            return name == null ? null : ExecutionIsolationStrategy.valueOf(name);
        }

        /** Sets {@link HystrixCommandProperties#executionTimeoutInMilliseconds}. */
        public Setter withExecutionTimeoutInMilliseconds(int value) {
            return with(Property.TIMEOUT, value);
        }

        /** Returns what was set, or null. */
        public Integer getExecutionTimeoutInMilliseconds() {
            return given.get(Property.TIMEOUT);
        }

        /** Sets {@link HystrixCommandProperties#executionTimeoutEnabled}. */
        public Setter withExecutionTimeoutEnabled(boolean value) {
            return with(Property.IS_TIMED, value);
        }

        /** Returns what was set, or null. */
        public Boolean getExecutionTimeoutEnabled() {
            return given.get(Property.IS_TIMED);
        }

        /** Sets {@link HystrixCommandProperties#executionIsolationThreadInterruptOnTimeout}. */
        public Setter withExecutionIsolationThreadInterruptOnTimeout(boolean value) {
            return with(Property.INTERRUPTS_ON_TIMEOUT, value);
        }

        /** Returns what was set, or null. */
        public Boolean getExecutionIsolationThreadInterruptOnTimeout() {
            return given.get(Property.INTERRUPTS_ON_TIMEOUT);
        }

        /** Sets {@link HystrixCommandProperties#executionIsolationThreadInterruptOnFutureCancel}. */
        public Setter withExecutionIsolationThreadInterruptOnFutureCancel(boolean value) {
            return with(Property.INTERRUPTS_ON_CANCEL, value);
        }

        /** Returns what was set, or null. */
        public Boolean getExecutionIsolationThreadInterruptOnFutureCancel() {
            return given.get(Property.INTERRUPTS_ON_CANCEL);
        }

        /** Sets {@link HystrixCommandProperties#executionIsolationSemaphoreMaxConcurrentRequests}. */
        public Setter withExecutionIsolationSemaphoreMaxConcurrentRequests(int value) {
            return with(Property.PERMITS, value);
        }

        /** Returns what was set, or null. */
        public Integer getExecutionIsolationSemaphoreMaxConcurrentRequests() {
            return given.get(Property.PERMITS);
        }

        /** Sets {@link HystrixCommandProperties#fallbackIsolationSemaphoreMaxConcurrentRequests}. */
        public Setter withFallbackIsolationSemaphoreMaxConcurrentRequests(int value) {
            return with(Property.FALLBACK_PERMITS, value);
        }

        /** Returns what was set, or null. */
        public Integer getFallbackIsolationSemaphoreMaxConcurrentRequests() {
            return given.get(Property.FALLBACK_PERMITS);
        }

        /** Sets {@link HystrixCommandProperties#fallbackEnabled}. */
        public Setter withFallbackEnabled(boolean value) {
            return with(Property.HAS_FALLBACK, value);
        }

        /** Returns what was set, or null. */
        public Boolean getFallbackEnabled() {
            return given.get(Property.HAS_FALLBACK);
        }

        /** Sets {@link HystrixCommandProperties#circuitBreakerEnabled}. */
        public Setter withCircuitBreakerEnabled(boolean value) {
            return with(Property.HAS_CIRCUIT, value);
        }

        /** Returns what was set, or null. */
        public Boolean getCircuitBreakerEnabled() {
            return given.get(Property.HAS_CIRCUIT);
        }

        /** Sets {@link HystrixCommandProperties#circuitBreakerRequestVolumeThreshold}. */
        public Setter withCircuitBreakerRequestVolumeThreshold(int value) {
            return with(Property.VOLUME, value);
        }

        /** Returns what was set, or null. */
        public Integer getCircuitBreakerRequestVolumeThreshold() {
            return given.get(Property.VOLUME);
        }

        /** Sets {@link HystrixCommandProperties#circuitBreakerSleepWindowInMilliseconds}. */
        public Setter withCircuitBreakerSleepWindowInMilliseconds(int value) {
            return with(Property.SLEEP_WINDOW, value);
        }

        /** Returns what was set, or null. */
        public Integer getCircuitBreakerSleepWindowInMilliseconds() {
            return given.get(Property.SLEEP_WINDOW);
        }

        /** Sets {@link HystrixCommandProperties#circuitBreakerErrorThresholdPercentage}. */
        public Setter withCircuitBreakerErrorThresholdPercentage(int value) {
            return with(Property.PERCENTAGE, value);
        }

        /** Returns what was set, or null. */
        public Integer getCircuitBreakerErrorThresholdPercentage() {
            return given.get(Property.PERCENTAGE);
        }

        /** Sets {@link HystrixCommandProperties#circuitBreakerForceOpen}. */
        public Setter withCircuitBreakerForceOpen(boolean value) {
            return with(Property.IS_FORCED_OPEN, value);
        }

        /** Returns what was set, or null. */
        public Boolean getCircuitBreakerForceOpen() {
            return given.get(Property.IS_FORCED_OPEN);
        }

        /** Sets {@link HystrixCommandProperties#circuitBreakerForceClosed}. */
        public Setter withCircuitBreakerForceClosed(boolean value) {
            return with(Property.IS_FORCED_CLOSED, value);
        }

        /** Returns what was set, or null. */
        public Boolean getCircuitBreakerForceClosed() {
            return given.get(Property.IS_FORCED_CLOSED);
        }

        /** Sets {@link HystrixCommandProperties#metricsRollingStatisticalWindowInMilliseconds}. */
        public Setter withMetricsRollingStatisticalWindowInMilliseconds(int value) {
            return with(Property.WINDOW, value);
        }

        /** Returns what was set, or null. */
        public Integer getMetricsRollingStatisticalWindowInMilliseconds() {
            return given.get(Property.WINDOW);
        }

        /** Sets {@link HystrixCommandProperties#metricsRollingStatisticalWindowBuckets}. */
        public Setter withMetricsRollingStatisticalWindowBuckets(int value) {
            return with(Property.BUCKETS, value);
        }

        /** Returns what was set, or null. */
        public Integer getMetricsRollingStatisticalWindowBuckets() {
            return given.get(Property.BUCKETS);
        }

        /** Sets {@link HystrixCommandProperties#metricsRollingPercentileEnabled}. */
        public Setter withMetricsRollingPercentileEnabled(boolean value) {
            return with(Property.HAS_PERCENTILES, value);
        }

        /** Returns what was set, or null. */
        public Boolean getMetricsRollingPercentileEnabled() {
            return given.get(Property.HAS_PERCENTILES);
        }

        /** Sets {@link HystrixCommandProperties#metricsRollingPercentileWindowInMilliseconds}. */
        public Setter withMetricsRollingPercentileWindowInMilliseconds(int value) {
            return with(Property.PERCENTILE_WINDOW, value);
        }

        /** Returns what was set, or null. */
        public Integer getMetricsRollingPercentileWindowInMilliseconds() {
            return given.get(Property.PERCENTILE_WINDOW);
        }

        /** Sets {@link HystrixCommandProperties#metricsRollingPercentileWindowBuckets}. */
        public Setter withMetricsRollingPercentileWindowBuckets(int value) {
            return with(Property.PERCENTILE_BUCKETS, value);
        }

        /** Returns what was set, or null. */
        public Integer getMetricsRollingPercentileWindowBuckets() {
            return given.get(Property.PERCENTILE_BUCKETS);
        }

        /** Sets {@link HystrixCommandProperties#metricsRollingPercentileBucketSize}. */
        public Setter withMetricsRollingPercentileBucketSize(int value) {
            return with(Property.PERCENTILE_BUCKET_SIZE, value);
        }

        /** Returns what was set, or null. */
        public Integer getMetricsRollingPercentileBucketSize() {
            return given.get(Property.PERCENTILE_BUCKET_SIZE);
        }

        /** Sets {@link HystrixCommandProperties#metricsHealthSnapshotIntervalInMilliseconds}. */
        public Setter withMetricsHealthSnapshotIntervalInMilliseconds(int value) {
            return with(Property.HEALTH_INTERVAL, value);
        }

        /** Returns what was set, or null. */
        public Integer getMetricsHealthSnapshotIntervalInMilliseconds() {
            return given.get(Property.HEALTH_INTERVAL);
        }

        /** Sets {@link HystrixCommandProperties#requestCacheEnabled}. */
        public Setter withRequestCacheEnabled(boolean value) {
            return with(Property.IS_CACHED, value);
        }

        /** Returns what was set, or null. */
        public Boolean getRequestCacheEnabled() {
            return given.get(Property.IS_CACHED);
        }

        /** Sets {@link HystrixCommandProperties#requestLogEnabled}. */
        public Setter withRequestLogEnabled(boolean value) {
            return with(Property.IS_LOGGED, value);
        }

        /** Returns what was set, or null. */
        public Boolean getRequestLogEnabled() {
            return given.get(Property.IS_LOGGED);
        }

        /** The same as {@link #withExecutionTimeoutInMilliseconds}. */
        @Deprecated
        public Setter withExecutionIsolationThreadTimeoutInMilliseconds(int value) {
            return withExecutionTimeoutInMilliseconds(value);
        }

        private <T> Setter with(Property<T> property, T value) {
            given.put(property, value);
            return this;
        }
    }
}
