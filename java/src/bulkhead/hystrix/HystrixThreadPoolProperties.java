package bulkhead.hystrix;

import bulkhead.hystrix.strategy.properties.HystrixProperty;

/**
 * The properties of a thread pool. What holds is found as for
 * {@link HystrixCommandProperties}, under {@code hystrix.threadpool.KEY.}
 *
 * <p>A property tells what is said when it is asked. {@link WatchedProperties} tells when the pool goes by that; it goes by the
 * {@link #maxQueueSize} of its first command. Any thread may ask for values.
 */
public abstract class HystrixThreadPoolProperties {
    private final PropertyValues values;

    /** The properties of a key for which nothing was set. */
    protected HystrixThreadPoolProperties(HystrixThreadPoolKey key) {
        this(key, new Setter(), "hystrix");
    }

    /** The properties of a key, with what was set. */
    protected HystrixThreadPoolProperties(HystrixThreadPoolKey key, Setter builder) {
        this(key, builder, "hystrix");
    }

    /** The same, with another word than {@code hystrix} in front of the system properties. */
    protected HystrixThreadPoolProperties(HystrixThreadPoolKey key, Setter builder, String propertyPrefix) {
        values = new PropertyValues(propertyPrefix + ".threadpool", key.name(), builder == null ? new Given() : builder.given);
    }

    /** Returns a setter to which nothing was given yet. */
    public static Setter Setter() {
        return new Setter();
    }

    /** Returns a setter to which nothing was given yet. */
    public static Setter defaultSetter() {
        return new Setter();
    }

    /** How many threads the pool has, 1 to 64. */
    public HystrixProperty<Integer> coreSize() {
        return values.property(Property.CORE);
    }

    /** Can be said, and has no effect: a pool has {@link #coreSize} threads. */
    public HystrixProperty<Integer> maximumSize() {
        return values.property(Property.MAXIMUM);
    }

    /** Can be said, and has no effect. */
    public HystrixProperty<Integer> keepAliveTimeMinutes() {
        return values.property(Property.KEEP_ALIVE);
    }

    /** How many calls may wait for a thread, 1 to 2,147,483,647; none where it is -1 or 0. */
    public HystrixProperty<Integer> maxQueueSize() {
        return values.property(Property.MAX_QUEUE);
    }

    /** From how many calls that wait on further ones are rejected, 0 to 2,147,483,647. */
    public HystrixProperty<Integer> queueSizeRejectionThreshold() {
        return values.property(Property.QUEUE_THRESHOLD);
    }

    /** Can be said, and has no effect. */
    public HystrixProperty<Boolean> getAllowMaximumSizeToDivergeFromCoreSize() {
        return values.property(Property.IS_MAXIMUM_ALLOWED);
    }

    /** What the properties of a thread pool are by its code. It is not made for several threads. */
    public static class Setter {
        final Given given = new Given();

        Setter() {}

        /** Sets {@link HystrixThreadPoolProperties#coreSize}. */
        public Setter withCoreSize(int value) {
            return with(Property.CORE, value);
        }

        /** Returns what was set, or null. */
        public Integer getCoreSize() {
            return given.get(Property.CORE);
        }

        /** Sets {@link HystrixThreadPoolProperties#maximumSize}. */
        public Setter withMaximumSize(int value) {
            return with(Property.MAXIMUM, value);
        }

        /** Returns what was set, or null. */
        public Integer getMaximumSize() {
            return given.get(Property.MAXIMUM);
        }

        /** Sets {@link HystrixThreadPoolProperties#keepAliveTimeMinutes}. */
        public Setter withKeepAliveTimeMinutes(int value) {
            return with(Property.KEEP_ALIVE, value);
        }

        /** Returns what was set, or null. */
        public Integer getKeepAliveTimeMinutes() {
            return given.get(Property.KEEP_ALIVE);
        }

        /** Sets {@link HystrixThreadPoolProperties#maxQueueSize}. */
        public Setter withMaxQueueSize(int value) {
            return with(Property.MAX_QUEUE, value);
        }

        /** Returns what was set, or null. */
        public Integer getMaxQueueSize() {
            return given.get(Property.MAX_QUEUE);
        }

        /** Sets {@link HystrixThreadPoolProperties#queueSizeRejectionThreshold}. */
        public Setter withQueueSizeRejectionThreshold(int value) {
            return with(Property.QUEUE_THRESHOLD, value);
        }

        /** Returns what was set, or null. */
        public Integer getQueueSizeRejectionThreshold() {
            return given.get(Property.QUEUE_THRESHOLD);
        }

        /** Sets {@link HystrixThreadPoolProperties#getAllowMaximumSizeToDivergeFromCoreSize}. */
        public Setter withAllowMaximumSizeToDivergeFromCoreSize(boolean value) {
            return with(Property.IS_MAXIMUM_ALLOWED, value);
        }

        /** Returns what was set, or null. */
        public Boolean getAllowMaximumSizeToDivergeFromCoreSize() {
            return given.get(Property.IS_MAXIMUM_ALLOWED);
        }

        private <T> Setter with(Property<T> property, T value) {
            given.put(property, value);
            return this;
        }
    }
}
