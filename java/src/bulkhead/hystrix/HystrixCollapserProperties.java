package bulkhead.hystrix;

import bulkhead.hystrix.strategy.properties.HystrixProperty;

/**
 * The properties of a collapser. What holds is found as for
 * {@link HystrixCommandProperties}, under {@code hystrix.collapser.KEY.}
 *
 * <p>A property tells what is said when it is asked, and a batch asks when it begins. Any thread may ask for values.
 */
public abstract class HystrixCollapserProperties {
    private final PropertyValues values;

    /** The properties of a key for which nothing was set. */
    protected HystrixCollapserProperties(HystrixCollapserKey key) {
        this(key, new Setter(), "hystrix");
    }

    /** The properties of a key, with what was set. */
    protected HystrixCollapserProperties(HystrixCollapserKey key, Setter builder) {
        this(key, builder, "hystrix");
    }

    /** The same, with another word than {@code hystrix} in front of the system properties. */
    protected HystrixCollapserProperties(HystrixCollapserKey key, Setter builder, String propertyPrefix) {
        values = new PropertyValues(propertyPrefix + ".collapser", key.name(), builder == null ? new Given() : builder.given);
    }

    /** Returns a setter to which nothing was given yet. */
    public static Setter Setter() {
        return new Setter();
    }

    /** Returns a setter to which nothing was given yet. */
    public static Setter defaultSetter() {
        return new Setter();
    }

    /** How many requests a batch may have, 1 to 2,147,483,647. */
    public HystrixProperty<Integer> maxRequestsInBatch() {
        return values.property(Property.MAX_BATCH);
    }

    /** How many milliseconds after its first request a batch is sent, 0 to 2,147,483,647. */
    public HystrixProperty<Integer> timerDelayInMilliseconds() {
        return values.property(Property.TIMER_DELAY);
    }

    /** Whether requests of one cache key share an answer. */
    public HystrixProperty<Boolean> requestCacheEnabled() {
        return values.property(Property.IS_CACHED);
    }

    /** What the properties of a collapser are by its code. It is not made for several threads. */
    public static class Setter {
        final Given given = new Given();

        Setter() {}

        /** Sets {@link HystrixCollapserProperties#maxRequestsInBatch}. */
        public Setter withMaxRequestsInBatch(int value) {
            return with(Property.MAX_BATCH, value);
        }

        /** Returns what was set, or null. */
        public Integer getMaxRequestsInBatch() {
            return given.get(Property.MAX_BATCH);
        }

        /** Sets {@link HystrixCollapserProperties#timerDelayInMilliseconds}. */
        public Setter withTimerDelayInMilliseconds(int value) {
            return with(Property.TIMER_DELAY, value);
        }

        /** Returns what was set, or null. */
        public Integer getTimerDelayInMilliseconds() {
            return given.get(Property.TIMER_DELAY);
        }

        /** Sets {@link HystrixCollapserProperties#requestCacheEnabled}. */
        public Setter withRequestCacheEnabled(boolean value) {
            return with(Property.IS_CACHED, value);
        }

        /** Returns what was set, or null. */
        public Boolean getRequestCacheEnabled() {
            return given.get(Property.IS_CACHED);
        }

        private <T> Setter with(Property<T> property, T value) {
            given.put(property, value);
            return this;
        }
    }
}
