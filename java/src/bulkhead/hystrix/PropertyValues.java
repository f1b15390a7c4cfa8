package bulkhead.hystrix;

import bulkhead.hystrix.strategy.properties.HystrixProperty;

/**
 * The values of one key. The first of these that is there holds: the system property of the key, what the setter was given,
 * the system property of {@code default}, and what is built in. In place of a system property that is not there the
 * {@link WatchedProperties} are asked.
 */
final class PropertyValues {
    private final String prefix;
    private final String key;
    private final Given given;

    /**
     * Values of a key.
     *
     * @param prefix what stands in front of the key, as {@code hystrix.command}
     * @param given what the setter was given
     */
    PropertyValues(String prefix, String key, Given given) {
        this.prefix = prefix;
        this.key = key;
        this.given = given;
    }

    <T> HystrixProperty<T> property(Property<T> property) {
        return () -> value(property, property.builtIn);
    }

    /** The value in force, where another one is built in than for most. */
    <T> T value(Property<T> property, T builtIn) {
        T own = property.said(prefix + "." + key + "." + property.path);
        if (own != null) {
            return own;
        }
        T told = given.get(property);
        if (told != null) {
            return told;
        }
        T general = property.said(prefix + ".default." + property.path);
        return general != null ? general : builtIn;
    }
}
