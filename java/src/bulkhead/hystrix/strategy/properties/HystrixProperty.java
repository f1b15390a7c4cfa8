package bulkhead.hystrix.strategy.properties;

/**
 * A property of which the value can be asked.
 *
 * @param <T> the type of the value
 */
public interface HystrixProperty<T> {
    /** Returns the value. */
    T get();

    /** Makes properties of values. */
    final class Factory {
        private Factory() {}

        /** Returns a property that has the value. */
        public static <T> HystrixProperty<T> asProperty(T value) {
            return () -> value;
        }

        /** Returns a property with the value of another one, or the built-in value where that is null. */
        public static <T> HystrixProperty<T> asProperty(HystrixProperty<T> property, T builtIn) {
            return () -> {
                T value = property.get();
                return value == null ? builtIn : value;
            };
        }

        /** Returns a property of which the value is null. */
        public static <T> HystrixProperty<T> nullProperty() {
            return () -> null;
        }
    }
}
