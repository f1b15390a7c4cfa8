package bulkhead.hystrix;

import java.util.HashMap;
import java.util.Map;

/** The values that a setter was given. */
final class Given {
    private final Map<Property<?>, Object> values = new HashMap<>(4);

    <T> void put(Property<T> property, T value) {
        values.put(property, value);
    }

    /** The value that was given, or null. */
    @SuppressWarnings("unchecked") // `put` put a value of the property's type
    <T> T get(Property<T> property) {
        return (T) values.get(property);
    }
}
