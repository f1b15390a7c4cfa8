package bulkhead.hystrix;

import java.nio.charset.StandardCharsets;

/** A property of the core that may change while commands run: those of a command first, then those of its pool. */
enum Tunable {
    TIMEOUT(Property.TIMEOUT),
    IS_TIMED(Property.IS_TIMED),
    PERMITS(Property.PERMITS),
    FALLBACK_PERMITS(Property.FALLBACK_PERMITS),
    HAS_FALLBACK(Property.HAS_FALLBACK),
    HAS_CIRCUIT(Property.HAS_CIRCUIT),
    VOLUME(Property.VOLUME),
    SLEEP_WINDOW(Property.SLEEP_WINDOW),
    PERCENTAGE(Property.PERCENTAGE),
    IS_FORCED_OPEN(Property.IS_FORCED_OPEN),
    IS_FORCED_CLOSED(Property.IS_FORCED_CLOSED),
    HEALTH_INTERVAL(Property.HEALTH_INTERVAL),
    IS_CACHED(Property.IS_CACHED),
    CORE(Property.CORE, 1, 64),
    QUEUE_THRESHOLD(Property.QUEUE_THRESHOLD);

    private static final Tunable[] ALL = values();
    /** How many are of a command. */
    static final int OF_COMMAND = CORE.ordinal();

    final Property<?> property;
    private final int least;
    private final int most;
    private final byte[] name;

    Tunable(Property<?> property) {
        this(property, 0, Integer.MAX_VALUE);
    }

    Tunable(Property<?> property, int least, int most) {
        this.property = property;
        this.least = least;
        this.most = most;
        name = property.path.getBytes(StandardCharsets.UTF_8);
    }

    /** The one at a place. */
    static Tunable at(int ordinal) {
        return ALL[ordinal];
    }

    /** The name by which the core knows it. Nobody writes to the bytes. */
    byte[] spelled() {
        return name;
    }

    boolean isFlag() {
        return property.builtIn instanceof Boolean;
    }

    /**
     * A value as the core takes it, where 1 is true.
     *
     * @throws IllegalArgumentException where it is out of range
     */
    long number(Object value) {
        if (isFlag()) {
            return (Boolean) value ? 1 : 0;
        }
        int number = (Integer) value;
        if (number < least || number > most) {
            throw new IllegalArgumentException(property.path + " is not " + least + " to " + most + ": " + number);
        }
        return number;
    }
}
