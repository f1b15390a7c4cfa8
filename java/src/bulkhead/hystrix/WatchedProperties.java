package bulkhead.hystrix;

import java.util.Objects;
import java.util.Properties;

/**
 * Properties that change while commands run: the system properties, and behind them {@link Properties} of the program. Both
 * are looked at every half second, unless the system property {@code bulkhead.watchMilliseconds} says another pause.
 *
 * <p>What changed holds for the calls that come and for those that are there. A value that is out of its range changes
 * nothing: it is told once to the logger {@code bulkhead.hystrix}, or raised by {@link #refresh}. Any thread may call this.
 */
public final class WatchedProperties {
    private static volatile Properties watched = new Properties();

    private WatchedProperties() {}

    /**
     * Has properties hold wherever no system property of the name is there, in place of those that were watched before.
     *
     * @param properties names as {@code hystrix.command.KEY.circuitBreaker.forceOpen}; whoever holds it may change it
     */
    public static void watch(Properties properties) {
        watched = Objects.requireNonNull(properties, "properties");
    }

    /**
     * Has what changed hold before this returns.
     *
     * @throws IllegalArgumentException where values are refused, by the first of these; all others hold
     */
    public static void refresh() {
        PropertyWatcher.refresh();
    }

    /** The text of a name, or null where nothing says it. */
    static String get(String name) {
        String said = System.getProperty(name);
        return said != null ? said : watched.getProperty(name);
    }
}
