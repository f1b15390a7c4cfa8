package bulkhead.hystrix;

import bulkhead.hystrix.HystrixCommandProperties.ExecutionIsolationStrategy;
import bulkhead.hystrix.strategy.properties.HystrixProperty;
import java.util.Arrays;

/** The values of a command's properties, each read once: those that Java goes by, and those of the core. */
final class CommandValues {
    final boolean isPooled;
    final boolean isTimed;
    final int timeout;
    final boolean interruptsOnTimeout;
    final boolean interruptsOnCancel;
    final boolean hasFallback;
    final boolean hasCircuit;
    final boolean isForcedOpen;
    final boolean isForcedClosed;
    final int volume;
    final int percentage;
    final boolean hasTimes;
    final boolean isCached;
    final boolean isLogged;
    /** The lines of a settings file for the properties that do not change while the pool is open. */
    final String fixedLines;
    private final long[] tunables = new long[Tunable.OF_COMMAND];

    /**
     * Reads the properties of a new command.
     *
     * @throws IllegalArgumentException where one that may change is out of its range
     */
    CommandValues(HystrixCommandProperties of) {
        this(of, of.executionIsolationStrategy().get() == ExecutionIsolationStrategy.THREAD, fixedLines(of));
    }

    private CommandValues(HystrixCommandProperties of, boolean isPooled, String fixedLines) {
        this.isPooled = isPooled;
        this.fixedLines = fixedLines;
        timeout = told(Tunable.TIMEOUT, of.executionTimeoutInMilliseconds());
        isTimed = told(Tunable.IS_TIMED, of.executionTimeoutEnabled());
        told(Tunable.PERMITS, of.executionIsolationSemaphoreMaxConcurrentRequests());
        told(Tunable.FALLBACK_PERMITS, of.fallbackIsolationSemaphoreMaxConcurrentRequests());
        hasFallback = told(Tunable.HAS_FALLBACK, of.fallbackEnabled());
        hasCircuit = told(Tunable.HAS_CIRCUIT, of.circuitBreakerEnabled());
        volume = told(Tunable.VOLUME, of.circuitBreakerRequestVolumeThreshold());
        told(Tunable.SLEEP_WINDOW, of.circuitBreakerSleepWindowInMilliseconds());
        percentage = told(Tunable.PERCENTAGE, of.circuitBreakerErrorThresholdPercentage());
        isForcedOpen = told(Tunable.IS_FORCED_OPEN, of.circuitBreakerForceOpen());
        isForcedClosed = told(Tunable.IS_FORCED_CLOSED, of.circuitBreakerForceClosed());
        told(Tunable.HEALTH_INTERVAL, of.metricsHealthSnapshotIntervalInMilliseconds());
        isCached = told(Tunable.IS_CACHED, of.requestCacheEnabled());
        interruptsOnTimeout = of.executionIsolationThreadInterruptOnTimeout().get();
        interruptsOnCancel = of.executionIsolationThreadInterruptOnFutureCancel().get();
        hasTimes = of.metricsRollingPercentileEnabled().get();
        isLogged = of.requestLogEnabled().get();
    }

    private static String fixedLines(HystrixCommandProperties of) {
        return Property.STRATEGY.path + " = \"" + of.executionIsolationStrategy().get() + "\"\n"
                + Property.WINDOW.path + " = " + of.metricsRollingStatisticalWindowInMilliseconds().get() + '\n'
                + Property.BUCKETS.path + " = " + of.metricsRollingStatisticalWindowBuckets().get() + '\n';
    }

    private <T> T told(Tunable tunable, HystrixProperty<T> of) {
        T value = of.get();
        tunables[tunable.ordinal()] = tunable.number(value);
        return value;
    }

    /**
     * Reads the properties again, but for those that do not change while the pool is open.
     *
     * @throws IllegalArgumentException where one is out of its range
     */
    CommandValues again(HystrixCommandProperties of) {
        return new CommandValues(of, isPooled, fixedLines);
    }

    /** The value of a property of a command, as the core takes it. */
    long of(Tunable tunable) {
        return tunables[tunable.ordinal()];
    }

    /** Whether the core goes by the same values. */
    boolean isSameForCore(CommandValues other) {
        return fixedLines.equals(other.fixedLines) && Arrays.equals(tunables, other.tunables);
    }

    /** Whether the core and Java go by the same values. */
    boolean isSame(CommandValues other) {
        return isSameForCore(other) && interruptsOnTimeout == other.interruptsOnTimeout
                && interruptsOnCancel == other.interruptsOnCancel && hasTimes == other.hasTimes && isLogged == other.isLogged;
    }

    /** What stands in a settings file for the command: each property of the core, in one order. */
    String lines() {
        StringBuilder text = new StringBuilder(fixedLines);
        for (int at = 0; at < Tunable.OF_COMMAND; at++) {
            Tunable tunable = Tunable.at(at);
            Object value = tunable.isFlag() ? (Object) (tunables[at] != 0) : (Object) tunables[at];
            text.append(tunable.property.path).append(" = ").append(value).append('\n');
        }
        return text.toString();
    }
}
