package bulkhead.hystrix;

import java.util.ArrayList;
import java.util.Collection;
import java.util.List;

/**
 * The metrics of a command: counts as the core has them at the moment, and times as Java measured them. Any thread may ask.
 * After {@link Hystrix#reset} the counts of a command that is not used anew are 0.
 */
public class HystrixCommandMetrics {
    private final PoolCommand command;

    HystrixCommandMetrics(PoolCommand command) {
        this.command = command;
    }

    /** Returns the metrics of a command; null where none was made of the key yet. */
    public static HystrixCommandMetrics getInstance(HystrixCommandKey key) {
        PoolCommand command = AbstractCommand.known(key);
        return command == null ? null : new HystrixCommandMetrics(command);
    }

    /** Returns the metrics of all commands that were made. */
    public static Collection<HystrixCommandMetrics> getInstances() {
        List<HystrixCommandMetrics> all = new ArrayList<>();
        for (PoolCommand command : AbstractCommand.allKnown()) {
            all.add(new HystrixCommandMetrics(command));
        }
        return all;
    }

    /** Returns the key of the command. */
    public HystrixCommandKey getCommandKey() {
        return command.key;
    }

    /** Returns the group of the command. */
    public HystrixCommandGroupKey getCommandGroup() {
        return command.group;
    }

    /** Returns the key of the thread pool of the command. */
    public HystrixThreadPoolKey getThreadPoolKey() {
        return command.poolKey;
    }

    /** Returns the properties of the command. */
    public HystrixCommandProperties getProperties() {
        return command.properties;
    }

    /** Returns how many events of the kind lie in the rolling window; 0 for a kind that is not counted. */
    public long getRollingCount(HystrixEventType type) {
        int place = Metrics.placeOf(type);
        long[] metrics = place < 0 ? null : command.pool.read(command);
        return metrics == null ? 0 : metrics[place];
    }

    /** Returns the health that the circuit breaker goes by. */
    public HealthCounts getHealthCounts() {
        long[] metrics = command.pool.read(command);
        return metrics == null
                ? new HealthCounts(0, 0, 0)
                : new HealthCounts(metrics[Metrics.TOTAL], metrics[Metrics.ERRORS], (int) metrics[Metrics.PERCENT]);
    }

    /** Returns how many runs go on, those that timed out among them. */
    public int getCurrentConcurrentExecutionCount() {
        long[] metrics = command.pool.read(command);
        return metrics == null ? 0 : (int) metrics[Metrics.BUSY];
    }

    /** Returns how many calls found no slot free since the pool was opened. Hystrix has no such bound. */
    public long getSlotRejectedCount() {
        return command.pool.fullCount(command);
    }

    /**
     * Returns the milliseconds that so many of a hundred of the latest 512 runs did not exceed; 0 where there was none.
     *
     * @param percentile 0 to 100
     */
    public int getExecutionTimePercentile(double percentile) {
        int[] all = command.pool.times(command);
        int at = (int) Math.ceil(percentile / 100 * all.length) - 1;
        return all.length == 0 ? 0 : all[Math.max(0, Math.min(at, all.length - 1))];
    }

    /** Returns the mean of the latest 512 runs in milliseconds; 0 where there was none. */
    public int getExecutionTimeMean() {
        int[] all = command.pool.times(command);
        long sum = 0;
        for (int one : all) {
            sum += one;
        }
        return all.length == 0 ? 0 : (int) (sum / all.length);
    }

    /** How well a command does: of the runs in the rolling window since its circuit closed, how many had an error. */
    public static class HealthCounts {
        private final long total;
        private final long errors;
        private final int percentage;

        HealthCounts(long total, long errors, int percentage) {
            this.total = total;
            this.errors = errors;
            this.percentage = percentage;
        }

        /** Returns the number of runs. */
        public long getTotalRequests() {
            return total;
        }

        /** Returns the number of runs that failed, timed out or were rejected. */
        public long getErrorCount() {
            return errors;
        }

        /** Returns the errors of a hundred runs, rounded down. */
        public int getErrorPercentage() {
            return percentage;
        }

        @Override
        public String toString() {
            return "HealthCounts[" + errors + " / " + total + " : " + percentage + "%]";
        }
    }
}
