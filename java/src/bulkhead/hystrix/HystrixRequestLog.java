package bulkhead.hystrix;

import bulkhead.hystrix.strategy.concurrency.HystrixConcurrencyStrategy;
import bulkhead.hystrix.strategy.concurrency.HystrixRequestContext;
import bulkhead.hystrix.strategy.concurrency.HystrixRequestVariableDefault;
import java.util.ArrayList;
import java.util.Collection;
import java.util.LinkedHashMap;
import java.util.List;
import java.util.Map;

/** The commands that were executed in a request, the first 1,000 of them. Any thread may use it. */
public class HystrixRequestLog {
    private static final int ROOM = 1000;
    private static final HystrixRequestVariableDefault<HystrixRequestLog> OF_REQUEST = new HystrixRequestVariableDefault<>() {
        @Override
        public HystrixRequestLog initialValue() {
            return new HystrixRequestLog();
        }
    };

    private final List<HystrixInvokableInfo<?>> commands = new ArrayList<>();

    private HystrixRequestLog() {}

    /**
     * Returns the log of this thread's request, or null where it has none.
     *
     * @throws IllegalStateException where the request was shut down
     */
    public static HystrixRequestLog getCurrentRequest() {
        return HystrixRequestContext.isCurrentThreadInitialized() ? OF_REQUEST.get() : null;
    }

    /** The same. */
    public static HystrixRequestLog getCurrentRequest(HystrixConcurrencyStrategy concurrencyStrategy) {
        return getCurrentRequest();
    }

    synchronized void add(HystrixInvokableInfo<?> command) {
        if (commands.size() < ROOM) {
            commands.add(command);
        }
    }

    /** Returns the commands in the order in which they began. */
    public synchronized Collection<HystrixInvokableInfo<?>> getAllExecutedCommands() {
        return new ArrayList<>(commands);
    }

    /**
     * Returns a line of the commands, as {@code GetUser[SUCCESS][12ms], GetOrder[SUCCESS, RESPONSE_FROM_CACHE][0ms]x2}:
     * those of one key and the same events once, with the sum of their times and how many there are.
     */
    public String getExecutedCommandsAsString() {
        Map<String, int[]> countAndTime = new LinkedHashMap<>();
        for (HystrixInvokableInfo<?> one : getAllExecutedCommands()) {
            String said = one.getCommandKey().name() + one.getExecutionEvents();
            int[] sums = countAndTime.computeIfAbsent(said, made -> new int[2]);
            sums[0]++;
            sums[1] += Math.max(0, one.getExecutionTimeInMilliseconds());
        }
        List<String> parts = new ArrayList<>();
        countAndTime.forEach((said, sums) -> parts.add(said + "[" + sums[1] + "ms]" + (sums[0] > 1 ? "x" + sums[0] : "")));
        return String.join(", ", parts);
    }
}
