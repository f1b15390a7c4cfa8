package bulkhead.hystrix;

import java.util.Arrays;

/** How long the latest runs of a command took, in milliseconds; 512 are kept. */
final class RunTimes {
    private static final int ROOM = 512;

    private final int[] latest = new int[ROOM];
    private long count;

    void add(long milliseconds) {
        latest[(int) (count++ % ROOM)] = (int) Math.min(milliseconds, Integer.MAX_VALUE);
    }

    /** The times in rising order. */
    int[] sorted() {
        int[] all = Arrays.copyOf(latest, (int) Math.min(count, ROOM));
        Arrays.sort(all);
        return all;
    }
}
