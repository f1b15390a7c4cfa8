package bulkhead.hystrix;

import java.util.ArrayList;
import java.util.List;

/** A program whose calls are refused memory in any place: it prints how many slots are free behind them, and how many were. */
final class ShortMemory {
    private static final int THREADS = 4;
    private static final int BLOCK = 1 << 10;
    private static final int HELD = 1 << 15; // so that few calls fill the memory, however slow the machine is
    private static final int LEAST = 100;
    private static int refused;

    private ShortMemory() {}

    /** Makes calls in a memory that is full most of the time: for the milliseconds that the word says, and until some were refused. */
    public static void main(String[] words) throws InterruptedException {
        HystrixCommand.Setter inline = Calls.setter("Short", "Short", Calls.inline());
        HystrixCommand.Setter pooled = Calls.setter("ShortPool", "ShortPool", Calls.pooled().withExecutionTimeoutInMilliseconds(50));
        attempt(inline);
        attempt(pooled);
        long until = System.nanoTime() + Long.parseLong(words[0]) * 1_000_000;
        List<Thread> threads = new ArrayList<>();
        for (int at = 0; at < THREADS; at++) {
            threads.add(new Thread(() -> fill(inline, pooled, until)));
        }
        threads.forEach(Thread::start);
        for (Thread thread : threads) {
            thread.join();
        }
        System.out.println(refused() + " refused");
        System.out.println(Calls.freeAtRest("Short") + " and " + Calls.freeAtRest("ShortPool") + " free");
        System.exit(0);
    }

    private static void fill(HystrixCommand.Setter inline, HystrixCommand.Setter pooled, long until) {
        Object[] held = null;
        while (System.nanoTime() < until || refused() < LEAST) {
            try {
                held = new Object[] {held, new byte[HELD]};
                attempt(inline);
                attempt(pooled);
            } catch (OutOfMemoryError e) {
                held = null;
                refuse();
            }
        }
    }

    private static void attempt(HystrixCommand.Setter setter) {
        try {
            Calls.of(setter, null, () -> "v" + new byte[BLOCK].length).execute();
        } catch (RuntimeException expected) {
            refuse(); // an error of a run or of its fallback
        }
    }

    private static synchronized void refuse() {
        refused++;
    }

    private static synchronized int refused() {
        return refused;
    }
}
