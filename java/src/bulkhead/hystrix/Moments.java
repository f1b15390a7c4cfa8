package bulkhead.hystrix;

/** The clock of all services: whole milliseconds since this class was initialized. */
final class Moments {
    private static final long BEGAN = System.nanoTime();

    private Moments() {}

    static long now() {
        return (System.nanoTime() - BEGAN) / 1_000_000;
    }

    /** The nanoseconds until a moment, 0 or below where it has come. */
    static long nanosUntil(long moment) {
        return moment * 1_000_000 - (System.nanoTime() - BEGAN);
    }
}
