package bulkhead.hystrix;

import java.util.concurrent.TimeUnit;
import java.util.concurrent.locks.LockSupport;

/** The one thread that has calls time out, of all pools. It runs no foreign code. */
final class TimeoutTimer implements Runnable {
    private static final long LONGEST = TimeUnit.SECONDS.toNanos(60);
    /** The milliseconds until a pool is looked at again whose turn raised. */
    private static final long PAUSE = 100;

    private static final TimeoutTimer INSTANCE = new TimeoutTimer();

    private final Thread thread = Helpers.daemons("hystrix-timer").newThread(this);
    private volatile long sleepsUntil = Long.MAX_VALUE;

    private TimeoutTimer() {
        thread.start();
    }

    /** Something is due at a moment, perhaps before the timer wakes up by itself. */
    static void wake(long moment) {
        if (moment < INSTANCE.sleepsUntil) {
            LockSupport.unpark(INSTANCE.thread);
        }
    }

    @Override
    public void run() {
        for (;;) {
            sleepsUntil = Long.MAX_VALUE; // from here on whoever is earlier unparks this thread
            long next = expire(Moments.now());
            sleepsUntil = next;
            next = Math.min(next, earliest()); // what came meanwhile
            long nanos = next == Long.MAX_VALUE ? LONGEST : Math.min(Moments.nanosUntil(next), LONGEST);
            if (nanos > 0) {
                LockSupport.parkNanos(this, nanos);
            }
        }
    }

    /** Has time out what is due, and returns the moment to look at next. */
    private static long expire(long now) {
        long next = Long.MAX_VALUE;
        for (Pool pool : Pools.all()) {
            long at = pool.looksAt();
            next = Math.min(next, at <= now ? expire(pool) : at);
        }
        return next;
    }

    /** One pool that is broken stops no other one. */
    private static long expire(Pool pool) {
        try {
            return pool.expire();
        } catch (RuntimeException | Error e) {
            Thread thread = Thread.currentThread();
            thread.getUncaughtExceptionHandler().uncaughtException(thread, e);
            return Moments.now() + PAUSE;
        }
    }

    private static long earliest() {
        long earliest = Long.MAX_VALUE;
        for (Pool pool : Pools.all()) {
            earliest = Math.min(earliest, pool.looksAt());
        }
        return earliest;
    }
}
