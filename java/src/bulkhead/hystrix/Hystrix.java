package bulkhead.hystrix;

import java.util.concurrent.TimeUnit;

/** The end of everything. */
public final class Hystrix {
    private Hystrix() {}

    /**
     * Closes all pools: whoever waits is told so, and workers end after their run. Circuits, metrics and properties are
     * forgotten. A command that is made later begins anew.
     */
    public static void reset() {
        AbstractCommand.forgetAll();
        Pools.closeAll();
    }

    /** The same: it waits for no run, so for no time. */
    public static void reset(long time, TimeUnit unit) {
        reset();
    }
}
