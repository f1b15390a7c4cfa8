package bulkhead.hystrix;

/** The one thread that looks for properties that changed, and has pools go by them. */
final class PropertyWatcher implements Runnable {
    private static final long PAUSE = 500;
    private static final System.Logger LOGGER = System.getLogger("bulkhead.hystrix");

    private String toldLast;

    static {
        Helpers.daemons("hystrix-properties").newThread(new PropertyWatcher()).start();
    }

    private PropertyWatcher() {}

    /** Has the thread started, where it is not. */
    static void begin() {}

    /**
     * Has all pools go by what is said now. One at a time does, so that no older value comes behind a newer one.
     *
     * @throws IllegalArgumentException where values are refused; all others hold
     */
    static synchronized void refresh() {
        RuntimeException first = null;
        for (Pool pool : Pools.all()) {
            for (PoolCommand command : pool.commands()) {
                first = earlier(first, attempt(command.key.name(), () -> refresh(command)));
            }
            first = earlier(first, attempt(pool.name, () -> refresh(pool)));
        }
        if (first != null) {
            throw first;
        }
    }

    private static void refresh(PoolCommand command) {
        CommandValues to = command.values.again(command.properties);
        if (!to.isSame(command.values)) {
            command.pool.tune(command, to);
        }
    }

    private static void refresh(Pool pool) {
        if (pool.properties != null) {
            pool.tune(new PoolValues(pool.properties));
        }
    }

    /** What the work raised, with the name of whom it is about; else null. */
    private static RuntimeException attempt(String name, Runnable work) {
        try {
            work.run();
            return null;
        } catch (RuntimeException e) { // also of a strategy that is foreign
            return new IllegalArgumentException(name + ": " + e.getMessage(), e);
        }
    }

    private static RuntimeException earlier(RuntimeException first, RuntimeException next) {
        return first == null ? next : first;
    }

    @Override
    public void run() {
        for (;;) {
            try {
                Thread.sleep(Math.max(1, Long.getLong("bulkhead.watchMilliseconds", PAUSE)));
                refresh();
                toldLast = null;
            } catch (InterruptedException e) {
                return;
            } catch (RuntimeException | OutOfMemoryError | StackOverflowError e) {
                tell(String.valueOf(e.getMessage()));
            }
        }
    }

    private void tell(String message) {
        if (!message.equals(toldLast)) {
            toldLast = message;
            LOGGER.log(System.Logger.Level.WARNING, "a property is not taken: " + message);
        }
    }
}
