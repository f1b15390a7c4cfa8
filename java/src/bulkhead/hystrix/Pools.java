package bulkhead.hystrix;

import java.util.Collection;
import java.util.concurrent.ConcurrentHashMap;

/** The pools that are open: one for each thread pool key, and one for each command that runs under permits. */
final class Pools {
    private static final ConcurrentHashMap<String, Pool> ALL = new ConcurrentHashMap<>();

    static {
        Runtime.getRuntime().addShutdownHook(new Thread(Pools::closeAll, "hystrix-end")); // so that records are whole
    }

    private Pools() {}

    static Collection<Pool> all() {
        return ALL.values();
    }

    /**
     * The command of a description, in a pool that is opened where it is not.
     *
     * <p>A pool that is open cannot be given more commands than it has spare ones, nor one with another window of counts.
     * Such a command gets a pool of its own, with as many threads.
     */
    static PoolCommand command(CommandDescription description) {
        String shared = (description.values.isPooled ? "t:" : "s:") + description.serviceName();
        String at = shared;
        for (;;) {
            Pool pool = ALL.computeIfAbsent(at, made -> new Pool(description));
            PropertyWatcher.begin();
            PoolCommand found = pool.command(description);
            if (found != null) {
                return found;
            }
            if (pool.isOver()) {
                ALL.remove(at, pool);
                at = shared;
            } else {
                at = "o:" + shared + "\n" + description.key.name();
            }
        }
    }

    /** Closes all. A command that is made later opens its pool anew. */
    static void closeAll() {
        ALL.forEach((name, pool) -> {
            ALL.remove(name, pool);
            pool.close();
        });
    }
}
