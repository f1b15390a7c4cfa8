package bulkhead.hystrix;

import java.util.Arrays;
import java.util.HashMap;
import java.util.Map;

/** The commands of a pool that keys were seen of. It is guarded by the lock of the pool. */
final class PoolCommands {
    private final Pool pool;
    private final Settings settings;
    private final boolean[] isTaken;
    private final Map<String, PoolCommand> byKey = new HashMap<>();
    private PoolCommand[] all = {};

    PoolCommands(Pool pool, Settings settings) {
        this.pool = pool;
        this.settings = settings;
        isTaken = new boolean[settings.names.length];
    }

    /** The commands in the order in which they were seen. Nobody writes to it. */
    PoolCommand[] all() {
        return all;
    }

    /**
     * The command of a key. One that is new takes a free number with the values that do not change, one that has the others
     * too if there is such; else its values are those of that number, until they are changed. Null where no number will do.
     */
    PoolCommand of(CommandDescription description) {
        PoolCommand known = byKey.get(description.key.name());
        if (known != null) {
            return known;
        }
        int found = -1;
        for (int number = isTaken.length - 1; number >= 0; number--) {
            if (!isTaken[number] && isNearer(number, found, description.values)) {
                found = number;
            }
        }
        return found < 0 ? null : add(found, description);
    }

    private boolean isNearer(int number, int than, CommandValues wanted) {
        CommandValues here = settings.values[number];
        boolean isOther = than < 0 || !settings.values[than].isSameForCore(wanted);
        return here.isSameForCore(wanted) || isOther && here.fixedLines.equals(wanted.fixedLines);
    }

    private PoolCommand add(int number, CommandDescription description) {
        PoolCommand made = new PoolCommand(pool, number, description, settings.values[number]);
        byKey.put(description.key.name(), made);
        all = Arrays.copyOf(all, all.length + 1);
        all[all.length - 1] = made;
        isTaken[number] = true;
        return made;
    }
}
