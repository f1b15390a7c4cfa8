package bulkhead.hystrix;

import java.util.concurrent.ConcurrentHashMap;
import java.util.function.Function;

/** The keys of one kind, of each name one. */
final class Keys<K> {
    private final ConcurrentHashMap<String, K> byName = new ConcurrentHashMap<>();
    private final Function<String, K> make;

    Keys(Function<String, K> make) {
        this.make = make;
    }

    K of(String name) {
        K known = byName.get(name); // most are known, and this takes no lock
        return known != null ? known : byName.computeIfAbsent(name, make);
    }
}
