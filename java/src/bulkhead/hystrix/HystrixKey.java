package bulkhead.hystrix;

import java.util.Objects;

/** What has a name of its own, such as a command or a thread pool. */
public interface HystrixKey {
    /** The name, of one character or more. */
    String name();

    /** A key that is no more than its name. */
    abstract class HystrixKeyDefault implements HystrixKey {
        private final String name;

        /** Makes a key of the name. */
        public HystrixKeyDefault(String name) {
            this.name = Objects.requireNonNull(name, "a key has a name");
        }

        @Override
        public String name() {
            return name;
        }

        @Override
        public String toString() {
            return name;
        }
    }
}
