package bulkhead.hystrix;

/** The name of a command: its circuit breaker, its metrics and its properties go by it. Two keys of one name mean the same. */
public interface HystrixCommandKey extends HystrixKey {
    /** Makes keys, of each name one. */
    final class Factory {
        private static final Keys<HystrixCommandKey> KEYS = new Keys<>(Named::new);

        private Factory() {}

        /** Returns the key of the name. Any thread may call this. */
        public static HystrixCommandKey asKey(String name) {
            return KEYS.of(name);
        }

        private static final class Named extends HystrixKey.HystrixKeyDefault implements HystrixCommandKey {
            Named(String name) {
                super(name);
            }
        }
    }
}
