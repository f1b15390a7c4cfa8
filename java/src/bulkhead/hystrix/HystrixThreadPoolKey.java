package bulkhead.hystrix;

/** The name of a thread pool, which several commands may share. Two keys of one name mean the same. */
public interface HystrixThreadPoolKey extends HystrixKey {
    /** Makes keys, of each name one. */
    final class Factory {
        private static final Keys<HystrixThreadPoolKey> KEYS = new Keys<>(Named::new);

        private Factory() {}

        /** Returns the key of the name. Any thread may call this. */
        public static HystrixThreadPoolKey asKey(String name) {
            return KEYS.of(name);
        }

        private static final class Named extends HystrixKey.HystrixKeyDefault implements HystrixThreadPoolKey {
            Named(String name) {
                super(name);
            }
        }
    }
}
