package bulkhead.hystrix;

/** The name of a group of commands, which is that of their thread pool where they name none. Two keys of one name mean the same. */
public interface HystrixCommandGroupKey extends HystrixKey {
    /** Makes keys, of each name one. */
    final class Factory {
        private static final Keys<HystrixCommandGroupKey> KEYS = new Keys<>(Named::new);

        private Factory() {}

        /** Returns the key of the name. Any thread may call this. */
        public static HystrixCommandGroupKey asKey(String name) {
            return KEYS.of(name);
        }

        private static final class Named extends HystrixKey.HystrixKeyDefault implements HystrixCommandGroupKey {
            Named(String name) {
                super(name);
            }
        }
    }
}
