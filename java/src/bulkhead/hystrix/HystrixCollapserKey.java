package bulkhead.hystrix;

/** The name of a collapser: its properties go by it. Two keys of one name mean the same. */
public interface HystrixCollapserKey extends HystrixKey {
    /** Makes keys, of each name one. */
    final class Factory {
        private static final Keys<HystrixCollapserKey> KEYS = new Keys<>(Named::new);

        private Factory() {}

        /** Returns the key of the name. Any thread may call this. */
        public static HystrixCollapserKey asKey(String name) {
            return KEYS.of(name);
        }

        private static final class Named extends HystrixKey.HystrixKeyDefault implements HystrixCollapserKey {
            Named(String name) {
                super(name);
            }
        }
    }
}
