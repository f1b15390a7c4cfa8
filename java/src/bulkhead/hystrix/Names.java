package bulkhead.hystrix;

/** Names as a settings file takes them: of 1 to 32 letters, digits, {@code _} and {@code -}, and not {@code default}. */
final class Names {
    private static final int ROOM = 32;
    private static final String SPARE = "spare-";

    private Names() {}

    /** The key itself where a settings file takes it; else what it takes of the key, and the key's hash behind that. */
    static String spelled(String key) {
        if (key.matches("[A-Za-z0-9_-]{1," + ROOM + "}") && !key.equals("default") && !key.startsWith(SPARE)) {
            return key;
        }
        String plain = key.replaceAll("[^A-Za-z0-9_-]", "_");
        String hash = String.format("-%08x", key.hashCode());
        return plain.substring(0, Math.min(plain.length(), ROOM - hash.length())) + hash;
    }

    /** The name of a further command of a pool, which no key has yet. Names stand in the order of their numbers. */
    static String spare(int number) {
        return String.format("%s%02d", SPARE, number);
    }
}
