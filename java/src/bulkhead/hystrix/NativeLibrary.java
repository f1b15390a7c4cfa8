package bulkhead.hystrix;

import java.io.IOException;
import java.io.InputStream;
import java.io.UncheckedIOException;
import java.nio.file.Files;
import java.nio.file.Path;
import java.nio.file.StandardCopyOption;
import java.util.Locale;

/** Finds the shared object of the natives and loads it into this class loader. */
final class NativeLibrary {
    private NativeLibrary() {}

    /**
     * Loads what the system property {@code bulkhead.library} names, else a copy of the object in the jar. A class loader
     * needs a file of its own, since a virtual machine loads a file into one class loader alone.
     */
    static void load() {
        String named = System.getProperty("bulkhead.library");
        if (named != null) {
            System.load(named);
            return;
        }
        String resource = resource();
        try (InputStream in = NativeLibrary.class.getResourceAsStream(resource)) {
            if (in == null) {
                throw new UnsatisfiedLinkError("this jar has no library for this system: " + resource);
            }
            loadCopy(in);
        } catch (IOException e) {
            throw new UncheckedIOException(e);
        }
    }

    private static String resource() {
        String system = System.getProperty("os.name").toLowerCase(Locale.ROOT);
        return "/native/" + system + "-" + System.getProperty("os.arch") + "/libbulkhead_jni.so";
    }

    private static void loadCopy(InputStream in) throws IOException {
        Path copy = Files.createTempFile("libbulkhead_jni", ".so");
        try {
            Files.copy(in, copy, StandardCopyOption.REPLACE_EXISTING);
            System.load(copy.toString());
        } finally {
            Files.deleteIfExists(copy); // it is mapped by now, which keeps it
        }
    }
}
