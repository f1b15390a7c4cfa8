package bulkhead.hystrix;

import java.io.IOException;
import java.io.OutputStream;
import java.io.UncheckedIOException;
import java.nio.charset.StandardCharsets;
import java.nio.file.Files;
import java.nio.file.Path;
import java.util.Arrays;
import java.util.concurrent.locks.ReentrantLock;

/**
 * Writes the record of a pool: {@code NAME.toml} with its settings, {@code NAME.jsonl} with its steps, a line each, and
 * {@code NAME.replies} with what they were answered. {@code bulkhead run NAME.toml} answers the steps so, byte for byte.
 *
 * <p>A turn notes numbers in memory, and a thread of the recorder writes lines of them.
 */
final class Recorder implements Runnable {
    private static final int ROOM = 1 << 14;
    private static final long PAUSE = 100;

    private final RecordText text;
    private final OutputStream steps;
    private final OutputStream replies;
    private ReentrantLock lock;
    // guarded by the lock of the pool
    private long[] noted = new long[ROOM];
    private int length;
    private boolean isCut;
    private volatile boolean isOver;

    private Recorder(Settings settings, Path directory) throws IOException {
        text = new RecordText(settings.names);
        String base = settings.names[0];
        for (int more = 2; Files.exists(directory.resolve(base + ".jsonl")); more++) {
            base = settings.names[0] + "." + more;
        }
        Files.writeString(directory.resolve(base + ".toml"), settings.text);
        steps = Files.newOutputStream(directory.resolve(base + ".jsonl"));
        replies = Files.newOutputStream(directory.resolve(base + ".replies"));
    }

    /** A recorder in the folder that the system property {@code bulkhead.record} names, or null where it names none. */
    static Recorder of(Settings settings) {
        String directory = System.getProperty("bulkhead.record");
        if (directory == null) {
            return null;
        }
        try {
            return new Recorder(settings, Path.of(directory));
        } catch (IOException e) {
            throw new UncheckedIOException(e);
        }
    }

    /** Begins to write what is noted under the lock. */
    void begin(ReentrantLock lock) {
        this.lock = lock;
        Helpers.daemons("hystrix-record").newThread(this).start();
    }

    /** Keeps a step and its reply. Where memory is refused, the record ends before this step. */
    void note(int operation, int command, long moment, long named, long key, long reply) {
        if (hasRoom(RecordText.STEP + Native.METRICS)) {
            noted[length] = operation | (long) command << 8;
            noted[length + 1] = moment;
            noted[length + 2] = named;
            noted[length + 3] = key;
            noted[length + 4] = reply;
            length += RecordText.STEP;
        }
    }

    /** Keeps the metrics behind the Read that was noted last. */
    void note(long[] metrics) {
        if (!isCut) {
            System.arraycopy(metrics, 0, noted, length, metrics.length);
            length += metrics.length;
        }
    }

    private boolean hasRoom(int numbers) {
        if (!isCut && length + numbers > noted.length) {
            try {
                noted = Arrays.copyOf(noted, 2 * noted.length);
            } catch (OutOfMemoryError e) {
                isCut = true;
            }
        }
        return !isCut;
    }

    @Override
    public void run() {
        try {
            while (!isOver) {
                Thread.sleep(PAUSE);
                write();
            }
        } catch (InterruptedException e) {
            isOver = true;
        }
    }

    /** Writes what is left. No step is made any more. */
    void close() {
        isOver = true;
        write();
        try {
            steps.close();
            replies.close();
        } catch (IOException e) {
            throw new UncheckedIOException(e);
        }
    }

    private synchronized void write() {
        long[] taken;
        int count;
        long[] empty = new long[ROOM];
        lock.lock();
        try {
            taken = noted;
            count = length;
            noted = empty;
            length = 0;
        } finally {
            lock.unlock();
        }
        if (count == 0) {
            return;
        }
        StringBuilder asked = new StringBuilder();
        StringBuilder told = new StringBuilder();
        for (int at = 0; at < count; ) {
            at = text.append(asked, told, taken, at);
        }
        try {
            steps.write(asked.toString().getBytes(StandardCharsets.UTF_8));
            replies.write(told.toString().getBytes(StandardCharsets.UTF_8));
        } catch (IOException e) {
            throw new UncheckedIOException(e);
        }
    }
}
