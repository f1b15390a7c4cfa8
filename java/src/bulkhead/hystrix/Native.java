package bulkhead.hystrix;

/**
 * The natives over the library for C, and its numbers.
 *
 * <p>A handle is used under the one lock of its service and never after {@link #close}. A reply is packed into one
 * {@code long}, which {@link Reply} reads; one below 0 says that no step was made.
 */
final class Native {
    // what a step does
    static final int SUBMIT = 1;
    static final int SUBMIT_SHARED = 2;
    static final int START = 3;
    static final int FINISH = 4;
    static final int FAIL = 5;
    static final int FAIL_BAD_REQUEST = 6;
    static final int EXPIRE = 7;
    static final int COLLECT = 8;
    static final int FALLBACK_SUCCESS = 9;
    static final int FALLBACK_FAILURE = 10;
    static final int FALLBACK_MISSING = 11;
    static final int CLOSE_CONTEXT = 12;
    static final int READ = 13;
    static final int TUNE = 14;

    /** How many numbers {@link #read} writes. */
    static final int METRICS = 20;

    /** What is answered, below 0, where the stack of this thread is too short for a turn. */
    static final long NO_STACK = -64;

    static {
        NativeLibrary.load();
        if (!isOfHeader()) {
            throw new UnsatisfiedLinkError("the library has another interface than this jar was built with");
        }
    }

    private Native() {}

    /** Whether the library has the version of the interface that the natives were compiled with. */
    private static native boolean isOfHeader();

    /** Whether this thread has the stack that a turn takes. */
    static native boolean hasStack();

    /**
     * Opens a service.
     *
     * @param settings the bytes of a settings file
     * @param why has room for the reason of a refusal
     * @return the handle; 0 where memory was refused; where the settings were, the length of the reason, below 0
     */
    static native long open(byte[] settings, byte[] why);

    /** Gives the memory of a service back. */
    static native void close(long handle);

    /** Makes a step. A Submit is refused by {@link #NO_STACK}; {@code ticket} counts where the operation names one. */
    static native long step(long handle, int operation, int command, long moment, long ticket);

    /** Ends a run or a fallback and, where that was taken, collects the answer of the same ticket. */
    static native long endAndCollect(long handle, int operation, long moment, long ticket);

    /** Submits a call that may share an answer. */
    static native long share(long handle, int command, long moment, long context, long key);

    /** Ends a request context. */
    static native long endContext(long handle, long moment, long context);

    /** Changes a property of a command or of its pool; {@code name} has the bytes of its name. */
    static native long tune(long handle, int command, long moment, byte[] name, long value);

    /** Asks for the metrics of a command; {@code metrics} has room for {@link #METRICS} numbers. */
    static native long read(long handle, int command, long moment, long[] metrics);
}
