package bulkhead.hystrix;

import java.nio.charset.StandardCharsets;

/**
 * A service of one group: its steps, the moment that it is at, and the record of both.
 *
 * <p>Every method but the constructor is called under the lock of the pool that has the group. No method is called after
 * {@link #close}. Nothing here takes memory once a step was made.
 */
final class Group {
    private final long handle;
    private final Recorder recorder;
    private long latest;
    private boolean isWorn;

    /**
     * Opens the service.
     *
     * @param settings a settings file
     * @param recorder what writes each step and its reply; may be null
     * @throws IllegalArgumentException where the settings are refused
     * @throws OutOfMemoryError where the library was refused memory
     */
    Group(String settings, Recorder recorder) {
        byte[] why = new byte[256];
        handle = Native.open(settings.getBytes(StandardCharsets.UTF_8), why);
        if (handle == 0) {
            throw new OutOfMemoryError("bulkhead: memory for a service was refused");
        }
        if (handle < 0) {
            throw new IllegalArgumentException(new String(why, 0, (int) -handle, StandardCharsets.UTF_8));
        }
        this.recorder = recorder;
    }

    /** The moment of the next steps, which is never before that of the steps so far. */
    long moment() {
        return latest = Math.max(latest, Moments.now());
    }

    /** The moment of the latest steps; 0 before the first. */
    long latest() {
        return latest;
    }

    /** Whether the group has made all the steps that it may. */
    boolean isWorn() {
        return isWorn;
    }

    /**
     * Makes a step at {@link #latest}.
     *
     * @param ticket the ticket that the operation names, else 0
     * @throws StackOverflowError where a Submit found the stack too short; no step was made then
     */
    long step(int operation, int command, long ticket) {
        long reply = checked(Native.step(handle, operation, command, latest, ticket));
        note(operation, command, ticket, 0, reply);
        return reply;
    }

    /** Ends a run or a fallback and, where that was taken, collects the answer; see {@link Reply#before}. */
    long endAndCollect(int operation, long ticket) {
        long reply = checked(Native.endAndCollect(handle, operation, latest, ticket));
        int before = Reply.before(reply);
        note(operation, 0, ticket, 0, before == 0 ? reply : before);
        if (before != 0) {
            note(Native.COLLECT, 0, ticket, 0, reply);
        }
        return reply;
    }

    /**
     * Submits a call that may share an answer.
     *
     * @throws StackOverflowError where the stack is too short; no step was made then
     */
    long share(int command, long context, long key) {
        long reply = checked(Native.share(handle, command, latest, context, key));
        note(Native.SUBMIT_SHARED, command, context, key, reply);
        return reply;
    }

    void endContext(long context) {
        note(Native.CLOSE_CONTEXT, 0, context, 0, checked(Native.endContext(handle, latest, context)));
    }

    /** Changes a property of a command, or of the pool. The value is in the range of the property. */
    void tune(int command, Tunable property, long value) {
        long reply = checked(Native.tune(handle, command, latest, property.spelled(), value));
        note(Native.TUNE, command, value, property.ordinal(), reply);
    }

    /** Asks for the metrics of a command, and returns whether they stand in the array. */
    boolean read(int command, long[] metrics) {
        long reply = checked(Native.read(handle, command, latest, metrics));
        boolean isTold = Reply.kind(reply) == Reply.METRICS;
        note(Native.READ, command, 0, 0, reply);
        if (recorder != null && isTold) {
            recorder.note(metrics);
        }
        return isTold;
    }

    void close() {
        Native.close(handle);
    }

    private void note(int operation, int command, long named, long key, long reply) {
        if (recorder != null) {
            recorder.note(operation, command, latest, named, key, reply);
        }
    }

    private long checked(long reply) {
        if (reply >= 0) {
            isWorn |= Reply.kind(reply) == Reply.WORN;
            return reply;
        }
        if (reply == Native.NO_STACK) {
            throw new StackOverflowError("too little of the stack is left for a call");
        }
        throw new IllegalStateException("the library refused a step: " + -reply);
    }
}
