package bulkhead.hystrix;

/** The lines of steps and of replies, as {@code bulkhead run} reads and writes them. */
final class RecordText {
    /** How many numbers a step is noted by. Behind those of a Read stand its metrics. */
    static final int STEP = 5;

    private static final String[] OPERATIONS = {
        "", "submit", "submit", "start", "finish", "fail", "fail", "expire", "collect", "fallback", "fallback", "fallback",
        "close", "read", "tune"
    };
    private static final String[] CAUSES = {
        "", "short-circuited", "thread-pool-rejected", "semaphore-rejected", "failure", "timeout"
    };
    private static final String[] FALLBACKS = {"", "failed", "rejected", "missing", "disabled"};
    private static final String[] KINDS = {
        "", "queued", "inline", "fallback-due", "joined", "group-full", "assigned", "idle", "done", "late", "not-running",
        "expired", "pending", "run-fallback", "value", "fallback-value", "error", "bad-request", "no-ticket",
        "not-in-fallback", "closed", "metrics", "worn", "no-group", "no-command", "tuned"
    };
    private static final String[] EVENTS = {
        "BAD_REQUEST", "EXCEPTION_THROWN", "FAILURE", "FALLBACK_FAILURE", "FALLBACK_MISSING", "FALLBACK_REJECTION",
        "FALLBACK_SUCCESS", "RESPONSE_FROM_CACHE", "SEMAPHORE_REJECTED", "SHORT_CIRCUITED", "SUCCESS", "THREAD_POOL_REJECTED",
        "TIMEOUT"
    };
    private static final String[] CIRCUITS = {"", "closed", "open", "half-open"};

    private final String[] names;

    /** Lines of a group whose commands have these names by their numbers; that of number 0 is the group's. */
    RecordText(String[] names) {
        this.names = names;
    }

    /** Appends the lines of the step that is noted from a place on, and returns the place behind it. */
    int append(StringBuilder asked, StringBuilder told, long[] noted, int at) {
        int operation = (int) noted[at] & 255;
        int command = (int) (noted[at] >> 8);
        long reply = noted[at + 4];
        appendStep(asked, operation, command, noted[at + 1], noted[at + 2], noted[at + 3]);
        if (Reply.kind(reply) == Reply.METRICS) {
            appendMetrics(told, noted, at + STEP);
            return at + STEP + Native.METRICS;
        }
        appendReply(told, reply);
        return at + STEP;
    }

    private void appendStep(StringBuilder to, int operation, int command, long moment, long named, long key) {
        to.append("{\"op\":\"").append(OPERATIONS[operation]).append("\",\"group\":\"").append(names[0]);
        to.append("\",\"now\":").append(moment);
        switch (operation) {
            case Native.SUBMIT:
                to.append(",\"arg\":\"\"");
                break;
            case Native.SUBMIT_SHARED:
                to.append(",\"arg\":\"\",\"context\":").append(named).append(",\"key\":\"").append(key).append('"');
                break;
            case Native.TUNE:
                appendProperty(to, Tunable.at((int) key), named);
                break;
            case Native.CLOSE_CONTEXT:
                to.append(",\"context\":").append(named);
                break;
            case Native.START:
            case Native.EXPIRE:
            case Native.READ:
                break;
            default:
                to.append(",\"ticket\":").append(named).append(endOf(operation));
        }
        if (command > 0) {
            to.append(",\"command\":\"").append(names[command]).append('"');
        }
        to.append("}\n");
    }

    private static void appendProperty(StringBuilder to, Tunable tunable, long value) {
        to.append(",\"property\":\"").append(tunable.property.path).append("\",\"value\":");
        if (tunable.isFlag()) {
            to.append(value != 0);
        } else {
            to.append(value);
        }
    }

    private static String endOf(int operation) {
        switch (operation) {
            case Native.FINISH:
                return ",\"body\":\"\"";
            case Native.FAIL:
                return ",\"bad\":false";
            case Native.FAIL_BAD_REQUEST:
                return ",\"bad\":true";
            case Native.FALLBACK_SUCCESS:
                return ",\"end\":\"success\",\"body\":\"\"";
            case Native.FALLBACK_FAILURE:
                return ",\"end\":\"failure\"";
            case Native.FALLBACK_MISSING:
                return ",\"end\":\"missing\"";
            default:
                return "";
        }
    }

    /** Members stand in the order of their names. */
    private void appendReply(StringBuilder to, long reply) {
        int kind = Reply.kind(reply);
        to.append('{').append(frontOf(kind, reply)).append("\"reply\":\"").append(KINDS[kind]).append('"');
        switch (kind) {
            case Reply.QUEUED:
            case Reply.INLINE:
            case Reply.JOINED:
            case Reply.FALLBACK_DUE:
            case Reply.ASSIGNED:
                to.append(",\"ticket\":").append(Reply.number(reply));
                break;
            default:
        }
        to.append("}\n");
    }

    /** The members of a reply whose names come before {@code reply}. */
    private String frontOf(int kind, long reply) {
        String cause = "\"cause\":\"" + CAUSES[Reply.cause(reply)] + "\",";
        switch (kind) {
            case Reply.FALLBACK_DUE:
            case Reply.RUN_FALLBACK:
                return cause;
            case Reply.ASSIGNED:
                int command = Reply.command(reply);
                return "\"arg\":\"\"," + (command == 0 ? "" : "\"command\":\"" + names[command] + "\",");
            case Reply.EXPIRED:
                return "\"count\":" + Reply.number(reply) + ",";
            case Reply.VALUE:
                return "\"body\":\"\",";
            case Reply.FALLBACK_VALUE:
                return "\"body\":\"\"," + cause;
            case Reply.ERROR:
                return cause + "\"fallback\":\"" + FALLBACKS[Reply.fallback(reply)] + "\",";
            case Reply.CLOSED:
                return "\"released\":" + Reply.number(reply) + ",";
            default:
                return "";
        }
    }

    private static void appendMetrics(StringBuilder to, long[] noted, int at) {
        to.append("{\"busy\":").append(noted[at + Metrics.BUSY]);
        to.append(",\"circuit\":\"").append(CIRCUITS[(int) noted[at + Metrics.CIRCUIT]]);
        to.append("\",\"errors\":").append(noted[at + Metrics.ERRORS]).append(",\"events\":{");
        String comma = "";
        for (int event = 0; event < EVENTS.length; event++) {
            long count = noted[at + Metrics.EVENTS + event];
            if (count > 0) {
                to.append(comma).append('"').append(EVENTS[event]).append("\":").append(count);
                comma = ",";
            }
        }
        to.append("},\"free\":").append(noted[at + Metrics.FREE]).append(",\"percent\":").append(noted[at + Metrics.PERCENT]);
        to.append(",\"queued\":").append(noted[at + Metrics.QUEUED]).append(",\"reply\":\"metrics\"");
        to.append(",\"total\":").append(noted[at + Metrics.TOTAL]).append("}\n");
    }
}
