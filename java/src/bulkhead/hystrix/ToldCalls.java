package bulkhead.hystrix;

/** Calls that were told an outcome in a turn, in this order. */
final class ToldCalls {
    private Call first;
    private Call last;

    void add(Call call) {
        if (first == null) {
            first = call;
        } else {
            last.nextTold = call;
        }
        last = call;
    }

    /** Whether telling them runs foreign code. */
    boolean runsForeignCode() {
        for (Call call = first; call != null; call = call.nextTold) {
            if (call.isObserved) {
                return true;
            }
        }
        return false;
    }

    /** Takes all out, and returns the first. */
    Call take() {
        Call taken = first;
        first = last = null;
        return taken;
    }

    /** Tells them all, outside of the lock. */
    static void tell(Call first, boolean byTimer) {
        for (Call call = first; call != null; ) {
            Call next = call.nextTold;
            call.nextTold = null;
            call.tell(byTimer);
            call = next;
        }
    }
}
