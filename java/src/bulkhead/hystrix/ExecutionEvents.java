package bulkhead.hystrix;

import java.util.ArrayList;
import java.util.Collections;
import java.util.List;

/** What happened in an execution, by what its call was told. */
final class ExecutionEvents {
    private ExecutionEvents() {}

    /** The events of a call that has an answer, in their order; none before. */
    static List<HystrixEventType> of(AbstractCommand<?> call) {
        List<HystrixEventType> all = new ArrayList<>(3);
        switch (call.outcome()) {
            case Reply.VALUE:
                all.add(HystrixEventType.SUCCESS);
                break;
            case Reply.BAD_REQUEST:
                all.add(call.isCancelled() ? HystrixEventType.CANCELLED : HystrixEventType.BAD_REQUEST);
                break;
            case Reply.FALLBACK_VALUE:
                all.add(ofCause(call.cause));
                all.add(HystrixEventType.FALLBACK_SUCCESS);
                break;
            case Reply.ERROR:
                all.add(ofCause(call.cause));
                all.add(ofFallback(call.fallback));
                break;
            default:
        }
        if (call.isResponseFromCache() && !all.isEmpty()) {
            all.add(HystrixEventType.RESPONSE_FROM_CACHE);
        }
        return Collections.unmodifiableList(all);
    }

    private static HystrixEventType ofCause(int cause) {
        switch (cause) {
            case Reply.SHORT_CIRCUITED:
                return HystrixEventType.SHORT_CIRCUITED;
            case Reply.POOL_REJECTED:
                return HystrixEventType.THREAD_POOL_REJECTED;
            case Reply.SEMAPHORE_REJECTED:
                return HystrixEventType.SEMAPHORE_REJECTED;
            case Reply.TIMEOUT:
                return HystrixEventType.TIMEOUT;
            default:
                return HystrixEventType.FAILURE;
        }
    }

    private static HystrixEventType ofFallback(int fallback) {
        switch (fallback) {
            case Reply.FALLBACK_FAILED:
                return HystrixEventType.FALLBACK_FAILURE;
            case Reply.FALLBACK_REJECTED:
                return HystrixEventType.FALLBACK_REJECTION;
            case Reply.FALLBACK_DISABLED:
                return HystrixEventType.FALLBACK_DISABLED;
            default:
                return HystrixEventType.FALLBACK_MISSING;
        }
    }
}
