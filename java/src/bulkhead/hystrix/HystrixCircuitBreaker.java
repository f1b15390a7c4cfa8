package bulkhead.hystrix;

/** The circuit breaker of a command, to be looked at. What opens and closes it are the executions alone. */
public interface HystrixCircuitBreaker {
    /** Returns whether the next call may pass, save that an open circuit lets a test call pass of which this knows nothing. */
    boolean allowRequest();

    /** Returns whether the next call would find the circuit open: it is, or its errors have reached both thresholds. */
    boolean isOpen();

    /** Finds circuit breakers. */
    final class Factory {
        private Factory() {}

        /** Returns the circuit breaker of a command; null where none was made of the key yet. Any thread may use it. */
        public static HystrixCircuitBreaker getInstance(HystrixCommandKey key) {
            PoolCommand command = AbstractCommand.known(key);
            return command == null ? null : new Look(command);
        }

        private static final class Look implements HystrixCircuitBreaker {
            private final PoolCommand command;

            Look(PoolCommand command) {
                this.command = command;
            }

            @Override
            public boolean allowRequest() {
                return !isOpen();
            }

            @Override
            public boolean isOpen() {
                return command.isCircuitOpen();
            }
        }
    }
}
