package bulkhead.hystrix;

import bulkhead.hystrix.exception.HystrixBadRequestException;
import bulkhead.hystrix.strategy.HystrixPlugins;
import bulkhead.hystrix.strategy.concurrency.HystrixRequestContext;
import bulkhead.hystrix.strategy.properties.HystrixPropertiesStrategy;
import java.lang.invoke.MethodHandles;
import java.lang.invoke.VarHandle;
import java.util.Collection;
import java.util.List;
import java.util.concurrent.CompletableFuture;
import java.util.concurrent.ConcurrentHashMap;

/** What both kinds of command have in common: an instance is a call, which is executed once. */
abstract class AbstractCommand<R> extends Call implements HystrixInvokableInfo<R>, HystrixObservable<R> {
    private static final ConcurrentHashMap<String, PoolCommand> KNOWN = new ConcurrentHashMap<>();
    private static final ClassValue<String> NAMES = new ClassValue<>() {
        @Override
        protected String computeValue(Class<?> type) {
            String name = type.getSimpleName();
            return name.isEmpty() ? type.getName().substring(type.getName().lastIndexOf('.') + 1) : name;
        }
    };
    private static final VarHandle HAS_BEGUN;

    static {
        try {
            HAS_BEGUN = MethodHandles.lookup().findVarHandle(AbstractCommand.class, "hasBegun", boolean.class);
        } catch (ReflectiveOperationException e) {
            throw new ExceptionInInitializerError(e);
        }
    }

    final PoolCommand command;
    final Hooks hooks = Hooks.registered();
    /** Whether the answer is taken behind the run, in the same thread; else the run may end in any thread. */
    final boolean waitsBehindRun;
    /** Whether the thread of this call is to run the ticket. */
    boolean isRun;
    /** Whether no slot was free. */
    boolean isFull;
    /** Gets the answer, where no thread waits for it. */
    CompletableFuture<R> promise;

    private final HystrixCommandGroupKey group;
    private final HystrixThreadPoolKey poolKey;
    private volatile boolean hasBegun;
    private volatile boolean isCancelled;

    AbstractCommand(
            HystrixCommandGroupKey group,
            HystrixCommandKey key,
            HystrixThreadPoolKey poolKey,
            HystrixCommandProperties.Setter properties,
            HystrixThreadPoolProperties.Setter poolProperties,
            boolean waitsBehindRun) {
        if (group == null || group.name().isEmpty()) {
            throw new IllegalStateException("HystrixCommandGroup can not be NULL");
        }
        this.group = group;
        this.waitsBehindRun = waitsBehindRun;
        String name = key == null ? NAMES.get(getClass()) : key.name();
        PoolCommand found = KNOWN.get(name);
        if (found == null || found.pool.isOver()) {
            HystrixCommandKey of = key == null ? HystrixCommandKey.Factory.asKey(name) : key;
            found = Pools.command(described(of, group, poolKey, properties, poolProperties));
            KNOWN.put(name, found);
        }
        command = found;
        this.poolKey = poolKey == null ? found.poolKey : poolKey;
    }

    /** Reads the properties of a command key that is new. */
    private static CommandDescription described(
            HystrixCommandKey key,
            HystrixCommandGroupKey group,
            HystrixThreadPoolKey poolKey,
            HystrixCommandProperties.Setter properties,
            HystrixThreadPoolProperties.Setter poolProperties) {
        HystrixPropertiesStrategy strategy = HystrixPlugins.getInstance().getPropertiesStrategy();
        HystrixCommandProperties found = strategy.getCommandProperties(key, properties);
        String override = found.executionIsolationThreadPoolKeyOverride().get();
        HystrixThreadPoolKey pool = poolKey;
        if (override != null) {
            pool = HystrixThreadPoolKey.Factory.asKey(override);
        } else if (pool == null) {
            pool = HystrixThreadPoolKey.Factory.asKey(group.name());
        }
        return new CommandDescription(key, group, pool, found, strategy.getThreadPoolProperties(pool, poolProperties));
    }

    /** The command of a key, or null where none was made. */
    static PoolCommand known(HystrixCommandKey key) {
        return KNOWN.get(key.name());
    }

    static Collection<PoolCommand> allKnown() {
        return KNOWN.values();
    }

    /** Has the next instance of each key read its properties anew. */
    static void forgetAll() {
        KNOWN.clear();
    }

    /**
     * Returns the key under which calls of this command share an answer within a request; null, as here, where they do not.
     * A call with a key needs a {@link HystrixRequestContext}.
     */
    protected String getCacheKey() {
        return null;
    }

    // -- an execution

    /**
     * Submits the call.
     *
     * @throws bulkhead.hystrix.exception.HystrixRuntimeException where this instance was executed before
     * @throws IllegalStateException where answers are to be shared, and this thread has no request
     */
    final void begin() {
        if (!HAS_BEGUN.compareAndSet(this, false, true)) {
            throw Failures.begunTwice(this);
        }
        context = HystrixRequestContext.getContextForCurrentThread();
        CommandValues values = command.values;
        String cacheKey = values.isCached ? getCacheKey() : null;
        SharedKeys shared = cacheKey == null ? null : RequestShares.current(command.pool);
        HystrixRequestLog log = values.isLogged ? HystrixRequestLog.getCurrentRequest() : null;
        if (log != null) {
            log.add(this);
        }
        prepare();
        if (shared == null) {
            hooks.start(this);
        }
        command.pool.submit(this, shared, cacheKey);
        if (shared != null) {
            hooks.startOrHit(this, isResponseFromCache());
        }
        if (outcome() == Reply.GROUP_FULL) {
            isFull = true;
            cause = values.isPooled ? Reply.POOL_REJECTED : Reply.SEMAPHORE_REJECTED;
            answerFull();
        }
    }

    /** Does what is to be done in the thread of the caller before a run. */
    void prepare() {}

    /** Runs the command for a ticket in this thread, and returns the operation that tells the end, or 0 where it is to come. */
    abstract int perform(Ticket ticket);

    /** Runs the fallback of this command for a ticket in this thread, and returns the operation that tells the end. */
    abstract int fallBack(Ticket ticket);

    /** Answers a call that found no slot free, and of which the core knows nothing, by the fallback. */
    abstract void answerFull();

    /** Keeps what a run raised, and returns the operation that tells it. */
    static int failed(Ticket ticket, Throwable raised) {
        ticket.ranError = Failures.exceptionOf(raised);
        return raised instanceof HystrixBadRequestException ? Native.FAIL_BAD_REQUEST : Native.FAIL;
    }

    /** Keeps what a fallback raised, and returns the operation that tells it. */
    static int fallbackFailed(Ticket ticket, Throwable raised) {
        ticket.fallbackError = raised;
        return raised instanceof UnsupportedOperationException ? Native.FALLBACK_MISSING : Native.FALLBACK_FAILURE;
    }

    /** Ends the answer of a call that found no slot free, by the operation that tells the end of its fallback. */
    final void endFull(int operation) {
        answer = ticket.fallbackValue;
        if (operation == Native.FALLBACK_SUCCESS) {
            setOutcome(Reply.FALLBACK_VALUE);
            return;
        }
        fallback = operation == Native.FALLBACK_MISSING ? Reply.FALLBACK_NOT_THERE : Reply.FALLBACK_FAILED;
        setOutcome(Reply.ERROR);
    }

    /** Whether the fallback is not to be run; then the call that found no slot free has its answer. */
    final boolean endFullWithoutFallback() {
        if (command.values.hasFallback) {
            return false;
        }
        fallback = Reply.FALLBACK_DISABLED;
        setOutcome(Reply.ERROR);
        return true;
    }

    /** Runs the fallback of the ticket in this thread, which is not that of the call, and takes the answer. */
    void fallBackElsewhere() {
        HystrixRequestContext before = HystrixRequestContext.getContextForCurrentThread();
        HystrixRequestContext.setContextOnCurrentThread(context);
        int operation;
        try {
            operation = ticket.owner.fallBack(ticket);
        } finally {
            HystrixRequestContext.setContextOnCurrentThread(before);
        }
        command.pool.endFallback(ticket, operation, this);
        resolve();
    }

    @Override
    final void told(boolean byTimer) {
        if (outcome() == Reply.RUN_FALLBACK) {
            Helpers.run(this::fallBackElsewhere);
        } else if (byTimer) {
            Helpers.run(this::resolve);
        } else {
            resolve();
        }
    }

    /** Hands the answer, if there is one, to the promise. */
    final void resolve() {
        if (isOpen()) {
            return;
        }
        try {
            promise.complete(answered());
        } catch (Throwable e) {
            promise.completeExceptionally(e);
        }
    }

    /** The value, or what is raised in its place. It is asked for once. */
    @SuppressWarnings("unchecked") // the run and the fallback gave one of this type
    final R answered() {
        if (outcome() == Reply.VALUE || outcome() == Reply.FALLBACK_VALUE) {
            return hooks.emitted(this, (R) answer);
        }
        throw AbstractCommand.<RuntimeException>sneaky(hooks.failed(this, Failures.of(this)));
    }

    /** The exception, which is none that this type has to name where the command itself raised it. */
    @SuppressWarnings("unchecked")
    static <E extends Throwable> E sneaky(Throwable e) throws E {
        throw (E) e;
    }

    /** The holder waits no more. A run of its own is broken off, unless others share the answer. */
    final boolean cancel(boolean mayInterrupt) {
        if (!command.pool.leave(this)) {
            return false;
        }
        isCancelled = true;
        if (ticket.owner == this && !ticket.isShared && !ticket.prevent() && mayInterrupt) {
            ticket.interrupt();
        }
        return true;
    }

    // -- what is asked of a command

    @Override
    public HystrixCommandGroupKey getCommandGroup() {
        return group;
    }

    @Override
    public HystrixCommandKey getCommandKey() {
        return command.key;
    }

    @Override
    public HystrixThreadPoolKey getThreadPoolKey() {
        return poolKey;
    }

    @Override
    public String getPublicCacheKey() {
        return getCacheKey();
    }

    @Override
    public HystrixCommandProperties getProperties() {
        return command.properties;
    }

    @Override
    public HystrixCommandMetrics getMetrics() {
        return new HystrixCommandMetrics(command);
    }

    @Override
    public boolean isCircuitBreakerOpen() {
        return command.isCircuitOpen();
    }

    @Override
    public boolean isExecutionComplete() {
        return !isOpen();
    }

    @Override
    public boolean isExecutedInThread() {
        boolean wasLetIn = outcome() == Reply.VALUE || outcome() == Reply.BAD_REQUEST || has(Reply.FAILURE) || has(Reply.TIMEOUT);
        return wasLetIn && command.values.isPooled && !isResponseFromCache();
    }

    @Override
    public boolean isSuccessfulExecution() {
        return outcome() == Reply.VALUE;
    }

    @Override
    public boolean isFailedExecution() {
        return has(Reply.FAILURE);
    }

    @Override
    public Throwable getFailedExecutionException() {
        return isFailedExecution() ? raised : null;
    }

    @Override
    public Throwable getExecutionException() {
        return outcome() == Reply.BAD_REQUEST || isFailedExecution() ? raised : null;
    }

    @Override
    public boolean isResponseFromFallback() {
        return outcome() == Reply.FALLBACK_VALUE;
    }

    @Override
    public boolean isResponseTimedOut() {
        return has(Reply.TIMEOUT);
    }

    @Override
    public boolean isResponseShortCircuited() {
        return has(Reply.SHORT_CIRCUITED);
    }

    @Override
    public boolean isResponseFromCache() {
        Ticket of = ticket;
        return of != null && of.owner != this;
    }

    @Override
    public boolean isResponseRejected() {
        return isResponseThreadPoolRejected() || isResponseSemaphoreRejected();
    }

    @Override
    public boolean isResponseSemaphoreRejected() {
        return has(Reply.SEMAPHORE_REJECTED);
    }

    @Override
    public boolean isResponseThreadPoolRejected() {
        return has(Reply.POOL_REJECTED);
    }

    /** Whether a fallback was due for this cause, and there is an answer. */
    private boolean has(int cause) {
        return (outcome() == Reply.FALLBACK_VALUE || outcome() == Reply.ERROR) && this.cause == cause;
    }

    /** Whether its future was cancelled. */
    final boolean isCancelled() {
        return isCancelled;
    }

    @Override
    public List<HystrixEventType> getExecutionEvents() {
        return ExecutionEvents.of(this);
    }

    @Override
    public int getExecutionTimeInMilliseconds() {
        Ticket of = ticket;
        return isOpen() || of == null || of.owner != this || of.ended < 0 ? -1 : (int) (of.ended - of.started);
    }
}
