package bulkhead.hystrix;

import java.util.concurrent.locks.ReentrantLock;

/**
 * A service of one group with its lock, its workers and those who wait: a thread pool with the commands that use it, or one
 * command under permits.
 *
 * <p>Each method is a turn. A turn makes its steps under the lock, and keeps what Java has to know of a reply before the
 * lock is given back. Foreign code (a run, a fallback, a callback, an interrupt) is called outside of it.
 */
final class Pool {
    final String name;
    /** The properties of the pool; null where its one command runs under permits. */
    final HystrixThreadPoolProperties properties;

    private final ReentrantLock lock = new ReentrantLock();
    private final Recorder recorder;
    private final Group group;
    private final PoolCommands commands;
    private final Workers workers;
    private final QueuedTickets queue = new QueuedTickets();
    private final ToldCalls told = new ToldCalls();
    private final Collector collector;
    private final Timeouts timeouts;
    private final Starter starter;
    private final Tuner tuner;
    private volatile boolean isOver;
    private boolean isClosed;

    /**
     * Opens the pool of a command.
     *
     * @throws IllegalArgumentException where a property of the command or of its pool is out of its range
     */
    Pool(CommandDescription first) {
        name = first.serviceName();
        properties = first.values.isPooled ? first.poolProperties : null;
        PoolValues values = properties == null ? null : new PoolValues(properties);
        Settings settings = new Settings(first, values);
        recorder = Recorder.of(settings);
        group = new Group(settings.text, recorder);
        commands = new PoolCommands(this, settings);
        workers = new Workers(this, values == null ? 0 : values.core);
        collector = new Collector(group, told);
        timeouts = new Timeouts(group, commands, collector, queue);
        starter = new Starter(group, queue, workers);
        tuner = new Tuner(group, timeouts, workers, values);
        if (recorder != null) {
            recorder.begin(lock);
        }
    }

    /** Whether the pool was closed, or has made all the steps that it may. */
    boolean isOver() {
        return isOver;
    }

    /** The command of a key. Null where the pool is over, or has no number free with the values of the command. */
    PoolCommand command(CommandDescription description) {
        requireStack("find a command");
        takeLock();
        try {
            PoolCommand found = isOver ? null : commands.of(description);
            if (found != null && found.isNew) {
                found.isNew = false;
                group.moment();
                tuner.tune(found, description.values);
            }
            return group.isWorn() ? null : found;
        } finally {
            endTurn(false);
        }
    }

    /** The commands that keys were seen of. Nobody writes to it. */
    PoolCommand[] commands() {
        takeLock();
        try {
            return commands.all();
        } finally {
            lock.unlock();
        }
    }

    /** Has a command go by other values. */
    void tune(PoolCommand command, CommandValues to) {
        requireStack("change a property");
        takeLock();
        try {
            if (!isOver) {
                group.moment();
                tuner.tune(command, to);
            }
        } finally {
            endTurn(false);
        }
    }

    /** Has the pool go by other values, and those who wait begun by the workers that there may be more. */
    void tune(PoolValues to) {
        requireStack("change a property");
        takeLock();
        try {
            if (!isOver) {
                group.moment();
                tuner.tune(to);
            }
        } finally {
            endTurn(false);
        }
        while (handsFurther()) {}
    }

    private boolean handsFurther() {
        takeLock();
        try {
            if (isOver || queue.isEmpty()) {
                return false;
            }
            group.moment();
            return starter.hand();
        } finally {
            endTurn(false);
        }
    }

    private static void requireStack(String purpose) {
        if (!Native.hasStack()) {
            throw new StackOverflowError("too little of the stack is left to " + purpose);
        }
    }

    // -- calls

    /**
     * Submits a call. Then either the call has an outcome, or {@code isRun} says that its thread is to run the ticket, or it
     * will be told.
     *
     * @param shared what its request shares here, and null where nothing is shared
     * @throws StackOverflowError where the stack is too short; then nothing was done
     */
    void submit(AbstractCommand<?> call, SharedKeys shared, String cacheKey) {
        Ticket made = new Ticket(call.command, call);
        takeLock();
        try {
            if (isOver) {
                refuse(call, Call.STOPPED);
                return;
            }
            group.moment();
            SharedKeys.Key key = shared == null ? null : shared.key(call.command, cacheKey);
            long reply = key == null
                    ? group.step(Native.SUBMIT, call.command.number, 0)
                    : group.share(call.command.number, shared.context, key.number);
            if (Reply.kind(reply) == Reply.JOINED) {
                join(call, key.ticket);
            } else {
                if (key != null) {
                    made.isShared = true;
                    key.ticket = made;
                }
                place(call, made, reply);
            }
        } finally {
            endTurn(false);
        }
    }

    private void join(Call call, Ticket ticket) {
        call.ticket = ticket;
        ticket.addHolder(call);
        collector.settle(ticket);
    }

    /** Does what the reply to a Submit says of a new ticket. */
    private void place(AbstractCommand<?> call, Ticket made, long reply) {
        call.ticket = made;
        made.number = Reply.number(reply);
        made.started = group.latest();
        switch (Reply.kind(reply)) {
            case Reply.INLINE:
                call.isRun = true;
                if (!call.waitsBehindRun) {
                    made.addHolder(call);
                }
                timeouts.add(made);
                break;
            case Reply.QUEUED:
                made.addHolder(call);
                timeouts.add(made);
                queue.add(made);
                starter.hand();
                break;
            case Reply.FALLBACK_DUE:
                call.isToldBySubmit = true;
                made.state = Ticket.State.DUE;
                made.addHolder(call);
                collector.settle(made);
                break;
            case Reply.GROUP_FULL:
                call.command.fullCount++;
                refuse(call, Reply.GROUP_FULL);
                break;
            default:
                refuse(call, Call.STOPPED);
        }
    }

    private static void refuse(Call call, int outcome) {
        call.isToldBySubmit = true;
        call.setOutcome(outcome);
    }

    /**
     * Tells how a run ended that no worker did.
     *
     * @param operation Finish, or one of both kinds of Fail
     * @param own the call whose thread did the run and that waits for its answer only now; null where there is none
     */
    void end(Ticket ticket, int operation, Call own) {
        takeLock();
        try {
            if (own != null) {
                ticket.putHolderFirst(own);
            }
            ended(ticket, operation);
        } finally {
            endTurn(false);
        }
    }

    private void ended(Ticket ticket, int operation) {
        if (isOver) {
            collector.stop(ticket);
            return;
        }
        long moment = group.moment();
        long reply = ticket.hasOneHolder()
                ? group.endAndCollect(operation, ticket.number)
                : group.step(operation, 0, ticket.number);
        boolean isCollected = Reply.before(reply) != 0;
        if (isCollected || Reply.kind(reply) == Reply.OK) {
            timeouts.remove(ticket);
            ticket.command.times.add(moment - ticket.started);
            ticket.ended = moment;
            ticket.state = operation == Native.FAIL ? Ticket.State.DUE : Ticket.State.ANSWERED;
            ticket.value = ticket.ranValue;
            ticket.error = ticket.ranError;
        }
        if (isCollected) {
            collector.take(ticket, reply);
        } else if (group.isWorn()) {
            collector.stop(ticket);
        }
        collector.settle(ticket);
    }

    /** Tells how the fallback of a ticket ended, which the call ran, and gives the call its answer. */
    void endFallback(Ticket ticket, int operation, Call call) {
        takeLock();
        try {
            call.isTaken = true;
            ticket.putHolderFirst(call);
            if (isOver) {
                collector.stop(ticket);
                return;
            }
            group.moment();
            ticket.state = Ticket.State.ANSWERED;
            ticket.value = ticket.fallbackValue;
            long reply = group.endAndCollect(operation, ticket.number);
            collector.take(ticket, reply);
            collector.settle(ticket);
        } finally {
            endTurn(false);
        }
    }

    /** The holder of a call waits no more. False where it was told an answer before, or is told that all is over. */
    boolean leave(Call call) {
        requireStack("leave a call");
        takeLock();
        try {
            if (!call.isOpen() || call.ticket == null || isOver) {
                return false;
            }
            call.hasLeft = true;
            group.moment();
            if (call.outcome() != Reply.RUN_FALLBACK) {
                collector.settle(call.ticket);
            } else if (!call.isCalledBack()) { // else a helper is at the fallback
                call.isTaken = true;
                collector.missFallback(call.ticket);
                call.ticket.putHolderFirst(call);
                collector.settle(call.ticket);
            }
            return true;
        } finally {
            endTurn(false);
        }
    }

    // -- workers

    /**
     * Tells how the run of a worker ended, and asks for the next one.
     *
     * @param before the ticket that was run; null where the worker is new
     * @return the ticket to run, or null where the worker is to sleep
     */
    Ticket nextRun(Worker worker, Ticket before, int operation) {
        if (before != null) {
            boolean isObserved;
            Ticket next = null;
            takeLock();
            try {
                ended(before, operation);
                isObserved = told.runsForeignCode(); // which comes before the next run
                if (!isObserved) {
                    next = ask(worker);
                }
            } finally {
                endTurn(false);
            }
            if (!isObserved) {
                return next;
            }
        }
        takeLock();
        try {
            group.moment();
            return ask(worker);
        } finally {
            endTurn(false);
        }
    }

    private Ticket ask(Worker worker) {
        return isOver ? null : starter.startBy(worker);
    }

    /** A worker could not be started. */
    void dismiss() {
        takeLock();
        try {
            workers.shrink();
        } finally {
            lock.unlock();
        }
    }

    // -- the timer

    /** The moment at which {@link #expire} is to be called next. */
    long looksAt() {
        return timeouts.looksAt();
    }

    /** Has time out what is due, and returns the moment to look at next. */
    long expire() {
        Ticket broken = null;
        takeLock();
        try {
            if (isOver) {
                return Long.MAX_VALUE;
            }
            broken = timeouts.expire();
            return timeouts.looksAt();
        } finally {
            endTurn(true);
            Timeouts.breakOff(broken);
        }
    }

    // -- contexts and looks

    /** Ends a request here. */
    void endContext(SharedKeys shared) {
        takeLock();
        try {
            if (shared.end() && !isOver) {
                group.moment();
                group.endContext(shared.context);
            }
        } finally {
            endTurn(false);
        }
    }

    /** The next call of a cache key in the current request runs. */
    void clear(PoolCommand command, String cacheKey) {
        SharedKeys shared = RequestShares.current(this);
        takeLock();
        try {
            shared.forget(command, cacheKey);
        } finally {
            lock.unlock();
        }
    }

    /** The numbers of a Read, or null where the pool is over. */
    long[] read(PoolCommand command) {
        long[] metrics = new long[Native.METRICS];
        requireStack("read metrics");
        takeLock();
        try {
            if (isOver) {
                return null;
            }
            group.moment();
            return group.read(command.number, metrics) ? metrics : null;
        } finally {
            endTurn(false);
        }
    }

    /** How long the latest runs of a command took, in rising order. */
    int[] times(PoolCommand command) {
        takeLock();
        try {
            return command.times.sorted();
        } finally {
            lock.unlock();
        }
    }

    /** How many calls of a command found no slot free. */
    long fullCount(PoolCommand command) {
        takeLock();
        try {
            return command.fullCount;
        } finally {
            lock.unlock();
        }
    }

    // -- the end

    /** Tells whoever waits, lets the workers go, and gives the memory back. It waits for no run. */
    void close() {
        takeLock();
        try {
            if (isClosed) {
                return;
            }
            isClosed = true;
            stop();
            group.close();
        } finally {
            endTurn(false);
        }
        if (recorder != null) {
            recorder.close();
        }
    }

    /** Ends everything but the memory. Who is at a run or a fallback comes by, and tells those who wait for it. */
    private void stop() {
        if (!isOver) {
            isOver = true;
            timeouts.stopAll();
            workers.wakeAll();
        }
    }

    /** Takes the lock, also where memory is refused for the place in its queue: a turn that ends a run must not fail. */
    private void takeLock() {
        try {
            lock.lock();
        } catch (OutOfMemoryError e) {
            while (!lock.tryLock()) {
                Thread.onSpinWait();
            }
        }
    }

    /** Gives the lock back, and does what the turn has left to be done. */
    private void endTurn(boolean byTimer) {
        if (group.isWorn()) {
            stop();
        }
        Call first = told.take();
        Worker wakes = starter.takeWoken();
        Worker begins = starter.takeBegun();
        lock.unlock();
        ToldCalls.tell(first, byTimer);
        if (wakes != null) {
            wakes.wake();
        }
        if (begins != null) {
            begins.start();
        }
    }
}
