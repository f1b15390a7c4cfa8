package bulkhead.hystrix;

import bulkhead.rx.Observable;
import bulkhead.rx.Observer;
import bulkhead.rx.subjects.ReplaySubject;
import java.util.concurrent.CompletableFuture;
import java.util.concurrent.atomic.AtomicBoolean;

/**
 * A call of a dependency that tells any number of values without a thread that waits. It runs under permits, and begins in
 * the thread of its subscriber. Its last signal ends the run; a run that has timed out may go on, and what it tells then is
 * dropped.
 *
 * @param <R> the type of the values
 */
public abstract class HystrixObservableCommand<R> extends AbstractCommand<R> {
    private final ReplaySubject<R> values = ReplaySubject.create();
    private final AtomicBoolean isRunOver = new AtomicBoolean();

    /** A command of the group, whose key is the name of its class. */
    protected HystrixObservableCommand(HystrixCommandGroupKey group) {
        this(Setter.withGroupKey(group));
    }

    /**
     * A command that the setter describes.
     *
     * @throws IllegalStateException where the setter has no group
     * @throws IllegalArgumentException where it is the first of its key, and a property is out of its range
     * @throws UnsupportedOperationException where the properties say THREAD
     */
    protected HystrixObservableCommand(Setter setter) {
        super(setter.groupKey, setter.commandKey, null, underPermits(setter.commandProperties), null, false);
        if (command.values.isPooled) {
            throw new UnsupportedOperationException(command.key.name() + ": an observable command runs under SEMAPHORE alone");
        }
    }

    private static HystrixCommandProperties.Setter underPermits(HystrixCommandProperties.Setter given) {
        HystrixCommandProperties.Setter setter = given == null ? HystrixCommandProperties.Setter() : given;
        if (setter.getExecutionIsolationStrategy() == null) {
            setter.withExecutionIsolationStrategy(HystrixCommandProperties.ExecutionIsolationStrategy.SEMAPHORE);
        }
        return setter;
    }

    /** Returns what gives the values. It is called and subscribed to once, in the thread of the subscriber. */
    protected abstract Observable<R> construct();

    /**
     * Returns what gives values in place of a run that was refused, failed or timed out; they come behind those which the run
     * gave. An {@link UnsupportedOperationException}, as here, says that there are none.
     */
    protected Observable<R> resumeWithFallback() {
        return Observable.error(new UnsupportedOperationException("No fallback available."));
    }

    @Override
    @SuppressWarnings("unchecked") // an answer is shared by calls of one command
    public Observable<R> observe() {
        CompletableFuture<R> made = new CompletableFuture<>();
        made.whenComplete((value, e) -> {
            if (e == null) {
                values.onCompleted();
            } else {
                values.onError(e);
            }
        });
        promise = made;
        isObserved = true;
        begin();
        if (isRun) {
            perform(ticket);
        } else if (outcome() == Reply.RUN_FALLBACK && isToldBySubmit) {
            fallBackElsewhere();
        } else if (isToldBySubmit) {
            resolve();
        }
        return isResponseFromCache() ? ((HystrixObservableCommand<R>) ticket.owner).values : values;
    }

    @Override
    public Observable<R> toObservable() {
        return Observable.defer(this::observe);
    }

    @Override
    final int perform(Ticket of) {
        Observer<R> end = new Observer<R>() {
            @Override
            public void onCompleted() {
                endRun(of, Native.FINISH);
            }

            @Override
            public void onError(Throwable e) {
                endRun(of, failed(of, e));
            }

            @Override
            public void onNext(R value) {
                if (outcome() == 0) {
                    values.onNext(value);
                }
            }
        };
        try {
            hooks.run(this, () -> {
                construct().subscribe(end);
                return null;
            });
        } catch (Throwable e) {
            end.onError(e);
        }
        return 0;
    }

    /** Tells the first end of the run. A thread whose stack is too short for that leaves it to another one. */
    private void endRun(Ticket of, int operation) {
        if (!isRunOver.compareAndSet(false, true)) {
            return;
        }
        if (Native.hasStack()) {
            command.pool.end(of, operation, null);
        } else {
            Helpers.run(() -> command.pool.end(of, operation, null));
        }
    }

    @Override
    void fallBackElsewhere() {
        subscribeToFallback(operation -> {
            command.pool.endFallback(ticket, operation, this);
            resolve();
        });
    }

    @Override
    final void answerFull() {
        if (endFullWithoutFallback()) {
            return;
        }
        subscribeToFallback(operation -> {
            endFull(operation);
            resolve();
        });
    }

    private interface End {
        void tell(int operation);
    }

    private void subscribeToFallback(End end) {
        AtomicBoolean isOver = new AtomicBoolean();
        Observer<R> observer = new Observer<R>() {
            @Override
            public void onCompleted() {
                if (isOver.compareAndSet(false, true)) {
                    end.tell(Native.FALLBACK_SUCCESS);
                }
            }

            @Override
            public void onError(Throwable e) {
                if (isOver.compareAndSet(false, true)) {
                    end.tell(fallbackFailed(ticket, e));
                }
            }

            @Override
            public void onNext(R value) {
                if (!isOver.get()) {
                    values.onNext(value);
                }
            }
        };
        if (ticket.cause == Reply.FAILURE && Failures.isUnrecoverable(ticket.error)) {
            isOver.set(true);
            end.tell(Native.FALLBACK_MISSING);
            return;
        }
        try {
            resumeWithFallback().subscribe(observer);
        } catch (Throwable e) {
            observer.onError(e);
        }
    }

    /** An answer of several values has no fallback that gives one. */
    @Override
    final int fallBack(Ticket of) {
        return Native.FALLBACK_MISSING;
    }

    /** What a command is made by. It is not made for several threads. */
    public static final class Setter {
        private final HystrixCommandGroupKey groupKey;
        private HystrixCommandKey commandKey;
        private HystrixCommandProperties.Setter commandProperties;

        private Setter(HystrixCommandGroupKey groupKey) {
            this.groupKey = groupKey;
        }

        /** Returns a setter with the group. */
        public static Setter withGroupKey(HystrixCommandGroupKey groupKey) {
            return new Setter(groupKey);
        }

        /** Sets the key; without one it is the name of the command's class. */
        public Setter andCommandKey(HystrixCommandKey commandKey) {
            this.commandKey = commandKey;
            return this;
        }

        /** Sets properties, which system properties of the command key go before. */
        public Setter andCommandPropertiesDefaults(HystrixCommandProperties.Setter commandPropertiesDefaults) {
            commandProperties = commandPropertiesDefaults;
            return this;
        }
    }
}
