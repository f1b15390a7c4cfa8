package bulkhead.hystrix;

import java.util.concurrent.CompletableFuture;
import java.util.concurrent.ExecutionException;
import java.util.concurrent.Future;
import java.util.concurrent.TimeUnit;
import java.util.concurrent.TimeoutException;

/**
 * The future of a call. Who cancels it leaves the call: what had not begun does not run; a run goes on, unless the property
 * {@code execution.isolation.thread.interruptOnFutureCancel} says otherwise.
 */
final class CommandFuture<R> implements Future<R> {
    private final AbstractCommand<R> call;
    private final CompletableFuture<R> promise;

    CommandFuture(AbstractCommand<R> call, CompletableFuture<R> promise) {
        this.call = call;
        this.promise = promise;
    }

    @Override
    public synchronized boolean cancel(boolean mayInterruptIfRunning) {
        if (promise.isCancelled() || !promise.cancel(false)) {
            return false;
        }
        call.cancel(mayInterruptIfRunning && call.command.values.interruptsOnCancel);
        return true;
    }

    @Override
    public boolean isCancelled() {
        return promise.isCancelled();
    }

    @Override
    public boolean isDone() {
        return promise.isDone();
    }

    @Override
    public R get() throws InterruptedException, ExecutionException {
        return promise.get();
    }

    @Override
    public R get(long timeout, TimeUnit unit) throws InterruptedException, ExecutionException, TimeoutException {
        return promise.get(timeout, unit);
    }
}
