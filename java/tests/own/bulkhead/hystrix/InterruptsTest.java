package bulkhead.hystrix;

import static org.junit.Assert.assertFalse;
import static org.junit.Assert.assertTrue;

import java.util.concurrent.CountDownLatch;
import java.util.concurrent.TimeUnit;
import java.util.concurrent.atomic.AtomicInteger;
import java.util.concurrent.atomic.AtomicReference;
import org.junit.Test;

/** An interrupt reaches a thread while it is at the run that it is for, or not at all. */
public class InterruptsTest {
    @Test(timeout = 300_000)
    public void anInterruptThatRacesTheEndOfItsRunLeavesNone() throws InterruptedException {
        int rounds = Integer.getInteger("tests.interrupts", 50_000);
        AtomicReference<Run> current = new AtomicReference<>(new Run());
        AtomicInteger reached = new AtomicInteger();
        CountDownLatch over = new CountDownLatch(1);
        Thread interrupter = new Thread(() -> {
            while (over.getCount() > 0) {
                current.get().interrupt();
            }
        });
        interrupter.start();
        try {
            for (int at = 0; at < rounds; at++) {
                Run run = new Run();
                current.set(run);
                assertTrue(run.begin());
                if (Thread.currentThread().isInterrupted()) {
                    reached.incrementAndGet();
                }
                run.end();
                assertFalse("an interrupt is left", Thread.currentThread().isInterrupted());
            }
        } finally {
            over.countDown();
            interrupter.join();
        }
        assertFalse(Thread.interrupted());
    }

    @Test(timeout = 60_000)
    public void aRunThatWasPreventedDoesNotBegin() {
        Run run = new Run();
        assertTrue(run.prevent());
        assertFalse(run.begin());
        run.interrupt();
        assertFalse(Thread.interrupted());
    }

    @Test(timeout = 60_000)
    public void aRunThatHasBegunIsInterrupted() throws InterruptedException {
        Run run = new Run();
        CountDownLatch in = new CountDownLatch(1);
        CountDownLatch interrupted = new CountDownLatch(1);
        Thread runner = new Thread(() -> {
            run.begin();
            in.countDown();
            try {
                Thread.sleep(60_000);
            } catch (InterruptedException e) {
                interrupted.countDown();
            }
            run.end();
        });
        runner.start();
        in.await();
        assertFalse(run.prevent());
        run.interrupt();
        assertTrue(interrupted.await(10, TimeUnit.SECONDS));
        runner.join();
    }
}
