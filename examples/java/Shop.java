import bulkhead.hystrix.Hystrix;
import bulkhead.hystrix.HystrixCommand;
import bulkhead.hystrix.HystrixCommandGroupKey;
import bulkhead.hystrix.HystrixCommandKey;
import bulkhead.hystrix.HystrixCommandMetrics;
import bulkhead.hystrix.HystrixCommandProperties;
import bulkhead.hystrix.HystrixEventType;
import bulkhead.hystrix.HystrixThreadPoolProperties;
import com.sun.net.httpserver.HttpExchange;
import com.sun.net.httpserver.HttpServer;
import java.io.IOException;
import java.net.InetAddress;
import java.net.InetSocketAddress;
import java.nio.charset.StandardCharsets;
import java.util.EnumSet;
import java.util.Set;
import java.util.concurrent.CountDownLatch;
import java.util.concurrent.Executors;

/**
 * A small shop: {@code /pay} asks for a payment, which depends on a service that is down for every other two hundred
 * payments; {@code /} is a page that shows how the command does; {@code /stop} ends the shop.
 */
public final class Shop {
    private static final Set<HystrixEventType> SHOWN = EnumSet.of(HystrixEventType.SUCCESS, HystrixEventType.FAILURE,
            HystrixEventType.TIMEOUT, HystrixEventType.SHORT_CIRCUITED, HystrixEventType.THREAD_POOL_REJECTED,
            HystrixEventType.FALLBACK_SUCCESS);

    private Shop() {}

    /** A payment, by a service that may be down; in its place the customer pays on delivery. */
    private static final class Payment extends HystrixCommand<String> {
        private static final HystrixCommandKey KEY = HystrixCommandKey.Factory.asKey("Payment");

        private final int order;

        Payment(int order) {
            super(Setter.withGroupKey(HystrixCommandGroupKey.Factory.asKey("PaymentService"))
                    .andCommandKey(KEY)
                    .andCommandPropertiesDefaults(HystrixCommandProperties.Setter()
                            .withExecutionTimeoutInMilliseconds(500)
                            .withCircuitBreakerSleepWindowInMilliseconds(200))
                    .andThreadPoolPropertiesDefaults(HystrixThreadPoolProperties.Setter().withCoreSize(4).withMaxQueueSize(4)));
            this.order = order;
        }

        @Override
        protected String run() throws IOException, InterruptedException {
            Thread.sleep(1 + order % 3);
            if (order / 200 % 2 == 1) {
                throw new IOException("the payment service is down");
            }
            return "order " + order + " is paid";
        }

        @Override
        protected String getFallback() {
            return "order " + order + " is paid on delivery";
        }
    }

    private static String page() {
        HystrixCommandMetrics metrics = HystrixCommandMetrics.getInstance(Payment.KEY);
        StringBuilder text = new StringBuilder("<!DOCTYPE html><meta http-equiv=refresh content=1><title>Shop</title><pre>");
        if (metrics == null) {
            return text.append("nobody has paid yet\n").toString();
        }
        text.append("Payment ").append(metrics.getHealthCounts()).append('\n');
        for (HystrixEventType type : SHOWN) {
            text.append(String.format("%-22s %6d%n", type, metrics.getRollingCount(type)));
        }
        text.append(String.format("%-22s %6d ms%n", "99 of 100 runs took", metrics.getExecutionTimePercentile(99)));
        return text.toString();
    }

    private static void answer(HttpExchange exchange, String type, String text) throws IOException {
        byte[] body = text.getBytes(StandardCharsets.UTF_8);
        exchange.getResponseHeaders().set("Content-Type", type);
        exchange.sendResponseHeaders(200, body.length);
        exchange.getResponseBody().write(body);
        exchange.close();
    }

    /** Opens the shop on a port of this machine, 0 for any, and says which. */
    public static void main(String[] words) throws IOException, InterruptedException {
        CountDownLatch end = new CountDownLatch(1);
        HttpServer server = HttpServer.create(
                new InetSocketAddress(InetAddress.getLoopbackAddress(), Integer.parseInt(words[0])), 0);
        server.setExecutor(Executors.newFixedThreadPool(16));
        server.createContext("/", exchange -> answer(exchange, "text/html; charset=utf-8", page()));
        server.createContext("/pay", exchange -> {
            int order = Integer.parseInt(exchange.getRequestURI().getQuery());
            answer(exchange, "text/plain; charset=utf-8", new Payment(order).execute() + "\n");
        });
        server.createContext("/stop", exchange -> {
            answer(exchange, "text/plain; charset=utf-8", "the shop is closed\n");
            end.countDown();
        });
        server.start();
        System.out.println("listening on " + server.getAddress().getPort());
        end.await();
        server.stop(0);
        Hystrix.reset();
        System.exit(0);
    }
}
