package bulkhead.hystrix;

/** What the first instance of a command says of it. */
final class CommandDescription {
    final HystrixCommandKey key;
    final HystrixCommandGroupKey group;
    final HystrixThreadPoolKey poolKey;
    final HystrixCommandProperties properties;
    final CommandValues values;
    final HystrixThreadPoolProperties poolProperties;

    CommandDescription(
            HystrixCommandKey key,
            HystrixCommandGroupKey group,
            HystrixThreadPoolKey poolKey,
            HystrixCommandProperties properties,
            HystrixThreadPoolProperties poolProperties) {
        this.key = key;
        this.group = group;
        this.poolKey = poolKey;
        this.properties = properties;
        this.poolProperties = poolProperties;
        values = new CommandValues(properties);
    }

    /** The name of the service: that of the pool, or of the command where it runs under permits. */
    String serviceName() {
        return values.isPooled ? poolKey.name() : key.name();
    }
}
