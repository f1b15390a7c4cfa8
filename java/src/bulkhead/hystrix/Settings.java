package bulkhead.hystrix;

import bulkhead.hystrix.strategy.properties.HystrixPropertiesCommandDefault;

/**
 * The settings file of a service, by the first command of it.
 *
 * <p>The commands of a group are those of its settings: a service of a pool opens with spare ones, which later commands of
 * the pool take. Those of an even number have the values of the first command, and the others those that hold for a command
 * that sets none.
 */
final class Settings {
    /** How many further commands the service of a pool has. */
    static final int SPARES = 15;

    private static final int SLOTS = 1024;

    final String text;
    /** The names of the commands by their numbers; that of number 0 is the group's. */
    final String[] names;
    /** The values of the commands by their numbers, as they are at first. */
    final CommandValues[] values;

    /**
     * The settings of a service.
     *
     * @param pool the values of its pool; null where its one command runs under permits
     */
    Settings(CommandDescription of, PoolValues pool) {
        int count = of.values.isPooled ? 1 + SPARES : 1;
        names = new String[count];
        values = new CommandValues[count];
        names[0] = Names.spelled(of.serviceName());
        CommandValues builtIn = new CommandValues(new HystrixPropertiesCommandDefault(() -> "default", null));
        StringBuilder text = new StringBuilder();
        text.append("service.groups = [\"").append(names[0]).append("\"]\n");
        text.append("service.slots.").append(names[0]).append(" = ").append(Integer.getInteger("bulkhead.slots", SLOTS)).append('\n');
        Integer steps = Integer.getInteger("bulkhead.auditSteps");
        if (steps != null) {
            text.append("service.auditSteps = ").append(steps).append('\n');
        }
        values[0] = of.values;
        for (int number = 1; number < count; number++) {
            names[number] = Names.spare(number);
            values[number] = number % 2 == 0 ? of.values : builtIn;
            text.append("service.command.").append(names[number]).append(".group = \"").append(names[0]).append("\"\n");
        }
        for (int number = 0; number < count; number++) {
            text.append("[hystrix.command.").append(names[number]).append("]\n").append(values[number].lines());
        }
        if (pool != null) {
            appendPool(text, pool, of.poolProperties.maxQueueSize().get());
        }
        this.text = text.toString();
    }

    private void appendPool(StringBuilder text, PoolValues pool, Integer maxQueue) {
        text.append("[hystrix.threadpool.").append(names[0]).append("]\n");
        append(text, Property.CORE, pool.core);
        append(text, Property.MAX_QUEUE, maxQueue);
        append(text, Property.QUEUE_THRESHOLD, pool.queueThreshold);
    }

    private static void append(StringBuilder text, Property<Integer> property, Integer value) {
        text.append(property.path).append(" = ").append(value).append('\n');
    }
}
