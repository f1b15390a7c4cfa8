package shared;

import java.util.Arrays;
import java.util.HashSet;
import java.util.Set;

/** The tests here that Hystrix itself does not promise to pass, each with the reason. */
final class Differences {
    static final Set<String> ALL = new HashSet<>(Arrays.asList(
            // Hystrix calls onEmit before onExecutionSuccess
            "PluginsTest.aHookIsToldOfEachStage",
            // Hystrix lets an open circuit be tested by the thread that finds the window over, and counts health each interval
            "OperationTest.theCircuitOpensAndCloses",
            "PropertiesTest.volumeAndHealthInterval",
            "PropertiesTest.sleepWindow",
            // Hystrix answers under permits when the timeout comes, beside the run that goes on
            "OperationTest.aTimeoutUnderPermitsIsToldAtTheEndOfTheRun",
            // Hystrix keeps the properties of a key where a command of it was made before
            "PropertiesTest.whatIsSaidOfTheKeyGoesBeforeASetterAndThatBeforeTheDefault"));

    private Differences() {}
}
