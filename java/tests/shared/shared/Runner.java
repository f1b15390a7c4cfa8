package shared;

import java.util.ArrayList;
import java.util.List;
import org.junit.runner.Description;
import org.junit.runner.JUnitCore;
import org.junit.runner.Request;
import org.junit.runner.Result;
import org.junit.runner.manipulation.Filter;
import org.junit.runner.notification.Failure;
import org.junit.runner.notification.RunListener;

/**
 * Runs test classes, tells each failure, and ends with a line {@code N passed, N failed}. With the system property
 * {@code tests.against} those of {@link Differences} are passed over.
 */
public final class Runner {
    private Runner() {}

    /** Runs the classes of the names. */
    public static void main(String[] names) throws ClassNotFoundException {
        List<Class<?>> classes = new ArrayList<>();
        for (String name : names) {
            classes.add(Class.forName(name));
        }
        JUnitCore core = new JUnitCore();
        core.addListener(new RunListener() {
            @Override
            public void testFailure(Failure failure) {
                System.out.println(failure.getTestHeader() + ": " + failure.getTrace());
            }
        });
        Request all = Request.classes(classes.toArray(new Class<?>[0]));
        Result result = core.run(Boolean.getBoolean("tests.against") ? all.filterWith(new Same()) : all);
        int failed = result.getFailureCount();
        System.out.println(result.getRunCount() - failed + " passed, " + failed + " failed");
        System.exit(failed == 0 ? 0 : 1);
    }

    private static final class Same extends Filter {
        @Override
        public boolean shouldRun(Description test) {
            String name = test.getTestClass().getSimpleName() + "." + test.getMethodName();
            return !test.isTest() || !Differences.ALL.contains(name);
        }

        @Override
        public String describe() {
            return "tests that Hystrix passes too";
        }
    }
}
