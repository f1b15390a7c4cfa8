package bulkhead.hystrix;

import static org.junit.Assert.assertEquals;
import static org.junit.Assert.assertTrue;

import java.io.BufferedReader;
import java.io.InputStreamReader;
import java.nio.charset.StandardCharsets;
import java.util.List;
import java.util.stream.Collectors;
import org.junit.Test;

/** What a system refuses leaves every slot accounted for. */
public class RefusalsTest {
    @Test(timeout = 300_000)
    public void memoryThatIsRefusedLosesNoSlot() throws Exception {
        Process program = new ProcessBuilder(System.getProperty("java.home") + "/bin/java", "-Xmx16m", "-XX:+UseSerialGC",
                "-XX:TieredStopAtLevel=1", "-cp", System.getProperty("java.class.path"), ShortMemory.class.getName(),
                Integer.getInteger("tests.short", 3000).toString()).redirectErrorStream(true).start();
        List<String> told;
        try (BufferedReader lines =
                new BufferedReader(new InputStreamReader(program.getInputStream(), StandardCharsets.UTF_8))) {
            told = lines.lines().collect(Collectors.toList());
        }
        assertEquals(told.toString(), 0, program.waitFor());
        int last = told.size() - 1;
        assertEquals(told.toString(), "1024 and 1024 free", told.get(last));
        assertTrue(told.toString(), !told.get(last - 1).equals("0 refused"));
    }
}
