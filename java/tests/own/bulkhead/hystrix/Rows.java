package bulkhead.hystrix;

import java.io.IOException;
import java.nio.charset.StandardCharsets;
import java.nio.file.Files;
import java.nio.file.Path;
import java.util.ArrayList;
import java.util.Arrays;
import java.util.HashMap;
import java.util.List;
import java.util.Map;
import java.util.regex.Matcher;
import java.util.regex.Pattern;

/**
 * Makes the steps of scripts by the natives: of NAME.toml and NAME.jsonl, whose steps are all of the first group of the
 * settings and have empty texts, it writes the replies to NAME.java.
 */
final class Rows {
    private static final Pattern MEMBER = Pattern.compile("\"(\\w+)\":(?:\"([^\"]*)\"|([^,}]+))");
    private static final Pattern GROUP = Pattern.compile("service\\.groups = \\[\"([^\"]+)\"");
    private static final Pattern COMMAND = Pattern.compile("(?m)^service\\.command\\.([^.]+)\\.group = \"([^\"]+)\"");

    private final List<String> names = new ArrayList<>();
    private final Map<String, Long> keys = new HashMap<>();
    private final long[] metrics = new long[Native.METRICS];
    private final StringBuilder told = new StringBuilder();
    private final StringBuilder asked = new StringBuilder();
    private final RecordText text;
    private final long handle;

    private Rows(String settings) {
        Matcher first = GROUP.matcher(settings);
        if (!first.find()) {
            throw new IllegalArgumentException("no groups");
        }
        names.add(first.group(1));
        for (Matcher command = COMMAND.matcher(settings); command.find(); ) {
            if (command.group(2).equals(names.get(0))) {
                names.add(command.group(1));
            }
        }
        names.subList(1, names.size()).sort(null);
        text = new RecordText(names.toArray(new String[0]));
        handle = Native.open(settings.getBytes(StandardCharsets.UTF_8), new byte[256]);
    }

    private void make(String line) {
        Map<String, String> members = new HashMap<>();
        for (Matcher member = MEMBER.matcher(line); member.find(); ) {
            members.put(member.group(1), member.group(2) == null ? member.group(3) : member.group(2));
        }
        int operation = operation(members);
        int command = members.containsKey("command") ? names.indexOf(members.get("command")) : 0;
        long now = Long.parseLong(members.get("now"));
        long[] noted = new long[RecordText.STEP + Native.METRICS];
        noted[0] = operation;
        noted[4] = reply(operation, command, now, members);
        System.arraycopy(metrics, 0, noted, RecordText.STEP, metrics.length);
        text.append(asked, told, noted, 0);
        asked.setLength(0);
    }

    private long reply(int operation, int command, long now, Map<String, String> of) {
        switch (operation) {
            case Native.SUBMIT_SHARED:
                long key = keys.computeIfAbsent(of.get("key"), made -> (long) keys.size());
                return Native.share(handle, command, now, Long.parseLong(of.get("context")), key);
            case Native.CLOSE_CONTEXT:
                return Native.endContext(handle, now, Long.parseLong(of.get("context")));
            case Native.READ:
                return Native.read(handle, command, now, metrics);
            case Native.TUNE:
                return Native.tune(handle, command, now, of.get("property").getBytes(StandardCharsets.UTF_8),
                        number(of.get("value")));
            default:
                return Native.step(handle, operation, command, now, Long.parseLong(of.getOrDefault("ticket", "0")));
        }
    }

    private static long number(String value) {
        return value.equals("true") ? 1 : value.equals("false") ? 0 : Long.parseLong(value);
    }

    private static int operation(Map<String, String> of) {
        switch (of.get("op")) {
            case "submit":
                return of.containsKey("context") ? Native.SUBMIT_SHARED : Native.SUBMIT;
            case "fail":
                return of.get("bad").equals("true") ? Native.FAIL_BAD_REQUEST : Native.FAIL;
            case "fallback":
                return Native.FALLBACK_SUCCESS + Arrays.asList("success", "failure", "missing").indexOf(of.get("end"));
            case "close":
                return Native.CLOSE_CONTEXT;
            default:
                return Native.START + Arrays.asList("start", "finish", "", "", "expire", "collect", "", "", "", "", "read", "tune")
                        .indexOf(of.get("op"));
        }
    }

    /** Answers the scripts of a folder. */
    public static void main(String[] words) throws IOException {
        try (var scripts = Files.newDirectoryStream(Path.of(words[0]), "*.jsonl")) {
            for (Path script : scripts) {
                String base = script.toString().replaceAll("\\.jsonl$", "");
                Rows rows = new Rows(Files.readString(Path.of(base + ".toml")));
                Files.readAllLines(script).forEach(rows::make);
                Files.writeString(Path.of(base + ".java"), rows.told);
                Native.close(rows.handle);
            }
        }
    }
}
