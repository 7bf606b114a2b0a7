import java.io.IOException;
import java.io.RandomAccessFile;
import java.nio.charset.StandardCharsets;
import java.nio.file.Files;
import java.nio.file.Path;
import java.util.*;
import java.util.regex.Matcher;
import java.util.regex.Pattern;
import java.util.stream.Collectors;

/**
 * The journal of one node, for an audit: it appends the node's acts to a file of its own, and `script` joins the files.
 * A call writes one line and returns its stamp, which the node's next messages carry. What is entered is maps, lists,
 * texts that need no escape, numbers, booleans, null.
 *
 * Copy this file. Enter an act inside the lock under which the node acts, and before its reply leaves the node.
 */
final class Journal {
    final RandomAccessFile file;
    private long clock;

    /** A file that is there goes on, after a restart. `clock`: the stamp of the act from which the node exists. */
    Journal(Path path, Object node, long clock) throws IOException {
        this.clock = clock;
        file = new RandomAccessFile(path.toFile(), "rw");
        byte[] bytes = new byte[(int) file.length()];
        file.readFully(bytes);
        String text = new String(bytes, StandardCharsets.US_ASCII);
        String whole = text.substring(0, text.lastIndexOf('\n') + 1); // a kill may have cut off the last line
        file.setLength(whole.length());
        file.seek(whole.length());
        for (Matcher it = Pattern.compile("(?m)^\\{\"stamp\":(\\d+)").matcher(whole); it.find(); ) {
            this.clock = Math.max(this.clock, Long.parseLong(it.group(1)));
        }
        if (whole.isEmpty()) {
            write(object("node", node));
        }
    }

    private void write(Object line) throws IOException {
        file.write((json(line) + "\n").getBytes(StandardCharsets.US_ASCII));
    }

    /** An act that took in a message with the stamp `seen`. */
    synchronized long enter(Object act, long seen) throws IOException {
        clock = Math.max(clock, seen) + 1;
        write(object("stamp", clock, "act", act));
        return clock;
    }

    long asked(Object from, Object ask, Object tell, long seen) throws IOException {
        return enter(object("asked", object("from", from, "ask", ask, "tell", tell)), seen);
    }

    /** `outcome` is null but at a proxy, `taken` but for an answer that a storage server applied in part. */
    long heard(Object from, Object tell, Object outcome, Long taken, long seen) throws IOException {
        return enter(object("heard", object("from", from, "tell", tell, "outcome", outcome, "taken", taken)), seen);
    }

    long submitted(Object batch, long step) throws IOException {
        return enter(object("submitted", object("batch", batch, "step", step)), 0);
    }

    long crashed() throws IOException {
        return enter(object("crashed", object()), 0);
    }

    /** The node's last state: without it the audit says `state differs`. */
    synchronized void close(Object last) throws IOException {
        write(object("last", last));
        file.close();
    }

    /** The script that bench/judge takes, of the journals in these files. */
    static String script(Object config, List<Path> paths) throws IOException {
        List<String> journals = new ArrayList<>();
        for (Path path : paths) {
            String node = "", last = "null", text = Files.readString(path);
            List<String> entries = new ArrayList<>();
            for (String line : text.substring(0, text.lastIndexOf('\n') + 1).lines().toList()) {
                if (line.startsWith("{\"node\":")) {
                    node = line.substring(8, line.length() - 1);
                } else if (line.startsWith("{\"last\":")) {
                    last = line.substring(8, line.length() - 1);
                } else {
                    entries.add(line);
                    last = "null";
                }
            }
            if (!entries.isEmpty()) {
                String its = String.join(",", entries);
                journals.add("{\"node\":" + node + ",\"entries\":[" + its + "],\"last\":" + last + "}");
            }
        }
        return "{\"config\":" + json(config) + ",\"journals\":[" + String.join(",", journals) + "]}";
    }

    /** An object of names and values in turn. */
    static Map<String, Object> object(Object... its) {
        Map<String, Object> found = new LinkedHashMap<>();
        for (int at = 0; at < its.length; at += 2) {
            found.put((String) its[at], its[at + 1]);
        }
        return found;
    }

    static String json(Object it) {
        if (it instanceof Map<?, ?> map) {
            return map.entrySet().stream().map(each -> "\"" + each.getKey() + "\":" + json(each.getValue()))
                .collect(Collectors.joining(",", "{", "}"));
        }
        if (it instanceof List<?> list) {
            return list.stream().map(Journal::json).collect(Collectors.joining(",", "[", "]"));
        }
        return it instanceof String ? "\"" + it + "\"" : String.valueOf(it);
    }
}
