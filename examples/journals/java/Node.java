import java.io.IOException;
import java.nio.file.Files;
import java.nio.file.Path;
import java.util.Map;

/** A node acts under its lock, and enters the act there. */
abstract class Node {
    final Map<String, Object> name;
    final String kind;
    final Path path;
    Journal journal;

    Node(SmallLog cluster, String kind, Object... numbers) throws IOException {
        this.kind = kind;
        name = Journal.object(kind, Journal.object(numbers));
        StringBuilder file = new StringBuilder(kind);
        for (int at = 1; at < numbers.length; at += 2) {
            file.append("-").append(numbers[at]);
        }
        path = cluster.folder.resolve(file + ".journal");
        Files.deleteIfExists(path); // of an earlier run
        journal = new Journal(path, name, 0);
        cluster.nodes.add(this);
    }

    /** Answers a request, and enters both. */
    synchronized Reply ask(Node from, String kind, String ask, Map<String, Object> its, long seen)
            throws IOException {
        Map<String, Object> tell = Journal.object(kind, answer(ask, its));
        return new Reply(tell, journal.asked(from.name, Journal.object(kind, Journal.object(ask, its)), tell, seen));
    }

    long heard(Node by, Reply reply, Object outcome) throws IOException {
        return journal.heard(by.name, reply.tell(), outcome, null, reply.stamp());
    }

    Map<String, Object> answer(String ask, Map<String, Object> its) {
        throw new IllegalArgumentException(ask);
    }

    abstract Map<String, Object> last();

    record Reply(Map<String, Object> tell, long stamp) {
        /** The content of the tell's variant, or null. */
        Map<String, Object> of(String kind, String name) {
            return content(content(tell, kind), name);
        }
    }

    @SuppressWarnings("unchecked")
    static Map<String, Object> map(Object it) {
        return (Map<String, Object>) it;
    }

    /** The member of an object, or null. */
    static Map<String, Object> content(Map<String, Object> object, String name) {
        return object == null ? null : map(object.get(name));
    }

    static Map<String, Object> refused(String why, Map<String, Object> its) {
        return Journal.object("refused", Journal.object("why", Journal.object(why, its)));
    }
}
