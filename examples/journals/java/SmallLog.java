import java.io.IOException;
import java.nio.file.Files;
import java.nio.file.Path;
import java.util.*;
import java.util.concurrent.ExecutionException;
import java.util.concurrent.ExecutorService;
import java.util.concurrent.Executors;
import java.util.concurrent.Future;

/**
 * SmallLog FOLDER [forgets | skips]: a small replicated log whose journals are judged.
 *
 *     javac -d out examples/journals/java/*.java
 *     java -cp out SmallLog run > run.json
 *
 * Two clients commit batches through proxies of their own to two logs, and a storage server pulls them, each as a
 * thread. One log is killed and comes back, and then a recovery locks the logs. The journals are left in FOLDER, and
 * the script of them is printed. With `forgets` each log acknowledges version 5 and does not keep its record; with
 * `skips` the storage server does not apply version 5.
 */
final class SmallLog {
    static final Map<String, Object> CONFIG =
        Journal.object("coordinators", 1, "degree", 2, "logs", 2, "proxies", 2, "shards", List.of(""));
    /** The coordinated state at the start: one generation, epoch 257, of two logs, each tag on both, from version 1. */
    static final String STATE = "0101" + "0000000000000101" + "0202" + "0000000000000001" + "0000000000000000";
    /** Commits of each client; after half of them the first one kills a log, the second one begins the recovery. */
    static final int COMMITS = 20;
    static final Map<String, Object> WAITING = Journal.object("waiting", Journal.object());

    final List<Node> nodes = new ArrayList<>();
    final Path folder;
    final String bug;
    final Cell cell;
    final Sequencer sequencer;
    final List<Log> logs;
    final List<Proxy> proxies;
    final Storage storage;
    final Recoverer recoverer;

    SmallLog(Path folder, String bug) throws IOException {
        this.folder = Files.createDirectories(folder);
        this.bug = bug;
        cell = new Cell();
        sequencer = new Sequencer();
        logs = List.of(new Log(0), new Log(1));
        proxies = List.of(new Proxy(0), new Proxy(1));
        storage = new Storage();
        recoverer = new Recoverer();
    }

    final class Cell extends Node {
        long promised = 257;

        Cell() throws IOException {
            super(SmallLog.this, "cell", "index", 0);
        }

        @Override
        Map<String, Object> answer(String ask, Map<String, Object> its) {
            promised = Math.max(promised, (long) its.get("ballot"));
            return Journal.object("promise", Journal.object("value", STATE, "written", 257));
        }

        @Override
        Map<String, Object> last() {
            return Journal.object("promised", promised, "value", STATE, "written", 257);
        }
    }

    final class Sequencer extends Node {
        long version = 1;

        Sequencer() throws IOException {
            super(SmallLog.this, "sequencer", "epoch", 257);
        }

        @Override
        Map<String, Object> answer(String ask, Map<String, Object> its) {
            version++;
            var numbered = Journal.object("prev", version - 1, "request", its.get("request"), "version", version);
            return Journal.object("numbered", numbered);
        }

        @Override
        Map<String, Object> last() {
            return Journal.object("last", version);
        }
    }

    /** It is seeded and holds the mark at version 1, as every log does at the start. */
    final class Log extends Node {
        long durable = 1, known = 0;
        Long popped = null;
        boolean isStopped = false;
        final Map<Long, List<Object>> pushes = new HashMap<>();
        /** Those that are not popped. */
        final TreeMap<Long, Object> records = new TreeMap<>();

        Log(int index) throws IOException {
            super(SmallLog.this, "log", "epoch", 257, "index", index);
        }

        @Override
        Map<String, Object> answer(String ask, Map<String, Object> its) {
            return switch (ask) {
                case "push" -> push(its, (long) its.get("version"), (long) its.get("prev"));
                case "peek" -> peek((long) its.get("after"), (int) its.get("most"));
                case "pop" -> pop((long) its.get("through"));
                default -> lock();
            };
        }

        Map<String, Object> push(Map<String, Object> its, long version, long prev) {
            List<Object> push = List.of(prev, its.get("bodies"));
            if (push.equals(pushes.get(version))) {
                return Journal.object("held", Journal.object("version", version));
            } else if (isStopped) {
                return refused("stopped", Journal.object());
            } else if (prev < durable) {
                return refused("stale", Journal.object());
            } else if (prev > durable) {
                return refused("gap", Journal.object("durable", durable));
            }
            pushes.put(version, push);
            durable = version;
            known = Math.max(known, (long) its.get("known"));
            for (Object body : (List<?>) its.get("bodies")) {
                if (!bug.equals("forgets") || version != 5) {
                    records.put(version, ((List<?>) body).get(1));
                }
            }
            return Journal.object("held", Journal.object("version", version));
        }

        Map<String, Object> lock() {
            isStopped = true;
            return Journal.object("locked", shown(Journal.object("durable", durable, "known", known)));
        }

        Map<String, Object> peek(long after, int most) {
            if (popped != null && after < popped) {
                return refused("removed", Journal.object("through", popped));
            }
            List<Object> given = new ArrayList<>();
            long upto = durable;
            for (var record : records.tailMap(after, false).entrySet()) {
                if (given.size() == most) {
                    upto = (long) map(given.get(most - 1)).get("version");
                    break;
                }
                given.add(Journal.object("batch", record.getValue(), "version", record.getKey()));
            }
            var peeked = Journal.object("after", after, "known", known, "records", given, "tag", 0, "upto", upto);
            return Journal.object("peeked", peeked);
        }

        Map<String, Object> pop(long through) {
            popped = Math.max(popped == null ? 0 : popped, Math.min(through, known));
            records.headMap(popped, true).clear();
            return Journal.object("popped", Journal.object("through", popped));
        }

        /** Adds the version through which the tag is popped, if it is. */
        Map<String, Object> shown(Map<String, Object> its) {
            if (popped != null) {
                its.put("popped", List.of(List.of(0, popped)));
            }
            return its;
        }

        /** A kill in the middle of a line of the journal, and a restart: what the log kept is on its disk. */
        synchronized void kill() throws IOException {
            journal.file.write("{\"stamp\":9".getBytes());
            journal.file.close();
            journal = new Journal(path, name, 0);
            journal.crashed();
        }

        @Override
        Map<String, Object> last() {
            return shown(Journal.object("durable", durable, "known", known, "seeded", true, "stopped", isStopped));
        }
    }

    /** One client's: it takes a batch, and repeats its pushes until both logs hold it or the epoch has ended. */
    final class Proxy extends Node {
        final long number;
        long known = 0, request = 0;
        boolean hasEnded = false;

        Proxy(long number) throws IOException {
            super(SmallLog.this, "proxy", "epoch", 257, "number", number);
            this.number = number;
        }

        void commit(List<Object> batch) throws IOException, InterruptedException {
            request++;
            long stamp = journal.submitted(batch, 1);
            var next = Journal.object("proxy", number, "request", request, "step", 1);
            Reply reply = sequencer.ask(this, "seq", "next", next, stamp);
            stamp = heard(sequencer, reply, WAITING);
            var place = reply.of("seq", "numbered");
            long version = (long) place.get("version");
            var push = Journal.object("bodies", List.of(List.of(0, batch)), "epoch", 257, "known", known, "mark", null,
                "prev", place.get("prev"), "version", version);
            Deque<Log> left = new ArrayDeque<>(logs);
            while (!left.isEmpty() && !hasEnded) {
                Log log = left.remove();
                reply = log.ask(this, "log", "push", push, stamp);
                Object outcome = WAITING;
                if (reply.of("log", "held") != null && left.isEmpty()) {
                    known = version;
                    outcome = Journal.object("committed", Journal.object("version", version));
                } else if (content(reply.of("log", "refused"), "why") != null) {
                    hasEnded = content(content(reply.of("log", "refused"), "why"), "stopped") != null;
                    if (hasEnded) {
                        outcome = Journal.object("ended", Journal.object());
                    } else { // a gap: the version before is another proxy's, and still in flight
                        left.add(log);
                        Thread.sleep(1);
                    }
                }
                stamp = heard(log, reply, outcome);
            }
        }

        @Override
        Map<String, Object> last() {
            return Journal.object("known", known);
        }
    }

    final class Storage extends Node {
        long version = 0, floor = 0, stamp = 0;
        final TreeMap<String, Object> rows = new TreeMap<>();

        Storage() throws IOException {
            super(SmallLog.this, "storage", "tag", 0);
        }

        /** Asks a log for records, applies them, and has the log let go of them once they are known to be committed. */
        void pull(Log log) throws IOException {
            var peek = Journal.object("after", version, "epoch", 257, "most", 100, "tag", 0);
            Reply reply = log.ask(this, "log", "peek", peek, stamp);
            var its = reply.of("log", "peeked");
            for (Object each : (List<?>) its.get("records")) {
                var record = map(each);
                boolean isSkipped = bug.equals("skips") && (long) record.get("version") == 5;
                for (Object mutation : isSkipped ? List.of() : (List<?>) record.get("batch")) {
                    var set = content(map(mutation), "set");
                    rows.put((String) set.get("key"), set.get("value"));
                }
            }
            version = Math.max(version, (long) its.get("upto"));
            floor = Math.max(floor, Math.min((long) its.get("known"), version));
            stamp = heard(log, reply, null);
            var pop = Journal.object("epoch", 257, "tag", 0, "through", floor);
            stamp = heard(log, log.ask(this, "log", "pop", pop, stamp), null);
        }

        @Override
        Map<String, Object> last() {
            List<Object> list = new ArrayList<>();
            rows.forEach((key, value) -> list.add(List.of(key, value)));
            return Journal.object("epoch", 257, "floor", floor, "rows", list, "version", version);
        }
    }

    /** The first half of a recovery: it reads the coordinated state, and locks the logs of its last generation. */
    final class Recoverer extends Node {
        Recoverer() throws IOException {
            super(SmallLog.this, "recoverer", "ballot", 513);
        }

        void recover() throws IOException {
            long stamp = journal.enter(Journal.object("begun", Journal.object()), 0);
            stamp = heard(cell, cell.ask(this, "cell", "read", Journal.object("ballot", 513L), stamp), null);
            for (Log log : logs) {
                stamp = heard(log, log.ask(this, "log", "lock", Journal.object("epoch", 257), stamp), null);
            }
        }

        @Override
        Map<String, Object> last() {
            return Journal.object("phase", "copying");
        }
    }

    /** Each batch sets a key of its own and one that all batches set. */
    Void client(int number) throws IOException, InterruptedException {
        for (int count = 0; count < COMMITS; count++) {
            if (number == 0 && count == COMMITS / 2) {
                logs.get(1).kill();
            } else if (number == 1 && count == COMMITS / 2) {
                recoverer.recover();
            }
            if (!proxies.get(number).hasEnded) {
                String own = String.format("%02x%02x", number, count);
                var one = Journal.object("set", Journal.object("key", own, "value", "01"));
                var two = Journal.object("set", Journal.object("key", "ff", "value", own));
                proxies.get(number).commit(List.of(one, two));
                Thread.sleep(1);
            }
        }
        return null;
    }

    void pull() throws IOException {
        for (Log log : logs) {
            storage.pull(log);
        }
    }

    String run() throws IOException, InterruptedException, ExecutionException {
        ExecutorService pool = Executors.newFixedThreadPool(2);
        try {
            List<Future<Void>> clients = List.of(pool.submit(() -> client(0)), pool.submit(() -> client(1)));
            while (!clients.stream().allMatch(Future::isDone)) {
                pull();
                Thread.sleep(1);
            }
            for (var client : clients) {
                client.get(); // (an error that it met)
            }
        } finally {
            pool.shutdownNow();
        }
        pull();
        List<Path> paths = new ArrayList<>();
        for (Node node : nodes) {
            node.journal.close(Journal.object(node.kind, node.last()));
            paths.add(node.path);
        }
        return Journal.script(CONFIG, paths);
    }

    public static void main(String[] words) throws InterruptedException {
        String bug = words.length == 2 ? words[1] : "";
        if (words.length < 1 || words.length > 2 || !List.of("", "forgets", "skips").contains(bug)) {
            System.err.println("SmallLog FOLDER [forgets | skips]");
            System.exit(2);
        }
        try {
            System.out.println(new SmallLog(Path.of(words[0]), bug).run());
        } catch (IOException | ExecutionException why) {
            System.err.println("SmallLog: " + why.getMessage());
            System.exit(4);
        }
        if (System.out.checkError()) {
            System.err.println("SmallLog: output failed");
            System.exit(4);
        }
    }
}
