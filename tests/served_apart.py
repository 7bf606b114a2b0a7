"""What tests/service looks at apart from its seeds: configurations, folders, strange messages, other clusters,
deadlines, pages for machines."""

import json
import os
import re
import shutil
import signal
import socket
import subprocess
import tempfile
import time
import urllib.error
import urllib.request

import built
import served

# a text of the configuration that dev writes, what stands in its place, and how the refusal begins behind the path
REFUSED = (
    ("logs = 4", "logs = 40", ":4: logs: found 40, wanted a number from 1 to 16"),
    ("logs = 4", "logs = 6", ":4: logs: found 6, wanted at most one a machine, and there are 5"),
    ("degree = 2", 'degree = "2"', ':5: degree: found "2", wanted a number from 1 to 16'),
    ("degree = 2", "degre = 2", ":5: there is no key degre here; cluster, node,"),
    ('cluster = "dev"', 'cluster = "d.v"', ':1: cluster: found "d.v", wanted a name'),
    ('"6d"]', '"6d"', ":9: found"),
    ("coordinators = 3", "coordinators = 2", ":3: coordinators: found 2, wanted 1, 3, 5, 7 or 9"),
    ("[nats]", "[nat]", ":9: there is no table [nat]"),
)
AGENT, KEEPER = ("agent", "--machine", "m0"), ("keeper", "--number", "1")


class Raw:
    """A client of the broker that says whatever it is given."""

    def __init__(self, port):
        self.it = socket.create_connection(("127.0.0.1", port), timeout=10)
        self.it.recv(4096)
        self.it.sendall(b'CONNECT {"verbose":false,"pedantic":false}\r\n')

    def say(self, subject, data):
        self.it.sendall(f"PUB {subject} {len(data)}\r\n".encode() + data + b"\r\n")

    def close(self):
        self.it.sendall(b"PING\r\n")
        self.it.recv(4096)
        self.it.close()


def all_of(checks):
    room = tempfile.mkdtemp(prefix="service-apart-")
    try:
        units(checks, f"{room}/units")
        configurations(checks, f"{room}/a")
        no_broker(checks, f"{room}/b")
        running(checks, f"{room}/c")
        full_for_good(checks, f"{room}/d")
        filling(checks, f"{room}/e")
    finally:
        shutil.rmtree(room)


def units(checks, room):
    """systemd reads the units without a word, if it is here."""
    if not shutil.which("systemd-analyze"):
        print("the units are not tried: it lacks systemd: apt-get install -y systemd", flush=True)
        return
    os.mkdir(room)
    for name, at in (("agent", "m0"), ("keeper", "1")):
        with open(f"{built.TOP}/service/units/fdbrec-{name}@.service", encoding="utf-8") as it:
            text = it.read().replace("/usr/bin/fdbrec-service", served.SERVICE).replace("User=fdbrec", "User=root")
        for path in (f"{room}/fdbrec-{name}@.service", f"{room}/fdbrec-{name}@{at}.service"):
            with open(path, "w", encoding="utf-8") as it:
                it.write(text)
        ran = subprocess.run(["systemd-analyze", "verify", path], capture_output=True, text=True, timeout=60)
        is_so = (ran.returncode, ran.stdout, ran.stderr) == (0, "", "")
        checks.check(is_so, "unit", name, ran.returncode, ran.stdout, ran.stderr)


def said(*words, **how):
    return subprocess.run([served.SERVICE, *words], capture_output=True, text=True, timeout=60, **how)


def configurations(checks, room):
    """A file that is wrong: status 2, one line with file and line, and nothing is made."""
    said("dev", room, "--write", "--node", served.node_words())
    path = f"{room}/service.toml"
    with open(path, encoding="utf-8") as it:
        good = it.read()
    for old, new, wanted in REFUSED:
        checks.check(old in good, "the row of", old, "changes nothing")
        with open(path, "w", encoding="utf-8") as it:
            it.write(good.replace(old, new, 1))
        for words in (AGENT, KEEPER, ("init", "--machine", "m0"), ("status",)):
            ran = said(*words, "--config", path)
            is_so = ran.returncode == 2 and ran.stderr.startswith(path + wanted) and ran.stderr.count("\n") == 1
            checks.check(is_so and not ran.stdout, words, new, ran.returncode, ran.stdout, ran.stderr)
        checks.check(not os.path.exists(f"{room}/m0"), new, "makes something")
    with open(path, "w", encoding="utf-8") as it:
        it.write(good)
    for words, status in (
        ((), 2),
        (("nothing",), 2),
        (("--help",), 0),
        (("get", "a"), 2),
        (("put", "a"), 2),
        (("get", "--huh"), 2),
        (("agent", "--machine", "m9", "--config", path), 2),
        (("keeper", "--number", "7", "--config", path), 2),
        (("get", "a", "--config", "/no/file"), 2),
        (("init", "--machine", "m0", "--config", path), 0),
        (("init", "--machine", "m0", "--config", path), 3),
        (("agent", "--machine", "m1", "--config", path), 3),
        (("keeper", "--number", "1", "--config", path), 3),
        (("init", "--number", "1", "--config", path), 0),
        (("init", "--number", "1", "--config", path), 3),
        (("journals", f"{room}/m1"), 1),
        (("load", "--config", path), 2),
        (("load", f"{room}/m0/room.json", "--config", path), 1),
        (("journals", "--drop-before", "1", f"{room}/m0"), 1),
        (("journals", "--drop-before", "x", f"{room}/m0"), 2),
        (("bench", "--seconds", "1", "--clients", "0", "--config", path), 2),
        (("bench", "--seconds", "1", "--clients", "1", "--keys", "1000", "--config", path), 2),
        (("bench", "--clients", "1", "--config", path), 2),
    ):
        ran = said(*words, env={key: its for key, its in os.environ.items() if key != "FDBREC_CONFIG"})
        is_so = ran.returncode == status and "panic" not in ran.stderr and (ran.stderr or status == 0)
        checks.check(is_so, words, ran.returncode, ran.stderr[-300:])
    # a folder of another machine, or with other coordinators than it began with
    os.rename(f"{room}/m0", f"{room}/m1")
    ran = said("agent", "--machine", "m1", "--config", path)
    checks.check(ran.returncode == 3 and "is of machine m0 of cluster dev" in ran.stderr, ran.returncode, ran.stderr)


def no_broker(checks, room):
    """A client without a cluster: an error within its deadline."""
    said("dev", room, "--write", "--node", served.node_words())
    for words in (("put", "a", "b"), ("get", "a"), ("get", "a", "--settled")):
        began = time.monotonic()
        ran = said(*words, "--config", f"{room}/service.toml", "--within", "800ms")
        took = time.monotonic() - began
        is_so = ran.returncode == 1 and "the cluster does not answer" in ran.stderr and took < 5
        checks.check(is_so, words, ran.returncode, ran.stderr, took)


def running(checks, room):
    cluster = served.Cluster(room)
    port = served.free_port()
    with open(cluster.config, encoding="utf-8") as it:
        text = it.read()
    with open(cluster.config, "w", encoding="utf-8") as it:
        it.write(text.replace('name = "m1"\n', f'name = "m1"\nhttp = "127.0.0.1:{port}"\n'))
    try:
        cluster.start_all()
        checks.check(cluster.comes(60) is not None, "it begins:", cluster.last.stderr)
        strange(checks, cluster)
        late_pop(checks, cluster)
        others(checks, cluster)
        values(checks, cluster)
        dumps(checks, cluster)
        pages(checks, port)
        in_use(checks, cluster)
        early(checks, cluster)
        lost_file(checks, cluster)
        put_back(checks, cluster)
        erased(checks, cluster)
        dropped(checks, cluster)
        line, why, _ = cluster.audit()
        checks.check(line == "audit ok", line, why)
    finally:
        cluster.drop()


def full_for_good(checks, room):
    """A machine whose disk stays full has no log of the next epoch if others are enough. Few recoveries are tried."""
    cluster = served.Cluster(room, values={"logs": 5}, is_small=True)
    if not cluster.disk.is_there:
        print("a disk that stays full is not tried: no file system can be mounted here", flush=True)
        return
    try:
        cluster.start_all()
        checks.check(cluster.comes(60) is not None, "it begins with five logs:", cluster.last.stderr)
        cluster.disk.fill()
        load = cluster.begin("bench", "--seconds", "10", "--clients", "4")
        checks.check(cluster.comes(60) is not None, "it goes on beside a full disk:", cluster.last.stderr)
        load.communicate(timeout=120)
        checks.check(cluster.comes(20) is not None, "it goes on with a full disk:", cluster.last.stderr)
        newest = cluster.standing()["newest"]
        checks.check(newest["epoch"] > 257 and newest["state"][-1]["m"] == 4, "the epoch has four logs:", newest)
        checks.check(len(begun(cluster)) <= 6, "recoveries that were begun:", begun(cluster))
        cluster.disk.empty()
        checks.check(cluster.comes(60) is not None, "it goes on with room:", cluster.last.stderr)
        cluster.stop()
        line, why, _ = cluster.audit()
        checks.check(line == "audit ok", line, why)
    finally:
        cluster.drop()


ROOM = 65536  # bytes that each file of a cell or a log may have where files fill
PUTS = ("--bytes", "2000", "--clients", "4")


def filling(checks, room):
    """Files of logs with little room. While storage servers pop, logs let go of what they popped, and an epoch goes on
    for more than its files have room for. While one stands still they are full: epochs are ended, and nothing that was
    acknowledged is lost."""
    # (whether it goes on is asked here, over nodes that may be slow, and one that stands still for long)
    cluster = served.Cluster(room, values={"suspect": '"5s"\nprogress = "30s"\nrecovery = "60s"\npatience = "5m"'})
    with open(cluster.config, "a", encoding="utf-8") as it:
        it.write(f"\n[files]\nroom = {ROOM}\n")
    try:
        cluster.start_all()
        checks.check(cluster.comes(60) is not None, "it begins with small files:", cluster.last.stderr)
        if served.is_built():
            letting_go(checks, cluster)
        else:
            print("files that let go are not tried: nodes in Python have none", flush=True)
        standing_still(checks, cluster)
        # (a state names generations until the next recovery, which drops those that all storage servers popped)
        all_pop(checks, cluster)
        ran = cluster.run("recover")
        checks.check(ran.returncode == 0 and cluster.comes(60) is not None, "recover:", ran.stdout, ran.stderr)
        ends = time.monotonic() + 60
        while len(sizes := log_sizes(cluster)) > 16 and time.monotonic() < ends:
            time.sleep(0.5)
        checks.check(len(sizes) <= 16, "logs of ended epochs are let go:", sizes)
        ran = cluster.run("check", "--acks", f"{room}/acks")
        checks.check(ran.returncode == 0, "what was acknowledged is kept:", ran.stdout, ran.stderr)
        cluster.stop()
        line, why, _ = cluster.audit()
        checks.check(line == "audit ok", line, why)
    finally:
        cluster.drop()


def letting_go(checks, cluster):
    """Commits of three times the room, in parts of a quarter of it. (Log 1 has those of both shards.)"""
    for _ in range(12):
        ran = cluster.run("bench", "--commits", "8", *PUTS, "--acks", f"{cluster.room}/acks", timeout=200)
        checks.check("commits 8 failed map[]" in ran.stdout, "a part:", ran.stdout, ran.stderr)
        all_pop(checks, cluster)
    epoch, why = cluster.standing()["newest"]["epoch"], begun(cluster)
    checks.check(epoch == 257 and not why, "the first epoch goes on:", epoch, why)
    files = [f"{cluster.room}/m1/files/log-257-1.{at}" for at in (0, 1)]
    sizes = [os.path.getsize(path) for path in files]
    checks.check(ROOM // 2 < min(sizes) and max(sizes) <= ROOM, "both files of a log were in use:", sizes)


def standing_still(checks, cluster):
    """A storage server that stands still: the logs of its shard fill."""
    its = [pid for name, pid in cluster.node_pids().items() if "storage --tag 0" in name]
    checks.check(len(its) == 1, "storage server 0 runs:", cluster.node_pids())
    os.kill(its[0], signal.SIGSTOP)
    try:
        ran = cluster.run("bench", "--commits", "60", *PUTS, "--acks", f"{cluster.room}/acks", timeout=250)
    finally:
        os.kill(its[0], signal.SIGCONT)
    checks.check(ran.returncode == 0, "commits beside it:", ran.stdout, ran.stderr)
    checks.check(cluster.comes(60) is not None, "it goes on:", cluster.last.stderr)
    why, epoch = begun(cluster), cluster.standing()["newest"]["epoch"]
    rolled = [it for it in why if "has files that are full" in it]
    checks.check(rolled and len(rolled) == len(why) and epoch > 257, "epochs that were ended:", epoch, why)
    sizes = log_sizes(cluster)
    checks.check(max(sizes) <= 2 * ROOM, "files of logs:", sizes)


def all_pop(checks, cluster):
    """Waits until each storage server knows of all that was committed but the last batch or two, and has each log of
    its shard let go of it."""
    ends, stands = time.monotonic() + 150, []
    while not is_caught_up(stands) and time.monotonic() < ends:
        time.sleep(0.3)
        its = cluster.standing()["machines"].values()
        stands = [node["last"] for each in its for node in each["nodes"].values() if node.get("last")]
    checks.check(is_caught_up(stands), "storage servers are where the logs are:", stands)
    time.sleep(1.5)


def is_caught_up(stands):
    """Whether nodes stand so."""
    floors = [it["storage"]["floor"] for it in stands if "storage" in it]
    durable = max((it["log"]["durable"] for it in stands if "log" in it), default=0)
    return len(floors) == 2 and min(floors) >= durable - 2


def begun(cluster):
    """The lines of keepers that say of a recovery why it was begun."""
    return [it for at in (1, 2) for it in cluster.said(f"keeper-{at}", '"why":') if '"machines":' in it]


def log_sizes(cluster):
    """How many bytes the files of each log have."""
    machines = cluster.standing()["machines"].values()
    return [its.get("bytes", 0) for each in machines for name, its in each["nodes"].items() if name.startswith("log-")]


def strange(checks, cluster):
    """Messages that are none of ours, or of a node whom the subject does not allow, are counted and dropped."""
    with open(cluster.config, encoding="utf-8") as it:
        raw = Raw(int(re.search(r"nats://127.0.0.1:(\d+)", it.read())[1]))
    lock = {"log": {"lock": {"epoch": 257}}}
    message = {"type": "ask", "at": 1, "newest": 257, "from": {"recoverer": {"ballot": 99999}}, "ask": lock}
    far = message | {"at": 2**39 * 2 - 1}
    by_proxy = message | {"from": {"cell": {"index": 0}}}
    pop = {"log": {"pop": {"epoch": 257, "tag": 0, "through": 0}}}
    forged = message | {"from": {"storage": {"tag": 0}}, "ask": pop}
    texts = [b"", b"{", b"[]", b'"x"', b"\xff\xfe", b"[" * 100000, b"1" * 1000, b"null"]
    texts += [json.dumps(it).encode() for it in (far, by_proxy, forged, message | {"type": "submit"})]
    before = counts(cluster)
    for text in texts:
        raw.say("fdbrec.dev.node.log-257-0.m1", text)
        raw.say("fdbrec.dev.agent.m0.m1", text)
    raw.close()
    drop = {"do": "drop", "node": {"log": {"epoch": 257, "index": 0}}, "at": 1}
    raw = Raw(raw_port(cluster))
    raw.say("fdbrec.dev.agent.m0.m1", json.dumps(drop).encode())
    raw.close()
    ends = time.monotonic() + 10
    while counts(cluster) < before + len(texts) and time.monotonic() < ends:
        time.sleep(0.2)
    more = counts(cluster) - before
    checks.check(more >= 2 * len(texts), "strange messages that were counted:", more, "of", 2 * len(texts) + 1)
    checks.check(cluster.comes(10) is not None, "it goes on:", cluster.last.stderr)


def late_pop(checks, cluster):
    """A pop that says a stamp which has passed is counted, and no log is given it."""
    was = counts(cluster, "late pops dropped")
    ask = {"log": {"pop": {"epoch": 257, "tag": 0, "through": 0}}}
    message = {"type": "ask", "at": 1, "until": 1, "from": {"storage": {"tag": 0}}, "ask": ask}
    raw = Raw(raw_port(cluster))
    raw.say("fdbrec.dev.node.log-257-0.m3", json.dumps(message).encode())
    raw.close()
    ends = time.monotonic() + 10
    while counts(cluster, "late pops dropped") == was and time.monotonic() < ends:
        time.sleep(0.2)
    checks.check(counts(cluster, "late pops dropped") == was + 1, "a late pop is counted")


def erased(checks, cluster):
    """Two epochs later nothing says any more that nodes of earlier ones were started, but their journals."""
    first = cluster.standing()["newest"]["epoch"]
    for _ in range(2):
        ran = cluster.run("recover")
        checks.check(ran.returncode == 0, "recover:", ran.stdout, ran.stderr)
        checks.check(cluster.comes(60) is not None, "it goes on after a recovery:", cluster.last.stderr)
        time.sleep(1)

    def left():
        names = [name for at in range(5) for name in os.listdir(f"{cluster.room}/m{at}/nodes")]
        found = [re.fullmatch(r"(sequencer|proxy|recoverer)-(\d+).*", name) for name in names]
        newest = cluster.standing()["newest"]["epoch"]
        return [it[0] for it in found if it and int(it[2]) < newest]

    ends = time.monotonic() + 60
    while left() and time.monotonic() < ends:
        time.sleep(0.5)
    checks.check(not left(), "records of ended epochs:", left())
    journals = [name for at in range(5) for name in os.listdir(f"{cluster.room}/m{at}/journals")]
    checks.check(f"sequencer-{first}" in journals, "the journals of an ended epoch stay:", sorted(journals))


def dropped(checks, cluster):
    """Journals of ended epochs are dropped, and a machine is started again over what is left. No script is made then.
    Copies that are put back make the journals whole again: the audit that follows sees all of them."""
    rooms = [f"{cluster.room}/m{at}" for at in range(5)]
    newest = cluster.standing()["newest"]
    gens = newest["state"] if isinstance(newest["state"], list) else newest["state"]["gens"]
    oldest = gens[0]["epoch"]
    ran = said("journals", "--drop-before", str(newest["epoch"] + 1), *rooms)
    is_so = re.match(f"nothing is dropped: .* at most --drop-before {oldest}$", ran.stderr)
    checks.check(is_so and ran.returncode == 1, "the newest epoch's journals:", ran.returncode, ran.stdout, ran.stderr)
    for room in rooms:
        shutil.copytree(f"{room}/journals", f"{room}/copies")
    ends = time.monotonic() + 60
    while (ran := said("journals", "--drop-before", str(oldest), *rooms)).returncode and time.monotonic() < ends:
        time.sleep(0.5)  # (until each agent has ended what is over)
    checks.check(ran.stdout.startswith("dropped: the journals of "), "dropped:", ran.stdout, ran.stderr)
    names = [name for room in rooms for name in os.listdir(f"{room}/journals")]
    left = [
        it[0]
        for it in (re.fullmatch(r"(log|sequencer|proxy|recoverer)-(\d+).*", name) for name in names)
        if it and int(it[2]) < oldest
    ]
    checks.check(names and not left, "journals of ended epochs:", left)
    cluster.kill("m2")
    cluster.start("m2")
    checks.check(cluster.comes(60) is not None, "it goes on over the journals that are left:", cluster.last.stderr)
    cluster.stop()
    ran = said("journals", *rooms)
    is_so = ran.returncode == 1 and not ran.stdout and f"of epochs before {oldest} were dropped" in ran.stderr
    checks.check(is_so, "journals that were dropped:", ran.returncode, ran.stderr)
    for room in rooms:
        subprocess.run(["cp", "-rn", f"{room}/copies/.", f"{room}/journals"], check=True)
        os.remove(f"{room}/dropped.json")


def raw_port(cluster):
    with open(cluster.config, encoding="utf-8") as it:
        return int(re.search(r"nats://127.0.0.1:(\d+)", it.read())[1])


def counts(cluster, name="messages that are none of ours"):
    return sum(its["counts"].get(name, 0) for its in cluster.standing()["machines"].values())


def others(checks, cluster):
    """A cluster of another name on the same broker hears nothing of this one."""
    with open(cluster.config, encoding="utf-8") as it:
        text = it.read()
    path = f"{cluster.room}/other.toml"
    with open(path, "w", encoding="utf-8") as it:
        it.write(text.replace('cluster = "dev"', 'cluster = "other"'))
    ran = said("put", "a", "b", "--config", path, "--within", "1s")
    checks.check(ran.returncode == 1 and "the cluster does not answer" in ran.stderr, ran.returncode, ran.stderr)
    ran = said("status", "--config", path)
    checks.check(ran.returncode == 1 and "no machine answers" in ran.stderr, ran.returncode, ran.stderr)


def values(checks, cluster):
    """What a client reads is what was put, changed and cleared."""
    for words, wanted in (
        (("put", "a", "one"), "committed"),
        (("get", "a"), "one\n"),
        (("put", "z", "two"), "committed"),
        (("get", "z"), "two\n"),
        (("clear", "a"), "committed"),
        (("get", "a"), "none\n"),
        (("get", "z"), "two\n"),
        (("add", "n", "258"), "committed"),
        (("get", "6e", "--hex"), "0201000000000000\n"),
        (("add", "n", "-1"), "committed"),
        (("get", "6e", "--hex"), "0101000000000000\n"),
        (("put", "7a", "ff00", "--hex"), "committed"),
        (("get", "7a", "--hex"), "ff00\n"),
        (("clear", "b", "zz"), "committed"),
        (("get", "z"), "none\n"),
    ):
        ran = cluster.run(*words, "--within", "20s")
        checks.check(ran.stdout.startswith(wanted), words, "gives", ran.stdout, ran.stderr, "wanted", wanted)
    ran = cluster.run("put", "k" * 10001, "v")
    checks.check(ran.returncode == 1 and "a key has more than 10000 bytes" in ran.stderr, ran.returncode, ran.stderr)


def dumps(checks, cluster):
    """A dump has what was acknowledged before it, of each shard; what is lost then is there again once it is loaded."""
    its = {f"{letter}{at:04}": f"value {at}" for letter in "bt" for at in range(40)}
    text = "".join(f'["{key.encode().hex()}","{value.encode().hex()}"]\n' for key, value in its.items())
    with open(f"{cluster.room}/made", "w", encoding="utf-8") as it:
        it.write(f'{{"cluster":"other","tag":0,"epoch":257,"version":9,"rows":{len(its)}}}\n{text}')
    ran = cluster.run("load", f"{cluster.room}/made")
    checks.check(ran.stdout == f"{cluster.room}/made: 80 rows are put\n", "load:", ran.stdout, ran.stderr)
    ran = cluster.run("dump", "--within", "30s")
    found = re.findall(r"^shard (\d) epoch (\d+) version (\d+) rows (\d+): (\S+) on (m\d)$", ran.stdout, re.M)
    checks.check(len(found) == 2, "dump:", ran.stdout, ran.stderr)
    rows = []
    for shard, epoch, version, count, path, machine in found:
        with open(path, encoding="utf-8") as it:
            head, *lines = it.read().splitlines()
        wanted = {"cluster": "dev", "tag": int(shard), "epoch": int(epoch), "version": int(version), "rows": int(count)}
        is_so = len(lines) == int(count) and f"{cluster.room}/{machine}/" in path
        checks.check(is_so and json.loads(head) == wanted, "the head of a dump:", head, wanted, path)
        rows += [tuple(bytes.fromhex(each).decode("latin-1") for each in json.loads(line)) for line in lines]
    keys = [key for key, _ in rows]
    checks.check(its.items() <= dict(rows).items() and len(set(keys)) == len(keys), "rows of dumps:", rows)
    checks.check(not [key for key in keys if "/session/" in key], "keys of sessions in a dump")
    cluster.run("clear", "a", "zz", "--within", "20s")
    ran = cluster.run("load", *(path for *_, path, _ in found))
    checks.check(ran.stdout.count(" rows are put\n") == 2, "load:", ran.stdout, ran.stderr)
    for key in ("b0000", "b0039", "t0000", "t0039"):
        ran = cluster.run("get", key, "--within", "20s")
        checks.check(ran.stdout == f"{its[key]}\n", "get", key, "of a dump that was loaded:", ran.stdout, ran.stderr)
    cluster.run("clear", "a", "zz", "--within", "20s")


def pages(checks, port):
    text = fetch(port, "metrics")
    for wanted in (
        "fdbrec_epoch ",
        'fdbrec_node_up{node="cell-1"} 1',
        'fdbrec_log_durable{node="log-257-1"} ',
        "# TYPE fdbrec_messages_sent_total counter",
        "fdbrec_free_bytes ",
    ):
        checks.check(wanted in text, "/metrics lacks", wanted)
    checks.check(fetch(port, "healthz") == "ok\n", "/healthz says", fetch(port, "healthz"))


def fetch(port, page):
    try:
        with urllib.request.urlopen(f"http://127.0.0.1:{port}/{page}", timeout=10) as it:
            return it.read().decode()
    except urllib.error.HTTPError as why:
        return f"{why.code} {why.read().decode()}"


def in_use(checks, cluster):
    """A second agent, and a second keeper, over the same folder."""
    for words in (AGENT, KEEPER):
        ran = cluster.run(*words)
        checks.check(ran.returncode == 3 and "is in use by another" in ran.stderr, words, ran.returncode, ran.stderr)


def early(checks, cluster):
    """Nodes that are started before anybody rests on them, as those of a recovery that comes to nothing, are killed
    with their agent: they are nobody's, and enter no crash. (The audit at the end would name them.) Before the second
    start their agent has lost what came behind its note that it is about to make the log: its files are taken."""
    raw, epoch = Raw(raw_port(cluster)), 390 * 256 + 9
    for node in ({"log": {"epoch": epoch, "index": 0}}, {"sequencer": {"epoch": epoch}}):
        order = {"do": "start", "node": node, "logs": 4, "degree": 2, "last": 9, "known": 7, "at": 1}
        raw.say("fdbrec.dev.agent.m2.keeper-9", json.dumps(order).encode())
    raw.close()
    path = f"{cluster.room}/m2/nodes/log-{epoch}-0.json"

    def is_up():
        runs = [name for name in cluster.node_pids() if f"m2 log --epoch {epoch}" in name]
        return runs and os.path.exists(path) and b'"started"' in content(path)

    for turn in range(3):
        ends = time.monotonic() + 60
        while not is_up() and time.monotonic() < ends:
            time.sleep(0.2)
        checks.check(is_up(), "the log that was ordered runs, in turn", turn)
        time.sleep(1)
        if turn < 2:
            cluster.kill("m2")
            if turn == 1:
                shutil.rmtree(f"{cluster.room}/m2/journals/log-{epoch}-0")
                with open(path, "r+b") as it:
                    its = it.read().replace(b'"started"', b'"starting"')
                    it.seek(0)
                    it.write(its)
            cluster.start("m2")
    taken = cluster.said("m2", "files that were made before a kill are taken")
    checks.check(len(taken) == 1, "the log was made once, and taken then:", taken)
    checks.check(cluster.comes(60) is not None, "it goes on after two kills of m2:", cluster.last.stderr)


def lost_file(checks, cluster):
    """A node whose files are missing, damaged or another's is not started as a new one, and the agent says why. Once
    the files are back it goes on."""
    folder, others = f"{cluster.room}/m1/files", f"{cluster.room}/m0/files/cell-0.0"
    cases = [("its files are missing", lambda: [os.remove(it) for it in paths_of(folder, "cell-1")])]
    if served.is_built():
        cases += [
            ("one of this node's two files is missing", lambda: os.remove(f"{folder}/cell-1.1")),
            ("a file is another node's", lambda: shutil.copy(others, f"{folder}/cell-1.0")),
            ("a file is damaged", lambda: changed(f"{folder}/cell-1.0")),
            ("no files of this node", lambda: [open(it, "wb").close() for it in paths_of(folder, "cell-1")]),
        ]
    for wanted, spoil in cases:
        cluster.its["m1"].terminate()
        cluster.its["m1"].wait()
        before = {it: content(it) for it in paths_of(folder, "cell-1")}
        spoil()
        spoiled = {it: content(it) for it in paths_of(folder, "cell-1")}
        cluster.start("m1")
        began, its = time.monotonic(), {}
        while wanted not in its.get("why", "") and time.monotonic() < began + 60:
            time.sleep(0.3)
            its = node_of(cluster, "m1", "cell-1")
        time.sleep(1)
        # (it is tried again each five seconds)
        starts, most = node_of(cluster, "m1", "cell-1").get("starts", 0), 1 + (time.monotonic() - began) // 5
        is_so = wanted in its.get("why", "") and its["state"] == "failed" and starts <= most
        checks.check(is_so, "cell 1, of whose files", wanted, "is to be said:", its, starts, most)
        said_so = [it for it in cluster.said("m1", "cannot be started over its files") if wanted in it]
        checks.check(len(said_so) == 1, "the log of m1 says it once:", said_so)
        checks.check({it: content(it) for it in paths_of(folder, "cell-1")} == spoiled, wanted, "and they were changed")
        for path in paths_of(folder, "cell-1"):
            os.remove(path)
        for path, data in before.items():
            with open(path, "wb") as it:
                it.write(data)
        checks.check(cluster.comes(60) is not None, "it goes on once the files are back:", cluster.last.stderr)
        ends = time.monotonic() + 60
        while its.get("state") != "up" and time.monotonic() < ends:
            time.sleep(0.3)
            its = node_of(cluster, "m1", "cell-1")
        checks.check(its.get("state") == "up", "cell 1 is up once its files are back:", its)


def put_back(checks, cluster):
    """The files of a storage server are put back as they were some commits ago. Nothing in them tells that; its agent
    knows it by its journal, and starts it over those that it had."""
    machines = cluster.standing()["machines"]
    machine = next(name for name, its in sorted(machines.items()) if "storage-0" in its.get("nodes", {}))
    folder = f"{cluster.room}/{machine}/files"

    def stopped():
        cluster.its[machine].terminate()
        cluster.its[machine].wait()
        return {it: content(it) for it in paths_of(folder, "storage-0")}

    def put(files):
        for path in paths_of(folder, "storage-0"):
            os.remove(path)
        for path, data in files.items():
            with open(path, "wb") as it:
                it.write(data)
        cluster.start(machine)

    def is_said(state, why):
        ends, its = time.monotonic() + 60, {}
        while (its.get("state") != state or why not in its.get("why", "")) and time.monotonic() < ends:
            time.sleep(0.3)
            its = node_of(cluster, machine, "storage-0")
        is_so = its.get("state") == state and why in its.get("why", "")
        checks.check(is_so, "storage 0 is to be", state, why, "and is", its)

    before = stopped()
    cluster.start(machine)
    for _ in range(4):
        checks.check(cluster.comes(60) is not None, "it goes on after a restart:", cluster.last.stderr)
        time.sleep(1)
    now = stopped()
    checks.check(before != now, "four commits changed no file of storage 0")
    put(before)
    is_said("failed", "its files are of an earlier moment")
    stopped()
    put(now)
    is_said("up", "")
    checks.check(cluster.comes(60) is not None, "it goes on over the files that it had:", cluster.last.stderr)


def node_of(cluster, machine, token):
    """What a machine says of a node, or nothing yet."""
    return cluster.standing()["machines"].get(machine, {}).get("nodes", {}).get(token, {})


def paths_of(folder, token):
    """The files of a node."""
    return sorted(f"{folder}/{name}" for name in os.listdir(folder) if re.fullmatch(rf"{token}\D.*", name))


def content(path):
    with open(path, "rb") as it:
        return it.read()


def changed(path):
    """Changes a byte in the middle of a file."""
    data = bytearray(content(path))
    data[len(data) // 2] ^= 1
    with open(path, "wb") as it:
        it.write(data)
