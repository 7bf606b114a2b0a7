"""A cluster of service/ that is measured, for bench/etcd and bench/returns: its processes, a load that writes down when
each commit was acknowledged, and kills under that load."""

import contextlib
import os
import re
import shutil
import signal
import statistics
import subprocess
import sys
import time

sys.dont_write_bytecode = True
TOP = os.path.dirname(os.path.dirname(os.path.realpath(__file__)))
sys.path[:0] = [f"{TOP}/bench", f"{TOP}/tests"]

import built  # noqa: E402
import served  # noqa: E402
from measured import fail  # noqa: E402

LOAD = 4  # clients that put while something is killed
PACKAGES = "golang-go golang-github-nats-io-go-nats-dev nats-server"
GO = "/usr/share/gocode/src"
USUAL = ["100ms", "1s"]  # alive and suspect


class Stuck(Exception):
    """Something did not come about in time."""


def until(what, seconds, why):
    ends = time.monotonic() + seconds
    while time.monotonic() < ends:
        found = what()
        if found is not None and found is not False:
            return found
        time.sleep(0.02)
    raise Stuck(why)


def ready(node, commands=(), sources=(), packages=""):
    """Names all that is missing, or builds the service, and says which program the nodes are: `node`, or the one of
    this checkout, or for `foreign` the one in Python."""
    missing = [name for name in ("go", "nats-server", *commands) if not shutil.which(name)]
    missing += [each for each in ("github.com/nats-io/nats.go", *sources) if not os.path.isdir(f"{GO}/{each}")]
    if missing:
        fail(f"it lacks {', '.join(missing)}: apt-get install -y {PACKAGES} {packages}".rstrip())
    built.passes([f"{TOP}/service/build"])
    if node == "foreign":
        os.environ.pop("BUILT_FDBREC_NODE", None)
        return "nodes in Python (examples/foreign)"
    path = os.path.abspath(node) if node else built.program("fdbrec_node")
    os.environ["BUILT_FDBREC_NODE"] = path
    is_proved = re.search(r"crates/fdbrec_node/out/fdbrec_node$", path)
    return "the proved fdbrec_node" if is_proved else "an unproved fdbrec_node, with checks"


def said_by(*words):
    return subprocess.run(words, capture_output=True, text=True).stdout.strip()


def commit():
    """What the checkout holds, in a word."""
    return said_by("git", "-C", TOP, "describe", "--always", "--dirty")


class Service:
    """Five agents with their nodes, two keepers, and brokers."""

    patience = 30  # seconds until a machine that was killed is back

    def __init__(self, room, name, journals, brokers, detector=None, values=None):
        self.name, self.count, self.ran = name, 0, False
        alive, suspect = detector or USUAL
        given = {"proxies": "16", "shards": '["", "6d"]', "alive": f'"{alive}"', "suspect": f'"{suspect}"'}
        if not journals:
            given["fsync"] = "false\nkeep = false"
        self.cluster = served.Cluster(room, brokers, 5, given | (values or {}), has_gates=False)

    def start_all(self):
        """A cluster that ran before gets new logs: those that it has might be full before its puts are measured."""
        self.cluster.start_all()
        self.comes()
        if self.ran:
            self.recover()
            time.sleep(2)  # (until what is over has ended)
            self.comes()
        self.ran = True

    def recover(self):
        ran = self.cluster.run("recover")
        if ran.returncode:
            fail(f"{self.name}: recover: {ran.stderr}")

    def comes(self):
        if self.cluster.comes(90) is None:
            fail(f"{self.name} does not begin: {self.cluster.last.stderr}")

    def pids(self):
        kinds = {"m": "agents", "b": "brokers", "k": "keepers"}
        found = {each.pid: kinds[name[0]] for name, each in self.cluster.its.items()}
        return found | {pid: name.split()[1] + "s" for name, pid in self.cluster.node_pids().items()}

    def load(self, clients, seconds, trace=None):
        words = self.cluster.command("bench", "--clients", str(clients), "--seconds", str(seconds), "--within", "60s")
        return words + (["--trace", trace] if trace else [])

    def epoch(self):
        return self.cluster.standing()["newest"]["epoch"]

    def kill(self, what):
        """Kills one of the newest epoch: the one after the other."""
        self.count += 1
        if what == "machine":
            name = f"m{self.count % 5}"
            broker = f"broker-{name[1:]}"
            # (a broker that is alone stays)
            group = [name, broker] if broker in self.cluster.words and "broker-1" in self.cluster.words else [name]
            when = time.time_ns()
            for each in group:
                self.cluster.its[each].kill()
            for each in group:
                self.cluster.its[each].wait()
            return when, group
        # (a recovery may be under way)
        its = until(lambda: self.of_newest(what), 20, f"there is no {what} of the newest epoch")
        when = time.time_ns()
        os.kill(its[self.count % len(its)][1], signal.SIGKILL)
        return when, []

    def of_newest(self, what):
        """The nodes of a kind of the newest epoch, with their processes."""
        epoch = self.epoch()
        return sorted(it for it in self.cluster.node_pids().items() if f" {what} --epoch {epoch}" in it[0]) or None

    def mend(self, group):
        for each in group:
            self.cluster.start(each)
        for each in group:
            if each.startswith("m"):
                until(lambda: self.is_whole(each), self.patience, f"{each} does not come back")

    def is_whole(self, name):
        its = self.cluster.standing()["machines"].get(name)
        return its and all(node["state"] in ("up", "gone", "ended") for node in its["nodes"].values())

    def drop(self):
        self.cluster.drop()


class Trace:
    """Commits that were acknowledged, as the load writes them down: when each began and ended."""

    def __init__(self, path):
        self.path, self.at, self.its = path, 0, []

    def read(self):
        if os.path.exists(self.path):
            with open(self.path, "rb") as it:
                it.seek(self.at)
                text = it.read()
            whole = text[: text.rfind(b"\n") + 1]
            self.at += len(whole)
            self.its += [tuple(map(int, line.split())) for line in whole.split(b"\n") if line]
        return self.its

    def since(self, when):
        """How many were acknowledged that began after a moment."""
        return sum(1 for began, _ in self.read()[-400:] if began > when)

    def pause(self, since, until_then):
        """The longest time without an acknowledged commit, in seconds, that ended between two moments."""
        ends = sorted(end for _, end in self.read() if end <= until_then)
        return max((b - a for a, b in zip(ends, ends[1:]) if b > since), default=0) / 1e9


def killed(system, what, count, room, ends, around=contextlib.nullcontext):
    """The pauses after so many kills, or as many as there is time for. Each is within what `around` makes."""
    path = f"{room}/trace-{time.monotonic_ns()}"
    with open(f"{path}-said", "wb") as said:
        load = subprocess.Popen(system.load(LOAD, 100000, path), stdout=said, stderr=said)
    trace, found = Trace(path), []
    try:
        until(lambda: trace.since(0) > 20 or load.poll() is not None, 60, f"{system.name}: no commits")
        if load.poll() is not None:
            with open(f"{path}-said", encoding="utf-8") as said:
                raise Stuck(f"{system.name}: the load ended: {said.read()}")
        while len(found) < count and (time.monotonic() < ends or not found):
            time.sleep(0.4)
            with around():
                found.append(one_kill(system, what, trace))
    except Stuck as why:
        print(why, flush=True)
        found.append(float("inf"))
    finally:
        load.kill()
        load.wait()
    print(f"{system.name}, {what}: {' '.join(f'{each:.2f}' for each in found)}", flush=True)
    return found


def one_kill(system, what, trace):
    """The pause after a kill, in seconds."""
    when, group = system.kill(what)
    time.sleep(0.3)
    until(lambda: trace.since(when) > 8, 60, f"{system.name}: nothing is committed after the kill of a {what}")
    system.mend(group)
    # (a keeper may need a while until it begins a recovery, and others commit until then)
    time.sleep(0.1 if what in ("leader", "log") else max(0, 0.7 - (time.time_ns() - when) / 1e9))
    now = time.time_ns()
    until(lambda: trace.since(now) > 8, 60, f"{system.name}: nothing is committed after the kill of a {what}")
    return trace.pause(when, time.time_ns())


def quantiles(found):
    """Median, 90% and the most of some times, as a table has them."""
    its = sorted(found)
    return [f"{statistics.median(its):.2f}", f"{its[int(0.9 * (len(its) - 1) + 0.5)]:.2f}", f"{its[-1]:.2f}"]
