"""Faults around the processes of tests/service: routes that are cut, between brokers or between machines in network
namespaces of their own; a disk that is full."""

import contextlib
import os
import re
import select
import shutil
import signal
import socket
import subprocess
import threading


class Gate:
    """What other brokers reach a broker by: connections to its port are carried on, unless the gate is shut."""

    def __init__(self, to):
        self.to, self.is_shut, self.pairs = to, False, set()
        self.door = socket.create_server(("127.0.0.1", 0))
        self.port = self.door.getsockname()[1]
        threading.Thread(target=self.accept, daemon=True).start()

    def accept(self):
        while True:
            try:
                one, _ = self.door.accept()
            except OSError:
                return
            try:
                if self.is_shut:
                    raise OSError
                pair = one, socket.create_connection(("127.0.0.1", self.to), timeout=2)
            except OSError:
                one.close()
                continue
            for each in pair:
                # (small messages are not held back until the one before is acknowledged: that is 40 ms each)
                each.setsockopt(socket.IPPROTO_TCP, socket.TCP_NODELAY, 1)
            self.pairs.add(pair)
            threading.Thread(target=self.carry, args=(pair,), daemon=True).start()

    def carry(self, pair):
        other = {pair[0]: pair[1], pair[1]: pair[0]}
        try:
            while not self.is_shut:
                for each in select.select(list(pair), [], [], 0.2)[0]:
                    data = each.recv(1 << 16)
                    if not data:
                        return
                    other[each].sendall(data)
        except (OSError, ValueError):
            pass
        finally:
            for each in pair:
                each.close()
            self.pairs.discard(pair)

    def shut(self, is_shut):
        self.is_shut = is_shut

    def close(self):
        self.is_shut = True
        self.door.close()


class Spaces:
    """Machines in network namespaces of their own, each with one link to a router in between. What the router drops
    comes nowhere, and nobody is told. Each machine has a clock of its own, too, which began at another time (a time
    namespace moves the clock that does not stop, but no time of day). `lacking` says what is missing, as root or a
    package."""

    def __init__(self, count, dice):
        self.names = [f"fdbrec-{os.getpid()}-{at}" for at in range(count)]
        self.hub = f"fdbrec-{os.getpid()}-hub"
        self.offsets = [dice.choice([0, 1000, 100_000, 10_000_000]) for _ in self.names]
        self.cuts = []
        self.sweep()
        try:
            self.make()
        except (OSError, subprocess.CalledProcessError):
            self.close()
            raise

    @staticmethod
    def lacking():
        if os.geteuid() != 0:
            return "root"
        if not shutil.which("ip") or not shutil.which("unshare"):
            return "iproute2, util-linux"
        name = f"fdbrec-{os.getpid()}-is"
        made = subprocess.run(["ip", "netns", "add", name], capture_output=True).returncode == 0
        subprocess.run(["ip", "netns", "del", name], capture_output=True)
        timed = subprocess.run(["unshare", "--time", "--monotonic", "9", "true"], capture_output=True).returncode == 0
        return None if made and timed else "the right to make network and time namespaces"

    @staticmethod
    def sweep():
        """Ends what a run left that was killed: namespaces with its number, and what runs there."""
        for line in subprocess.run(["ip", "netns", "list"], capture_output=True, text=True).stdout.splitlines():
            name = line.split()[0] if line else ""
            number = re.match(r"fdbrec-(\d+)-", name)
            if not number or os.path.exists(f"/proc/{number[1]}"):
                continue
            for pid in subprocess.run(["ip", "netns", "pids", name], capture_output=True, text=True).stdout.split():
                with contextlib.suppress(OSError):
                    os.kill(int(pid), signal.SIGKILL)
            subprocess.run(["ip", "netns", "del", name], capture_output=True)

    @staticmethod
    def ip(*words):
        subprocess.run(["ip", *words], check=True, capture_output=True)

    def make(self):
        self.ip("netns", "add", self.hub)
        forward = ["sh", "-c", "echo 1 > /proc/sys/net/ipv4/ip_forward"]
        subprocess.run(["ip", "netns", "exec", self.hub, *forward], check=True)
        for at, name in enumerate(self.names):
            self.ip("netns", "add", name)
            self.ip("link", "add", f"to{at}", "netns", self.hub, "type", "veth", "peer", "name", "away", "netns", name)
            for space, link, end in ((self.hub, f"to{at}", 1), (name, "away", 2)):
                self.ip("-n", space, "addr", "add", f"10.0.{at}.{end}/24", "dev", link)
                self.ip("-n", space, "link", "set", link, "up")
            self.ip("-n", name, "link", "set", "lo", "up")
            self.ip("-n", name, "route", "add", "default", "via", f"10.0.{at}.1")

    def address(self, at):
        return f"10.0.{at}.2"

    def words(self, at):
        """What has a program run on a machine."""
        clock = str(self.offsets[at])
        return ["ip", "netns", "exec", self.names[at], "unshare", "--time", "--monotonic", clock, "--boottime", clock]

    def cut(self, one, other):
        """Nothing goes between two machines."""
        for a, b in ((one, other), (other, one)):
            self.rule("add", a, b)
        self.cuts.append((one, other))

    def mend(self, one, other):
        if (one, other) in self.cuts:
            self.cuts.remove((one, other))
            for a, b in ((one, other), (other, one)):
                self.rule("del", a, b)

    def rule(self, do, a, b):
        self.ip("-n", self.hub, "rule", do, "from", self.address(a), "to", self.address(b), "blackhole")

    def close(self):
        for name in (*self.names, self.hub):
            subprocess.run(["ip", "netns", "del", name], capture_output=True)


class Disk:
    """A small file system for a folder. Where none can be mounted, `is_there` is false and nothing is done."""

    def __init__(self, path, megabytes):
        self.path, self.filler = path, f"{path}/filler"
        os.makedirs(path, exist_ok=True)
        words = ["mount", "-t", "tmpfs", "-o", f"size={megabytes}m", "tmpfs", path]
        self.is_there = os.geteuid() == 0 and subprocess.run(words, capture_output=True).returncode == 0

    def fill(self):
        try:
            with open(self.filler, "wb", buffering=0) as it:
                for size in (1 << 20, 1 << 12, 1):
                    try:
                        while it.write(b"\0" * size):
                            pass
                    except OSError:
                        pass
        except OSError:
            pass

    def empty(self):
        try:
            os.remove(self.filler)
        except OSError:
            pass

    def close(self):
        if self.is_there:
            subprocess.run(["umount", "-l", self.path], check=False)
