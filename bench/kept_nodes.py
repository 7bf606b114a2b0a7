"""What a node as a process keeps in its two files, for bench/kills and bench/power: a cell and a log of a built
fdbrec_node. tests/segments.py reads them, and examples/foreign says what each step comes to."""
import json
import os
import subprocess
import sys

from kept import Damaged, Kept, Wrong, run

TOP = os.path.dirname(os.path.dirname(os.path.realpath(__file__)))
sys.path.insert(0, f"{TOP}/tests")

import lines  # noqa: E402
import segments  # noqa: E402

BROKEN = "a file is damaged, or none of such a node"
THERE = "this node has files: none is made in their place"


class Node(Kept):
    """Two files with little room, so that the node lets go again and again. Numbers are those of steps: lines that are
    given at once, and are done all or none. Each is given once the one before it is answered."""

    ENDS = (".0", ".1")
    BEGINS = ("fresh files", "files that are there", "a file of version 0.2")
    READER, TOOLS, ROOM = "tests/segments.py", (), 65536
    LEAST = 0  # so many steps are at least behind what a run begins with

    def words(self, path):
        there = [os.path.exists(path + end) for end in self.ENDS]
        how = [] if any(there) else ["--adopt" if os.path.exists(path) else "--make"]
        return self.plain(path) + how

    def plain(self, path):
        return [self.program, "node", *self.KIND, "--dir", os.path.dirname(path), "--room", str(self.ROOM)]

    def begin(self, which, path, count):
        count = max(count, self.LEAST)
        if self.BEGINS[which] != "a file of version 0.2":
            return super().begin(which, path, count)
        with open(path, "wb") as it:
            it.write(self.old(count))
        return count

    def are_made(self, pair):
        try:
            return segments.current(pair, self.OWNER) is not None
        except (segments.Unmade, segments.Broken):
            return False

    def refuse(self, path):
        """Files that are none are refused by name, whatever is wanted, and left as they are."""
        was = [self.content(path + end) for end in self.ENDS]
        for how in ([], ["--make"], ["--adopt"]):
            ran = run([*self.plain(path), *how])
            wanted = [BROKEN] + [THERE] * (how == ["--make"] and os.path.exists(path))
            is_so = ran.returncode == 3 and ran.stderr.strip() in wanted
            # (without the file of version 0.2 there is nothing to take over)
            if not is_so and (how != ["--adopt"] or os.path.exists(path)):
                raise Wrong(f"files that are none: {how} ends with {ran.returncode}: {ran.stderr.strip()}")
        if was != [self.content(path + end) for end in self.ENDS]:
            raise Wrong("files that are none were changed")

    def ended(self, which, path):
        _, number = segments.current([self.content(path + end) for end in self.ENDS], self.OWNER)
        if which and number < 2:
            raise Wrong("it never let go")

    # ---- lines

    def line(self, number, body):
        given = {"src": "router", "dest": " ".join(self.SAID), "body": body | {"msg_id": number}}
        return json.dumps(given, separators=(",", ":")).encode() + b"\n"

    def step(self, number):
        """The lines of a step. Their numbers are those of the step and their place in it."""
        return [self.line(number * 10 + at, body) for at, body in enumerate(self.bodies(number))]

    def play(self, words, first, last, **more):
        """Gives it steps, each once the one before it is answered: how it ended."""
        pipes = {it: subprocess.PIPE for it in ("stdin", "stdout", "stderr")}
        with subprocess.Popen(words, **pipes, **more) as child:
            out = []
            for number in range(first, last + 1):
                its = self.step(number)
                try:
                    child.stdin.write(b"".join(its))
                    child.stdin.flush()
                except BrokenPipeError:
                    break
                found = [child.stdout.readline() for _ in its]
                out += found
                if b"" in found:
                    break
            left, errors = child.communicate()
        text = (b"".join(out) + left).decode()
        return subprocess.CompletedProcess(words, child.returncode, text, errors.decode())

    def told(self, out):
        """The last step of which a line is answered: all of it is kept then."""
        bodies = [json.loads(it)["body"] for it in out.splitlines() if it.endswith("}")]
        wrong = [it for it in bodies if it["type"] == "error"]
        if wrong:
            raise Wrong(f"it answers {wrong[0]}")
        return max((it["in_reply_to"] // 10 for it in bodies), default=0)

    # ---- what is there

    def machine(self, number):
        """The node after so many steps, by examples/foreign."""
        found = self.fresh()
        for at in range(1, number + 1):
            for body in self.bodies(at):
                found.ask(body["ask"])
        return found

    def old(self, number):
        """The file of version 0.2 after so many steps."""
        return segments.frames(self.records(number))

    def shown(self, number, machine):
        """What a node shows of itself that stands where it does after so many steps."""
        return [{self.SAID[0]: machine.last()}, *(machine.ask(it["ask"]) for it in self.asks(number))]

    def read(self, copy, told):
        pair = [self.content(copy + end) for end in self.ENDS]
        try:
            records = segments.records_of(pair, self.OWNER)
        except segments.Unmade:
            if not os.path.exists(copy):
                return 0
            is_so = self.content(copy) == self.old(told)
            return told if is_so else self.differs("the old file is another one", told)
        except (segments.Broken, segments.Stranger) as why:
            raise Damaged(f"told {told}, and {self.READER} finds files that are {why!r}") from None
        for number in (told, told + 1):
            if self.shown(number, self.made_of(records)) == self.shown(number, self.machine(number)):
                return number
        return self.differs(f"{self.READER} finds {self.made_of(records).last()}", told)

    def differs(self, what, told):
        raise Wrong(f"told {told}, and {what}")

    def content(self, path):
        if not os.path.exists(path):
            return b""
        with open(path, "rb") as it:
            return it.read()

    def show(self, path, there):
        """A node is made, or taken over, by a start without a line unless that was done; and never once it was told
        something, which its files show."""
        old = self.content(path)
        for word in ("--make", "--adopt") if os.path.exists(path) else ("--make",):
            made = run([*self.plain(path), word])
            may = there == 0 or word == "--adopt"
            if (made.returncode, made.stderr) not in ([(0, "")] if may else []) + [(3, f"{THERE}\n")]:
                raise Wrong(f"{there} is there, and {word} ends with {made.returncode}: {made.stderr.strip()}")
        if self.content(path) != old:
            raise Wrong("the file of version 0.2 was changed")
        given = [self.line(at, body) for at, body in enumerate([{"type": "init", "last": True}, *self.asks(there)])]
        ran = run(self.plain(path), b"".join(given).decode())
        bodies = [json.loads(it)["body"] for it in ran.stdout.splitlines()]
        its = [it["entry"]["act"]["asked"]["tell"] if "entry" in it else it.get("last", it) for it in bodies]
        wanted = self.shown(there, self.machine(there))
        if (ran.returncode, ran.stderr, its) != (0, "", wanted):
            first = next((pair for pair in zip(its, wanted) if pair[0] != pair[1]), (ran.returncode, ran.stderr))
            raise Wrong(f"{there} is there, and it shows {str(first)[:500]}")


class CellNode(Node):
    """A cell. Odd steps write a value of 4,000 bytes, even ones read under a greater ballot. The file is full after 16."""

    NAME, KIND, SAID = "cell-0", ["cell", "--index", "0"], ("cell", "0")
    OWNER, LEAST = segments.owner_of("fdbrec", "cell 0"), 14

    def fresh(self):
        return segments.Cell(0, "")

    def bodies(self, number):
        ballot = 256 * (number + 1) + 1
        ask = lines.write(ballot, f"{number % 256:02x}" * 4000) if number % 2 else lines.read(ballot)
        return [{"type": "ask", "at": number, "from": {"recoverer": {"ballot": ballot}}, "ask": ask}]

    def records(self, number):
        """Those of so many steps."""
        found, records = self.fresh(), []
        for at in range(1, number + 1):
            found.ask(self.bodies(at)[0]["ask"])
            records.append(segments.cell_record(found.promised, found.written, found.value))
        return records

    def made_of(self, records):
        return segments.cell_of(records)

    def asks(self, _):
        return []


class LogNode(Node):
    """A log: a seed, a mark, and then in turn a push of 26,000 bytes, a pop of what is known, and three pushes at once
    with a peek behind them."""

    NAME, KIND = "log-513-0", ["log", "--epoch", "513", "--index", "0", "--logs", "4", "--degree", "2"]
    SAID, OWNER = ("log", "513", "0"), segments.owner_of("fdbrec", "log 513 0", [4, 2])

    def fresh(self):
        return segments.Log(513, 0, 4, 2)

    def version(self, number):
        """The version that the log holds before a step."""
        return 11 + sum((1, 0, 3)[it % 3] for it in range(3, number))

    def bodies(self, number):
        first, size = self.version(number), 26000 if number % 3 == 0 else 40
        if number < 3:
            ask = lines.SEED if number == 1 else lines.push(10, 11, 9, mark=lines.STATE)
            return [self.body(number, lines.RECOVERER, ask)]
        if number % 3 == 1:
            return [self.body(number, lines.STORAGE, lines.pop(0, first))]
        found = []
        for version in range(first, self.version(number + 1)):
            batch = [{"set": {"key": f"{version % 7:02x}", "value": f"{version % 256:02x}" * size}}]
            push = lines.push(version, version + 1, version - 1, [[0, batch], [3, lines.ADD]])
            found.append(self.body(number, lines.proxy(513), push))
        return found + [self.body(number, lines.STORAGE, self.peek(0, first))] * (number % 3 == 2)

    def body(self, number, by, ask):
        return {"type": "ask", "at": number, "from": by, "ask": ask}

    def peek(self, tag, after):
        return {"log": {"peek": {"after": after, "epoch": 513, "most": 100, "tag": tag}}}

    def records(self, number):
        """Those of so many steps."""
        found, records = self.fresh(), []
        for body in (body for at in range(1, number + 1) for body in self.bodies(at)):
            was, its = found.last(), [] if "peek" in body["ask"]["log"] else segments.log_records(body["ask"], found)
            found.ask(body["ask"])
            records += its if found.last() != was else []
        return records

    def made_of(self, records):
        return segments.log_of(records, 513, 0, 4, 2)

    def asks(self, number):
        """All that is not popped, what is said of the rest, and the mark."""
        popped = self.machine(number).popped
        found = [self.peek(tag, after) for tag in (0, 3) for after in (9, max(9, popped.get(tag, 0)))]
        found.append({"log": {"mark_asked": {"epoch": 513}}})
        return [self.body(number, lines.STORAGE, it) for it in found]
