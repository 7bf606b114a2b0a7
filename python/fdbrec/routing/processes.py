"""A node as a process: lines to it, lines from it, its end. What lines mean stands in docs/NODES.md."""

import json
import os
import select
import signal
import subprocess

NUMBERS = {"cell": ["index"], "log": ["epoch", "index"], "sequencer": ["epoch"], "proxy": ["epoch", "number"]}
NUMBERS |= {"recoverer": ["ballot"], "storage": ["tag"]}
PATIENCE = 60  # seconds for one answer, on a machine that has other work
LONGEST = 268_435_456  # bytes of a line
ROOM = 30000  # so many bytes may lie in a pipe: a node that waits for its answer to be read never stops the router


class Trouble(Exception):
    """What a node, or the router, must not do."""


def spoken(name):
    """A node as lines name it."""
    ((kind, it),) = name.items()
    return " ".join([kind, *(str(it[each]) for each in NUMBERS[kind])])


def once(text, words, errors):
    """Runs the process of a node to its end, without a line, whatever its status is."""
    pipes = {"stdin": subprocess.DEVNULL, "stdout": subprocess.DEVNULL}
    try:
        subprocess.run(words, stderr=errors, start_new_session=True, timeout=PATIENCE, **pipes)
    except OSError as why:
        raise Trouble(f"{text} cannot be started: {why}") from None
    except subprocess.TimeoutExpired:
        raise Trouble(f"{text} goes on after the end of its input") from None


class Process:
    """The process of a node. Lines without an answer are in `open`, in their order."""

    def __init__(self, text, words, errors):
        self.text, self.open, self.buffer, self.number, self.lying = text, [], b"", 0, 0
        pipes = {"stdin": subprocess.PIPE, "stdout": subprocess.PIPE, "bufsize": 0}
        try:
            self.it = subprocess.Popen(words, stderr=errors, start_new_session=True, **pipes)
        except OSError as why:
            raise Trouble(f"{text} cannot be started: {why}") from None

    def has_room(self, body):
        return self.lying + len(json.dumps(body)) < ROOM

    def give(self, body):
        """Writes a line. Whether it comes to be read shows when its answer is taken."""
        self.number += 1
        line = {"src": "router", "dest": self.text, "body": body | {"msg_id": self.number}}
        data = json.dumps(line, separators=(",", ":")).encode() + b"\n"
        self.open.append((self.number, body))
        self.lying += len(data)
        try:
            self.it.stdin.write(data)
        except BrokenPipeError:
            pass

    def line(self):
        """The next line that it wrote, or None at its end. A line that was cut off is none."""
        while b"\n" not in self.buffer:
            if not select.select([self.it.stdout], [], [], PATIENCE)[0]:
                raise Trouble(f"{self.text} does not answer")
            data = os.read(self.it.stdout.fileno(), 1 << 16)
            if not data:
                return None
            self.buffer += data
            if len(self.buffer) > LONGEST:
                raise Trouble(f"{self.text} answers by a line of more than {LONGEST} bytes")
        line, _, self.buffer = self.buffer.partition(b"\n")
        return line

    def answer(self):
        """The line given first of those that are open, and the body of its answer; None at the process's end."""
        line = self.line()
        if line is None:
            return None
        number, given = self.open[0]
        body, lack = self.body_of(line, number)
        if lack:
            raise Trouble(f"{self.text} answers {given['type']}, line {number}, by {line[:200]!r}: {lack}")
        del self.open[0]
        self.lying = self.lying if self.open else 0
        return given, body

    def body_of(self, line, number):
        """The body of a line that answers the one of this number; or what makes it another line."""
        try:
            its = json.loads(line.decode("utf-8"))
        except UnicodeDecodeError:
            return None, "it is no UTF-8"
        except RecursionError:
            return None, "it is nested too deeply"
        except ValueError as why:
            return None, f"it is no JSON: {why}"
        if not isinstance(its, dict) or not isinstance(its.get("body"), dict):
            return None, "it is no object with a body, or the body is no object"
        for name, wanted in (("src", self.text), ("dest", "router")):
            if its.get(name) != wanted:
                return None, f"its {name} is not {wanted}"
        found = its["body"].get("in_reply_to")
        if type(found) is not int or found != number:
            return None, f"its in_reply_to is not {number}"
        return its["body"], None

    def kill(self):
        self.it.send_signal(signal.SIGKILL)
        self.it.wait()

    def end(self):
        """Ends its input."""
        self.it.stdin.close()

    def close(self):
        """Waits for its end."""
        try:
            status = self.it.wait(PATIENCE)
        except subprocess.TimeoutExpired:
            self.drop()
            raise Trouble(f"{self.text} goes on after the end of its input") from None
        self.it.stdout.close()
        if status != 0:
            raise Trouble(f"{self.text} ended with status {status}")

    def drop(self):
        """Ends it, whatever it does."""
        if self.it.poll() is None:
            self.kill()
        for pipe in (self.it.stdin, self.it.stdout):
            try:
                pipe.close()
            except OSError:
                pass
