"""Starts programs from a small process, so that their greatest memory is their own.

Linux counts to a new process what the one that starts it has had until then. `Launcher()` is to be made before what takes
memory is imported: the process that it forks is small, and starts what it is asked to."""

import contextlib
import json
import os
import resource
import select
import signal


class Launcher:
    """A process that starts programs, one at a time."""

    def __init__(self):
        asked, self.asks = os.pipe()
        self.tells, told = os.pipe()
        if os.fork() == 0:
            for end in (self.asks, self.tells):
                os.close(end)
            serve(asked, told)
            os._exit(0)
        for end in (asked, told):
            os.close(end)
        self.tells = os.fdopen(self.tells)

    def run(self, words, paths, seconds, limit):
        """Runs the program of the first of the words with the others, over files for its input, its output and its
        errors, for at most so many seconds of a processor and in an address space of so many MiB (0: any). Returns how it
        ended ("late" where it was stopped), the seconds of a processor that it took, and its greatest memory in KiB."""
        text = (json.dumps([words, paths, seconds, limit]) + "\n").encode()
        while text:
            text = text[os.write(self.asks, text):]
        return json.loads(self.tells.readline())


def serve(asked, told):
    """Runs what comes, until who asks has ended."""
    with os.fdopen(asked) as lines:
        for line in lines:
            os.write(told, (json.dumps(ran(*json.loads(line))) + "\n").encode())


def ran(words, paths, seconds, limit):
    opened = [(os.POSIX_SPAWN_OPEN, 0, paths[0], os.O_RDONLY, 0)]
    opened += [(os.POSIX_SPAWN_OPEN, at, paths[at], os.O_WRONLY | os.O_CREAT | os.O_TRUNC, 0o600) for at in (1, 2)]
    given = [each.encode("utf-8", "surrogateescape") for each in words]
    if limit:
        hard = resource.getrlimit(resource.RLIMIT_AS)[1]
        resource.setrlimit(resource.RLIMIT_AS, (limit << 20, hard))
    child = os.posix_spawn(words[0], [os.path.basename(given[0]), *given[1:]], os.environ, file_actions=opened)
    with contextlib.suppress(ProcessLookupError):
        resource.prlimit(child, resource.RLIMIT_CPU, (seconds, seconds + 1))
    late = is_late(child, seconds)
    if late:
        os.kill(child, signal.SIGKILL)
    _, status, used = os.wait4(child, 0)
    ended = os.waitstatus_to_exitcode(status)
    late = late or ended == -signal.SIGXCPU
    return "late" if late else ended, used.ru_utime + used.ru_stime, used.ru_maxrss


def is_late(child, seconds):
    """Whether a run stands still: a clock allows it far more than what it may take of a processor."""
    watched = select.poll()
    pid = os.pidfd_open(child)
    watched.register(pid, select.POLLIN)
    late = not watched.poll((30 + 60 * seconds) * 1000)
    os.close(pid)
    return late
