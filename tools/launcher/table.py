"""The commands of the program and their options, as it takes them: the one table by which ./fdbrec judges words before
anything is built. tests/words compares what it says with what the program says, and tests/help with docs/help."""
U8, U16, U32, U64 = 2**8 - 1, 2**16 - 1, 2**32 - 1, 2**64 - 1
STORES = ("map", "sql")


class Option:
    """An option: its name, the name of its value (None for a flag), the values that it may have (names, or the least
    and the greatest number with whether its type has a sign), and whether it must be there."""

    def __init__(self, name, value=None, names=(), range=None, is_signed=True, is_required=False):
        self.name, self.value, self.names, self.range = name, value, names, range
        self.is_signed, self.is_required = is_signed, is_required

    def __str__(self):
        return f"--{self.name} <{self.value}>" if self.value else f"--{self.name}"


class Command:
    """A command: its name, its options, and the commands below it, one of which must be said if there are some."""

    def __init__(self, name, options=(), below=(), has_version=False):
        self.name, self.options, self.below, self.has_version = name, options, below, has_version

    def option(self, name):
        return next((it for it in self.all_options() if it.name == name), None)

    def all_options(self):
        """With those that every command has, or the program's own."""
        version = (Option("version"),) if self.has_version else ()
        return (*self.options, Option("help"), *version)

    def command(self, name):
        return next((it for it in self.below if it.name == name), None)

    def names(self):
        """The names of the commands below it, `help` among them."""
        return [*(it.name for it in self.below), "help"] if self.below else []


def _number(name, least, most, value="N", is_required=False):
    return Option(name, value, range=(least, most), is_required=is_required)


def _wide(name, is_required=True, value="N"):
    return Option(name, value, range=(0, U64), is_signed=False, is_required=is_required)


def _file(name="db", value="FILE", is_required=False):
    return Option(name, value, is_required=is_required)


_STORE = Option("store", "KIND", names=STORES)
_SHAPE = (_number("logs", 1, 16), _number("degree", 1, 16))
_NEEDED = (_number("logs", 1, 16, is_required=True), _number("degree", 1, 16, is_required=True))
_CONFIG = _file("config", is_required=True)
_DIR, _START = _file("dir", "DIR"), Option("start")
_AHEAD = _wide("most-ahead", is_required=False)
_ROOM = Option("room", "BYTES", range=(65_536, 1_099_511_627_776), is_signed=False)
_KEPT = (_DIR, _file("cluster", "NAME"), Option("make"), Option("adopt"))
_FILES = (_ROOM, *_KEPT)

NODE = Command(
    "node",
    below=(
        Command("cell", (_number("index", 0, 8, is_required=True), _file("config"), *_FILES, _START, _AHEAD)),
        Command(
            "log",
            (_wide("epoch"), _number("index", 0, 15, is_required=True), *_NEEDED, *_FILES, _START, _AHEAD),
        ),
        Command("sequencer", (_wide("epoch"), _wide("last"), _AHEAD)),
        Command("storage", (_number("tag", 0, 31, is_required=True), _CONFIG, *_KEPT, _AHEAD)),
        Command(
            "proxy",
            (_wide("epoch"), _number("number", 0, 15, is_required=True), _wide("known"), *_SHAPE, _CONFIG, _AHEAD),
        ),
        Command("recoverer", (_wide("ballot"), *_SHAPE, _CONFIG, _AHEAD)),
    ),
)
CLUSTER = Command(
    "cluster",
    (
        _number("coordinators", 1, 9),
        _number("logs", 1, 16),
        _number("degree", 1, 16),
        _number("storages", 1, 32),
        _number("proxies", 1, 16),
        _number("batches", 0, 1_000_000),
        _number("recoveries", 0, 100),
        _number("turns", 1, 1_000_000),
        _STORE,
        Option("shapes", "M:K,.."),
        _number("storm", 0, 256),
        _number("late", 0, 256),
        _number("crash", 0, 256),
        _number("lose", 0, 256),
        _number("refuse", 0, U16),
        _wide("seed", is_required=False, value="S"),
        Option("journal"),
        Option("counts"),
    ),
)
END = Command(
    "end",
    (_number("logs", 1, 16, "M", is_required=True), _number("degree", 1, 16, "K", is_required=True)),
)
APPLY = Command("apply", (_STORE, _file()))
ROWS = Command("rows", (_file(is_required=True),))

# The program of all commands but node, the small one of apply in memory, and that of node.
PROGRAM = Command(
    "fdbrec",
    below=(APPLY, ROWS, END, Command("simulate"), Command("audit"), CLUSTER),
    has_version=True,
)
NODES = Command("fdbrec", below=(NODE,), has_version=True)
# What ./fdbrec takes: all of them.
ALL = Command("fdbrec", below=(*PROGRAM.below, NODE), has_version=True)

COMMANDS = tuple(it.name for it in PROGRAM.below)
# Words that one might take for a command, and what they are.
SCRIPTS = {
    "judge": "  tip: 'fdbrec audit' is the proved judge; bench/judge needs no kit\n",
    "explore": "  tip: bench/explore makes a page of a run\n",
    "router": "  tip: tools/router runs nodes as processes\n",
    "validate": "  tip: docs/schema/validate says where a script is bad\n",
    "test": "  tip: ./test runs the tests\n",
}
# The commands that read a script from standard input.
SCRIPTED = ("apply", "end", "simulate", "audit")
