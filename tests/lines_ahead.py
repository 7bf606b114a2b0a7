"""Lines to nodes with numbers that are far ahead, worked out by hand from docs/NODES.md: of each kind of node each kind
of number, one just within what the words allow and one just beyond it, which is refused as TooFar and changes nothing.
Rows are as in lines.py."""

from lines import AFTER, BATCH, BEGUN, CELL, CONFIG, CUT, FIRST, HALVES, HELD, KNOWN, LOCKS, MARK_ASKED, NEXT, ONE, PEEK
from lines import PROMISE, PUSHES, RECOVERER, SEED, SEQUENCER, SET, STORAGE, TWO, UNSEEDED, WAITING
from lines import ask_next, asked, begins, cell, clear, crashed, entry, fault, given, has, heard, is_last, log, log_last
from lines import numbered, peeked, phase, pop, proxy, push, read, refused, stands, submitted, told, wanted, write

MOST = 2**32  # the default: rounds of 256 ballots, stamps, and commits of 2^20 versions at most
ROUND, COMMIT = 256, 2**20
LAST_BALLOT, LAST_VERSION, LAST_STAMP = 2**48 - 1, 2**62 - 1, 2**40 - 1


def far(body):
    """A line that is refused."""
    return fault(body, 14, "TooFar")


def asks(at, ask):
    return {"type": "ask", "at": at, "from": RECOVERER, "ask": ask}


def hears(at, by, tell):
    return {"type": "hear", "at": at, "from": by, "tell": tell}


def back(at):
    return {"type": "back", "at": at}


def promises(written, value):
    return {"cell": {"promise": {"value": value, "written": written}}}


# ---- cells: ballots and stamps. The first cell stands in round 1

THERE = 2 * MOST  # a first stamp, which may be any
HIGH = (1 + MOST) * ROUND + 255  # the last ballot that it may follow
HIGHER = (1 + 2 * MOST) * ROUND
CELLS = [
    begins(CELL, cell(257, 257, ONE)),
    far(asks(THERE, read(HIGH + 1))),
    far(asks(THERE, write(HIGH + 1, TWO))),
    far(asks(0, read(LAST_BALLOT))),
    is_last(cell(257, 257, ONE)),
    asked(THERE, RECOVERER, read(258), THERE + 1, promises(257, ONE), cell(258, 257, ONE)),
    asked(THERE + 1, RECOVERER, read(HIGH), THERE + 2, promises(257, ONE), cell(HIGH, 257, ONE)),
    far(asks(THERE + 3 + MOST, read(258))),
    far(asks(THERE + 3 + MOST, write(HIGH, TWO))),
    # (before anything else is looked at: the type, and whose ask it is)
    far(hears(THERE + 3 + MOST, CELL, PROMISE)),
    far(back(THERE + 3 + MOST)),
    far(asks(THERE + 3 + MOST, MARK_ASKED)),
    fault(back(THERE + 2 + MOST), 10),
    is_last(cell(HIGH, 257, ONE)),
    asked(
        THERE + 2 + MOST,
        RECOVERER,
        write(HIGHER, TWO),
        THERE + 3 + MOST,
        {"cell": {"written": {"ballot": HIGHER}}},
        cell(HIGHER, HIGHER, TWO),
    ),
    far(asks(5, write(HIGHER + (MOST + 1) * ROUND, ONE))),
    # (a ballot that is below is refused by the cell itself)
    asked(
        5,
        RECOVERER,
        read(257),
        THERE + 4 + MOST,
        {"cell": {"refused": {"promised": HIGHER}}},
        cell(HIGHER, HIGHER, TWO),
    ),
    is_last(cell(HIGHER, HIGHER, TWO)),
]
NONE_AHEAD = [
    begins(CELL, cell(257, 257, ONE)),
    far(asks(LAST_STAMP - 1, read(512))),
    asked(LAST_STAMP - 3, RECOVERER, read(511), LAST_STAMP - 2, promises(257, ONE), cell(511, 257, ONE)),
    far(asks(LAST_STAMP - 1, read(511))),
    far(asks(LAST_STAMP - 2, read(LAST_BALLOT))),
    asked(LAST_STAMP - 2, RECOVERER, read(511), LAST_STAMP - 1, promises(257, ONE), cell(511, 257, ONE)),
    far(asks(LAST_STAMP, read(511))),
    asked(7, RECOVERER, read(511), LAST_STAMP, promises(257, ONE), cell(511, 257, ONE)),
    far(asks(7, read(512))),
    is_last(cell(511, 257, ONE)),
]
# (a cell that was never asked is in round 0)
NEVER_ASKED = [
    begins(CELL, cell(0, 0, "")),
    far(asks(1, read(3 * ROUND))),
    asked(1, RECOVERER, read(2 * ROUND + 1), 2, promises(0, ""), cell(513, 0, "")),
    far(asks(5, read(513))),
    asked(4, RECOVERER, read(4 * ROUND), 5, promises(0, ""), cell(1024, 0, "")),
    is_last(cell(1024, 0, "")),
]
ALL_AHEAD = [
    begins(CELL, cell(257, 257, ONE)),
    asked(0, RECOVERER, read(257), 1, promises(257, ONE), cell(257, 257, ONE)),
    asked(LAST_STAMP - 1, RECOVERER, read(LAST_BALLOT), LAST_STAMP, promises(257, ONE), cell(LAST_BALLOT, 257, ONE)),
]

# ---- logs, sequencers, proxies and recoverers: stamps. Their other numbers follow their own by steps

LOGS = [
    begins(log(513, 0), UNSEEDED),
    asked(6, RECOVERER, SEED, 7, told("seeded"), log_last(10, 9)),
    far(asks(8 + MOST, PEEK)),
    far(asks(LAST_STAMP, pop(0, LAST_VERSION))),
    is_last(log_last(10, 9)),
    asked(7 + MOST, STORAGE, MARK_ASKED, 8 + MOST, refused("no_mark"), log_last(10, 9)),
    asked(8, RECOVERER, push(LAST_VERSION - 1, LAST_VERSION, 9), 9 + MOST, refused("gap", durable=10), log_last(10, 9)),
]
SEQUENCERS = [
    begins(SEQUENCER, given(1)),
    asked(1, proxy(257), ask_next(0, 1, 1), 2, numbered(1, 1, 2), given(2)),
    far(asks(3, ask_next(0, 2, 1))),
    is_last(given(2)),
    asked(2, proxy(257), ask_next(0, 2, 1), 3, numbered(2, 2, 3), given(3)),
]
NUMBER = [[SEQUENCER, ask_next(0, 1, 1)]]
PROXIES = [
    begins(proxy(257), KNOWN(0)),
    submitted(4, clear("61", "7a"), 5, KNOWN(0), NUMBER),
    far(hears(9, SEQUENCER, numbered(1, 1, 2))),
    # (before that a batch is in flight)
    far({"type": "submit", "at": 9, "batch": BATCH, "step": 1}),
    wanted(1, NUMBER),
    heard(8, SEQUENCER, numbered(1, 1, 2), 9, KNOWN(0), PUSHES, WAITING),
    heard(12, log(257, 0), HELD, 13, KNOWN(0), PUSHES[1:], WAITING),
    far(hears(17, log(257, 1), HELD)),
    is_last(KNOWN(0)),
    heard(16, log(257, 1), HELD, 17, KNOWN(2), [], {"committed": {"version": 2}}),
]
RECOVERERS = [
    begins(RECOVERER, phase("reading")),
    ({"type": "begin", "at": THERE}, BEGUN | {"entry": entry(THERE + 1, "begun", {})}),
    far(hears(THERE + 2 + MOST, CELL, PROMISE)),
    far({"type": "begin", "at": THERE + 2 + MOST}),
    wanted(1, [[CELL, read(513)]]),
    is_last(phase("reading")),
    heard(THERE + 1 + MOST, CELL, PROMISE, THERE + 2 + MOST, phase("locking"), LOCKS),
]

# ---- storage servers: what is known, how far it is complete, epochs, and stamps

UPTO = (1 + MOST) * COMMIT - 1  # the last version that it may follow from version 0
RECORDS = (2, BATCH), (3, SET)


def marked(epoch):
    return told("marked", state=[FIRST, NEXT | {"epoch": epoch, "seeded_to": 2}])


THREE, LATER = stands(257, 3, 0, k61="02"), stands(HIGH, 2, 0, k61="01")
STORAGES = [
    begins(STORAGE, stands(257, 0, 0)),
    far(hears(5, log(257, 0), peeked(0, UPTO + 1, 3, *RECORDS))),
    far(hears(5, log(257, 0), peeked(0, 0, UPTO + 1, *RECORDS))),
    far(hears(5, log(257, 0), peeked(0, LAST_VERSION, LAST_VERSION, *RECORDS))),
    # (from whomever it is: this log is of no generation that it knows)
    far(hears(5, log(513, 0), peeked(0, LAST_VERSION, 3, *RECORDS))),
    far(hears(5, log(513, 0), marked(HIGH + 1))),
    has("61", 0, None),
    is_last(stands(257, 0, 0)),
    heard(5, log(257, 0), peeked(0, 0, 3, *RECORDS), 6, THREE),
    heard(6, log(257, 0), peeked(0, 0, 3, *RECORDS), 7, THREE),
    far(hears(8 + MOST, log(257, 0), peeked(3, 3, 4))),
    far(hears(LAST_STAMP, log(513, 0), told("popped", through=4))),
    # (one that is not applied, since it leaves a hole, and whose numbers are within)
    heard(7 + MOST, log(257, 0), peeked(4, UPTO, UPTO), 8 + MOST, THREE),
    heard(9, log(HIGH, 0), marked(HIGH), 9 + MOST, LATER),
    far(hears(9, log(513, 0), marked(HIGHER + ROUND))),
    is_last(LATER),
    has("61", 2, "01"),
]
KNOWN_FAR = [
    begins(STORAGE, stands(257, 0, 0)),
    heard(5, log(257, 0), peeked(0, UPTO, 3, *RECORDS), 6, stands(257, 3, 3, k61="02")),
    heard(6, log(257, 0), peeked(3, 3, UPTO), 7, stands(257, UPTO, 3, k61="02")),
    far(hears(7, log(257, 0), peeked(UPTO, 3, UPTO + MOST * COMMIT + 1))),
    is_last(stands(257, UPTO, 3, k61="02")),
    heard(7, log(257, 0), peeked(UPTO, 3, UPTO + MOST * COMMIT), 8, stands(257, UPTO + MOST * COMMIT, 3, k61="02")),
]
NO_COMMIT_AHEAD = [
    begins(STORAGE, stands(257, 0, 0)),
    far(hears(5, log(257, 0), peeked(0, COMMIT, 3, *RECORDS))),
    far(hears(5, log(257, 0), peeked(0, 0, COMMIT, *RECORDS))),
    far(hears(5, log(513, 0), CUT)),
    heard(5, log(257, 0), peeked(0, 0, 3, *RECORDS), 6, THREE),
    heard(6, log(257, 0), peeked(3, COMMIT - 1, 3), 7, stands(257, 3, 3, k61="02")),
    far(hears(8, log(257, 0), peeked(3, 3, 4))),
    is_last(stands(257, 3, 3, k61="02")),
]

# ---- over files: a start has a stamp; a process that is started again has none yet

WRITTEN = {"cell": {"written": {"ballot": 513}}}
CELLS_AGAIN = [
    [
        begins(CELL, cell(257, 257, ONE)),
        asked(10, RECOVERER, write(513, TWO), 11, WRITTEN, cell(513, 513, TWO)),
        far(asks(11, write(6 * ROUND, ONE))),
        far(asks(15, read(513))),
        far(back(15)),
    ],
    [
        begins(CELL, cell(513, 513, TWO)),
        far(asks(15, read(6 * ROUND))),
        crashed(15, 16, cell(513, 513, TWO)),
        far(back(20)),
        crashed(19, 20, cell(513, 513, TWO)),
        far(asks(20, read(6 * ROUND))),
    ],
    [begins(CELL, cell(513, 513, TWO)), is_last(cell(513, 513, TWO))],
]
STORAGES_AGAIN = [
    [
        begins(STORAGE, stands(257, 0, 0)),
        heard(5, log(257, 0), peeked(0, 0, 3, *RECORDS), 6, THREE),
        far(hears(10, log(513, 0), CUT)),
        far(hears(6, log(257, 0), peeked(3, LAST_VERSION, 3))),
    ],
    [
        begins(STORAGE, THREE),
        crashed(100, 101, THREE),
        far(hears(101, log(257, 0), peeked(3, 3, LAST_VERSION))),
        far(back(LAST_STAMP)),
        heard(104, log(513, 0), CUT, 105, AFTER),
    ],
    [begins(STORAGE, AFTER), is_last(AFTER)],
]

SCRIPTS = {
    "a cell, numbers far ahead": ("cell --index 0 --start", "cell 0", CONFIG, CELLS),
    "a cell, none ahead": ("cell --index 0 --start --most-ahead 0", "cell 0", CONFIG, NONE_AHEAD),
    "a cell that was never asked, two ahead": ("cell --index 0 --most-ahead 2", "cell 0", None, NEVER_ASKED),
    "a cell, any ahead": (f"cell --index 0 --start --most-ahead {2**64 - 1}", "cell 0", CONFIG, ALL_AHEAD),
    "a log, numbers far ahead": ("log --epoch 513 --index 0 --logs 4 --degree 2", "log 513 0", None, LOGS),
    "a sequencer, none ahead": ("sequencer --epoch 257 --last 1 --most-ahead 0", "sequencer 257", None, SEQUENCERS),
    "a proxy, three ahead": (
        "proxy --epoch 257 --number 0 --known 0 --most-ahead 3",
        "proxy 257 0",
        HALVES,
        PROXIES,
    ),
    "a recoverer, numbers far ahead": ("recoverer --ballot 513", "recoverer 513", CONFIG, RECOVERERS),
    "a storage server, numbers far ahead": ("storage --tag 0", "storage 0", CONFIG, STORAGES),
    "a storage server that follows far": ("storage --tag 0", "storage 0", CONFIG, KNOWN_FAR),
    "a storage server, none ahead": ("storage --tag 0 --most-ahead 0", "storage 0", CONFIG, NO_COMMIT_AHEAD),
}
AGAIN = {
    "a cell over its file, three ahead": ("cell --index 0 --start --most-ahead 3", "cell 0", CONFIG, CELLS_AGAIN),
    "a storage server over its file, three ahead": (
        "storage --tag 0 --most-ahead 3",
        "storage 0",
        CONFIG,
        STORAGES_AGAIN,
    ),
}
