"""Words of the command line, judged as the program judges them: in the same order, with the same texts."""
import re

from . import table

TRY = "\n\nFor more information, try '--help'.\n"
FILE_TIP = "  tip: a script is read from standard input, as in 'fdbrec apply < FILE'\n"
CLOSE = 0.7


class Bad(Exception):
    """Words that are refused: `text` is what standard error has of the program, `tip` a line of ours behind it, and the
    status is 2."""

    def __init__(self, text, tip=""):
        super().__init__(text)
        self.text, self.tip = text, tip


class Shown(Exception):
    """Words that ask for help (of the command of these names) or for the version."""

    def __init__(self, names, is_version=False):
        super().__init__(" ".join(names))
        self.names, self.is_version = names, is_version


class Words:
    """Words that are taken: the names of the commands, and the values of the options that are there."""

    def __init__(self, names, values):
        self.names, self.values = names, values


def closeness(one, other):
    """The similarity of two words by Jaro: 1 for equal ones, 0 for those that share nothing."""
    if not one or not other:
        return 1.0 if one == other else 0.0
    reach = max(max(len(one), len(other)) // 2 - 1, 0)
    taken, first = [False] * len(other), []
    for at, letter in enumerate(one):
        for place in range(max(0, at - reach), min(len(other), at + reach + 1)):
            if not taken[place] and other[place] == letter:
                taken[place] = True
                first.append(letter)
                break
    if not first:
        return 0.0
    second = [letter for letter, is_taken in zip(other, taken) if is_taken]
    moved = sum(a != b for a, b in zip(first, second)) / 2
    same = len(first)
    return (same / len(one) + same / len(other) + (same - moved) / same) / 3


def similar(word, names):
    """The names that are close to a word, the best last; of two that are as close, the later one."""
    found = [(closeness(word, name), at, name) for at, name in enumerate(names)]
    return [name for close, _, name in sorted(found) if close > CLOSE]


class Level:
    """The reading of the words of one command."""

    def __init__(self, command, above):
        self.command, self.path = command, (*above, command.name)
        self.used, self.values = {}, {}  # (options in the order in which they are used)
        self.open = None  # an option that waits for its value, with what it has got

    # ---- texts

    def usage(self, used=()):
        """`Usage: ..`: for the options that are used, or for all if none is."""
        shown = [it for it in self.command.options if it.is_required]
        words = [" ".join(self.path)]
        if not used and any(not it.is_required for it in self.command.options):
            words.append("[OPTIONS]")
        words += dict.fromkeys(str(it) for it in (*shown, *used))
        if self.command.below:
            words.append("<COMMAND>")
        return "Usage: " + " ".join(words)

    def bad(self, text, used=()):
        strange = re.match(r"unexpected argument '(?!-)", text)
        return Bad(f"error: {text}\n\n{self.usage(used)}{TRY}" + (f"\n{FILE_TIP}" if strange else ""))

    # ---- options and their values

    def use(self, option, values):
        """An option with its values, all of which are there."""
        self.check_count(option, values)
        if self.used.pop(option.name, None):
            raise self.bad(f"the argument '{option}' cannot be used multiple times")
        self.used[option.name] = option
        for value in values:
            check(option, value)
        self.values[option.name] = values[0] if values else True

    @staticmethod
    def check_count(option, values):
        if option.value and not values:
            text = f"error: a value is required for '{option}' but none was supplied{possible(option)}{TRY}"
            raise Bad(text, tip_of(option))

    def close(self):
        """Ends the values of an option that waits for some."""
        if self.open:
            option, values = self.open
            self.open = None
            self.use(option, values)

    def close_quietly(self):
        """The same before another error: of this one nothing is said."""
        try:
            self.close()
        except Bad:
            pass

    # ---- the words

    def read(self, words):
        waits = is_trailing = False
        for at, word in enumerate(words):
            if not is_trailing and not waits and word in self.command.names():
                return self.below(word, words[at + 1 :])
            if is_trailing:
                self.stray(word, is_trailing)
            elif word == "--":
                is_trailing, waits = True, False
            elif word.startswith("--"):
                waits = self.long(word[2:], words[at + 1 :])
            elif word.startswith("-") and len(word) > 1:
                self.short(word[1:])
                waits = False
            elif waits:
                self.open[1].append(word)
                waits = False
            else:
                self.stray(word, is_trailing)
        self.close()
        if self.command.below:
            parent, names = " ".join(self.path), ", ".join(self.command.names())
            raise self.bad(f"'{parent}' requires a subcommand but one was not provided\n  [subcommands: {names}]")
        self.check_required()
        return Words(self.path[1:], self.values)

    def below(self, word, rest):
        if word == "help":
            raise self.help_of(rest)
        self.close()
        return Level(self.command.command(word), self.path).read(rest)

    def help_of(self, names):
        command, path = self.command, self.path
        for at, name in enumerate(names):
            below = command.command(name)
            if name == "help" and command.below and not below:
                if not names[at + 1 :]:
                    return Shown((*path[1:], "help"))
                usage = f"Usage: {' '.join(path)} help [COMMAND]...\n"
                return Bad(f"error: unrecognized subcommand '{names[at + 1]}'\n\n{usage}")
            if not below:
                return Level(command, path[:-1]).bad(f"unrecognized subcommand '{name}'")
            command, path = below, (*path, name)
        return Shown(path[1:])

    def long(self, text, rest):
        """`--name` or `--name=value`. Says whether its value is to come."""
        name, sign, value = text.partition("=")
        option = self.command.option(name)
        if option is None:
            self.close_quietly()
            raise self.unknown(name, rest)
        if option.value and not sign:
            self.close()
            self.open = option, []
            return True
        if sign and not option.value:
            self.close_quietly()
            used = [it for it in self.used.values() if not it.is_required]
            raise self.bad(f"unexpected value '{value}' for '{option}' found; no more were expected", [*used, option])
        self.close()
        if name in ("help", "version"):
            raise Shown(self.path[1:], name == "version")
        self.use(option, [value] if sign else [])
        return False

    def unknown(self, name, rest):
        """An option that is not there, with one that is close."""
        close, tip = similar(name, [it.name for it in self.command.all_options()]), ""
        if not close and similar(name, ["quick"]):
            tip = "\n\n  tip: a similar argument exists: '--quick'"
        elif close:
            self.used.setdefault(close[-1], self.command.option(close[-1]))
            tip = f"\n\n  tip: a similar argument exists: '--{close[-1]}'"
        else:
            below = [(it, similar(name, [each.name for each in it.all_options()])) for it in self.command.below]
            named = [(rest.index(it.name), it, found[-1]) for it, found in below if found and it.name in rest]
            if named:
                _, command, found = min(named, key=lambda it: it[0])
                tip = f"\n\n  tip: '{command.name} --{found}' exists"
        return self.bad(f"unexpected argument '--{name}' found{tip}", list(self.used.values()))

    def short(self, text):
        letters = {"h": False} | ({"V": True} if self.command.has_version else {})
        for letter in text:
            if letter not in letters:
                waits = self.open and not self.open[1] and self.open[0]
                self.close_quietly()
                bad = self.bad(f"unexpected argument '-{letter}' found")
                bad.tip = tip_of(waits) if waits else ""
                raise bad
            self.close()
            raise Shown(self.path[1:], letters[letter])

    def stray(self, word, is_trailing):
        """A word that is no option and no value."""
        self.close_quietly()
        names = self.command.names()
        if is_trailing and word in names:
            tip = f"\n\n  tip: subcommand '{word}' exists; to use it, remove the '--' before it"
            raise self.bad(f"unexpected argument '{word}' found{tip}")
        if names:
            close = similar(word, names)
            if not close:
                bad = self.bad(f"unrecognized subcommand '{word}'")
                bad.tip = table.SCRIPTS.get(word, "")
                raise bad
            said = "a similar subcommand exists" if len(close) == 1 else "some similar subcommands exist"
            tip = ", ".join(f"'{it}'" for it in close)
            raise self.bad(f"unrecognized subcommand '{word}'\n\n  tip: {said}: {tip}")
        raise self.bad(f"unexpected argument '{word}' found")

    def check_required(self):
        lacking = [it for it in self.command.options if it.is_required and it.name not in self.used]
        if lacking:
            names = "".join(f"\n  {it}" for it in lacking)
            raise self.bad(
                f"the following required arguments were not provided:{names}", [*self.used.values(), *lacking]
            )


def tip_of(option):
    """What an option takes, if that is a number."""
    if not option.range:
        return ""
    least, most = option.range
    return f"  tip: '{option}' is a number from {least} to {most}\n"


def possible(option):
    return f"\n  [possible values: {', '.join(option.names)}]" if option.names else ""


def check(option, value):
    """Refuses a value that an option may not have."""
    if option.names and value not in option.names:
        if not value:
            Level.check_count(option, [])
        close = similar(value, option.names)
        tip = f"\n\n  tip: a similar value exists: '{close[-1]}'" if close else ""
        raise Bad(f"error: invalid value '{value}' for '{option}'{possible(option)}{tip}{TRY}")
    if option.range:
        why = why_no_number(value, option)
        if why:
            raise Bad(f"error: invalid value '{value}' for '{option}': {why}{TRY}", tip_of(option))


def why_no_number(value, option):
    """Why a value is no number of an option; nothing if it is one."""
    least, most = option.range
    smallest, greatest = (-(2**63), 2**63 - 1) if option.is_signed else (0, table.U64)
    if not value:
        return "cannot parse integer from empty string"
    if not re.fullmatch(r"[+-]?[0-9]+" if option.is_signed else r"\+?[0-9]+", value, re.ASCII):
        return "invalid digit found in string"
    number = int(value)
    if number > greatest:
        return "number too large to fit in target type"
    if number < smallest:
        return "number too small to fit in target type"
    return "" if least <= number <= most else f"{number} is not in {least}..={most}"


# ---- words that do not go together

SHAPES = "the value of '--shapes <M:K,..>' is not of logs, 1 to 16, and degrees, 1 to all of them"
NODES = "a number is beyond its limits, or a word is there without the one that goes with it"


def lack_of(words):
    """Which of the words do not go together; None if they do."""
    name, values = words.names[0], words.values
    if name == "apply" and "db" in values and values.get("store") != "sql":
        return "'--db <FILE>' goes with '--store sql' alone"
    if name == "end" and int(values["degree"]) > int(values["logs"]):
        return "the value of '--degree <K>' is above that of '--logs <M>'"
    if name == "cluster":
        return lack_of_cluster(values)
    if name == "node" and not is_node(words.names[1], values):
        return NODES
    return None


def lack_of_cluster(values):
    numbers = {"coordinators": 3, "logs": 4, "degree": 2, "refuse": 0}
    numbers |= {name: int(values[name]) for name in numbers if name in values}
    if numbers["coordinators"] % 2 == 0:
        return "the value of '--coordinators <N>' is even: it can be 1, 3, 5, 7 or 9"
    if 0 < numbers["refuse"] < 16:
        return "the value of '--refuse <N>' is below 16: it can be 0, for none, or 16 and more"
    if numbers["degree"] > numbers["logs"]:
        return "the value of '--degree <N>', 2 if it is not given, is above that of '--logs <N>'"
    if numbers["refuse"] and values.get("store", "map") != "sql":
        return "'--refuse <N>' is of '--store sql' alone"
    if not are_shapes(values.get("shapes", "")):
        return SHAPES
    return None


def are_shapes(text):
    pairs = [re.fullmatch(r"\+?([0-9]+):\+?([0-9]+)", it, re.ASCII) for it in text.split(",")] if text else []
    return all(it and 1 <= int(it[2]) <= int(it[1]) <= 16 for it in pairs)


def is_node(kind, values):
    """Whether the words of a node are within the limits of their types, and none lacks the one that goes with it."""
    numbers = {name: int(value) for name, value in values.items() if name not in ("config", "dir", "start")}
    if ("logs" in numbers) != ("degree" in numbers) or numbers.get("degree", 1) > numbers.get("logs", 1):
        return False
    if not all(0 < numbers.get(name, 257) < 2**48 and numbers.get(name, 257) >= 256 for name in ("epoch", "ballot")):
        return False
    if any(numbers.get(name, 0) >= 2**62 for name in ("last", "known")):
        return False
    if kind == "cell":
        return ("config" in values) == ("start" in values)
    return kind != "log" or numbers["index"] < numbers["logs"]


def read(words, commands=table.ALL):
    """The words behind the program's name, read. Raises Bad or Shown."""
    taken = Level(commands, ()).read(list(words))
    lack = lack_of(taken)
    if lack:
        path = ("fdbrec", *(taken.names[:1] if taken.names[0] == "node" else taken.names))
        command = commands.command(taken.names[0])
        raise Level(command, path[:-1]).bad(lack)
    return taken
