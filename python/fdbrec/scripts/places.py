"""Where a script is bad, by docs/FORMATS.md: `said_of(command, script)` is what stands behind `bad script`, or None of
a script that is taken. Forms are those of `forms.py`; whether values that are in their forms go together is asked of
the schemas, one part at a time."""
import codecs
import json
import math
import re

from . import quick
from .forms import SCRIPTS

DEEPEST, SHOWN = 127, 40
NO_JSON, NOT_TOGETHER = ", which is no JSON here", ", whose parts do not go together"
BLANKS = re.compile(r"[ \t\r\n]*")
WORD = re.compile(r"[^ \t\r\n,:{}\[\]]+")
NUMBER = re.compile(r"-?(?:0|[1-9][0-9]*)(?:\.[0-9]+)?(?:[eE][+-]?[0-9]+)?")
STRING = re.compile(r'"(?:[^"\\\x00-\x1f]|\\(?:["\\/bfnrt]|u[0-9a-fA-F]{4}))*"')


class NoJson(Exception):
    """The place of what is no JSON: its path, and where it begins."""


class Value:
    """A value of a script, where it begins, and what is in it: of an object each member with where its name begins."""

    def __init__(self, kind, start, content):
        self.kind, self.start, self.content = kind, start, content

    def plain(self):
        """The value as Python has it. Of two members of one name the last one counts."""
        if self.kind == "object":
            return {name: it.plain() for name, _, it in self.content}
        return [it.plain() for it in self.content] if self.kind == "array" else self.content


class Text:
    """A text that is read as JSON, token by token. A name and its colon are one token; so are a value and its comma."""

    def __init__(self, text):
        self.text, self.at = text, 0

    def next(self):
        """The next character that is no blank, or nothing at the end."""
        self.at = BLANKS.match(self.text, self.at).end()
        return self.text[self.at : self.at + 1]

    def takes(self, mark):
        is_there = self.next() == mark
        self.at += is_there
        return is_there

    def string(self, path):
        """A text, as it is meant."""
        start = self.at
        found = STRING.match(self.text, start)
        meant = json.loads(found[0]) if found else "\ud800"
        if any("\ud800" <= it <= "\udfff" for it in meant):
            raise NoJson(path, start)
        self.at = found.end()
        return meant

    def whole(self):
        value = self.value((), 0)
        has_comma = self.takes(",")
        if self.next() or has_comma:
            raise NoJson((), self.at)
        return value

    def value(self, path, depth):
        first, start = self.next(), self.at
        if first in ("{", "["):
            if depth == DEEPEST:
                raise NoJson(path, start)
            self.at += 1
            if first == "{":
                return Value("object", start, list(self.members(path, depth + 1)))
            return Value("array", start, list(self.items(path, depth + 1)))
        if first == '"':
            text = self.string(path)
            if self.next() == ":":
                raise NoJson(path, start)
            return Value("text", start, text)
        return self.word(path, start)

    def word(self, path, start):
        found = WORD.match(self.text, start)
        word = found[0] if found else ""
        self.at = start + len(word)
        if word in ("null", "true", "false"):
            return Value("single", start, {"null": None, "true": True, "false": False}[word])
        if not NUMBER.fullmatch(word) or not math.isfinite(float(word)):
            raise NoJson(path, start)
        return Value("number", start, int(word) if word.isdigit() else float(word))

    def items(self, path, depth):
        count, has_comma = 0, False
        while has_comma or not self.takes("]"):
            if count and not has_comma:
                raise NoJson((*path, count), self.at)
            if has_comma and self.next() == "]":
                raise NoJson((*path, count), self.at)
            yield self.value((*path, count), depth)
            count, has_comma = count + 1, self.takes(",")

    def members(self, path, depth):
        count, has_comma = 0, False
        while has_comma or not self.takes("}"):
            first, start = self.next(), self.at
            if first != '"' or count and not has_comma:
                raise NoJson(path, start)
            name = self.string(path)
            if not self.takes(":"):
                raise NoJson(path, start)
            yield name, start, self.value((*path, name), depth)
            count, has_comma = count + 1, self.takes(",")


# ---- forms


def mistakes(value, form, path, named=None):
    """Each mistake in a value that counts, in their order: its path, where it begins, and what is said behind what is
    there. `named` is the form as it is told of a value of another kind, if that is not this one."""
    kind, named = form[0], named or form
    if kind == "part":
        found = list(mistakes(value, form[2], path))
        yield from found or not_together(value, form[1], path)
    elif kind == "maybe":
        yield from mistakes(value, form[1], path)
    elif kind == "or null":
        is_null = value.kind == "single" and value.content is None
        yield from () if is_null else mistakes(value, form[1], path, form)
    elif kind == "either" and value.kind in ("array", "object"):
        yield from mistakes(value, form[1 if value.kind == "array" else 2], path)
    elif kind in ("object", "one of") and value.kind == "object":
        yield from of_members(value, form, path)
    elif kind in ("list", "tuple") and value.kind == "array":
        yield from of_items(value, form, path)
    elif not is_of(value, form):
        yield path, value.start, wanted(named)


def of_items(value, form, path):
    kind, forms = form
    for index, it in enumerate(value.content):
        if kind == "list" or index < len(forms):
            yield from mistakes(it, forms if kind == "list" else forms[index], (*path, index))
    if kind == "tuple" and len(value.content) != len(forms):
        yield path, value.start, wanted(form)


def of_members(value, form, path):
    kind, known = form
    last = {name: index for index, (name, _, _) in enumerate(value.content)}
    chosen = next((name for name, _, _ in value.content if name in known), None)
    for index, (name, start, it) in enumerate(value.content):
        if name not in known or kind == "one of" and name != chosen:
            yield (*path, name), start, wanted(form)
        elif last[name] == index:
            yield from mistakes(it, known[name], (*path, name))
    if kind == "one of" and chosen is None:
        yield path, value.start, wanted(form)
    for name, it in known.items() if kind == "object" else ():
        if name not in last and it[0] != "maybe":
            yield path, value.start, f" without the member {name}"
            return


def is_of(value, form):
    """Whether a value that holds no others is of a form."""
    kind, content = form[0], value.content
    if kind in ("number", "or zero"):
        is_plain = value.kind == "number" and isinstance(content, int)
        return is_plain and (form[1] <= content <= form[2] or kind == "or zero" and content == 0)
    if kind == "hex":
        is_hex = value.kind == "text" and re.fullmatch("(?:[0-9a-f]{2})*", content)
        return bool(is_hex) and (form[1] is None or len(content) <= 2 * form[1])
    return value.kind == "text" if kind == "text" else kind == "flag" and isinstance(content, bool)


def wanted(form):
    """What is said of a form that a value has not."""
    return ", wanted " + described(form)


def described(form):
    kind, rest = form[0], form[1:]
    if kind == "number":
        return f"a number from {rest[0]} to {rest[1]} in digits alone"
    if kind == "hex":
        return f"at most {rest[0]} " * (rest[0] is not None) + "bytes in lower case hex, two digits each"
    if kind == "object":
        return "an object of " + (", ".join(rest[0]) or "no members")
    if kind in ("part", "maybe"):
        return described(rest[-1])
    return {
        "or zero": lambda: "0 or " + described(("number", *rest)),
        "or null": lambda: "null or " + described(rest[0]),
        "one of": lambda: "an object of one of " + ", ".join(rest[0]),
        "tuple": lambda: f"an array of {len(rest[0])}",
        "either": lambda: "an array, or " + described(rest[1]),
        "list": lambda: "an array",
        "flag": lambda: "true or false",
        "text": lambda: "a text",
    }[kind]()


def not_together(value, reference, path):
    """The mistake of a part whose values are in their forms, if they break a rule together."""
    if not quick.is_of(value.plain(), reference):
        yield path, value.start, NOT_TOGETHER


# ---- what is said


def shown(text):
    """The first characters of a text, in printable ASCII; others are escaped by their numbers, as JSON has them."""
    said = ""
    for it in text[:SHOWN]:
        units = it.encode("utf-16-be")
        codes = (units[at : at + 2].hex() for at in range(0, len(units), 2))
        said += it if " " <= it <= "~" else "".join(f"\\u{code}" for code in codes)
    return said + ".." * (len(text) > SHOWN)


def way(path):
    """A path, as `ops[3].apply: `."""
    said = ""
    for it in path:
        said += f"[{it}]" if isinstance(it, int) else ("." if said and it else "") + shown(it)
    return said + ": " * bool(said)


def found(text, start):
    """What stands in a place."""
    rest = text[start:]
    if not rest:
        return "the end of the script"
    if rest[0] in "{[":
        return {"{": "an object", "[": "an array"}[rest[0]]
    if rest[0] == '"':
        return shown(re.match(r'"(?:[^"\\]|\\.)*"?', rest, re.S)[0])
    return shown(re.match(r".[^ \t\r\n,:{}\[\]]*", rest, re.S)[0])


def place(before, line=1):
    """Line and column behind a text that begins in a line, from 1."""
    return f"line {before.count(chr(10)) + line}, column {len(before) - before.rfind(chr(10))}"


def said_of(command, script):
    """Where a script, in bytes, is bad, what is there and what may be there; or None."""
    if not script:
        return "standard input is empty"
    if script.startswith(codecs.BOM_UTF8):
        return f"{place('')}: found a byte order mark; save the script as UTF-8 without one"
    return said_by(SCRIPTS[command], script)


def said_by(form, script, line=1):
    """The same of what has to be of a form, and begins in a line."""
    try:
        text, is_text = script.decode("utf-8"), True
    except UnicodeDecodeError as fault:
        text, is_text = script[: fault.start].decode("utf-8"), False
    try:
        value = Text(text).whole()
        path, start, why = next(mistakes(value, form, ()), (None, None, None)) if is_text else ((), 0, "")
    except NoJson as fault:
        (path, start), why = fault.args, NO_JSON
    if not is_text:
        return f"{place(text, line)}: {way(path)}found a byte that is no UTF-8{NO_JSON}"
    return why and f"{place(text[:start], line)}: {way(path)}found {found(text, start)}{why}"
