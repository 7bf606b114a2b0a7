"""Whether a script has the form that the schemas say: `read` takes its bytes, `fault_of` says where it has
another form. It knows only those keywords that the schemas use."""
import json
import math
import os
import re

FOLDER = f"{os.path.dirname(os.path.realpath(__file__))}/schemas"
DEEPEST = 127


# ---- the text of a script


class Bad(ValueError):
    """Why a text is no script, and where."""


class Odd(str):
    """A number that is not written in digits alone: no script has one, but in a member that a later one replaces."""


def number_of(text):
    """Numbers are written in digits alone; all others fit a double."""
    if not math.isfinite(float(text)):
        raise Bad(f"a number that fits no double: {text[:40]}")
    return int(text) if text.isdigit() else Odd(text)


def first_odd(value):
    """The first number of a value that is not in digits alone, if there is one."""
    inside = value.values() if isinstance(value, dict) else value if isinstance(value, list) else ()
    return value if isinstance(value, Odd) else next(filter(None, map(first_odd, inside)), None)


STRING = re.compile(r'"[^"\\]*(?:\\.[^"\\]*)*"')
BRACKETS, DIGITS = bytes.maketrans(b"[]{}", b"()()"), bytes.maketrans(b"123456789", b"000000000")
OTHERS = bytes(it for it in range(256) if it not in b"[]{}")
MANY = b"0" * 300  # more digits than a double has


class Unusual(Exception):
    """A number that is not in digits alone: then all of them are read one by one."""


def unusual(text):
    raise Unusual(text)


PLAIN = json.JSONDecoder(parse_float=unusual, parse_constant=unusual)
SLOW = json.JSONDecoder(parse_int=number_of, parse_float=number_of, parse_constant=number_of)


def read(data):
    """Returns the value of a script's bytes. Of two members of one name the last one counts."""
    data = data.encode("utf-8", "surrogatepass") if isinstance(data, str) else data
    try:
        text = data.decode("utf-8")
        value, is_usual = decoded(text, b"-" not in data and MANY not in data.translate(DIGITS))
    except (UnicodeDecodeError, json.JSONDecodeError, RecursionError) as why:
        raise Bad(f"it is no JSON: {why}") from why
    if is_deep(data):
        raise Bad(f"it is nested more than {DEEPEST} levels deep")
    for it in STRING.finditer(text) if "\\u" in text else ():
        if "\\u" in it[0] and any("\ud800" <= each <= "\udfff" for each in json.loads(it[0])):
            raise Bad(f"a text that is not Unicode: {it[0][:40]}")
    if not is_usual and (odd := first_odd(value)):
        raise Bad(f"a number that is not in digits alone: {odd}")
    return value


def decoded(text, is_usual):
    """The value of a text, and whether all its numbers are usual ones."""
    try:
        if is_usual:
            return PLAIN.decode(text), True
    except Unusual:
        pass
    return SLOW.decode(text), False


def is_deep(data):
    """Whether objects and arrays stand too deep in one another, in what is JSON: first as if no text had a bracket."""
    if data.count(b"[") + data.count(b"{") <= DEEPEST or is_flat(data):
        return False
    return not is_flat(STRING.sub("", data.decode()).encode())


def is_flat(data):
    """Whether all brackets are gone after some rounds, each of which takes out the innermost ones."""
    left = data.translate(BRACKETS, OTHERS)
    for _ in range(DEEPEST):
        left = left.replace(b"()", b"")
        if not left:
            return True
    return False


# ---- the schemas


KINDS = {
    "object": lambda it: isinstance(it, dict),
    "array": lambda it: isinstance(it, list),
    "string": lambda it: isinstance(it, str),
    "boolean": lambda it: isinstance(it, bool),
    "integer": lambda it: isinstance(it, int) and not isinstance(it, bool),
    "null": lambda it: it is None,
}

SAYS_NOTHING = {"$schema", "$defs", "title", "description", "then"}


class Schemas:
    """The files of schemas/, by name: those of docs/schema."""

    def __init__(self):
        self.files = {}

    def file(self, name):
        if name not in self.files:
            with open(f"{FOLDER}/{name}", encoding="utf-8") as it:
                self.files[name] = json.load(it)
        return self.files[name]

    def found(self, reference, here):
        """What a reference names, and the file that it stands in."""
        name, _, place = reference.partition("#")
        schema = self.file(name or here)
        for part in filter(None, place.split("/")):
            schema = schema[part]
        return schema, name or here

    def check(self, value, schema, here, at):
        """Yields why a value is not of a schema, each with its place."""
        for keyword, wanted in schema.items():
            if keyword == "$ref":
                yield from self.check(value, *self.found(wanted, here), at)
            elif keyword in GROUPS:
                yield from GROUPS[keyword](self, value, schema, here, at)
            elif keyword in TESTS:
                if why := TESTS[keyword](value, wanted):
                    yield at, why
            elif keyword not in SAYS_NOTHING:
                raise SystemExit(f"{here} has a keyword that is not known here: {keyword}")

    def members(self, value, schema, here, at):
        if isinstance(value, dict):
            for name, each in schema["properties"].items():
                if name in value:
                    yield from self.check(value[name], each, here, f"{at}/{name}")

    def others(self, value, schema, here, at):
        for name in value if isinstance(value, dict) else ():
            if name not in schema["properties"]:
                allowed = ", ".join(sorted(schema["properties"]))
                yield at, f"unknown member {json.dumps(name)}; allowed: {allowed}"

    def items(self, value, schema, here, at):
        if isinstance(value, list):
            first = schema.get("prefixItems", [])
            for number, it in enumerate(value):
                each = first[number] if number < len(first) else schema.get("items", {})
                yield from self.check(it, each, here, f"{at}/{number}")

    def first_items(self, value, schema, here, at):
        return () if "items" in schema else self.items(value, schema, here, at)

    def all_of(self, value, schema, here, at):
        for each in schema["allOf"]:
            yield from self.check(value, each, here, at)

    def any_of(self, value, schema, here, at):
        faults = [list(self.check(value, each, here, at)) for each in schema["anyOf"]]
        if all(faults):
            yield max((it for each in faults for it in each), key=lambda it: it[0].count("/"))

    def where(self, value, schema, here, at):
        if not any(self.check(value, schema["if"], here, at)):
            yield from self.check(value, schema["then"], here, at)


GROUPS = {
    "properties": Schemas.members,
    "additionalProperties": Schemas.others,
    "items": Schemas.items,
    "prefixItems": Schemas.first_items,
    "allOf": Schemas.all_of,
    "anyOf": Schemas.any_of,
    "if": Schemas.where,
}


def values_at(value, path):
    """The values at a path of members and numbers, in which * is each item."""
    if not path:
        return [value]
    first, _, rest = path.partition("/")
    if first == "*":
        return [found for it in value for found in values_at(it, rest)] if isinstance(value, list) else []
    if isinstance(value, list) and first.isdigit() and int(first) < len(value):
        return values_at(value[int(first)], rest)
    return values_at(value[first], rest) if isinstance(value, dict) and first in value else []


def disorder(value, rules):
    """Each rule is A < B, A <= B or A <= B + N, with paths A and B, of numbers or of texts."""
    for rule in rules:
        low, sign, high, more = re.fullmatch(r"(\S+) (<=?) (\S+)(?: \+ (\d+))?", rule).groups()
        for one in values_at(value, low):
            for other in values_at(value, high):
                if type(one) is not type(other) or isinstance(one, (dict, list, bool)) or one is None:
                    continue
                other = other + int(more) if more else other
                if one > other or (sign == "<" and one == other):
                    return f"not {rule}"
    return None


def comparable(items, paths):
    keys = [[it for path in paths or [""] for it in values_at(item, path)] for item in items]
    return all(isinstance(it, (int, str)) for key in keys for it in key) and keys


def fall(value, paths, is_strict):
    keys = isinstance(value, list) and comparable(value, paths)
    for one, other in zip(keys or [], (keys or [])[1:]):
        if len(one) == len(other) and (one > other or (is_strict and one == other)):
            ends = ("does not rise", "falls") if len(paths) == 1 else ("do not rise", "fall")
            return f"{' and '.join(paths) or 'items'} {ends[0 if is_strict else 1]}"
    return None


def is_of(value, wanted):
    return value == wanted and isinstance(value, bool) == isinstance(wanted, bool)


def lonely(value, needs):
    """Each member of a value that needs others is to have them beside it."""
    pairs = ((it, other) for it in needs if it in value for other in needs[it])
    return next((f"it has {it} without {other}" for it, other in pairs if other not in value), None)


def size(kind, test, words):
    return lambda value, wanted: words.format(wanted) if isinstance(value, kind) and test(len(value), wanted) else None


def limit(test, words):
    number = KINDS["integer"]
    return lambda value, wanted: words.format(value, wanted) if number(value) and test(value, wanted) else None


TESTS = {
    "type": lambda value, wanted: None if KINDS[wanted](value) else f"it is no {wanted}",
    "const": lambda value, wanted: None if is_of(value, wanted) else f"it is not {json.dumps(wanted)}",
    "enum": lambda value, wanted: None if any(is_of(value, it) for it in wanted) else f"it is none of {wanted}",
    "required": lambda value, wanted: isinstance(value, dict)
    and next((f"it lacks {it}" for it in wanted if it not in value), None),
    "dependentRequired": lambda value, wanted: isinstance(value, dict) and lonely(value, wanted),
    "minProperties": size(dict, lambda a, b: a < b, "it has fewer members than {}"),
    "maxProperties": size(dict, lambda a, b: a > b, "it has more members than {}"),
    "minItems": size(list, lambda a, b: a < b, "it has fewer items than {}"),
    "maxItems": size(list, lambda a, b: a > b, "it has more items than {}"),
    "maxLength": size(str, lambda a, b: a > b, "it is longer than {}"),
    "minimum": limit(lambda a, b: a < b, "{} is below {}"),
    "maximum": limit(lambda a, b: a > b, "{} is above {}"),
    "pattern": lambda value, wanted: isinstance(value, str)
    and not re.search(wanted.replace("$", r"\Z"), value)
    and f"it is not of {wanted}",
    "x-order": disorder,
    "x-rises": lambda value, wanted: fall(value, wanted, True),
    "x-does-not-fall": lambda value, wanted: next(filter(None, (fall(value, [it], False) for it in wanted)), None),
}


SCHEMAS = Schemas()


def lack_of(value, name):
    """Where a value is no script of a command, and why; or None."""
    at, why = next(SCHEMAS.check(value, SCHEMAS.file(f"{name}.json"), f"{name}.json", ""), (None, None))
    return why and f"at {at or '/'}: {why}"


def fault_of(name, text):
    """Why a text is no script of a command, or None."""
    try:
        return lack_of(read(text), name)
    except Bad as why:
        return str(why)
