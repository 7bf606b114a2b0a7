"""Whether a value is of a schema, and no more: each schema is made a function of Python once, which is quick. Where a
value is of another form, `schemas` and `places` say."""
import re

from .schemas import KINDS, SAYS_NOTHING, SCHEMAS, TESTS

TYPES = {"object": "dict", "array": "list", "string": "str", "boolean": "bool", "integer": "int"}
ORDER = re.compile(r"(\S+) (<=?) (\S+)(?: \+ (\d+))?")


class Maker:
    """Functions of values, made of schemas. `scope` has what their texts name."""

    def __init__(self):
        self.made, self.scope = {}, {"NOTHING": object()}

    def named(self, value):
        """A name by which the functions know a value."""
        name = f"it_{len(self.scope)}"
        self.scope[name] = value
        return name

    def function(self, schema, here):
        """The name of the function of a schema."""
        while set(schema) == {"$ref"}:
            schema, here = SCHEMAS.found(schema["$ref"], here)
        if id(schema) not in self.made:
            name = self.made[id(schema)] = f"is_{len(self.made)}"
            lines = [it for group in self.keywords(schema, here) for it in group]
            text = "\n    ".join([f"def {name}(v):", *lines, "return True"])
            exec(text, self.scope)  # (made of the schemas of this folder alone)
        return self.made[id(schema)]

    def keywords(self, schema, here):
        """The lines of each keyword; those that look at several members come last, when each is of its form."""
        late = [it for it in schema if it.startswith("x-") or it == "if"]
        if schema.get("minProperties") == schema.get("maxProperties") == 1 and "additionalProperties" in schema:
            yield self.variant(schema, here)
            return
        for keyword in [*(it for it in schema if it not in late), *late]:
            wanted = schema[keyword]
            if keyword == "$ref":
                yield [f"if not {self.function(*SCHEMAS.found(wanted, here))}(v): return False"]
            elif hasattr(self, "of_" + keyword.replace("$", "").replace("-", "_")):
                yield getattr(self, "of_" + keyword.replace("-", "_"))(schema, here)
            elif keyword not in SAYS_NOTHING and keyword not in ("additionalProperties", "required", "properties"):
                yield [f"if {self.named(TESTS[keyword])}(v, {self.named(wanted)}): return False"]
            elif keyword in ("required", "properties") and ("properties" in schema) == (keyword == "properties"):
                yield self.members(schema, here)

    def variant(self, schema, here):
        """An object of one member."""
        table = {name: self.made_of(each, here) for name, each in schema["properties"].items()}
        return [
            "if type(v) is not dict or len(v) != 1: return False",
            "for name, it in v.items(): pass",
            f"is_so = {self.named(table)}.get(name)",
            "if is_so is None or not is_so(it): return False",
        ]

    def made_of(self, schema, here):
        return self.scope[self.function(schema, here)]

    def members(self, schema, here):
        needed, known = schema.get("required", []), schema.get("properties", {})
        yield "if type(v) is dict:"
        yield "    count = 0"
        for name in {**known, **dict.fromkeys(needed)}:
            yield f"    it = v.get({name!r}, NOTHING)"
            lacks = "return False" if name in needed else "pass"
            yield f"    if it is NOTHING: {lacks}"
            yield "    else:"
            yield "        count += 1"
            for line in self.inside(known.get(name, {}), here, "it"):
                yield f"        {line}"
        if "additionalProperties" in schema:
            yield "    if count != len(v): return False"

    def inside(self, schema, here, it):
        """The lines that look at a value inside another one. Numbers need no call."""
        while set(schema) == {"$ref"}:
            schema, here = SCHEMAS.found(schema["$ref"], here)
        if schema.get("type") == "integer" and set(schema) <= {"type", "minimum", "maximum", "description"}:
            low, high = schema.get("minimum", "-1e999"), schema.get("maximum", "1e999")
            return [f"if type({it}) is not int or not {low} <= {it} <= {high}: return False"]
        return [f"if not {self.function(schema, here)}({it}): return False"] if schema else []

    def of_type(self, schema, here):
        kind = schema["type"]
        if kind in TYPES:
            return [f"if type(v) is not {TYPES[kind]}: return False"]
        return [f"if not {self.named(KINDS[kind])}(v): return False"]

    def of_pattern(self, schema, here):
        found = re.compile(schema["pattern"].replace("$", r"\Z").replace("([0-9a-f]{2})*", "(?:[0-9a-f]{2})*"))
        return [f"if type(v) is str and {self.named(found.search)}(v) is None: return False"]

    def of_items(self, schema, here):
        skipped = len(schema.get("prefixItems", []))
        inside = [f"        {line}" for line in self.inside(schema["items"], here, "it")]
        lines = ["if type(v) is list:", f"    for it in v[{skipped}:]:" if skipped else "    for it in v:", *inside]
        return [*self.firsts(schema, here), *(lines if inside else [])]

    def of_prefixItems(self, schema, here):
        return [] if "items" in schema else self.firsts(schema, here)

    def firsts(self, schema, here):
        for at, each in enumerate(schema.get("prefixItems", [])):
            for line in self.inside(each, here, f"v[{at}]"):
                yield f"if type(v) is list and len(v) > {at}:"
                yield f"    {line}"

    def of_anyOf(self, schema, here):
        names = [f"{self.function(each, here)}(v)" for each in schema["anyOf"]]
        return [f"if not ({' or '.join(names)}): return False"]

    def of_allOf(self, schema, here):
        return [f"if not {self.function(each, here)}(v): return False" for each in schema["allOf"]]

    def of_if(self, schema, here):
        one, other = (self.function(schema[it], here) for it in ("if", "then"))
        return [f"if {one}(v) and not {other}(v): return False"]

    def of_x_order(self, schema, here):
        """Rules of members that are of their forms: these are there, but for what a list may lack."""
        needed = schema.get("required", ())
        for rule in schema["x-order"]:
            low, sign, high, more = ORDER.fullmatch(rule).groups()
            if low in needed and high in needed:
                yield f"if not v[{low!r}] {sign} v[{high!r}]{' + ' + more if more else ''}: return False"
            else:
                yield f"if {self.named(TESTS['x-order'])}(v, {self.named([rule])}): return False"

    def of_x_rises(self, schema, here):
        paths = schema["x-rises"]
        if len(paths) != 1 or not paths[0].isalpha():
            return [f"if {self.named(TESTS['x-rises'])}(v, {self.named(paths)}): return False"]
        each = f"it[{paths[0]!r}]"
        look = f"    if last is not None and {each} <= last: return False"
        return ["last = None", "for it in v:", look, f"    last = {each}"]


MAKER = Maker()
FOUND = {}


def is_of(value, reference):
    """Whether a value is of what a reference names, as `audit.json` or `audit.json#/$defs/entry`."""
    if reference not in FOUND:
        FOUND[reference] = MAKER.scope[MAKER.function(*SCHEMAS.found(reference, ""))]
    return FOUND[reference](value)
