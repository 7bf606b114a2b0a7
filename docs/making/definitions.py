"""What the files of definitions and of code define, and all that some names rest on."""
import os
import re

from making.sources import TOP, clauses_of, files_of, read

NAME = r"[^\W\d][\w'₀-₉-]*"


class Module:
    """A file of definitions: what it defines, with the comment and the text of each, and what it takes from others."""

    def __init__(self, crate, name, text):
        self.crate, self.name, self.head = crate, name, ""
        self.taken, self.aliases = uses_of(text)
        self.defined, self.part_of = {}, {}
        self.parse(text)

    def parse(self, text):
        lines = text.split("\n")
        while lines[0].startswith("-- "):
            self.head = f"{self.head} {lines.pop(0)[3:]}".strip()
        indent, now, comment = "", None, []
        for line in lines:
            if re.match(r"module _ .*where$", line):
                indent = "  "
            line = line.removeprefix(indent)
            if not line.strip() or line.startswith("use "):
                comment = [] if now is None else comment
            elif line.startswith("-- "):
                comment = comment + [line[3:]] if now is None else [line[3:]]
                now = None
            elif found := defines(line):
                if found in self.defined:
                    self.defined[found][1].append(line)
                else:
                    self.defined[found] = (" ".join(comment), [line])
                now, comment = found, []
            elif now is not None:
                self.defined[now][1].append(line)
                if con := re.match(rf"  (?:pub )?({NAME}) : ", line):
                    self.part_of.setdefault(con[1], now)


def defines(line):
    """Returns the name that a line begins to define, or None."""
    found = re.match(rf"(?:(?:abbrev|unfoldable) )?(?:pub )?(?:(?:record|data) )?({NAME}|◌\S+)(?= |$)", line)
    is_start = re.match(r"(abbrev|unfoldable|pub|record|data) ", line)
    return found[1] if found and is_start and not re.match(r"pub (mod|use) ", line) else None


def uses_of(text):
    """Returns the names that the use lines take, each with its path, and the paths with other names."""
    taken, aliases = {}, {}
    for path, names, alias in re.findall(
        r"^ *(?:pub |ghost )?use (Rattle\.[\w.-]*?)(?:\.\{([^}]*)\})?(?: as ([\w']+))?;?$", text, re.M
    ):
        if alias:
            aliases[alias] = path
        for it in filter(None, (it.strip() for it in names.split(","))):
            name, _, other = it.partition(" as ")
            taken[other or name] = (path, name)
    return taken, aliases


class Code:
    """The structs, enums and traits of the crates, each with its comment, its text and its model."""

    def __init__(self, crates):
        self.items = {}
        self.texts = {}
        for crate in crates.names:
            for file in files_of(f"crates/{crate}/src", ".rt"):
                self.texts[file] = read(file)
                for found in re.finditer(
                    r"((?:^///.*\n)*)(?:^#\[.*\n)*^pub (struct|enum|trait) (\w+)(?s:.*?)(?:^}|;$)",
                    self.texts[file],
                    re.M,
                ):
                    comment = " ".join(it[4:] for it in found[1].split("\n") if it.startswith("/// "))
                    self.items[crate, found[3]] = (file, found[2], comment, found[0][len(found[1]) :])

    def model(self, crate, name):
        """The text of what a struct is seen as, or None."""
        for file in files_of(f"crates/{crate}/src", ".rt"):
            if found := re.search(rf"^impl(?:<.*>)? Model for {name}(?:<.*>)? {{(?s:.*?)^}}", self.texts[file], re.M):
                return found[0]
        return None

    def taken(self, file):
        """The names of the crates that a file uses: each with its crate."""
        found = {}
        crate = file.split("/")[1]
        for path, names in re.findall(r"^use (\w+)::(?:[a-z_:]*)(\{[^}]*\}|\w+);", self.texts[file], re.M):
            for it in re.findall(r"\w+", names):
                found[it] = crate if path == "crate" else path
        return found


class Closure:
    """All definitions and types of the code that some names rest on."""

    def __init__(self, crates, code):
        self.crates, self.code, self.modules = crates, code, {}
        self.found, self.order, self.std = set(), [], {}

    def module(self, path):
        """The module of a path such as Rattle.fr_run.specs.Run, and what remains of the path."""
        parts = path.split(".")
        if parts[1] not in self.crates.names or parts[2] != "specs":
            return None, parts
        if parts[3] not in self.modules.setdefault(parts[1], {}):
            file = f"crates/{parts[1]}/specs/{parts[3]}.antt"
            there = os.path.isfile(f"{TOP}/{file}")
            self.modules[parts[1]][parts[3]] = Module(parts[1], parts[3], read(file)) if there else None
        return self.modules[parts[1]][parts[3]], parts[4:]

    def take(self, path, name):
        """Takes what a path names, and all that it rests on."""
        parts = path.split(".")
        if parts[1] in self.crates.names and parts[3:4] == ["declared"]:
            types = [it for it in parts[4:] + [name] if it[:1].isupper()]
            named = [it for it in types if it not in ("TheVariants", "TheConstants")]
            if named:
                self.take_code(parts[1], named[0])
            return
        module, rest = self.module(path)
        if module is None:
            if parts[1] not in self.crates.names and parts[2] == "specs":
                self.std.setdefault(path.removeprefix("Rattle."), set()).add(name)
            return
        name = rest[0] if rest else name
        name = name if name in module.defined else module.part_of.get(name, name)
        key = (module.crate, module.name, name)
        if name in module.defined and key not in self.found:
            self.found.add(key)
            self.take_all(" ".join(module.defined[name][1]), module.taken, module.aliases, module)
            self.order.append(key)

    def take_all(self, text, taken, aliases, module=None):
        """Takes what a text names."""
        for word in re.findall(rf"{NAME}(?:\.{NAME})*", text):
            first, _, rest = word.partition(".")
            if first in aliases:
                self.take(aliases[first], rest.split(".")[0])
            elif first in taken:
                self.take(*taken[first])
            elif module and (first in module.defined or first in module.part_of):
                self.take(f"Rattle.{module.crate}.specs.{module.name}", first)
        signs = set(re.split(r"[\s(){};,]+", text))
        # (steps of a `do` are joined by this sign, which does not stand there)
        signs |= {">>="} if "do" in signs else set()
        for name in taken:
            if "◌" in name and all(it in signs for it in filter(None, name.split("◌"))):
                self.take(*taken[name])
        for name in module.defined if module else ():
            if "◌" in name and name.strip("◌") in signs:
                self.take(f"Rattle.{module.crate}.specs.{module.name}", name)

    def take_code(self, crate, name):
        """Takes a type of the code: by what it is seen as, where that is said, and else by its fields."""
        key = (crate, None, name)
        if key in self.found or (crate, name) not in self.code.items:
            return
        self.found.add(key)
        file, kind, _, text = self.code.items[crate, name]
        seen = self.code.model(crate, name)
        if kind == "trait":
            text = "\n".join(it for it in text.split("\n") if "ghost" in it)
        if seen or kind == "trait":
            text = seen or text
            taken, aliases = uses_of(self.code.texts[file])
            mine = uses_of(text)
            views = "\n".join(re.findall(r"ghost (?:Value|view|\w+:).*", text))
            self.take_all(views, taken | mine[0], aliases | mine[1])
        else:
            here = self.code.taken(file)
            bare = re.sub(r"^ *///.*", "", text, flags=re.M)
            for it in re.findall(r"\b[A-Z]\w*", bare):
                self.take_code(here.get(it, crate), it)
        self.order.append(key)

    def take_contract(self, file, function, codes):
        """Takes what the contract of a function of the code names, and the types of the code that it speaks of."""
        text = self.code.texts[file]
        at = text.index(f"pub fn {function}")
        clauses = clauses_of(text[at : text.index("\n    {\n", at)])
        self.take_all(clauses, *uses_of(text))
        for crate, name in codes:
            self.take_code(crate, name)
        return clauses
