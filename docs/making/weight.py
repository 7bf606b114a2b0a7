"""What the sources weigh: the counts by which the repository is kept small (docs/tables --weight)."""
import collections
import itertools
import re

from making.sources import Crates, files_of, read

FAMILIES = (
    ("base", "fr_base fr_mutation fr_undo"),
    ("protocol", "fr_register fr_state fr_tags fr_log fr_ask fr_proxy fr_tail fr_epoch fr_storage"),
    ("records", "fr_record"),
    ("tables", "fr_sql_"),
    ("host", "fr_host"),
    ("runs", "fr_run fr_run_"),
    ("worlds", "fr_world fr_world_"),
    ("audit", "fr_audit fr_audit_journal"),
    ("runtime", "fr_runtime fr_runtime_"),
    ("forms", "fr_forms fr_script"),
    ("commands", "fr_cli fdbrec"),
    ("tests", "test_"),
    ("examples", "example_"),
)
ASKS = (("MarkAsked|Marked|NoMark", "mark"), ("Pop|Popped", "pop"))
PARAMETERS, BODY, RUN, PLACES = 7, 40, 10, 8
FUNCTION = re.compile(r"^( *)((?:pub(?:\([a-z]+\))? )?)(?:const |unsafe |extern \"C\" )*fn (\w+)", re.M)
TYPE = re.compile(r"^pub (?:struct|enum|trait|type) (\w+)", re.M)
WORD = re.compile(r"[A-Za-z_]\w*|\d+|\"[^\"]*\"")


def family_of(crate):
    """The family that says the whole name of a crate, or else the longest beginning of it."""
    named = [(word, name) for name, words in FAMILIES for word in words.split() if crate.startswith(word)]
    found = [(word == crate, len(word), name) for word, name in named]
    return max(found)[2] if found else "other"


def balanced(text, at, opens, closes):
    """Where what opens at a place is closed again; texts and comments are left out."""
    depth = 0
    skipped = r"//[^\n]*|\"(?:\\.|[^\"\\])*\"|'(?:\\.|[^'\\])'"
    for it in re.compile(f"{skipped}|[{re.escape(opens + closes)}]").finditer(text, at):
        depth += (it[0] in opens) - (it[0] in closes)
        if it[0] in closes and depth == 0:
            return it.end()
    return len(text)


def parameters(text):
    """How many a list in parentheses has, self among them."""
    inside, depth, count, has_any = text[1:-1], 0, 0, False
    for it in inside:
        depth += (it in "([{<") - (it in ")]}>")
        has_any = has_any or not it.isspace()
        count += it == "," and depth == 0
    return count + (has_any and not inside.rstrip().endswith(","))


def functions(path):
    """Each function of a file: its name, whether it is public, its parameters, and the lines of its body."""
    text = read(path)
    for it in FUNCTION.finditer(text):
        start = text.find("(", it.end())
        angle = text.find("<", it.end(), start)
        if angle == it.end():
            start = text.find("(", balanced(text, angle, "<", ">"))
        end = balanced(text, start, "(", ")")
        rest = text[end : text.find("\n", end)]
        body = re.compile(r"\{$" if rest.endswith("{") else r"^" + it[1] + r"\{$|;$", re.M).search(text, end)
        lines = 0
        if body and "{" in body[0]:
            close = re.compile(r"^" + it[1] + r"\}", re.M).search(text, body.end())
            lines = text.count("\n", body.end(), close.start()) - 1 if close else 0
        yield it[3], it[2] == "pub ", parameters(text[start:end]), lines


def shape_of(line):
    """A line as its shape: words, names, numbers and texts are all alike."""
    return WORD.sub("x", line)


def lines_of(path, as_what):
    """The lines of a file, each as what it counts. Blank lines, comments, imports and attributes are left out."""
    for number, line in enumerate(read(path).split("\n"), 1):
        line = line.strip()
        if line and not re.match(r"//|use |ghost use |#\[|mod |pub mod |pub use ", line):
            yield number, as_what(line)


def runs_of(lines):
    """Where each run of so many lines stands; runs with few lines of different shapes are left out."""
    places = collections.defaultdict(list)
    for path, rows in lines.items():
        for at in range(len(rows) - RUN + 1):
            run = tuple(line for _, line in rows[at : at + RUN])
            if len(set(run)) > RUN // 2:
                places[run].append((path, at))
    return places.values()


def repeated(paths):
    """Pairs of places that are the same word for word over so many lines and more, each as long as it can be. What
    stands in n places counts n (n - 1) / 2 times."""
    lines = {path: list(lines_of(path, lambda line: line)) for path in paths}
    found = set()
    for starts in runs_of(lines):
        for (path, at), (second, there) in itertools.combinations(reversed(starts), 2):
            before = at and there and lines[path][at - 1][1] == lines[second][there - 1][1]
            if not before and (path != second or abs(at - there) >= RUN):
                found.add((second, lines[second][there][0], path, lines[path][at][0]))
    return sorted(found)


def alike(paths):
    """Pairs of files, or of a file with itself, that have such a run of lines of the same shapes, each with where the
    first one is. Lines without a word are passed over, and what stands in more than eight places."""
    lines = {path: [it for it in lines_of(path, shape_of) if "x" in it[1]] for path in paths}
    found = {}
    for starts in runs_of(lines):
        for (path, at), (second, there) in itertools.combinations(starts, 2):
            if len(starts) <= PLACES and (path != second or abs(at - there) >= RUN):
                place = (lines[path][at][0], lines[second][there][0])
                found[path, second] = min(place, found.get((path, second), place))
    return [(path, at, second, there) for (path, second), (at, there) in sorted(found.items())]


def sources(part):
    return [it for crate in Crates().names for it in files_of(f"crates/{crate}/{part}", (".rt", ".antt"))]


def weight():
    """The lines of a report."""
    crates = Crates()
    by_family = collections.Counter()
    for crate in crates.names:
        for part in ("src", "specs", "proofs"):
            rows = sum(read(it).count("\n") for it in files_of(f"crates/{crate}/{part}", (".rt", ".antt")))
            by_family[family_of(crate), part] += rows
        by_family[family_of(crate), "crates"] += 1
    said = ["| Family | Crates | Code | Definitions | Proofs |", "|---|---:|---:|---:|---:|"]
    names = [name for name, _ in FAMILIES if by_family[name, "crates"]]
    for name in names + ["other"] * bool(by_family["other", "crates"]):
        numbers = (by_family[name, part] for part in ("crates", "src", "specs", "proofs"))
        said.append(f"| {name} | " + " | ".join(f"{it:,}" for it in numbers) + " |")
    columns = ("crates", "src", "specs", "proofs")
    sums = (sum(count for (_, of), count in by_family.items() if of == part) for part in columns)
    said.append("| in all | " + " | ".join(f"{it:,}" for it in sums) + " |")
    said += ["", "| What | Count |", "|---|---:|"]
    every = [it for part in ("src", "specs", "proofs") for it in sources(part)]
    for words, name in ASKS:
        files = [it for it in every if re.search(rf"\b(?:{words})\b", read(it))]
        said.append(f"| files that name the asks and tells of a {name} | {len(files)} |")
    code = sources("src")
    found = [(it, *each) for it in code for each in functions(it)]
    wide = [it for it in found if it[2] and it[3] > PARAMETERS]
    long = [it for it in found if it[4] > BODY]
    types = collections.defaultdict(set)
    for path in code:
        for name in TYPE.findall(read(path)):
            types[name].add(path)
    twice = sorted(name for name, paths in types.items() if len(paths) > 1)
    pairs = alike(code)
    said.append(f"| public functions with more than {PARAMETERS} parameters | {len(wide)} |")
    said.append(f"| bodies over {BODY} lines | {len(long)} |")
    said.append(f"| public types that share a name | {len(twice)} |")
    same = repeated(code)
    said.append(f"| pairs of files of code with lines of the same shapes, {RUN} and more | {len(pairs)} |")
    said.append(f"| pairs of places in code that are the same word for word, {RUN} lines and more | {len(same)} |")
    said += ["", *(f"{path}: {name} has {count} parameters" for path, name, _, count, _ in wide)]
    said += [f"{path}: {name} has {lines} lines" for path, name, _, _, lines in long]
    said += [f"{name}: {', '.join(sorted(types[name]))}" for name in twice]
    said += [f"{path}:{at} is like {second}:{there}" for path, at, second, there in pairs]
    return said
