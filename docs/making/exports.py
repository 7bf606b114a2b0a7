"""The exports of crates/fr_c beside all that declares them by hand: include/fdbrec.h, fdbrec-sys and fdbrec.py."""
import os
import re

from making.sources import TOP, files_of, read

EXPORTS = "crates/fr_c/src"
CALLS = "crates/fr_part/src/calls"
STATUSES = f"{CALLS}/status.rt"
HEADER = "include/fdbrec.h"
RUST = "bindings/rust/fdbrec-sys/src/lib.rs"
PYTHON = "python/fdbrec/library.py"

# What a parameter or a field of Rattle is in C: each with what stands behind its name.
IN_C = {
    "Global": (),
    "&mut Handle": (("fdbrec_part **", ""),),
    "&[u8]": (("const uint8_t *", ""), ("size_t ", "_len")),
    "&mut [u8]": (("uint8_t *", ""), ("size_t ", "_len")),
    "&mut usize": (("size_t *", ""),),
    "usize": (("size_t ", ""),),
} | {
    form.format(bits): ((kind.format(bits), ""),)
    for bits in (8, 16, 32, 64)
    for form, kind in (("u{}", "uint{}_t "), ("&mut u{}", "uint{}_t *"))
}
# What a type of C is in Rust and in Python.
IN_RUST = {
    "fdbrec_part **": "*mut *mut fdbrec_part",
    "const uint8_t *": "*const u8",
    "size_t ": "usize",
    "size_t *": "*mut usize",
} | {
    form.format(bits): kind.format(bits)
    for bits in (8, 16, 32, 64)
    for form, kind in (("uint{}_t ", "u{}"), ("uint{}_t *", "*mut u{}"))
}
IN_PYTHON = {
    "void": "None",
    "fdbrec_part **": "_PART",
    "const uint8_t *": "_BYTES",
    "uint8_t *": "_ROOM",
    "size_t ": "_SIZE",
    "size_t *": "_SIZE_OUT",
} | {
    form.format(bits): kind.format(bits)
    for bits in (8, 16, 32, 64)
    for form, kind in (("uint{}_t ", "_U{}"), ("uint{}_t *", "_U{}_OUT"))
    if (bits, form[-1]) != (8, "*")
}


def of_struct(name):
    """The name in C, in Rust and in Python of a pointer to a struct of Rattle."""
    words = re.findall(r"[A-Z][a-z]*", name)
    named = "fdbrec_" + "_".join(words).lower()
    return f"const {named} *", f"*const {named}", "_" + "_".join(words).upper()


def structs():
    """The structs that cross, as C is to declare them: {name: [(type, name), ..]}. What C, Rust and Python have for a
    pointer to each is entered in the tables above."""
    found = {}
    form = r"#\[repr\(C\)\]\s*(?:#\[[^\]]*\]\s*)*pub struct (\w+)(<'a>)? \{(.*?)^\}"
    for path in files_of(CALLS, ".rt"):
        for name, lent, inside in re.findall(form, re.sub(r"//.*", "", read(path)), re.S | re.M):
            kind, rust, python = of_struct(name)
            IN_C["&" + name + ("<'_>" if lent else "")] = ((kind, ""),)
            IN_RUST[kind], IN_PYTHON[kind] = rust, python
            found[kind[len("const ") : -len(" *")]] = fields = []
            for each in filter(None, (it.strip() for it in inside.split(","))):
                of, kind = (it.strip() for it in each.removeprefix("pub ").split(":", 1))
                kind = kind.replace("&'a ", "&")
                fields += [(part, of + behind) for part, behind in IN_C.get(kind, ((f"<{kind}> ", ""),))]
    return found


def declared_structs():
    """The structs of the header, in the same form."""
    text = re.sub(r"/\*.*?\*/", "", read(HEADER), flags=re.S)
    found = re.findall(r"^typedef struct (\w+) \{(.*?)^\} \1;", text, re.S | re.M)
    return {name: [typed(it) for it in inside.split(";") if it.strip()] for name, inside in found}


def structs_of_rust():
    """The fields of the structs of fdbrec-sys that C has too."""
    found = re.findall(r"#\[repr\(C\)\]\n(?:#[^\n]*\n)*pub struct (\w+) \{(.*?)^\}", read(RUST), re.S | re.M)
    return {name: listed(inside.replace("pub ", "")) for name, inside in found if "_none:" not in inside}


def structs_of_python():
    """The fields of the structs of fdbrec.py, by the names in C."""
    found = re.findall(r"^class _(\w+)\(ctypes\.Structure\):\n    _fields_ = \[(.*?)\]$", read(PYTHON), re.S | re.M)
    return {of_struct(name)[1].removeprefix("*const "): listed(inside) for name, inside in found}


def typed(text):
    """A type of C and the name behind it."""
    it = re.fullmatch(r"(.*[ *])(\w+)", " ".join(text.split()))
    return (it[1], it[2]) if it else ("?", text)


def in_c(result, parameters):
    return f"{result} ({', '.join(kind + of for kind, of in parameters)})"


def in_rust(result, parameters):
    given = ", ".join(f"{of}: {IN_RUST.get(kind, '?')}" for kind, of in parameters)
    return f"({given}){'' if result == 'void' else ' -> ' + IN_RUST.get(result + ' ', '?')}"


def in_python(result, parameters):
    kinds = [result if result == "void" else f"{result} ", *(kind for kind, _ in parameters)]
    return ", ".join(IN_PYTHON.get(it, "?") for it in kinds)


def exports():
    """The exports of crates/fr_c as C is to declare them: {name: (result, [(type, name), ..])}. A type that does not
    cross stands as it is written, so that nothing is the same as it."""
    found = {}
    form = r'#\[unsafe\(no_mangle\)\]\s*pub extern "C" fn (\w+)\s*\(([^)]*)\)(?:\s*->\s*([^\s{]+))?'
    for path in files_of(EXPORTS, ".rt"):
        for name, given, result in re.findall(form, re.sub(r"//.*", "", read(path))):
            parameters = []
            for each in filter(None, (it.strip() for it in given.split(","))):
                of, kind = (it.strip() for it in each.split(":", 1))
                parameters += [(part, of + behind) for part, behind in IN_C.get(kind, ((f"<{kind}> ", ""),))]
            found[name] = IN_C.get(result, ((f"<{result}>", ""),))[0][0].strip() if result else "void", parameters
    return found


def declared():
    """The declarations of the header, in the same form."""
    text = re.sub(r"/\*.*?\*/|^ *#.*?$", "", read(HEADER), flags=re.S | re.M)
    found = {}
    for result, name, given in re.findall(r"^(\w+)\s+(fdbrec_\w+)\(([^)]*)\);", text, re.M):
        found[name] = result, [typed(it) for it in given.split(",")]
    return found


def of_rust():
    """What fdbrec-sys declares, each without its name."""
    found = re.findall(r"pub fn (\w+)\(([^)]*)\)((?: -> \w+)?);", read(RUST))
    return {name: f"({listed(given)}){result}" for name, given, result in found}


def of_python():
    """What fdbrec.py declares: the types of the result and of the parameters."""
    table = re.search(r"^_DECLARED\b.*?^\}", read(PYTHON), re.S | re.M)
    found = re.findall(r'"(fdbrec_\w+)": \(([^)]*)\)', table[0] if table else "")
    return {name: listed(it) for name, it in found}


def listed(text):
    """What stands between commas, on one line."""
    return ", ".join(filter(None, map(str.strip, text.split(","))))


def statuses(path, form):
    """The names and numbers of statuses in a file."""
    return dict(re.findall(form, read(path), re.M))


def differ(path, found, wanted, by):
    """What a file says otherwise than another one, name by name."""
    faults = [f"{path}: it has not {name} of {by}" for name in wanted if name not in found]
    faults += [f"{path}: {by} has no {name}" for name in found if name not in wanted]
    both = [name for name in wanted if name in found and wanted[name] != found[name]]
    return faults + [f"{path}: {name} is {found[name]}, and by {by} {wanted[name]}" for name in both]


def structs_faults(header, own):
    """What is not the same of the structs."""
    faults = differ(HEADER, header, own, CALLS)
    rust = {name: ", ".join(f"{of}: {IN_RUST.get(kind, '?')}" for kind, of in it) for name, it in header.items()}
    pairs = {name: [(of, IN_PYTHON.get(kind, "?")) for kind, of in it] for name, it in header.items()}
    python = {name: ", ".join(f'("{of}", {kind})' for of, kind in it) for name, it in pairs.items()}
    return faults + differ(RUST, structs_of_rust(), rust, HEADER) + differ(PYTHON, structs_of_python(), python, HEADER)


def exports_faults():
    """What is not the same in fr_c, in the header and in the bindings."""
    missing = [it for it in (STATUSES, HEADER, RUST, PYTHON) if not os.path.exists(f"{TOP}/{it}")]
    if missing:
        return [f"{it}: there is no such file" for it in missing]
    own = structs()
    faults = structs_faults(declared_structs(), own)
    header, said = declared(), statuses(HEADER, r"^ *FDBREC_(\w+) = (\d+)")
    own = {name: in_c(*it) for name, it in exports().items()}
    faults += differ(HEADER, {name: in_c(*it) for name, it in header.items()}, own, EXPORTS)
    faults += differ(RUST, of_rust(), {name: in_rust(*it) for name, it in header.items()}, HEADER)
    faults += differ(PYTHON, of_python(), {name: in_python(*it) for name, it in header.items()}, HEADER)
    faults += differ(HEADER, said, statuses(STATUSES, r"^pub const (\w+): u32 = (\d+);"), STATUSES)
    faults += differ(RUST, statuses(RUST, r"^pub const (\w+): u32 = (\d+);"), said, HEADER)
    return faults + differ(PYTHON, statuses(PYTHON, r"^    ([A-Z_]+) = (\d+)$"), said, HEADER)
