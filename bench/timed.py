"""Programs that scripts of bench/ run and the gate leaves out. Each is a crate, whose files stand in bench/CRATE, each as
NAME.rt.txt. `timing`, which bench/asks, bench/peek, bench/pops, bench/reads and bench/replay time, shows nothing that
tests do not show; `oversized`, of bench/too_big, takes gigabytes."""
import os
import shutil
import subprocess
import tempfile

ROOT = os.path.dirname(os.path.dirname(os.path.realpath(__file__)))
LIBRARIES = "fr_base fr_mutation fr_undo fr_register fr_state fr_tags fr_log fr_ask fr_proxy fr_epoch fr_storage"
LINE = f"timing: {LIBRARIES} fr_record fr_record_log fr_world anyhow"


def below(program):
    """The lines of crates.txt of all that a program stands on, by name."""
    with open(f"{ROOT}/crates.txt", encoding="utf-8") as it:
        lines = {line.partition(":")[0]: line for line in it.read().split("\n") if ":" in line}
    found, todo = {}, program.split()[1:]
    while todo:
        name = todo.pop()
        if name in lines and name not in found:
            found[name] = lines[name]
            todo += lines[name].split()[1:]
    return found


def copy(crate, room):
    """Puts a crate's text as it stands now in the room, and what was proved of it here, unless the room has that."""
    for part in ("src", "specs", "proofs"):
        shutil.rmtree(f"{room}/crates/{crate}/{part}", ignore_errors=True)
        if os.path.isdir(f"{ROOT}/crates/{crate}/{part}"):
            shutil.copytree(f"{ROOT}/crates/{crate}/{part}", f"{room}/crates/{crate}/{part}")
    proved = f"crates/{crate}/out/rlib"
    if os.path.isdir(f"{ROOT}/{proved}") and not os.path.isdir(f"{room}/{proved}"):
        shutil.copytree(f"{ROOT}/{proved}", f"{room}/{proved}")


def folder_of(room, crate):
    return os.path.join(room, "crates", crate)


def room(program):
    """The folder of a program, beside the temporary files, with all that it is built of."""
    crate = program.partition(":")[0]
    found = f"{tempfile.gettempdir()}/fdbrec_{crate}_{os.getuid()}"
    os.makedirs(f"{found}/crates", mode=0o700, exist_ok=True)
    if os.stat(found).st_uid != os.getuid():
        raise SystemExit(f"{found} is somebody else's")
    lines = below(program)
    for each in lines:
        copy(each, found)
    sources, texts = f"{folder_of(found, crate)}/src", f"{ROOT}/bench/{crate}"
    shutil.rmtree(sources, ignore_errors=True)
    for at, _, names in os.walk(texts):
        to = f"{sources}/{os.path.relpath(at, texts)}"
        os.makedirs(to, exist_ok=True)
        for name in names:
            shutil.copyfile(f"{at}/{name}", f"{to}/{name.removesuffix('.txt')}")
    shutil.copyfile(f"{ROOT}/HANDLES", f"{found}/HANDLES")
    with open(f"{found}/crates.txt", "w", encoding="utf-8") as it:
        it.write("\n".join([*lines.values(), program]) + "\n")
    return found


def built(program=LINE):
    """Builds a program, of which this is the line of crates.txt, its proofs included, and returns where it is."""
    crate = program.partition(":")[0]
    folder = folder_of(room(program), crate)
    print(f"building {folder}, its proofs included", flush=True)
    subprocess.run(["rt", "run"], cwd=folder, stdout=subprocess.DEVNULL, check=True)
    return f"{folder}/out/{crate}"
