"""python3 -m fdbrec COMMAND ..: the commands of the package. COMMAND --help says what each does.

    judge      whether journals are a run, and the first fault if they are none
    explore    a page that steps through a run
    entry      the entries of these numbers
    timeline   a picture of a run
    validate   whether scripts have their forms
    router     runs a cluster of processes, one for each node, and has it judged
"""
import importlib
import sys

NAMES = ("judge", "explore", "entry", "timeline", "validate", "router")


def main(words):
    if words[:1] == ["--help"] or not words or words[0] not in NAMES:
        is_help = words[:1] == ["--help"]
        if words and not is_help:
            print(f"there is no command {words[0]!r}", file=sys.stderr)
        print(__doc__, end="", file=sys.stdout if is_help else sys.stderr)
        return 0 if is_help else 2
    return importlib.import_module(f"fdbrec.commands.{words[0]}").run(words[1:])


if __name__ == "__main__":
    sys.exit(main(sys.argv[1:]))
