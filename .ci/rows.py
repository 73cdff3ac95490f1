#!/usr/bin/env python3
"""acceptance/rows.py reads what Python's tomllib reads in each of acceptance/*.toml, and refuses what these files don't use.

Without tomllib, which came with Python 3.11, the first is skipped with a word. Prints each that isn't so, and ends with status 1 if
there is one."""
import importlib
import pathlib
import sys

TOP = pathlib.Path(__file__).resolve().parent.parent
sys.path.insert(0, str(TOP / "acceptance"))
from rows import Reader, Refused, read  # noqa: E402

READ = {
    "": {},
    "# a remark\n\n[pieces] # of it\na = 'b' # c\n[[row]]\n[[row]]": {"pieces": {"a": "b"}, "row": [{}, {}]},
    "[[row]]\na = [\n    1, # one\n    '', ]\nb = { c = \"\\u001e\\\"\", d = [] }": {"row": [{"a": [1, ""], "b": {"c": '\x1e"', "d": []}}]},
    "[[row]]\na = '''\n\n'b''\n'''": {"row": [{"a": "\n'b''\n"}]},
}
# With the line of what is refused.
REFUSED = {
    "a = 1\n": 1,
    "[other]\n": 1,
    "[pieces]\n[pieces]\n": 2,
    "[row]\n": 1,
    "[[row]]\na = 1\na = 2\n": 3,
    "[[row]]\na.b = 1\n": 2,
    '[[row]]\n"a" = 1\n': 2,
    "[[row]]\na\n": 2,
    "[[row]]\na =\n": 2,
    "[[row]]\na = 1 b = 2\n": 2,
    "[[row]]\na = 1.5\n": 2,
    "[[row]]\na = -1\n": 2,
    "[[row]]\na = 01\n": 2,
    "[[row]]\na = 1_000\n": 2,
    "[[row]]\na = true\n": 2,
    "[[row]]\na = 2026-11-29\n": 2,
    "[[row]]\na = 'b\n": 2,
    "[[row]]\na = '''b\n": 2,
    "[[row]]\na = '''b''''\n": 2,
    '[[row]]\na = """b"""\n': 2,
    '[[row]]\na = "\\e"\n': 2,
    '[[row]]\na = "\\ud800"\n': 2,
    "[[row]]\na = [1 2]\n": 2,
    "[[row]]\na = [,]\n": 2,
    "[[row]]\na = [\n1\n": 4,
    "[[row]]\na = {}\n": 2,
    "[[row]]\na = { b = 1, }\n": 2,
    "[[row]]\na = { b = 1\n}\n": 2,
    "[[row]]\na\t= 1\n": 2,
}


def faults():
    """What the reader does otherwise."""
    for text, wanted in READ.items():
        got = Reader("row", text).tables()
        if got != wanted:
            yield f"acceptance/rows.py reads {text!r} as {got}, and not as {wanted}"
    for text, line in REFUSED.items():
        try:
            yield f"acceptance/rows.py reads {text!r} as {Reader('row', text).tables()}"
        except Refused as refused:
            if not str(refused).startswith(f"row:{line}: "):
                yield f"acceptance/rows.py refuses {text!r} by {refused}"


def differences(loads):
    """The files that tomllib, whose `loads` this is, reads otherwise."""
    for path in sorted((TOP / "acceptance").glob("*.toml")):
        if read(path) != loads(path.read_text()):
            yield f"{path.relative_to(TOP)}: acceptance/rows.py reads it otherwise than tomllib"


def main():
    found = list(faults())
    try:
        found += differences(importlib.import_module("tomllib").loads)
        beside = "as tomllib does"
    except ModuleNotFoundError:
        beside = "and tomllib, to compare it with, isn't here"
    print("\n".join(found) if found else f"acceptance/rows.py reads each row, {beside}")
    return 1 if found else 0


if __name__ == "__main__":
    sys.exit(main())
