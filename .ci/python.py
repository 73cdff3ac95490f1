#!/usr/bin/env python3
"""What bin/test runs, and all else in Python of bin/, acceptance/ and .ci/, runs on Python 3.9 too.

Each has the syntax of that version, and no name of NEWER, which are of later ones. Prints each place that breaks this, and ends with
status 1 if there is one; else prints how many programs were read."""
import ast
import pathlib
import sys

TOP = pathlib.Path(__file__).resolve().parent.parent
VERSION = (3, 9)
# What these programs might reach for, with the version that brought it: modules, functions, and parameters of functions.
NEWER = {
    "TemporaryDirectory(ignore_cleanup_errors=)": "3.10",
    "aiter": "3.10",
    "anext": "3.10",
    "batched": "3.12",
    "bit_count": "3.10",
    "dataclass(kw_only=)": "3.10",
    "dataclass(slots=)": "3.10",
    "pairwise": "3.10",
    "zip(strict=)": "3.10",
    "ExceptionGroup": "3.11",
    "StrEnum": "3.11",
    "TaskGroup": "3.11",
    "tomllib": "3.11",
}


def programs():
    for pattern in "bin/*", "acceptance/**/*.py", ".ci/*":
        for path in sorted(TOP.glob(pattern)):
            if path.suffix == ".py" or path.is_file() and path.read_text().startswith("#!/usr/bin/env python3\n"):
                yield path


def names_of(node):
    """The names that a node of a program has, as NEWER has them."""
    if isinstance(node, ast.Name):
        return [node.id]
    if isinstance(node, ast.Attribute):
        return [node.attr]
    if isinstance(node, ast.Import):
        return [alias.name for alias in node.names]
    if isinstance(node, ast.ImportFrom):
        return [node.module, *(alias.name for alias in node.names)]
    if isinstance(node, ast.Call):
        return [f"{name}({keyword.arg}=)" for name in names_of(node.func) for keyword in node.keywords]
    return []


def faults(path):
    """What of a program needs a later version: the line of each, and why."""
    try:
        tree = ast.parse(path.read_text(), feature_version=VERSION)
    except SyntaxError as fault:
        yield fault.lineno, fault.msg
        return
    for node in ast.walk(tree):
        for name in names_of(node):
            if name in NEWER:
                yield node.lineno, f"`{name}` came with Python {NEWER[name]}"


def main():
    listed = list(programs())
    found = [f"{path.relative_to(TOP)}:{line}: {why}" for path in listed for line, why in faults(path)]
    print("\n".join(found) if found else f"{len(listed)} programs are in Python {VERSION[0]}.{VERSION[1]}")
    return 1 if found else 0


if __name__ == "__main__":
    sys.exit(main())
