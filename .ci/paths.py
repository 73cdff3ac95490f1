#!/usr/bin/env python3
"""Each file of the repository that a document names is there.

A document is README.md, a page of docs/, acceptance/ or examples/, or the first comment of a crate's `lib.rt` or `main.rt`. It names files
in backticks, and pages in links. `specs/Held.antt` may be of any crate, and `Held.antt` in any folder; in a row of a table they are of the
crate that was named last there, as in `hf_split/specs/Held.antt`. Prints each that isn't there, and ends with status 1 if there is one."""
import functools
import pathlib
import re
import subprocess
import sys

TOP = pathlib.Path(__file__).resolve().parent.parent
FILE = re.compile(r"`([\w./-]+\.(?:rt|antt|py|toml|md|mjs|txt|edit|c|rs))`")
ELSEWHERE = {"HubProtocol.md", "TransportProtocols.md"}  # pages of SignalR
LINK = re.compile(r"\]\(([\w./-]+)(?:#[\w-]*)?\)")


def documents():
    """Each document with its lines."""
    for pattern in ("README.md", "docs/*.md", "acceptance/*.md", "examples/**/*.md"):
        for page in sorted(TOP.glob(pattern)):
            yield page, page.read_text().splitlines()
    for page in sorted([*TOP.glob("crates/*/src/lib.rt"), *TOP.glob("crates/*/src/main.rt")]):
        yield page, [line for line in page.read_text().splitlines() if line.startswith("//!")]


@functools.cache
def files():
    """The files of the repository, but those that git ignores."""
    listed = subprocess.run(["git", "ls-files", "-co", "--exclude-standard"], cwd=TOP, capture_output=True, text=True, check=True).stdout.splitlines()
    return {"/" + name for name in listed if (TOP / name).exists()}


@functools.cache
def ends_below(folder):
    """What a file below a folder may be called: each end of its path that begins at a folder."""
    return {name[at + 1 :] for name in files() if name.startswith(folder) for at in range(len(name)) if name[at] == "/"}


def lost_in(line):
    """The names of a line for which there is no file."""
    crate = None
    for name in FILE.findall(line):
        if (TOP / "crates" / name.partition("/")[0] / "src").is_dir():
            crate = name.partition("/")[0]
        if name in ELSEWHERE:
            continue
        of_crate = line.startswith("|") and crate and f"/{name}" not in files()
        if name not in ends_below(f"/crates/{crate}/" if of_crate else "/"):
            yield name


def main():
    found = []
    for page, lines in documents():
        for number, line in enumerate(lines, 1):
            lost = [*lost_in(line)]
            lost += [name for name in LINK.findall(line) if page.suffix == ".md" and not (page.parent / name).exists()]
            found += [f"{page.relative_to(TOP)}:{number}: there is no {name}" for name in lost]
    print("\n".join(found) if found else "each file that a document names is there")
    return 1 if found else 0


if __name__ == "__main__":
    sys.exit(main())
