#!/usr/bin/env python3
"""Each must-fail edit can be applied, and each that a document's table names is there.

An edit of crates/*/must-fail/ changes the file that it names by pairs of lines, `old:` and `new:`. The text of an `old:` line stands
exactly once in that file, after the pairs before it were applied. A table with a column `an edit that must fail` names edits as
`its_name` (`its_crate`). Prints each that breaks this, and ends with status 1 if there is one; else prints how many edits there are."""
import pathlib
import re
import sys

TOP = pathlib.Path(__file__).resolve().parent.parent
NAMED = re.compile(r"((?:`\w+`(?:, )?)+) \(`(\w+)`\)")
COLUMN = "an edit that must fail"


def faults(edit):
    """What is wrong with this edit."""
    crate = edit.parent.parent
    path, old, texts, pairs = None, None, {}, 0
    for line in edit.read_text().splitlines():
        if line.startswith("file: "):
            path = crate / line.removeprefix("file: ").strip()
        elif line.startswith("old: "):
            old = line.removeprefix("old: ")
        elif line.startswith("new:"):
            if path is None or old is None:
                return ["a `new:` stands before any `file:` or `old:`"]
            if path not in texts:
                if not path.is_file():
                    return [f"there is no {path.relative_to(TOP)}"]
                texts[path] = path.read_text()
            if (found := texts[path].count(old)) != 1:
                return [f"stands {found} times in {path.relative_to(TOP)}, and not once: {old.strip()}"]
            texts[path] = texts[path].replace(old, line.removeprefix("new:").removeprefix(" "))
            old, pairs = None, pairs + 1
    if not pairs:
        return ["it has no pair of `old:` and `new:`"]
    return [] if any(text != path.read_text() for path, text in texts.items()) else ["it changes nothing"]


def named(page):
    """The edits that the tables of a page name: number of the line, crate, edit."""
    column, before = None, ""
    for number, line in enumerate(page.read_text().splitlines(), 1):
        cells = [it.strip() for it in line.strip().strip("|").split("|")] if line.startswith("|") else []
        head, before = [] if before.startswith("|") else cells, line
        if not cells:
            column = None
        elif head:
            column = head.index(COLUMN) if COLUMN in head else None
        elif column is not None and column < len(cells):
            for names, crate in NAMED.findall(cells[column]):
                for name in re.findall(r"\w+", names):
                    yield number, crate, name


def main():
    edits = sorted((TOP / "crates").glob("*/must-fail/*.edit"))
    found = [f"{it.relative_to(TOP)}: {fault}" for it in edits for fault in faults(it)]
    for page in [TOP / "README.md", *sorted((TOP / "docs").glob("*.md"))]:
        for number, crate, name in named(page):
            if not (TOP / "crates" / crate / "must-fail" / f"{name}.edit").is_file():
                found.append(f"{page.relative_to(TOP)}:{number}: {crate} has no edit {name}")
    print("\n".join(found) if found else f"{len(edits)} must-fail edits can be applied")
    return 1 if found else 0


if __name__ == "__main__":
    sys.exit(main())
