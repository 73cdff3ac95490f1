#!/usr/bin/env python3
"""The map of docs/architecture.md, crates.txt and the prefixes of docs/words.md agree.

crates.txt has the crates under a heading for each layer, `# 1 bytes`, lowest first, and after the last layer those beside the house,
under `# beside the house`. The map is the table that begins with `| layer | crate |`, whose row has a layer, or none if it is the
same as above, and crates in backticks. In it:

- each crate stands once; those of a layer in the same layer, and in the same order, as in crates.txt
- crates of tests (`ht_`) stand in the row `tests`, and those beside the house in rows whose layer has no number
- docs/words.md has a row for each prefix in use, `hd_` say, and no other

Prints what breaks this, and ends with status 1 if anything does."""
import collections
import pathlib
import re
import sys

TOP = pathlib.Path(__file__).resolve().parent.parent
BESIDE = "beside the house"
TESTS = "tests"
NAME = re.compile(r"`([a-z]\w*)`")
PREFIX = re.compile(r"`([a-z]+_)`")


def crates():
    """Each crate of crates.txt, lowest first, with its layer."""
    layer = None
    for line in (TOP / "crates.txt").read_text().splitlines():
        if line.startswith("# ") and (line[2].isdigit() or line[2:].strip() == BESIDE):
            layer = line[2:].strip()
        elif line.strip() and not line.startswith("#"):
            yield line.partition(":")[0].strip(), layer


def table(page, head):
    """The rows of the table of a page whose head begins so, as lists of cells."""
    lines = (TOP / page).read_text().splitlines()
    begin = next((at for at, line in enumerate(lines) if line.startswith(head)), len(lines))
    for line in lines[begin + 2 :]:
        if not line.startswith("|"):
            return
        yield [it.strip() for it in line.strip().strip("|").split("|")]


def mapped():
    """Each crate of the map, with its layer."""
    layer = None
    for cells in table("docs/architecture.md", "| layer | crate |"):
        layer = cells[0] or layer
        for name in NAME.findall(cells[1]):
            yield name, layer


def place(name, layer):
    """Where a crate of crates.txt belongs in the map."""
    return TESTS if name.startswith("ht_") else layer


def is_there(wanted, layer):
    return layer == wanted or wanted == BESIDE and not layer[:1].isdigit() and layer != TESTS


def of_map():
    """What breaks the agreement of the map with crates.txt."""
    listed = {name: place(name, layer) for name, layer in crates()}
    drawn = list(mapped())
    for name, count in collections.Counter(name for name, _ in drawn).items():
        if count > 1:
            yield f"{name} stands {count} times in the map"
    for name, layer in drawn:
        if name not in listed:
            yield f"{name} stands in the map, and not in crates.txt"
        elif not is_there(listed[name], layer):
            yield f"{name} belongs to `{listed[name]}` by crates.txt, and stands in `{layer}` in the map"
    for name in sorted(listed.keys() - {name for name, _ in drawn}):
        yield f"{name} stands in crates.txt, and not in the map"
    for layer in dict.fromkeys(listed.values()):
        wanted = [name for name in listed if listed[name] == layer]
        there = [name for name, _ in drawn if listed.get(name) == layer]
        if layer != BESIDE and sorted(wanted) == sorted(there) and wanted != there:
            yield f"`{layer}` has another order in crates.txt: {', '.join(wanted)}"


def of_prefixes():
    """What breaks the agreement of the prefixes with those in use."""
    used = {name.partition("_")[0] + "_" for name, layer in crates() if layer != BESIDE}
    told = {prefix for cells in table("docs/words.md", "| prefix |") for prefix in PREFIX.findall(cells[0])}
    for prefix in sorted(used - told):
        yield f"docs/words.md has no row for the prefix {prefix}"
    for prefix in sorted(told - used):
        yield f"no crate has the prefix {prefix} of docs/words.md"


def main():
    found = [*of_map(), *of_prefixes()]
    print("\n".join(found) if found else "the map, crates.txt and the prefixes agree")
    return 1 if found else 0


if __name__ == "__main__":
    sys.exit(main())
