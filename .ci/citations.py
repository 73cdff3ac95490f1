#!/usr/bin/env python3
"""No crate cites another crate's proofs/: what an upper crate needs, the lower one states as a law.

Prints each citation that breaks this, and ends with status 1 if there is one."""
import pathlib
import re
import sys

TOP = pathlib.Path(__file__).resolve().parent.parent
CITED = re.compile(r"\bRattle\.([a-z_0-9]+)\.proofs\b")


def citations(ours):
    for path in sorted((TOP / "crates").glob("*/*/**/*")):
        if path.suffix not in (".rt", ".antt") or "out" in path.parts:
            continue
        owner = path.relative_to(TOP / "crates").parts[0]
        for number, line in enumerate(path.read_text().splitlines(), 1):
            for crate in CITED.findall(line):
                if crate in ours and crate != owner:
                    yield f"{path.relative_to(TOP)}:{number}: {owner} cites the proofs of {crate}"


def main():
    ours = {it.name for it in (TOP / "crates").iterdir() if (it / "src").is_dir()}
    found = list(citations(ours))
    print("\n".join(found) if found else "no crate cites another crate's proofs")
    return 1 if found else 0


if __name__ == "__main__":
    sys.exit(main())
