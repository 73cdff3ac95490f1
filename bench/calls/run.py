#!/usr/bin/env python3
"""Measures the table of own calls (crates/measures) beside a plain Rust program over `BTreeMap` (peer.rs, built by rustc) that
does the same, in one run. It is no test.

    bench/calls/run.py [--rounds N]

1,024 calls are begun and settled, 1,000 times; then 113 calls with 8 uploads each. Of each the best of N rounds counts, in processor
time. The ratio is the other's time by ours: 1.00 is as fast. If valgrind is there, instructions are counted as well."""
import argparse
import os
import pathlib
import subprocess
import sys
import tempfile

HERE = pathlib.Path(__file__).resolve().parent
sys.path.insert(0, str(HERE.parent))
from run import built, instructions, output, seconds  # noqa: E402


def main():
    words = argparse.ArgumentParser(description=__doc__, formatter_class=argparse.RawDescriptionHelpFormatter)
    words.add_argument("--rounds", type=int, default=5)
    asked = words.parse_args()
    os.environ["MALLOC_TRIM_THRESHOLD_"] = str(1 << 30)
    ours = built("measures")
    with tempfile.TemporaryDirectory() as folder:
        theirs, empty = str(pathlib.Path(folder) / "peer"), str(pathlib.Path(folder) / "empty")
        subprocess.run(["rustc", "--edition", "2021", "-C", "opt-level=3", "-o", theirs, HERE / "peer.rs"], check=True)
        pathlib.Path(empty).write_bytes(b"")
        for uploads in ("0", "8"):
            commands = [ours, "calls", uploads], [theirs, uploads]
            answers = [output(command, empty) for command in commands]
            assert answers[0] == answers[1], answers
            count = int(answers[0].split()[1])
            mine, other = (seconds(command, empty, asked.rounds) for command in commands)
            counts = [instructions(command, empty) for command in commands]
            by_count = f", by instructions {counts[1] / counts[0]:.2f}" if all(counts) else ""
            print(f"{uploads} uploads: {count / mine / 1e6:.2f} million calls a second, BTreeMap {count / other / 1e6:.2f}, ratio {other / mine:.2f}{by_count}")


if __name__ == "__main__":
    main()
