#!/usr/bin/env python3
"""Measures a round of `hj_jobs` (crates/measures) in which one job is due of 1,000 that are live, beside one in which one is due of
one, in one run. It is no test.

    bench/calls/rounds.py [--rounds N]

Of each the best of N runs counts, in processor time. The ratio says how many times as long the first takes."""
import argparse
import pathlib
import sys
import tempfile

sys.path.insert(0, str(pathlib.Path(__file__).resolve().parent.parent))
from run import built, instructions, seconds  # noqa: E402


def main():
    words = argparse.ArgumentParser(description=__doc__, formatter_class=argparse.RawDescriptionHelpFormatter)
    words.add_argument("--rounds", type=int, default=5)
    asked = words.parse_args()
    ours = built("measures")
    with tempfile.TemporaryDirectory() as folder:
        empty = str(pathlib.Path(folder) / "empty")
        pathlib.Path(empty).write_bytes(b"")
        many, one = (seconds([ours, "jobs", live], empty, asked.rounds) for live in ("1000", "1"))
        counts = [instructions([ours, "jobs", live], empty) for live in ("1000", "1")]
        by_count = f", by instructions {counts[0] / counts[1]:.2f}" if all(counts) else ""
        print(f"300,000 rounds: {many:.3f} s with 1,000 live jobs, {one:.3f} s with one, ratio {many / one:.2f}{by_count}")


if __name__ == "__main__":
    main()
