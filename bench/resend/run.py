#!/usr/bin/env python3
"""Measures the resend buffer (crates/measures) beside a plain Rust program over `VecDeque<Rc<[u8]>>` (peer.rs, built by
rustc) that does the same, in one run. It is no test.

    bench/resend/run.py [--rounds N]

5,120,000 frames of 200 bytes are pushed, lent and acknowledged, 1,024 at a time, each one made (a copy of the bytes), or each
sharing the bytes of one. Of each the best of N rounds counts, in processor time. The ratio is the other's time by ours: 1.00 is as
fast. If valgrind is there, instructions are counted as well. The C library's allocator is told to keep what is freed: else it gives a
part of the heap back to the system in each round of one of the two, as its blocks happen to lie."""
import argparse
import os
import pathlib
import subprocess
import sys
import tempfile

HERE = pathlib.Path(__file__).resolve().parent
sys.path.insert(0, str(HERE.parent))
from run import built, instructions, output, seconds  # noqa: E402

FRAMES = 5_120_000


def main():
    words = argparse.ArgumentParser(description=__doc__, formatter_class=argparse.RawDescriptionHelpFormatter)
    words.add_argument("--rounds", type=int, default=5)
    asked = words.parse_args()
    os.environ["MALLOC_TRIM_THRESHOLD_"] = str(1 << 30)
    ours = built("measures")
    with tempfile.TemporaryDirectory() as folder:
        theirs, empty = str(pathlib.Path(folder) / "peer"), str(pathlib.Path(folder) / "empty")
        subprocess.run(["rustc", "--edition", "2021", "-C", "opt-level=3", "-o", theirs, HERE / "peer.rs"], check=True)
        pathlib.Path(empty).write_bytes(b"")
        for way in ("made", "shared"):
            commands = [ours, "resend", way], [theirs, way]
            assert output(commands[0], empty) == output(commands[1], empty)
            mine, other = (seconds(command, empty, asked.rounds) for command in commands)
            counts = [instructions(command, empty) for command in commands]
            by_count = f", by instructions {counts[1] / counts[0]:.2f}" if all(counts) else ""
            print(f"{way:<8}{FRAMES / mine / 1e6:>6.1f} million frames a second, VecDeque {FRAMES / other / 1e6:.1f}, ratio {other / mine:.2f}{by_count}")


if __name__ == "__main__":
    main()
