#!/usr/bin/env python3
"""Measures the peak memory of a soak of 100,000 steps beside that of 10,000, in one run. It is no test.

    bench/soak.py [--seeds N] [--runs N] [PROGRAM]

Told are, for each of the seeds from 1 on, the resident memory of both at their peaks in kilobytes, of which the medians of the runs
count, and the ratio. The peak is the greatest that `smaps_rollup` tells while the program runs; a run that ends within a few
milliseconds may hide a page or two. What `getrusage` tells is counted in steps of 128 KB and more. PROGRAM is
crates/sr_app/out/sr_app by default, as `rt run` builds it."""
import argparse
import pathlib
import re
import statistics
import subprocess
import sys

from run import TOP

FEW, MANY = 10_000, 100_000


def peak(program, seed, steps):
    """The greatest resident memory of one run, in kilobytes."""
    process = subprocess.Popen([program, "soak", str(seed), str(steps)], stdout=subprocess.DEVNULL)
    told, most = pathlib.Path(f"/proc/{process.pid}/smaps_rollup"), 0
    while process.poll() is None:
        try:
            most = max(most, int(re.search(r"Rss:\s+(\d+)", told.read_text()).group(1)))
        except (AttributeError, OSError):
            continue
    if process.returncode != 0:
        raise SystemExit(f"soak {seed} {steps} ended with status {process.returncode}")
    return most


def main():
    parser = argparse.ArgumentParser(description=__doc__, formatter_class=argparse.RawDescriptionHelpFormatter)
    parser.add_argument("--seeds", type=int, default=12)
    parser.add_argument("--runs", type=int, default=10)
    parser.add_argument("program", nargs="?", default=str(TOP / "crates" / "sr_app" / "out" / "sr_app"))
    asked = parser.parse_args()
    ratios = []
    for seed in range(1, asked.seeds + 1):
        few, many = (statistics.median(peak(asked.program, seed, steps) for _run in range(asked.runs)) for steps in (FEW, MANY))
        ratios.append(many / few)
        print(f"seed {seed}: {few:.0f} KB, {many:.0f} KB, ratio {ratios[-1]:.2f}", flush=True)
    print(f"ratio {min(ratios):.2f} to {max(ratios):.2f}, median {statistics.median(ratios):.2f}")
    return 0


if __name__ == "__main__":
    sys.exit(main())
