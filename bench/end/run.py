#!/usr/bin/env python3
"""Measures two ends in memory (crates/measures) beside the codec alone, in one run, and the memory of an end at rest. It is no test.

    bench/end/run.py [--rounds N] [--ends N]

64,000 calls of 200 bytes go one way, 64 at a time, with an Ack back after each 64. Beside that the same program writes and reads the
same calls by the codec alone, with the calls that an end makes of it. Of each the best of N rounds counts, in processor time; the
share is what the two ends take of their time beside the codec. If valgrind is there, instructions are counted as well.
In JSON two thirds of these clear the 16 KiB in which the reader notes where a frame's parts are: valgrind counts each byte that
`rep stosb` clears. Without `memset` (callgrind_annotate) the share was 0.18, and not 0.08.

The memory of an end at rest is the difference of the greatest resident memory of a program that holds N ends whose handshake is
complete and of one that holds none, by N. Of the memory that an end asks for, pages that were never written aren't resident; if
valgrind is there, the bytes asked for are told as well."""
import argparse
import pathlib
import re
import shutil
import subprocess
import sys
import tempfile

HERE = pathlib.Path(__file__).resolve().parent
sys.path.insert(0, str(HERE.parent))
from run import built, instructions, output, seconds  # noqa: E402

MESSAGES = 64_000


def codec_and_ends(program, empty, rounds):
    """Rates and the ends' own share, for each codec."""
    for codec in ("json", "pack"):
        commands = [program, "codec", codec], [program, "end", codec]
        assert all(int(output(command, empty)) == MESSAGES for command in commands)
        alone, ends = (seconds(command, empty, rounds) for command in commands)
        counts = [instructions(command, empty) for command in commands]
        by_count = f"; instructions a message {counts[0] / MESSAGES:.0f} and {counts[1] / MESSAGES:.0f}, share {1 - counts[0] / counts[1]:.2f}" if all(counts) else ""
        print(f"{codec}: codec alone {MESSAGES / alone / 1e3:.0f}, ends {MESSAGES / ends / 1e3:.0f} thousand messages a second, "
              f"the ends' own share {1 - alone / ends:.2f}{by_count}")


def peak(command):
    """The most resident memory of a run, in bytes. It is asked of a process of its own, since it is the most of all children."""
    ask = ("import resource, subprocess, sys; subprocess.run(sys.argv[1:], stdout=subprocess.DEVNULL, check=True); "
           "print(resource.getrusage(resource.RUSAGE_CHILDREN).ru_maxrss)")
    return int(subprocess.run([sys.executable, "-c", ask, *command], stdout=subprocess.PIPE, check=True).stdout) * 1024


def asked_for(command):
    """The bytes that a run holds of the heap at its most, or None if valgrind isn't there."""
    if not shutil.which("valgrind"):
        return None
    with tempfile.NamedTemporaryFile() as report:
        subprocess.run(["valgrind", "--tool=massif", f"--massif-out-file={report.name}", *command],
                       stdout=subprocess.DEVNULL, stderr=subprocess.DEVNULL, check=True)
        return max(int(heap) for heap in re.findall(r"mem_heap_B=(\d+)", pathlib.Path(report.name).read_text()))


def memory(program, count):
    """The memory of one end at rest."""
    resident = (peak([program, "rest", str(count)]) - peak([program, "rest", "0"])) / count
    few = 100
    asked = [asked_for([program, "rest", str(ends)]) for ends in (few, 2 * few)]
    by_heap = f", asked for {(asked[1] - asked[0]) / few:.0f}" if all(asked) else ""
    print(f"an end at rest: {resident:.0f} bytes resident, over {count:,} ends{by_heap}")


def main():
    words = argparse.ArgumentParser(description=__doc__, formatter_class=argparse.RawDescriptionHelpFormatter)
    words.add_argument("--rounds", type=int, default=5)
    words.add_argument("--ends", type=int, default=10_000)
    asked = words.parse_args()
    program = built("measures")
    with tempfile.TemporaryDirectory() as folder:
        empty = str(pathlib.Path(folder) / "empty")
        pathlib.Path(empty).write_bytes(b"")
        codec_and_ends(program, empty, asked.rounds)
    memory(program, asked.ends)


if __name__ == "__main__":
    main()
