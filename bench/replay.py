#!/usr/bin/env python3
"""Measures `sr replay` beside a Rust program over serde_json that replays the same (bench/peer), in one run. It is no test.

    bench/replay.py [--rounds N] [PROGRAM]

The script sends 100,000 messages of 39 to 200 bytes one way and loses the link after every thousand, of which the second half isn't
acknowledged yet, so that 50,000 messages are said twice. Told are messages in a second of processor time, the ratio (the other's time
by ours: 1.00 is as fast), instructions for a tenth of it if valgrind is there, and peak memory beside the script's size; and the same
for a script of 16 MiB of short lines. PROGRAM is crates/sr_app/out/sr_app by default, as `rt run` builds it."""
import argparse
import os
import pathlib
import subprocess
import sys
import tempfile

from run import TOP, instructions, output, peer, seconds

OPENING = "open\naccept 0\nc write *\ns read *\ns write *\nc read *\n"


def script(messages):
    lines = [OPENING]
    for thousand in range(messages // 1000):
        for half in (0, 1):
            for n in range(500):
                lines.append('c send {"arguments":[],"target":"%s","type":1}\n' % ("t" * (1 + (37 * n) % 160)))
            lines.append("c write *\ns read *\n")
            lines.append("s write *\nc read *\n" if half == 0 else f"open\naccept {thousand + 1}\nc write *\ns write *\nc read *\ns read *\ns write *\nc read *\n")
    return "".join(lines).encode()


# Runs a command and tells the most memory that it had: in a process of its own, since a child's count begins with its parent's.
WATCH = "import resource, subprocess, sys; subprocess.run(sys.argv[1:], stdout=subprocess.DEVNULL); print(resource.getrusage(resource.RUSAGE_CHILDREN).ru_maxrss)"


def peak(command, path):
    """The most memory that a run over the file has, in MiB."""
    with open(path, "rb") as stdin:
        told = subprocess.run([sys.executable, "-c", WATCH, *command], stdin=stdin, stdout=subprocess.PIPE, text=True)
    return int(told.stdout) / 1024


def main():
    words = argparse.ArgumentParser(description=__doc__, formatter_class=argparse.RawDescriptionHelpFormatter)
    words.add_argument("--rounds", type=int, default=5)
    words.add_argument("program", nargs="?", default=str(TOP / "crates" / "sr_app" / "out" / "sr_app"))
    asked = words.parse_args()
    ours, other = [asked.program, "replay"], peer()
    theirs = [other, "replay"] if other else None
    with tempfile.TemporaryDirectory() as folder:
        path, short, idle = (os.path.join(folder, name) for name in ("script", "tenth", "idle"))
        pathlib.Path(path).write_bytes(script(100_000))
        pathlib.Path(short).write_bytes(script(10_000))
        pathlib.Path(idle).write_bytes(OPENING.encode() + b"c read 0\n" * (((16 << 20) - len(OPENING)) // 9))
        for command in filter(None, (ours, theirs)):
            time = seconds(command, path, asked.rounds)
            print(f"{pathlib.Path(command[0]).name}: {100_000 / time:,.0f} messages a second, {peak(command, path):.1f} MiB for a script of {os.path.getsize(path) / (1 << 20):.1f}, "
                  f"{(instructions(command, short) or 0) / 1e6:.0f} million instructions for 10,000 messages")
        if theirs:
            print(f"the same report: {output(ours, path) == output(theirs, path)}; ratio by time {seconds(theirs, path, asked.rounds) / seconds(ours, path, asked.rounds):.2f}")
        print(f"a script of 16 MiB of short lines: {peak(ours, idle):.1f} MiB, {seconds(ours, idle, 1):.1f} s")


if __name__ == "__main__":
    main()
