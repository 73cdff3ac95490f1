#!/usr/bin/env python3
"""Measures `sr audit` of a long trace beside a loop in Python that takes `bytes.fromhex` of each of its lines that has bytes, in one run. It is
no test.

    bench/audit.py [--rounds N] [--messages N] [PROGRAM]

The trace is what `PROGRAM record` writes of a session in which one end sends 105,000 messages of 100 bytes, which is nearly the longest trace
that there may be (64 MiB); and that of a tenth of it, so that it is seen whether time grows with the length alone. Told are seconds of processor
time, by how much ours is over the loop's, the most memory beside the trace's size, and what the audit says. PROGRAM is
crates/sr_app/out/sr_app by default, as `rt run` builds it."""
import argparse
import os
import pathlib
import subprocess
import sys
import tempfile

from replay import OPENING, peak
from run import TOP, seconds

TARGET = "t" * (100 - len('{"arguments":[],"target":"","type":1}\x1e'))
SEND = 'c send {"arguments":[],"target":"%s","type":1}\n' % TARGET
AT_ONCE = 100  # messages that are sent before they are read
LOOP = """
import sys
for line in sys.stdin.buffer:
    words = line.split()
    if words[1] in (b"fed", b"lent"): bytes.fromhex(words[2].decode())
"""


def script(messages):
    return (OPENING + (SEND * AT_ONCE + "c write *\ns read *\ns write *\nc read *\n") * (messages // AT_ONCE)).encode()


def main():
    words = argparse.ArgumentParser(description=__doc__, formatter_class=argparse.RawDescriptionHelpFormatter)
    words.add_argument("--rounds", type=int, default=3)
    words.add_argument("--messages", type=int, default=105_000)
    words.add_argument("program", nargs="?", default=str(TOP / "crates" / "sr_app" / "out" / "sr_app"))
    asked = words.parse_args()
    ours, loop = [asked.program, "audit"], [sys.executable, "-c", LOOP]
    with tempfile.TemporaryDirectory() as folder:
        path = os.path.join(folder, "trace")
        for messages in (asked.messages // 10, asked.messages):
            pathlib.Path(path).write_bytes(subprocess.run([asked.program, "record"], input=script(messages), stdout=subprocess.PIPE, check=True).stdout)
            size = os.path.getsize(path) / (1 << 20)
            with open(path, "rb") as trace:
                told = subprocess.run(ours, stdin=trace, stdout=subprocess.PIPE, text=True).stdout.strip()
            time, other, most = seconds(ours, path, asked.rounds), seconds(loop, path, asked.rounds), peak(ours, path)
            print(f"{messages:,} messages, a trace of {size:.1f} MiB: {time:.2f} s, the loop {other:.2f} s, {time / other:.2f} times that; "
                  f"{most:.0f} MiB, {most / size:.1f} times the trace; {told}", flush=True)


if __name__ == "__main__":
    main()
