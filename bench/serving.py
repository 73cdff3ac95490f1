#!/usr/bin/env python3
"""Measures what an event of one connection of a server costs alone and beside idle ones, in one run. It is no test.

    bench/serving.py [--idle N] [--events N] [--runs N] [PROGRAM]

A server of rooms hears so many WebSockets open, of which one then calls `Away` again and again, which is no method; so each event is read, begins
a job, is stepped and answered. Told are the microseconds of such an event, by the median of the runs, from which the time of the same script
without these events is taken off. PROGRAM is crates/ht_server/out/ht_server by default, as `rt run` builds it; what it needs to read its
script and to print is part of both."""
import argparse
import statistics
import subprocess
import sys
import time

from run import TOP

SHAKE = '{"protocol":"json","version":1}|'


def script(idle, events):
    lines = ["server - - -"]
    for lane in range(1, idle + 2):
        lines += [f"0 request {lane} GET /hub upgrade=k", f"0 text {lane} {SHAKE}"]
    lines += [f'0 text 1 {{"arguments":[],"invocationId":"{n}","target":"Away","type":1}}|' for n in range(events)]
    return ("\n".join(lines) + "\n").encode()


def took(program, text):
    began = time.monotonic()
    subprocess.run([program], input=text, stdout=subprocess.DEVNULL, check=True)
    return time.monotonic() - began


def cost(asked, idle):
    """The seconds of one event."""
    short, whole = script(idle, 0), script(idle, asked.events)
    times = [took(asked.program, whole) - took(asked.program, short) for _run in range(asked.runs)]
    return statistics.median(times) / asked.events


def main():
    parser = argparse.ArgumentParser(description=__doc__, formatter_class=argparse.RawDescriptionHelpFormatter)
    parser.add_argument("--idle", type=int, default=9_999)
    parser.add_argument("--events", type=int, default=200_000)
    parser.add_argument("--runs", type=int, default=5)
    parser.add_argument("program", nargs="?", default=str(TOP / "crates" / "ht_server" / "out" / "ht_server"))
    asked = parser.parse_args()
    alone, beside = cost(asked, 0), cost(asked, asked.idle)
    print(f"an event alone {alone * 1e6:.1f} microseconds, beside {asked.idle} idle connections {beside * 1e6:.1f}: ratio {beside / alone:.1f}")
    return 0


if __name__ == "__main__":
    sys.exit(main())
