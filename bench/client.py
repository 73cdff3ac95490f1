#!/usr/bin/env python3
"""Measures `sr client` beside a client in Node over the package ws, in one run, against the same `sr serve`. It is no test.

    bench/client.py [--runs N] [--calls N] [--at-once N] PROGRAM

The other is bench/serve/node_client.mjs (Node with Debian's node-ws), which does the same script, and has to print the same. Where there are two
processors or more the server is pinned to the last one, and each client to the one before it:

- lone: so many calls of Echo, one after the other.
- many: the same calls, so many at once: the next are made when all before were answered.

Told are the medians of the runs, in which the clients take turns: the client's processor time, whole and of a call past that of a script without
calls, and calls a second. A ratio above 1 says that sr is better by that factor. What isn't installed is left out, which is said."""
import argparse
import os
import shutil
import statistics
import subprocess
import sys
import tempfile
import time

from serve import FOLDER, free_port, pinned, started


def node_words():
    """What the client in Node is begun with, or None."""
    node, loads = shutil.which("node"), "try { require('ws') } catch { require('/usr/share/nodejs/ws') }"
    has_ws = node and subprocess.run([node, "-e", loads], stderr=subprocess.DEVNULL).returncode == 0
    return [node, str(FOLDER / "node_client.mjs")] if has_ws else None


def script(calls, at_once):
    """Calls of one digit each, so that 50,000 with as many waits are within the 1,048,576 bytes of a script."""
    lines = []
    for number in range(1, calls + 1):
        lines.append(f"call Echo [{number % 10}]\n")
        if number % at_once == 0:
            lines.append("wait\n")
    return "".join(lines).encode()


def ran(command, text):
    """The processor time of a client in seconds, how long it took, and what it printed."""
    with tempfile.TemporaryFile() as given, tempfile.TemporaryFile() as out:
        given.write(text)
        given.seek(0)
        began = time.monotonic()
        process = subprocess.Popen([*pinned(1), *command], stdin=given, stdout=out)
        _, status, used = os.wait4(process.pid, 0)
        took = time.monotonic() - began
        if status != 0:
            raise SystemExit(f"{command} ended with {os.waitstatus_to_exitcode(status)}")
        out.seek(0)
        return used.ru_utime + used.ru_stime, took, out.read()


def measured(commands, text):
    """Of each client the processor time, the time, and what it printed, in one turn of each."""
    return {name: ran(command, text) for name, command in commands.items()}


def median(runs, name, place):
    return statistics.median(run[name][place] for run in runs)


def row(title, values, ratio):
    cells = "".join(f"{value:>12,.2f}" for value in values)
    print(f"{title:<58}{cells}" + (f"{ratio:>12.2f}" if ratio else ""), flush=True)


def measure(title, commands, text, count, nothing):
    runs = [measured(commands, text) for _run in range(count["runs"])]
    printed = {run[name][2] for run in runs for name in commands}
    if len(printed) != 1:
        raise SystemExit(f"{title}: they print different things")
    whole = [median(runs, name, 0) * 1e3 for name in commands]
    costs = [(spent - nothing[name]) * 1e3 / count["calls"] for name, spent in zip(commands, whole)]
    rates = [count["calls"] / median(runs, name, 1) for name in commands]
    both = len(costs) == 2
    row(f"{title}: processor time, milliseconds", whole, both and whole[1] / whole[0])
    row("    of a call, past that without calls, microseconds", costs, both and costs[1] / costs[0])
    row("    calls a second", rates, both and rates[0] / rates[1])


def main():
    parser = argparse.ArgumentParser(description=__doc__, formatter_class=argparse.RawDescriptionHelpFormatter)
    for name, default in (("runs", 5), ("calls", 50_000), ("at-once", 1_000)):
        parser.add_argument(f"--{name}", type=int, default=default)
    parser.add_argument("program")
    asked = parser.parse_args()
    node, port = node_words(), free_port()
    if not node:
        print("node is left out: node with the package ws isn't installed")
    url, count = f"http://127.0.0.1:{port}/hub", {"runs": asked.runs, "calls": asked.calls}
    commands = {"sr": [asked.program, "client", url], **({"node": [*node, url]} if node else {})}
    with started([asked.program, "serve", "--port", str(port)]):
        print(f"{'':<58}" + "".join(f"{name:>12}" for name in commands) + (f"{'sr/node':>12}" if node else ""))
        empty = [measured(commands, b"") for _run in range(asked.runs)]
        nothing = {name: median(empty, name, 0) * 1e3 for name in commands}
        row("a script without calls: processor time, milliseconds", nothing.values(), None)
        measure("lone", commands, script(asked.calls, 1), count, nothing)
        measure(f"many, {asked.at_once:,} at once", commands, script(asked.calls, asked.at_once), count, nothing)
    return 0


if __name__ == "__main__":
    sys.exit(main())
