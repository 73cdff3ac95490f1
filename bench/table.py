#!/usr/bin/env python3
"""Measures all for which docs/speed.md has a goal, in one run of some ten minutes, and prints it as a table in Markdown. It is no test.

    bench/table.py [--runs N] [--seconds S] [--scale F] [--only PART].. PROGRAM

The servers beside are those of bench/serve.py, the checker beside `sr check` is bench/peer. What is told is processor time, instructions
(by callgrind), and resident memory: other work disturbs them less than rates. Each is the median of N runs (3), in which the servers take
turns; what is said to be amid others is measured alone and amid them in one run of one server, and its ratio is the median of the runs'. Ratios
to others are theirs by ours. A scale below 1 makes counts of connections and items smaller, to try it. A part is one of echo, instructions,
amid, broadcast, posts, stream, memory, check, slow. What isn't installed is left out, which is said."""
import argparse
import contextlib
import dataclasses
import json
import os
import pathlib
import statistics
import subprocess
import sys
import tempfile
import time

import instructions
import run
from serve import Measure, built, free_port, loaded, pinned, servers, started
from serve import run as begun

NAMES = {"node": "Node", "go": "Go"}


@dataclasses.dataclass
class Bench:
    """What is measured with: the servers, of which ours is the first, the programs built for it, and what was asked."""

    servers: dict
    load: str
    hold: str
    folder: str
    asked: argparse.Namespace

    def scaled(self, count):
        return max(1, round(count * self.asked.scale))


def number(value):
    return "-" if value is None else f"{value:,.0f}" if value >= 1_000 else f"{value:.3g}"


def row(what, ours, beside, theirs, value, goal, is_most=False):
    """A line of the table. The value is what the goal is for: at most that, or at least."""
    reached = "not measured" if value is None else "yes" if (value <= goal if is_most else value >= goal) else "**no**"
    cells = [what, number(ours), beside, number(theirs), number(value), f"{'at most' if is_most else 'at least'} {number(goal)}", reached]
    print(f"| {' | '.join(cells)} |", flush=True)


def beside(bench, what, words, goals, options=()):
    """The processor time of each message beside that of other servers."""
    asked = [bench.servers[name] for name in ("sr", *goals) if name in bench.servers]
    costs = {server.name: [] for server in asked}
    for _run in range(bench.asked.runs):
        for server in asked:
            costs[server.name].append(begun(bench.load, server, Measure(what, words, [], options))["cost_us"])
    medians = {name: statistics.median(all_costs) for name, all_costs in costs.items()}
    for name, goal in goals.items():
        theirs = medians.get(name)
        row(what, medians["sr"], NAMES[name], theirs, theirs and theirs / medians["sr"], goal)


@contextlib.contextmanager
def held(command):
    """Connections that wait, until the end of it."""
    process = subprocess.Popen([*pinned(2 if os.cpu_count() > 2 else 1), *command], stdout=subprocess.PIPE, text=True)
    try:
        if "opened" not in json.loads(process.stdout.readline() or "{}"):
            raise SystemExit(f"{command} doesn't hold its connections")
        time.sleep(1)
        yield
    finally:
        process.kill()
        process.wait()


def amid(bench, what, words, waiting, goal=1.2):
    """The processor time of each message amid connections that wait, over that alone."""
    alone, among = [], []
    for _run in range(bench.asked.runs):
        port = free_port()
        with started(bench.servers["sr"].command(port)) as process:
            alone.append(loaded(bench.load, port, process, Measure(what, words, []))["cost_us"])
            with held(waiting(port)):
                among.append(loaded(bench.load, port, process, Measure(what, words, []))["cost_us"])
    ratio = statistics.median(some / one for some, one in zip(among, alone))
    row(what, statistics.median(among), "alone", statistics.median(alone), ratio, goal, is_most=True)


def echo(bench):
    beside(bench, "echo of 100 bytes, 50 connections, µs", ["echo", "50", str(bench.asked.seconds)], {"node": 3, "go": 2})


def echo_instructions(bench):
    for connections, calls in ((50, (2_000, 12_000)), (bench.scaled(1_000), (3_000, 13_000))):
        asked = argparse.Namespace(connections=connections, idle=0, amid=None, calls=calls)
        cost = sum(instructions.counted(bench.asked.program, asked).values())
        row(f"instructions of an echo, {connections:,} connections", cost, "", None, cost, 20_000, is_most=True)


def echo_amid(bench):
    words, hold = ["echo", "1", str(bench.asked.seconds)], bench.hold
    idle, others = str(bench.scaled(5_000)), str(bench.scaled(2_000))
    amid(bench, f"echo of one amid {idle} idle, µs", words, lambda port: [bench.load, str(port), "hold", idle, "600"])
    amid(bench, f"echo of one amid {others} held polls, µs", words, lambda port: [hold, str(port), "polls", others])
    amid(bench, f"echo of one amid {others} silent, µs", words, lambda port: [hold, str(port), "silent", others])


def broadcast(bench):
    members = str(bench.scaled(1_000))
    beside(bench, f"delivery of a post to {members}, µs", ["broadcast", members, str(bench.asked.seconds)], {"node": 3, "go": 1.8})


def posts(bench):
    members = str(max(16, bench.scaled(500)))
    beside(bench, f"delivery, 16 posts at once to {members}, µs", ["broadcast", members, str(bench.asked.seconds), "16"], {"go": 5})


def stream(bench):
    items = str(bench.scaled(500_000))
    beside(bench, "item of a stream, each in a message, µs", ["stream", items], {"node": 5, "go": 1.5}, ("single",))
    beside(bench, "item of a stream, 64 in a message of the others, µs", ["stream", items], {"node": 0.5, "go": 0.5})
    idle = str(bench.scaled(2_000))
    amid(bench, f"item of a stream amid {idle} idle, µs", ["stream", items], lambda port: [bench.load, str(port), "hold", idle, "600"])


def memory(bench):
    for what, words, goal in (
        ("memory of each of {:,} at rest, bytes", ["hold", str(bench.scaled(10_000)), "1"], 9_000),
        ("memory of each of {:,} after 30,000 bytes each, bytes", ["fed", str(bench.scaled(2_000)), "30000"], 45_000),
    ):
        each = begun(bench.load, bench.servers["sr"], Measure(what, words, []))["memory"]
        row(what.format(int(words[1])), each, "", None, each, goal, is_most=True)


def check(bench):
    other = run.peer()
    path, empty = (os.path.join(bench.folder, name) for name in ("frames", "empty"))
    pathlib.Path(empty).write_bytes(b"")
    streams = [("an invocation of 60 to 300 bytes", run.invocations(1 << 20), 1.3)]
    for name, message in run.EACH:
        if name in ("Ping", "Ack"):
            frame = json.dumps(message, separators=(",", ":")).encode() + b"\x1e"
            streams.append((name, frame * ((1 << 18) // len(frame)), 1.2))
    for name, frames, goal in streams:
        pathlib.Path(path).write_bytes(frames)
        commands = [[program, "check", "json"] for program in (bench.asked.program, other) if program]
        costs = [(run.instructions(command, path) - run.instructions(command, empty)) / frames.count(b"\x1e") for command in commands]
        theirs = costs[1] if other else None
        row(f"`check json`, {name}, instructions", costs[0], "serde_json", theirs, theirs and theirs / costs[0], goal)


def slow(bench):
    items = bench.scaled(1_000_000)
    what = f"items of {items:,} that a client gets at 1 MB/s"
    came = begun(bench.load, bench.servers["sr"], Measure(what, ["stream", str(items), "slow"], []))["count"]
    row(what, came, "", None, came, items)


PARTS = {
    "echo": echo,
    "instructions": echo_instructions,
    "amid": echo_amid,
    "broadcast": broadcast,
    "posts": posts,
    "stream": stream,
    "memory": memory,
    "check": check,
    "slow": slow,
}


def main():
    parser = argparse.ArgumentParser(description=__doc__, formatter_class=argparse.RawDescriptionHelpFormatter)
    for name, kind, default in (("runs", int, 3), ("seconds", int, 2), ("scale", float, 1.0)):
        parser.add_argument(f"--{name}", type=kind, default=default)
    parser.add_argument("--only", action="append", choices=PARTS)
    parser.add_argument("program")
    asked = parser.parse_args()
    print(f"Load of the machine before: {os.getloadavg()[0]:.1f} on {os.cpu_count()} processors.\n")
    with tempfile.TemporaryDirectory() as folder:
        present = {server.name: server for server in servers(asked.program, folder)}
        bench = Bench({}, built(folder, "load"), built(folder, "hold"), folder, asked)
        for name, server in present.items():
            if name not in NAMES or not server.missing:
                bench.servers[name] = server
            else:
                print(f"{name} is left out: {server.missing}\n")
        print("| | `sr` | beside | theirs | ratio or value | goal | reached |\n|---|---|---|---|---|---|---|")
        for name, part in PARTS.items():
            if not asked.only or name in asked.only:
                part(bench)
    return 0


if __name__ == "__main__":
    sys.exit(main())
