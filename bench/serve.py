#!/usr/bin/env python3
"""Measures `sr serve` beside three other servers of the same hub protocol under load, in one run. It is no test.

    bench/serve.py [--runs N] [--seconds S] [--connections K] [--idle I] [--members M] [--items N] [--hold H] [--only MEASURE].. PROGRAM

The others are bench/serve/node_server.mjs (Node with Debian's node-ws), bench/serve/go_server.go (Debian's golang-go and
golang-github-gorilla-websocket-dev, with GOMAXPROCS=1) and bench/serve/python_server.py (Debian's python3-websockets and asyncio).
bench/serve/load.c, built by `cc -O2`, is the client of all. Where there are two processors or more each server is pinned to the last one,
and the client to the one before it:

- echo: K connections, each with one Echo of 100 bytes in flight for S seconds.
- lone: the same of one connection.
- beside, amid: echo and lone beside I idle connections.
- broadcast: M members of a room, one of which posts for S seconds, and again once all were told.
- stream: one Count of N items. The others say 64 items in one message.
- single: the same, but the others have one item in each message, as sr has.
- kept: the same over a connection that may be resumed, whose items the client acknowledges. Only sr has that.
- hold: H connections that stay for a minute and ping each 15 seconds.

Told are the medians of the runs, in which the servers take turns; of hold there is one run. Processor time is the server's, of a
message, a delivery or an item; memory is resident memory past that of a server without connections. A ratio above 1 says that sr is
better by that factor. What isn't installed is left out, which is said."""
import argparse
import contextlib
import dataclasses
import json
import os
import pathlib
import shutil
import socket
import statistics
import subprocess
import sys
import tempfile

TOP = pathlib.Path(__file__).resolve().parent.parent
FOLDER = TOP / "bench" / "serve"
# Time for four pings.
HOLD_SECONDS = 60


@dataclasses.dataclass
class Server:
    """How a server is started on a port; `missing` says why it can't be."""

    name: str
    words: list
    missing: str = ""

    def command(self, port, *options):
        return [*self.words, "serve", "--port", str(port)] if self.name == "sr" else [*self.words, str(port), *options]


@dataclasses.dataclass
class Measure:
    """What load.c and the other servers are asked to do, and what is told of it: a title, the name of the number, and whether more of it is better."""

    title: str
    words: list
    rows: list
    options: tuple = ()
    only: str = ""
    runs: int = 0


def python_with_websockets():
    """This Python or Debian's, whichever has the package."""
    for python in (sys.executable, "/usr/bin/python3"):
        if shutil.which(python) and subprocess.run([python, "-c", "import websockets.legacy.server"], stderr=subprocess.DEVNULL).returncode == 0:
            return python
    return None


def pinned(place):
    """Words that pin a command to the last processor, or to one so far before it, where there are two or more."""
    count = os.cpu_count()
    return ["taskset", "-c", str(count - 1 - place)] if count > 1 and shutil.which("taskset") else []


def go_server(folder):
    """The server in Go, built in a folder, or why it can't be."""
    go, program = shutil.which("go"), os.path.join(folder, "go_server")
    if not go:
        return [], "golang isn't installed"
    settings = {"GO111MODULE": "off", "GOPATH": "/usr/share/gocode", "GOCACHE": os.path.join(tempfile.gettempdir(), "sr-bench-go"), "GOFLAGS": ""}
    made = subprocess.run([go, "build", "-o", program, str(FOLDER / "go_server.go")], env=os.environ | settings, stderr=subprocess.PIPE, text=True)
    return [program], "" if made.returncode == 0 else f"go_server.go doesn't build: {made.stderr.strip().splitlines()[-1]}"


def servers(program, folder):
    node, python = shutil.which("node"), python_with_websockets()
    go, no_go = go_server(folder)
    has_ws = node and subprocess.run([node, "-e", "try { require('ws') } catch { require('/usr/share/nodejs/ws') }"], stderr=subprocess.DEVNULL).returncode == 0
    return [
        Server("sr", [program]),
        Server("node", [node, str(FOLDER / "node_server.mjs")], "" if has_ws else "node with the package ws isn't installed"),
        Server("go", go, no_go),
        Server("python", [python, str(FOLDER / "python_server.py")], "" if python else "python3-websockets isn't installed"),
    ]


def measures(asked):
    cost = ("processor time of each, microseconds", "cost_us", False)
    rate = "rate", True
    echo = [("messages a second", *rate), ("median latency, microseconds", "median_us", False), ("99th percentile, microseconds", "p99_us", False), cost]
    broadcast = [("deliveries a second", *rate), ("until all were told, microseconds", "round_us", False), cost]
    stream = [("items a second", *rate), cost]
    memory = [("memory of each, bytes", "memory", False), ("the same after a minute", "memory_after", False)]
    hold = [("still open", "stayed", True), ("opened a second", "opens_per_second", True), *memory]
    seconds = str(asked.seconds)
    return {
        "echo": Measure(f"echo, {asked.connections} connections", ["echo", str(asked.connections), seconds], echo),
        "lone": Measure("echo, one connection", ["echo", "1", seconds], echo),
        "beside": Measure(f"echo, beside {asked.idle:,} idle ones", ["echo", str(asked.connections), seconds, str(asked.idle)], echo),
        "amid": Measure(f"echo, one amid {asked.idle:,} idle ones", ["echo", "1", seconds, str(asked.idle)], echo),
        "broadcast": Measure(f"broadcast, {asked.members} members", ["broadcast", str(asked.members), seconds], broadcast),
        "stream": Measure(f"stream, {asked.items:,} items", ["stream", str(asked.items)], stream),
        "single": Measure("stream, an item in each message", ["stream", str(asked.items)], stream, options=("single",)),
        "kept": Measure("stream, kept and acknowledged", ["stream", str(asked.items), "kept"], stream, only="sr"),
        "hold": Measure(f"hold, {asked.hold:,} connections", ["hold", str(asked.hold), str(HOLD_SECONDS)], hold, runs=1),
    }


def free_port():
    with socket.socket() as taken:
        taken.bind(("127.0.0.1", 0))
        return taken.getsockname()[1]


def resident(process):
    """Resident memory in bytes."""
    return int(pathlib.Path(f"/proc/{process.pid}/status").read_text().split("VmRSS:")[1].split()[0]) * 1024


def processor_us(process):
    """Of all its threads: the first number of each is nanoseconds."""
    return sum(int(threads.read_text().split()[0]) for threads in pathlib.Path(f"/proc/{process.pid}/task").glob("*/schedstat")) / 1_000


@contextlib.contextmanager
def started(command):
    """A server that says that it serves, and the end of it."""
    process = subprocess.Popen([*pinned(0), *command], stdout=subprocess.PIPE, text=True, env=os.environ | {"GOMAXPROCS": "1"})
    try:
        if not process.stdout.readline().startswith("serving"):
            raise SystemExit(f"{command} doesn't serve")
        yield process
    finally:
        process.kill()
        process.wait()


def loaded(load, port, process, measure):
    """What load.c tells of one run against a server, and that server's memory and processor time."""
    before = resident(process)
    client = subprocess.Popen([*pinned(1), load, str(port), *measure.words], stdout=subprocess.PIPE, text=True)
    told = json.loads(client.stdout.readline() or "{}")
    memory, began = resident(process) - before, processor_us(process)
    told |= json.loads(client.stdout.readline() or "{}")
    if client.wait() != 0 or "count" not in told:
        raise SystemExit(f"{measure.title} failed at {process.args}")
    told["cost_us"] = (processor_us(process) - began) / max(told["count"], 1)
    told["memory"], told["memory_after"] = memory / told["opened"], (resident(process) - before) / told["opened"]
    return told


def run(load, server, measure):
    """The same of a server that is begun for it."""
    port = free_port()
    with started(server.command(port, *measure.options)) as process:
        return loaded(load, port, process, measure)


def built(folder, name):
    """A program of bench/serve, built in a folder."""
    program = os.path.join(folder, name)
    subprocess.run(["cc", "-O2", "-o", program, str(FOLDER / f"{name}.c")], check=True)
    return program


def ratio(ours, theirs, more_is_better):
    if not theirs or not ours:
        return "-"
    return f"{ours / theirs if more_is_better else theirs / ours:.2f}"


def table(measure, names, results):
    """The rows of a measure: a number for each server, and then the ratio to each of the others."""
    others = [name for name in names[1:] if results.get(name)]
    lines = [f"{measure.title:<42}" + "".join(f"{name:>12}" for name in names) + "".join(f"{'sr/' + name:>12}" for name in others)]
    for title, key, more_is_better in measure.rows:
        medians = {name: statistics.median(it[key] for it in results[name]) for name in names if results.get(name)}
        cells = [f"{medians[name]:,.{2 if key == 'cost_us' else 0}f}" if name in medians else "-" for name in names]
        ratios = [ratio(medians[names[0]], medians[name], more_is_better) for name in others]
        lines.append(f"    {title:<38}" + "".join(f"{it:>12}" for it in cells + ratios))
    return "\n".join(lines)


def main():
    parser = argparse.ArgumentParser(description=__doc__, formatter_class=argparse.RawDescriptionHelpFormatter)
    for name, default in (("runs", 3), ("seconds", 3), ("connections", 50), ("idle", 5_000), ("members", 1_000), ("items", 1_000_000), ("hold", 10_000)):
        parser.add_argument(f"--{name}", type=int, default=default)
    parser.add_argument("--only", action="append", help="a measure by its name; more than once for several")
    parser.add_argument("program")
    asked = parser.parse_args()
    with tempfile.TemporaryDirectory() as folder:
        present = servers(asked.program, folder)
        for server in present:
            if server.missing:
                print(f"{server.name} is left out: {server.missing}")
        present = [server for server in present if not server.missing]
        load = built(folder, "load")
        for name, measure in measures(asked).items():
            if asked.only and name not in asked.only:
                continue
            measured = [server for server in present if measure.only in ("", server.name)]
            results = {server.name: [] for server in measured}
            for _run in range(measure.runs or asked.runs):
                for server in measured:
                    results[server.name].append(run(load, server, measure))
            print(table(measure, [server.name for server in measured], results), flush=True)
    return 0


if __name__ == "__main__":
    sys.exit(main())
