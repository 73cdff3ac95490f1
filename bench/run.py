#!/usr/bin/env python3
"""Measures the splitter, `sr check` and `sr convert` beside others over the same bytes, in one run. It is no test.

    bench/run.py [--rounds N] [--mebibytes N]

The splitter (crates/split_bench) counts the frames of 64 MiB, fed in pieces of 4,096 bytes, for frames of 3, 60 and
32,768 bytes, each followed by the separator. `wc -l` and `grep -c` count the lines of the same bytes with line ends in
the separators' place. `sr check json`, `sr check
pack` and `sr convert` both ways run over 64 MiB of invocations of 60 to 300 bytes, beside bench/peer, a Rust program over
Debian's librust-serde-json-dev and librust-rmp-serde-dev that writes the same; if these aren't installed it is left
out. Peak memory of both is told. Then each of the nine messages and an invocation of 32 KiB: a MiB of it alone, checked and
converted. Of each the best of N rounds counts, in processor time (user and system). The ratio is the other's time by ours:
1.00 is as fast, 0.50 takes twice as long. If valgrind is there, instructions are counted as well, over a MiB; they are the same in each
run. Needs the built programs: `rt run` in crates/split_bench and in crates/sr_app, which this does first."""
import argparse
import json
import os
import pathlib
import random
import re
import resource
import shutil
import subprocess
import tempfile

TOP = pathlib.Path(__file__).resolve().parent.parent


def built(crate):
    """The program of a crate, proved and built where that is not done yet."""
    folder = TOP / "crates" / crate
    args = (folder / "args").read_text().split() if (folder / "args").exists() else []
    with open(folder / "stdin", "rb") as stdin:
        subprocess.run(["rt", "run", "--", *args], cwd=folder, stdin=stdin, stdout=subprocess.DEVNULL, stderr=subprocess.DEVNULL, check=True)
    return str(folder / "out" / crate)


def seconds(command, path, rounds):
    """The least processor time of so many runs over the file, into another file: at /dev/null grep stops early."""
    least = float("inf")
    for _ in range(rounds):
        before = resource.getrusage(resource.RUSAGE_CHILDREN)
        with open(path, "rb") as stdin, open(path + ".out", "wb") as stdout:
            subprocess.run(command, stdin=stdin, stdout=stdout, env={**os.environ, "LC_ALL": "C"}, check=True)
        after = resource.getrusage(resource.RUSAGE_CHILDREN)
        least = min(least, after.ru_utime + after.ru_stime - before.ru_utime - before.ru_stime)
    return least


def row(name, size, ours, scans):
    rates = [f"{name:<34}{size / ours / 1e6:>8.0f} MB/s"]
    rates += [f"{scan} {size / time / 1e6:.0f} MB/s, ratio {time / ours:.2f}" for scan, time in scans]
    print("   ".join(rates))


def frames(length, total):
    frame = (b"frame " * (length // 6 + 1))[:length] + b"\x1e"
    return frame * (total // len(frame))


def peak(command, path):
    """The most memory that a run had when it was handed the whole file, in MiB."""
    run = subprocess.Popen(command, stdin=subprocess.PIPE, stdout=subprocess.DEVNULL)
    with open(path, "rb") as data:
        shutil.copyfileobj(data, run.stdin)
    status = pathlib.Path(f"/proc/{run.pid}/status").read_text()
    run.stdin.close()
    run.wait()
    return int(status.split("VmHWM:")[1].split()[0]) / 1024


def cargo_built(folder, name):
    """The program of a folder with a Cargo.toml, built over Debian's crates without a network."""
    target = pathlib.Path(tempfile.gettempdir()) / f"sr-bench-{name}"
    source = ['source.crates-io.replace-with="debian"', 'source.debian.directory="/usr/share/cargo/registry"']
    options = [option for setting in source for option in ("--config", setting)]
    subprocess.run(["cargo", "build", "--quiet", "--release", "--offline", "--target-dir", target, *options], cwd=folder, check=True)
    return str(target / "release" / name)


def peer():
    """The Rust program to measure beside, or None where its crates aren't there."""
    if not list(pathlib.Path("/usr/share/cargo").glob("registry/serde_json*")) or not list(pathlib.Path("/usr/share/cargo").glob("registry/rmp-serde*")):
        return None
    return cargo_built(TOP / "bench" / "peer", "peer")


def instructions(command, path):
    """How many instructions a run over the file takes, or None if valgrind isn't there."""
    if not shutil.which("valgrind"):
        return None
    with open(path, "rb") as stdin:
        counting = ["valgrind", "--tool=callgrind", "--callgrind-out-file=/dev/null", *command]
        ran = subprocess.run(counting, stdin=stdin, stdout=subprocess.DEVNULL, stderr=subprocess.PIPE, text=True)
    return int(re.search(r"Collected : (\d+)", ran.stderr)[1])


def output(command, path):
    with open(path, "rb") as stdin:
        return subprocess.run(command, stdin=stdin, stdout=subprocess.PIPE).stdout


def packed(program, path):
    """The same stream as MessagePack, in a file beside it."""
    pathlib.Path(path + ".pack").write_bytes(output([program, "convert", "json", "pack"], path))
    return path + ".pack"


def tasks_over(program, json_path):
    """The words of each task, and the stream that it reads."""
    pack_path = packed(program, json_path)
    return ((["check", "json"], json_path), (["check", "pack"], pack_path), (["convert", "json", "pack"], json_path), (["convert", "pack", "json"], pack_path))


def tasks(program, other, json_path, mebibyte, rounds):
    """Each task over a stream, beside the other program: rates, the ratio, peak memory; and instructions over a MiB."""
    for (words, path), (_, short) in zip(tasks_over(program, json_path), tasks_over(program, mebibyte)):
        ours, theirs = [program, *words], [other, *words]
        beside = [("serde", seconds(theirs, path, rounds))] if other else []
        row(" ".join(words), os.path.getsize(path), seconds(ours, path, rounds), beside)
        if not other:
            print(f"    {peak(ours, path):.1f} MiB at most")
            continue
        counts = [instructions(command, short) for command in (ours, theirs)]
        if None not in counts:
            print(f"    {counts[0] / 1e6:.1f} million instructions for a MiB, the other {counts[1] / 1e6:.1f}, ratio {counts[1] / counts[0]:.2f}")
        print(f"    the same output: {output(ours, path) == output(theirs, path)}; {peak(ours, path):.1f} MiB at most, the other {peak(theirs, path):.1f} MiB")


EACH = (
    ("Invocation", {"type": 1, "invocationId": "12", "target": "Send", "arguments": [42, "a text", {"room": 7}]}),
    ("StreamItem", {"type": 2, "invocationId": "12", "item": [1, 2, 3]}),
    ("Completion", {"type": 3, "invocationId": "12", "result": {"sum": 12345}}),
    ("StreamInvocation", {"type": 4, "invocationId": "12", "target": "Count", "arguments": [1000]}),
    ("CancelInvocation", {"type": 5, "invocationId": "12"}),
    ("Ping", {"type": 6}),
    ("Close", {"type": 7, "error": "Connection closed.", "allowReconnect": True}),
    ("Ack", {"type": 8, "sequenceId": 1394}),
    ("Sequence", {"type": 9, "sequenceId": 1234}),
    ("Invocation of 32 KiB", {"type": 1, "target": "Send", "arguments": ["some text " * 3200]}),
)


def each_message(program, other, path):
    """The ratios of each task for each message alone, by instructions over a MiB of it, or by time if valgrind isn't there."""
    for name, message in EACH:
        frame = json.dumps(message, separators=(",", ":")).encode() + b"\x1e"
        pathlib.Path(path).write_bytes(frame * ((1 << 20) // len(frame)))
        ratios = []
        for words, stream in tasks_over(program, path):
            cost = [instructions([it, *words], stream) or seconds([it, *words], stream, 3) for it in (program, other)]
            ratios.append(f"{' '.join(words)} {cost[1] / cost[0]:.2f}")
        print(f"{name:<22} {', '.join(ratios)}")


def invocations(total):
    draw = random.Random(1)
    frames = []
    while sum(map(len, frames)) < 1 << 20:
        arguments = [draw.choice([draw.randrange(10**6), "text %x" % draw.getrandbits(80), None, {"room": draw.randrange(99), "by": "ann"}]) for _ in range(draw.randrange(2, 8))]
        frames.append(json.dumps({"type": 1, "invocationId": str(draw.randrange(10**4)), "target": "Send", "arguments": arguments}, separators=(",", ":")).encode() + b"\x1e")
    piece = b"".join(frames)
    return piece * max(1, total // len(piece))


def main():
    words = argparse.ArgumentParser(description=__doc__, formatter_class=argparse.RawDescriptionHelpFormatter)
    words.add_argument("--rounds", type=int, default=5)
    words.add_argument("--mebibytes", type=int, default=64)
    asked = words.parse_args()
    splitter, program = built("split_bench"), built("sr_app")
    with tempfile.TemporaryDirectory() as folder:
        path, lines = os.path.join(folder, "frames"), os.path.join(folder, "lines")
        for length in (3, 60, 32768):
            data = frames(length, asked.mebibytes << 20)
            pathlib.Path(path).write_bytes(data)
            pathlib.Path(lines).write_bytes(data.replace(b"\x1e", b"\n"))
            scans = [(scan, seconds(command, lines, asked.rounds)) for scan, command in (("wc -l", ["wc", "-l"]), ("grep -c", ["grep", "-c", "r"]))]
            row(f"splitter, frames of {length:,}", len(data), seconds([splitter], path, asked.rounds), scans)
        other, mebibyte = peer(), os.path.join(folder, "mebibyte")
        pathlib.Path(path).write_bytes(invocations(asked.mebibytes << 20))
        pathlib.Path(mebibyte).write_bytes(invocations(1 << 20))
        tasks(program, other, path, mebibyte, asked.rounds)
        if other:
            each_message(program, other, path)


if __name__ == "__main__":
    main()
