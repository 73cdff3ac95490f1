#!/usr/bin/env python3
"""Counts the instructions that `sr serve` takes for one call of Echo, by callgrind, which other work on the machine doesn't disturb. It is no test.

    bench/instructions.py [--connections K] [--idle I] [--amid KIND COUNT] [--calls FROM TO] [--crates N] PROGRAM

Two runs of the server, each under the load of bench/serve/load.c until so many calls are answered: K connections, each with one Echo of 100 bytes in
flight, beside I idle ones. The difference of the two is divided by that of the calls, so the start and the handshakes drop out. With --amid so many
connections wait meanwhile: idle ones (idle), held polls (polls), or ones on which nothing was said (silent). Nothing is counted until they do; the
runs are to end before their pings, 15 seconds later. Told are the instructions of a call, and those of each crate, the dearest first, if the program
has its names: a release is stripped. A server under callgrind is slow, so its share of turns in which nothing is heard differs from run to run, by
some percent of the whole."""
import argparse
import collections
import contextlib
import os
import pathlib
import re
import shutil
import subprocess
import sys
import tempfile

from serve import built, free_port


def named(word, names):
    """The function of a line of callgrind's, which names each once and then says its number alone."""
    number, _, name = word.partition(" ")
    if name:
        names[number] = name
    return names.get(number, number)


def costs(profile):
    """By function, its own instructions."""
    own, names = collections.Counter(), {}
    function = None
    is_call = False
    for line in pathlib.Path(profile).read_text().splitlines():
        if line.startswith("fn="):
            function = named(line[3:], names)
        elif line.startswith("cfn="):
            named(line[4:], names)
        elif line.startswith("calls="):
            is_call = True
        elif re.match(r"[0-9+*-]", line) and len(line.split()) > 1:
            if not is_call:
                own[function] += int(line.split()[1])
            is_call = False
    return own


@contextlib.contextmanager
def waiting(folder, port, server, amid):
    """Connections that wait, until the end of it, if that is asked for. From then on instructions are counted."""
    if not amid:
        yield
        return
    kind, count = amid
    words = [built(folder, "load"), str(port), "hold", count, "600"] if kind == "idle" else [built(folder, "hold"), str(port), kind, count]
    holder = subprocess.Popen(words, stdout=subprocess.PIPE, stderr=subprocess.DEVNULL, text=True)
    try:
        if "opened" not in holder.stdout.readline():
            raise SystemExit(f"{words} doesn't hold its connections")
        subprocess.run(["callgrind_control", "-i", "on", str(server.pid)], stdout=subprocess.DEVNULL, stderr=subprocess.DEVNULL, check=True)
        yield
    finally:
        holder.kill()
        holder.wait()


def run(program, load, calls, asked, folder):
    """The profile of a server that answers so many calls."""
    profile, port = os.path.join(folder, str(calls)), free_port()
    words = ["valgrind", "--tool=callgrind", f"--instr-atstart={'no' if asked.amid else 'yes'}", f"--callgrind-out-file={profile}"]
    server = subprocess.Popen([*words, program, "serve", "--port", str(port)], stdout=subprocess.PIPE, stderr=subprocess.DEVNULL, text=True)
    if not server.stdout.readline().startswith("serving"):
        raise SystemExit(f"{program} doesn't serve")
    with waiting(folder, port, server, asked.amid):
        subprocess.run([load, str(port), "echoes", str(asked.connections), str(calls), str(asked.idle)], stdout=subprocess.DEVNULL, check=True)
    server.terminate()
    server.wait()
    return costs(profile)


def counted(program, asked):
    """The instructions of a call by crate."""
    if not shutil.which("valgrind"):
        raise SystemExit("valgrind isn't installed")
    with tempfile.TemporaryDirectory() as folder:
        load = built(folder, "load")
        first, last = (run(program, load, calls, asked, folder) for calls in asked.calls)
    count, by_crate = asked.calls[1] - asked.calls[0], collections.Counter()
    for name in last.keys() | first.keys():
        by_crate[crate_of(name)] += (last[name] - first[name]) / count
    return by_crate


def crate_of(function):
    if re.match(r"_int_|rattle_(alloc|dealloc|realloc)|.*(malloc|free|realloc)", function):
        return "malloc, free"
    found = re.match(r"__(mem[a-z]+)", function) or re.match(r"([a-z_0-9]+)::", function)
    return found[1] if found else "others"


def main():
    parser = argparse.ArgumentParser(description=__doc__, formatter_class=argparse.RawDescriptionHelpFormatter)
    parser.add_argument("--connections", type=int, default=50)
    parser.add_argument("--idle", type=int, default=0)
    parser.add_argument("--amid", nargs=2, metavar=("KIND", "COUNT"), help="idle, polls or silent, and how many")
    parser.add_argument("--calls", type=int, nargs=2, default=(2_000, 12_000))
    parser.add_argument("--crates", type=int, default=12)
    parser.add_argument("program")
    asked = parser.parse_args()
    by_crate = counted(asked.program, asked)
    amid = f" amid {asked.amid[1]} {asked.amid[0]}" if asked.amid else ""
    print(f"instructions of an echo, {asked.connections} connections{amid}: {sum(by_crate.values()):,.0f}")
    for crate, number in by_crate.most_common(asked.crates):
        print(f"    {crate:<20}{number:>10,.0f}")
    return 0


if __name__ == "__main__":
    sys.exit(main())
