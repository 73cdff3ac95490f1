#!/usr/bin/env python3
"""Proves and builds the program `sr` with the crates that it needs, as many side by side as there are processors.

    bin/build.py

Nothing is proved twice: a crate that was proved before and hasn't changed is only looked at. What is going on is told on
standard error, a line for each crate that is done. The status is 0 if the program is built; else the end of what the
prover said is told, and the status is 1."""
import concurrent.futures
import os
import pathlib
import subprocess
import sys
import time

TOP = pathlib.Path(__file__).resolve().parent.parent
PROGRAM = "sr_app"
# A check takes up to about this much memory.
MEMORY = 3 << 30


def say(text):
    print(f"sr: {text}", file=sys.stderr, flush=True)


def crates_below(program):
    """The crates of this repository that the program needs, itself among them, each with those that it names."""
    named = {}
    for line in (TOP / "crates.txt").read_text().splitlines():
        name, colon, below = line.partition("#")[0].partition(":")
        if colon:
            named[name.split()[0]] = below.split()
    needed, left = {}, [program]
    while left:
        crate = left.pop()
        if crate in named and crate not in needed:
            needed[crate] = [it for it in named[crate] if it in named]
            left += needed[crate]
    return needed


def lanes():
    """How many crates are proved at once."""
    free = next(int(line.split()[1]) << 10 for line in open("/proc/meminfo") if line.startswith("MemAvailable"))
    return max(1, min(len(os.sched_getaffinity(0)), free // MEMORY))


def prove(crate, jobs):
    """Proves a crate and builds its library, or the program. Gives what was said, and how many seconds it took."""
    begun = time.monotonic()
    command = ["rt", "run", *jobs, "--", "replay"] if crate == PROGRAM else ["rt", "lib", *jobs]
    script = (TOP / "examples" / "three-invocations.script").read_bytes() if crate == PROGRAM else b""
    ran = subprocess.run(command, cwd=TOP / "crates" / crate, input=script, stdout=subprocess.PIPE, stderr=subprocess.STDOUT)
    return ran.returncode, ran.stdout.decode(errors="replace"), time.monotonic() - begun


def main():
    needed, done, running = crates_below(PROGRAM), set(), {}
    count = lanes()
    say(f"proving and building {len(needed)} crates, up to {count} at once; the README says how long that takes the first time")
    begun = time.monotonic()
    with concurrent.futures.ThreadPoolExecutor(count) as pool:
        while len(done) < len(needed):
            ready = [crate for crate, below in needed.items() if crate not in done and crate not in running.values() and done.issuperset(below)]
            # A crate that is alone gets all processors; else rt decides.
            jobs = ["--jobs", str(count)] if len(ready) + len(running) == 1 else []
            for crate in ready:
                running[pool.submit(prove, crate, jobs)] = crate
            for ended in concurrent.futures.wait(running, return_when=concurrent.futures.FIRST_COMPLETED).done:
                crate = running.pop(ended)
                status, told, seconds = ended.result()
                if status:
                    pool.shutdown(cancel_futures=True)
                    print(told[-4000:], file=sys.stderr)
                    say(f"{crate} was not proved")
                    return 1
                done.add(crate)
                say(f"{len(done)} of {len(needed)}: {crate}, {seconds:.0f} s; {time.monotonic() - begun:.0f} s in all")
    return 0


if __name__ == "__main__":
    sys.exit(main())
