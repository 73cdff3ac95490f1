#!/usr/bin/env python3
"""Has one client of `sr serve` lose its link every few frames, and measures the server's memory meanwhile.

    bench/losses.py [--calls N] [--seed S] PROGRAM

bench/serve/losses.c, built by `cc -O2`, calls Echo N times over one connection with stateful reconnect, drops its link after a few
answers, in one of several ways, and resumes; it fails unless each call is answered once and in order. Told are the server's resident memory
once a tenth of the calls was answered and at the end. Ends with a bad status if an answer is wrong, or if the memory at the end is more
than 1.1 of that at the tenth."""
import argparse
import json
import subprocess
import sys
import tempfile

from serve import Server, built, free_port, resident, started

MOST_GROWTH = 1.1


def next_line(client):
    """What the client tells next, or None if it failed."""
    line = client.stdout.readline()
    return json.loads(line) if line else None


def main():
    parser = argparse.ArgumentParser(description=__doc__, formatter_class=argparse.RawDescriptionHelpFormatter)
    parser.add_argument("--calls", type=int, default=1_000_000)
    parser.add_argument("--seed", type=int, default=1)
    parser.add_argument("program")
    asked = parser.parse_args()
    port = free_port()
    with tempfile.TemporaryDirectory() as folder, started(Server("sr", [asked.program]).command(port)) as server:
        client = subprocess.Popen([built(folder, "losses"), str(port), str(asked.calls), str(asked.seed)], stdout=subprocess.PIPE, text=True)
        tenth, few = next_line(client), resident(server)
        end, many = next_line(client), resident(server)
        if client.wait() != 0 or not tenth or not end:
            return 1
    print(f"{end['calls']:,} calls were answered once and in order over {end['links']:,} links in {end['seconds']} seconds")
    print(f"{end['doubles']:,} answers came again and were skipped")
    print(f"resident memory after a tenth {few / 1024:,.0f} KB, at the end {many / 1024:,.0f} KB: ratio {many / few:.2f}")
    return 0 if many <= MOST_GROWTH * few else 1


if __name__ == "__main__":
    sys.exit(main())
