#!/usr/bin/env python3
"""Measures a lane of HTTP requests (crates/measures) beside Rust's `httparse` alone (bench/http/peer) on the same head, in one run. It is
no test.

    bench/http/run.py [--rounds N] [--requests N]

The head is a browser's, with forty fields (crates/measures/stdin). The lane checks it by the rules of requests and hands out a whole
request; the other parses it, and no more. Of each the best of N rounds counts, in processor time. The ratio is the other's time by ours:
1.00 is as fast. Needs Debian's librust-httparse-dev, cargo and rustc."""
import argparse
import pathlib
import sys

HERE = pathlib.Path(__file__).resolve().parent
sys.path.insert(0, str(HERE.parent))
from run import TOP, built, cargo_built, output, seconds  # noqa: E402


def main():
    words = argparse.ArgumentParser(description=__doc__, formatter_class=argparse.RawDescriptionHelpFormatter)
    words.add_argument("--rounds", type=int, default=5)
    words.add_argument("--requests", type=int, default=100000)
    asked = words.parse_args()
    head = str(TOP / "crates" / "measures" / "stdin")
    commands = [built("measures"), "http", str(asked.requests)], [cargo_built(HERE / "peer", "http_peer"), str(asked.requests)]
    answers = [output(command, head) for command in commands]
    assert answers[0] == answers[1], answers
    mine, other = (seconds(command, head, asked.rounds) for command in commands)
    print(f"{asked.requests / mine / 1e3:.0f} thousand requests a second, httparse alone {asked.requests / other / 1e3:.0f}, ratio {other / mine:.2f}")


if __name__ == "__main__":
    main()
