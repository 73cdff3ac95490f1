#!/usr/bin/env python3
"""Gives the program inputs that are mutated at any byte, and holds what it does against models that share no code with it.

    acceptance/fuzz.py SEED COUNT [PROGRAM] [--only KIND].. [--round N]       PROGRAM is by default what bin/sr would run

An input is something valid of which one to three places are changed: a bit or a byte is another, some are put in, left out, cut off or repeated, a
number or a length is one at its bounds, or the end is that of another. A round has so many inputs of each kind, which the seed, the kind and the
round's number determine. With --only there are these kinds alone, and with --round it begins at that round. An input for which something else comes than is
wanted is made small and shown; after three of them it ends. The last line is 'N passed, N failed', with inputs counted; the status is 0 if none failed.

| kind | what is mutated | what decides, and how far |
|---|---|---|
| json, pack | frames in a stream for `check` and `convert` | frames_model.py: all of it |
| replay | scripts of `sr replay`, their bytes and their lines | replay_model.py: all of it |
| record | the same of `sr record`, most without peers | trace_model.py: all of it |
| lines | scripts of `sr client` without a turn | fuzz_scripts.py: which line is refused |
| words | the command line | fuzz_scripts.py: all, but whether strange URLs are some; what would serve, dial or soak for long isn't run |
| http, sockets | what a client says to `sr serve` at once: requests, and a WebSocket with frames of the hub | serving_model.py: each reply, pong, frame of the hub \
and close frame, and whether it ends. Of calls of several turns the order among each other is open. Bytes as values, and more than 200 turns, are not \
modelled: then the server has to serve on |
| dialed | what a server answers to `sr client` | client_model.py: its requests, what it prints, and its status |

No run may end by a signal or take a minute; a server answers a good client after each fifty connections, and writes nothing on standard error."""
import argparse
import pathlib
import random
import signal
import subprocess
import sys
import time

import fuzz_dialing
import fuzz_kit
import fuzz_scripts
import fuzz_serving
import fuzz_streams

HERE = pathlib.Path(__file__).resolve().parent
# Inputs of each kind in a round.
KINDS = {
    "replay": fuzz_scripts.Replays,
    "record": fuzz_scripts.Records,
    "lines": fuzz_scripts.Lines,
    "words": fuzz_scripts.Words,
    "http": fuzz_serving.Requests,
    "sockets": fuzz_serving.Sockets,
    "dialed": fuzz_dialing.Dialed,
}
SHARES = {"json": 300, "pack": 300, "replay": 50, "record": 50, "lines": 100, "words": 20, "http": 100, "sockets": 120, "dialed": 10}
MOST_FAILED = 3
EACH = 60  # seconds between two words of how far it is
SHOWN = 1_500


def kind_of(name, program):
    if name in ("json", "pack"):
        return fuzz_streams.Streams(name, fuzz_kit.Runs(program))
    return KINDS[name](program if name in ("http", "sockets", "dialed") else fuzz_kit.Runs(program))


def shown(told):
    text = repr(told)
    return text if len(text) <= SHOWN else f"{text[:SHOWN]} .. ({len(text)} signs)"


def tell(difference, place):
    data, (want, got) = fuzz_kit.smaller(difference)
    print(f"FAILED {place}: {difference.title} of {shown(data)}", f"    want {shown(want)}", f"    got  {shown(got)}", sep="\n", flush=True)


class Tally:
    def __init__(self, seed, count):
        self.seed, self.count = seed, count
        self.done = self.failed = 0
        self.began = self.told = time.monotonic()

    def part(self, kind, number):
        """The inputs of a kind in a round, or as many as are left."""
        count = min(SHARES[kind.name], self.count - self.done)
        for difference in kind.differences(random.Random(f"{self.seed} {kind.name} {number}"), count):
            self.failed += 1
            tell(difference, f"{kind.name}, round {number} of seed {self.seed}")
        self.done += count
        if time.monotonic() - self.told > EACH:
            self.told = time.monotonic()
            print(f"passed {self.done - self.failed} inputs by now, in {self.told - self.began:.0f} s, up to {kind.name} of round {number}", flush=True)

    def is_over(self):
        return self.done >= self.count or self.failed >= MOST_FAILED


def rounds(tally, kinds, number):
    while not tally.is_over():
        for kind in kinds:
            if not tally.is_over():
                tally.part(kind, number)
        number += 1


def chosen(program):
    if program:
        return program
    asked = subprocess.run([HERE.parent / "bin" / "sr", "--which"], stdin=subprocess.DEVNULL, stdout=subprocess.PIPE, text=True, check=True)
    return asked.stdout.rstrip("\n")


def words():
    parser = argparse.ArgumentParser(description=__doc__, formatter_class=argparse.RawDescriptionHelpFormatter)
    parser.add_argument("seed", type=int)
    parser.add_argument("count", type=int)
    parser.add_argument("program", nargs="?")
    parser.add_argument("--only", choices=SHARES, action="append")
    parser.add_argument("--round", type=int, default=0)
    return parser.parse_args()


def main():
    signal.signal(signal.SIGTERM, lambda *_: sys.exit(1))  # so that it ends its server
    asked = words()
    tally, program = Tally(asked.seed, asked.count), chosen(asked.program)
    rounds(tally, [kind_of(name, program) for name in asked.only or SHARES], asked.round)
    print(f"{tally.done - tally.failed} passed, {tally.failed} failed")
    return 1 if tally.failed or not tally.done else 0


if __name__ == "__main__":
    sys.exit(main())
