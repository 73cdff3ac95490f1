#!/usr/bin/env python3
"""A model of `sr soak`: the script that a seed draws, played by the model of peers (peers_model.py).

    acceptance/soak_model.py SEED STEPS              prints the line of a soak
    acceptance/soak_model.py --random SEED N PROGRAM    soaks by N seeds and steps that SEED draws, by the model and by PROGRAM, up to the first
                                                        that differs

The last line of the second is 'N passed, N failed', and its status 0 if none failed.
docs/protocol.md has the recipe. The model scans lists anew at each question, so it takes a few seconds for some hundred steps."""
import random
import subprocess
import sys

MOST = (1 << 64) - 1
OPENING = ["open", "accept 0", "c write *", "s read *", "s write *", "c read *"]
CLOSING_TURN = ["c write *", "s read 1024", "s round", "s write *", "c read 1024", "c round"]


def draws_of(seed):
    x = seed
    while True:
        x = (x * 6364136223846793005 + 1442695040888963407) & MOST
        yield x >> 33


def drawn_lines(k, d, links):
    """What two numbers say, where so many links are there."""
    table = {
        0: [f"c call Echo [{d % 1000}]"],
        1: [f"c stream Count [{d % 5}]"],
        2: [f"c call Slow [{d % 7},{d % 1000}]"],
        3: [f"c notify Echo [{d % 1000}]"],
        4: [f"c cancel {1 + d % 1000}"],
        5: [f"s call Confirm [{d % 1000}]"],
        6: [f"c write {1 + d % 16}"],
        7: [f"s write {1 + d % 16}"],
        8: [f"c read {1 + d % 1024}"],
        9: [f"s read {1 + d % 1024}"],
        10: ["s round", "c round"],
    }
    again = d % 8 == 0 and links < 1000
    return table.get(k % 12, ["open", f"accept {links}"] if again else ["s round"])


class Soak:
    def __init__(self):
        import peers_model

        self.peers = peers_model.Replay()
        self.do("peers on", *OPENING)

    def do(self, *lines):
        for line in lines:
            self.peers.line(line)

    def work(self):
        """How often anything was written, read or stepped."""
        ends = sum(len(end.of("lent")) + len(end.of("fed")) for end in self.peers.ends.values())
        return ends + sum(self.turns(side) for side in "cs")

    def turns(self, side):
        return sum(1 for h in self.peers.jobs[side].log if h[0] == "turned")

    def close(self, most):
        links = self.peers.opened
        self.do("open", f"accept {links}")
        for _ in range(most):
            before = self.work()
            self.do(*CLOSING_TURN)
            if self.work() == before:
                return

    def totals(self):
        """Calls and endings by the report, what is live by the tables."""
        words = [line.split(" ") for line in self.peers.report]
        calls = sum(1 for line in words if line[1] == "call" and line[2] != "0")
        endings = sum(1 for line in words if line[1] == "ended")
        live = sum(len(self.peers.calls[side].live_calls()) for side in "cs")
        return calls, endings, live, self.peers.opened


def line_of(seed, steps):
    soak, draws = Soak(), draws_of(seed)
    for _ in range(steps):
        k, d = next(draws), next(draws)
        soak.do(*drawn_lines(k, d, soak.peers.opened))
    soak.close(64 + 16 * steps)
    calls, endings, live, links = soak.totals()
    return f"seed {seed} actions {steps} calls {calls} endings {endings} live {live} links {links}\n"


def main():
    if sys.argv[1:2] != ["--random"]:
        sys.stdout.write(line_of(int(sys.argv[1]), int(sys.argv[2])))
        return
    draw, n, program = random.Random(sys.argv[2]), int(sys.argv[3]), sys.argv[4]
    for done in range(n):
        seed, steps = draw.choice([draw.randrange(100), draw.randrange(1 << 64)]), draw.randrange(250)
        want = line_of(seed, steps)
        run = subprocess.run([program, "soak", str(seed), str(steps)], stdin=subprocess.DEVNULL, capture_output=True, timeout=60)
        got = run.stdout.decode(errors="replace"), run.returncode
        if got != (want, 0):
            print(f"FAILED soak {seed} {steps}\n    want 0 {want.strip()}\n    got  {got[1]} {got[0].strip()}\n{done} passed, 1 failed")
            sys.exit(1)
    print(f"{n} passed, 0 failed")


if __name__ == "__main__":
    main()
