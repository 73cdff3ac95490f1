#!/usr/bin/env python3
"""Has users of rooms do in minutes what they do in hours, with `sr serve`, and looks whether it answers all and its memory stays.

    bench/long_run.py [--share S] [--hours H] [--seed N] [--leak N] [PROGRAM]

A share S of 10,000 users (0.1 by default) makes what they do in H hours (8): each pings each 15 seconds, and posts each five minutes to a room of
50. Time is compressed: the next 15 seconds begin once everybody was answered. Among the users are slow ones, which read at a trickle, cut ones,
which lose their socket at any byte and come back with their token, and some that leave and don't come back; beside them come hostile
connections: garbage, floods of negotiates, silence, heads, bodies and frames that are too long. bench/serve/long_run.c, built by `cc -O2`,
makes all of it in one loop, and fails unless each post is answered, and told once and in the same order to each member of its room, also
across sockets, and each hostile connection is ended.

First the server is given three times the texts that it keeps, and each connection begins with a frame as long as frames may be: so what is reserved
for both is resident from the start, and memory grows afterwards only if more is kept. Its resident memory and its descriptors are looked at after a
tenth and at the end, each time when all are there, were told all, and what has gone is forgotten: memory at the end is to be within MOST_RATIO of that
after a tenth, and there is to be a descriptor for each user, and none once they left. How much memory grew is told for an hour and for a message,
too. With `--leak N` the server doesn't give back each Nth small block (bench/serve/leak.c), which shows how small a leak is seen. PROGRAM is
bin/sr by default. The status is 0 if all of that holds.
10,000 users need as many descriptors: `ulimit -n 16000`. Time that a server allows isn't compressed: where both wait ten seconds and more for a
processor, as beside many proofs, 30 seconds of silence pass, and a link is closed."""
import argparse
import json
import os
import subprocess
import sys
import tempfile
import time

from serve import FOLDER, built
from soak_connections import DRAINED, TOP
from serving import Serving

USERS = 10_000
MOST_RATIO = 1.05
TENTH = 0.1


def descriptors(server):
    return len(os.listdir(f"/proc/{server.process.pid}/fd"))


def begun(folder, leak):
    """How the server is begun."""
    if not leak:
        return {}
    library = os.path.join(folder, "leak.so")
    # Without -fno-builtin gcc takes free for the one that it knows.
    subprocess.run(["cc", "-O2", "-fno-builtin", "-shared", "-fPIC", "-o", library, str(FOLDER / "leak.c")], check=True)
    return {"env": os.environ | {"LD_PRELOAD": library, "LEAK_EACH": str(leak)}}


def phases(load, server, asked):
    """What the load maker tells at each phase, with the server's memory and descriptors at that moment."""
    words = [load, str(server.port), str(round(USERS * asked.share)), str(asked.hours), str(asked.seed)]
    client = subprocess.Popen(words, stdin=subprocess.PIPE, stdout=subprocess.PIPE, text=True)
    told = {}
    for line in client.stdout:
        phase = json.loads(line)
        told[phase["phase"]] = phase | {"memory": server.memory(), "descriptors": descriptors(server)}
        print(f"{phase['phase']}: {phase['seconds']:.0f} s, {server.memory():,} KiB, {descriptors(server):,} descriptors", flush=True)
        client.stdin.write("\n")
        client.stdin.flush()
    return told if client.wait() == 0 else None


def told_of(end):
    return [
        f"{end['posts']:,} posts were answered, and told {end['deliveries']:,} times, each member once and in order; {end['pings']:,} pings",
        f"{end['cuts']:,} links were cut, after which {end['doubles']:,} messages came again and were skipped; {end['leavings']:,} users left",
        f"{end['slow_ends']:,} slow ones were closed; {end['pests_ended']:,} hostile connections were ended by the server, and {end['pests_left']:,} by themselves",
        f"the slowest answer took {end['slowest_answer_us'] / 1_000:.0f} ms",
    ]


def growth(tenth, end, hours):
    """What came to memory between the two, in words."""
    grown, between = end["memory"] - tenth["memory"], hours * (1 - TENTH)
    messages = end["deliveries"] - tenth["deliveries"]
    return f"memory grew by {grown:,} KiB in {between:.1f} hours: {grown / between:,.0f} KiB an hour, {grown * 1_024 / messages:.2f} bytes for each message told"


def main():
    parser = argparse.ArgumentParser(description=__doc__, formatter_class=argparse.RawDescriptionHelpFormatter)
    for name, kind, default in (("share", float, 0.1), ("hours", int, 8), ("seed", int, 1), ("leak", int, 0)):
        parser.add_argument(f"--{name}", type=kind, default=default)
    parser.add_argument("program", nargs="?", default=str(TOP / "bin" / "sr"))
    asked = parser.parse_args()
    users = round(USERS * asked.share)
    live = str(2 * users + 1_000)
    with tempfile.TemporaryDirectory() as folder, Serving(asked.program, "--live", live, begun=begun(folder, asked.leak)) as server:
        before = descriptors(server)
        told = phases(built(folder, "long_run"), server, asked)
        time.sleep(DRAINED if told else 0)
        after, complaints = descriptors(server), server.complaints()
    if not told:
        return 1
    tenth, end = told["tenth"], told["end"]
    ratio = end["memory"] / tenth["memory"]
    print(*told_of(end), growth(tenth, end, asked.hours), sep="\n")
    print(f"ratio {ratio:.3f} of memory; {after - before} descriptors are left", *complaints, sep="\n")
    has_one_each = all(phase["descriptors"] == before + users for phase in (tenth, end))
    return 0 if ratio <= MOST_RATIO and has_one_each and after == before and not complaints else 1


if __name__ == "__main__":
    sys.exit(main())
