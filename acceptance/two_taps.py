#!/usr/bin/env python3
"""Has `sr client` and `sr serve` meet over sockets that are cut, each seen by a tap, and makes of both recordings one trace of the two ends.

    acceptance/two_taps.py [PROGRAM] [--random SEED N] [--audit] [--keep FOLDER]

PROGRAM is bin/sr by default, and so the release if nothing newer was built. Between the two stands a way that is cut (clients/watched.py), with
a tap on either side of it (examples/tap), which have one clock and one order of what they saw. placing.py puts in what no proxy sees: so each
trace is of one history that says those bytes, and whether it was that one isn't known. The audits of trace_model.py and trace_marks.py have to
find a world in it, with as many messages as the session has by hand, and a history in each end's lines alone; with `--audit` so has
`PROGRAM audit`. `--random` has N further sessions at random, 10 of the seed 1 if it isn't given; `--keep` keeps the traces. The last line is
'N passed, N failed'; the status is 0 if none failed."""
import argparse
import asyncio
import contextlib
import pathlib
import random
import re
import subprocess
import sys
import tempfile
import threading
import time

import placing
import tap
import trace_marks
import trace_model
from spoiled_traces import of_one_end, text_of

sys.path.insert(0, str(pathlib.Path(__file__).resolve().parent / "clients"))
import client_cuts  # noqa: E402
from running import Running  # noqa: E402
from serving import HOST, Serving, free_port  # noqa: E402
from watched import TO_CLIENT, Cut, Watched  # noqa: E402

TOP = pathlib.Path(__file__).resolve().parent.parent
RESEND = 1_024, 100_000
SECONDS = 60  # in which a session has ended
QUIET = 0.3  # seconds in which nothing is seen
MOST_LINES = 400  # of a trace that is audited by lists too
SHOWN = 12  # lines
KEY = re.compile(rb"Sec-WebSocket-Key: ([^\r]*)")
NAMES = {"c": "client", "s": "server"}
taps = tap.tap_as_module()


# ---- both taps


class Recording(taps.Recording):
    """A recording of which each line is noted with those of the other end's too."""

    def write(self, words):
        super().write(words)
        self.seen.append((self.side, words))


class Socket(taps.Seen):
    """A socket whose key is noted, by which both taps know it."""

    def see_head(self, data):
        rest = super().see_head(data)
        if self.link is not None:
            self.tap.keys[self.recording.side, self.link] = KEY.findall(self.asked)[-1]
        return rest


class Tap(taps.Tap):
    socket, kind = Socket, Recording

    def __init__(self, folder, side, both):
        super().__init__(folder, side, RESEND)
        self.seen, self.keys, self.began = both.seen, both.keys, both.began

    def recording(self, token):
        found = super().recording(token)
        found.seen, found.began = self.seen, self.began
        return found


class Both:
    """What two taps saw, in order, and the keys of their links; and the two ports at which they listen, for a client and for a server."""

    def __init__(self, folder, way_port, server_port):
        self.seen, self.keys, self.began = [], {}, time.monotonic()
        self.targets = {"c": way_port, "s": server_port}
        self.ports = {side: free_port() for side in "cs"}
        self.taps = {side: Tap(folder / side, side, self) for side in "cs"}
        for one in self.taps.values():
            one.folder.mkdir()

    def __enter__(self):
        self.loop, up = asyncio.new_event_loop(), threading.Event()
        self.thread = threading.Thread(target=self.loop.run_until_complete, args=(self.listen(up),), daemon=True)
        self.thread.start()
        if not up.wait(SECONDS):
            raise TimeoutError("no tap listens")
        return self

    async def listen(self, up):
        self.ended = asyncio.Event()
        for side in "cs":
            await taps.listen(self.taps[side], self.ports[side], (HOST, self.targets[side]))
        up.set()
        await self.ended.wait()
        # A socket of a client that stays is left in the middle, of which asyncio complains.
        self.loop.set_exception_handler(lambda *_: None)
        others = asyncio.all_tasks() - {asyncio.current_task()}
        for task in others:
            task.cancel()
        await asyncio.gather(*others, return_exceptions=True)

    def __exit__(self, *_):
        self.loop.call_soon_threadsafe(self.ended.set)
        self.thread.join(SECONDS)

    def settle(self):
        """Waits until nothing more is seen."""
        end, count = time.monotonic() + SECONDS, -1
        while count != len(self.seen) and time.monotonic() < end:
            count = len(self.seen)
            time.sleep(QUIET)


# ---- one session


class Session:
    """What a client with this script and a server said over a way that is cut, as both taps saw it. One that stays is looked at as it is quiet."""

    def __init__(self, program, script, codec, cuts=(), stays=False):
        with tempfile.TemporaryDirectory(prefix="taps-") as name, Serving(program) as server, contextlib.ExitStack() as stack:
            way = stack.enter_context(Watched(0, cuts))
            both = stack.enter_context(Both(pathlib.Path(name), way.port, server.port))
            way.target = both.ports["s"]
            client = stack.enter_context(Running(program, ["--codec", codec, f"http://{HOST}:{both.ports['c']}/hub"], script.encode()))
            self.status = 0 if stays else client.ended()[0]
            both.settle()
            self.seen, self.keys, self.cut_count = [*both.seen], dict(both.keys), way.cut_count()
            self.head = (both.taps["s"].folder / "1.trace").read_text().splitlines()[0]
            self.faults = server.complaints() + [f"the client ended with {self.status}"] * (self.status != 0)

    def in_order(self):
        """What was seen, in an order in which the client stands on a link before the server, whose number it has."""
        numbers = {key: link for (side, link), key in self.keys.items() if side == "s"}
        opened = {numbers[key] for (side, _), key in self.keys.items() if side == "c"}
        lines, waiting, awaited = [], [], None
        for side, words in self.seen:
            kind, _, link = words.partition(" ")
            if kind == "attach":
                words = f"attach {(link := numbers[self.keys[side, int(link)]])}"
            if (side, kind) == ("s", "attach") and link not in opened:
                # The reply that would have told the client of it was lost.
                lines += [f"c {words}", "c detach"]
            elif (side, kind) == ("s", "attach") and f"c {words}" not in lines and awaited is None:
                awaited = words
            (lines if side == "c" or awaited is None else waiting).append(f"{side} {words}")
            if side == "c" and words == awaited:
                lines, waiting, awaited = lines + waiting, [], None
        return lines + waiting

    def trace(self):
        """The lines of a trace of both ends that say what was seen, and so that moments don't fall."""
        head, *seen = trace_model.parse(text_of([self.head, *self.in_order()]))
        return [self.head, *placing.place(head, seen, "cs")]


# ---- what is wrong with it


def faults_of_trace(lines, wanted, program):
    faults = []
    for side in None, "c", "s":
        own = text_of(of_one_end(lines, side) if side else lines)
        told, status = trace_marks.audit(own, side)
        if status or side is None and wanted and told != wanted + "\n":
            faults += [f"of {NAMES.get(side, 'both')} want {wanted}", f"got {told}"]
        if len(lines) < MOST_LINES and trace_model.audit(own, side) != (told, status):
            faults.append(f"of {NAMES.get(side, 'both')} by lists another verdict than {told}")
        if program and audited_by(program, own, side) != (told, status):
            faults.append(f"of {NAMES.get(side, 'both')} the program says {audited_by(program, own, side)}, and not {told, status}")
    return faults


def audited_by(program, trace, side):
    words = ["--side", NAMES[side]] if side else []
    run = subprocess.run([program, "audit", *words], input=trace, capture_output=True, timeout=SECONDS)
    return run.stdout.decode(errors="replace"), run.returncode


def faults_of(session, wanted, program, keep):
    """What is wrong with a session, in lines."""
    try:
        lines = session.trace()
    except placing.Cannot as why:
        at, order = why.args[0], session.in_order()
        return [*session.faults, "nothing was found that says this:", *order[max(0, at - SHOWN) : at + 1], "after", *why.args[1][-SHOWN:]]
    if keep:
        keep.write_bytes(text_of(lines))
    return session.faults + faults_of_trace(lines, wanted, program)


# ---- the sessions


def counts(client, server, still=""):
    """The verdict on a session in which each end sent so many messages and processed all of the other's."""
    return f"world client sent {client} processed {server} server sent {server} processed {client}{still}"


# By hand: the script, how far apart cuts are at most, and the verdict. A call and its end are a message each. An upload has a message for each
# item and one for its end. Of an Ask the server calls the client in between, which answers.
CASES = {
    "calls one by one": (client_cuts.one_by_one(40)[0], 400, counts(40, 40)),
    "calls at once": (client_cuts.at_once(60)[0], 3_000, counts(60, 60)),
    "a stream": (client_cuts.streams(1, 80)[0], 500, counts(1, 81)),
    "streams at once": (client_cuts.streams(3, 30)[0], 1_000, counts(3, 93)),
    "an upload": (client_cuts.upload(80)[0], 1_000, counts(82, 1)),
    "calls of the server": (client_cuts.asks(20)[0], 500, counts(40, 40)),
}
STAYS = client_cuts.one_by_one(5)[0] + "upload Sum []\nitem 6 5\n"
CUTS = 12


def sessions(seed, count):
    """The name, the words of a session, and the verdict that is wanted, if it is known."""
    for name, (script, most, wanted) in CASES.items():
        for codec in "json", "pack":
            draw = random.Random(f"{name} {codec}")
            yield f"{name}, in {codec}", (script, codec), wanted
            yield f"{name}, cut at any bytes, in {codec}", (script, codec, client_cuts.random_cuts(draw, CUTS, most)), wanted
    for codec in "json", "pack":
        yield f"a client that stays is still, in {codec}", (STAYS, codec, [Cut(TO_CLIENT, 200), Cut(TO_CLIENT, 300)], True), counts(7, 5, " still")
    for number in range(count):
        drawn, draw = client_cuts.RandomSession(f"taps {seed} {number}"), random.Random(f"cuts {seed} {number}")
        codec = draw.choice(["json", "pack"])
        yield f"random session {number} of seed {seed}, in {codec}", (drawn.script(), codec, client_cuts.random_cuts(draw, number % 6, 800)), None


def main():
    words = argparse.ArgumentParser(description=__doc__, formatter_class=argparse.RawDescriptionHelpFormatter)
    words.add_argument("program", nargs="?", default=str(TOP / "bin" / "sr"))
    words.add_argument("--random", nargs=2, type=int, default=[1, 10], metavar=("SEED", "N"))
    words.add_argument("--audit", action="store_true")
    words.add_argument("--keep", type=pathlib.Path)
    given = words.parse_args()
    # The first call of bin/sr may prove and build, and has no time limit for that.
    subprocess.run([given.program, "check", "json"], stdin=subprocess.DEVNULL, stdout=subprocess.DEVNULL)
    trial, cut_count = tap.Trial(), 0
    for number, (name, session, wanted) in enumerate(sessions(*given.random)):
        played = Session(given.program, *session)
        faults = faults_of(played, wanted, given.program if given.audit else None, given.keep and given.keep / f"{number}.trace")
        trial.check(name, not faults, "\n  ".join(faults))
        cut_count += played.cut_count
    trial.check(f"{cut_count} sockets were cut, which is enough", cut_count > 20, cut_count)
    print(f"{trial.passed} passed, {trial.failed} failed")
    return 1 if trial.failed else 0


if __name__ == "__main__":
    sys.exit(main())
