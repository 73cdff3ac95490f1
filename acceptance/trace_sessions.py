#!/usr/bin/env python3
"""Has `sr record` write down sessions and `sr audit` judge traces, good and spoiled, of two ends and of one.

    acceptance/trace_sessions.py [PROGRAM] [--record] [--scripts N] [--spoiled N] [--seed SEED]

PROGRAM is bin/sr by default. Five parts, of which there are the first two with `--record`, and no program of ours is asked for an audit then:

    rows         of each script of replay.toml the trace, and what an audit says of it
    scripts      the same of N random scripts without peers, 300 if it isn't given
    by hand      traces of which each has its verdict here, by docs/traces.md, and lines that no trace has
    spoiled      N traces of random scripts, 500 if it isn't given, and of each of their ends alone, of which most have one line changed, dropped,
                 doubled, swapped or put in
    recordings   what examples/tap recorded of clients in Python and in JavaScript, of sockets by hand and of `PROGRAM client`, through losses,
                 once placing.py has put in what no proxy sees: each is a history of the server's end

What has to come of all but those by hand is what trace_model.py and trace_marks.py say, which share no code with the program. The last line
is 'N passed, N failed', with ', N skipped' after it if a client isn't installed; the status is 0 if none failed."""
import argparse
import concurrent.futures
import itertools
import os
import pathlib
import subprocess
import sys
import tempfile
import time

import clients
import placing
import rows
import run
import spoiled_traces
import tap
import trace_marks
import trace_model
from spoiled_traces import text_of
from trace_model import SIDES

sys.path.insert(0, str(pathlib.Path(__file__).resolve().parent / "clients"))
import client_cuts  # noqa: E402
from running import Running  # noqa: E402
from serving import HOST, Serving  # noqa: E402
from watched import Watched  # noqa: E402

TOP = pathlib.Path(__file__).resolve().parent.parent
SECONDS = 120
SHOWN = 300  # letters
NAMES = {letter: name for name, letter in SIDES.items()}
LARGE = 200_000  # bytes of a script or a trace, of which the slow audit isn't asked


class Tally(tap.Trial):
    """Cases, of which those that passed are counted by parts, and told by the name of the part."""

    skipped = 0

    def part(self, name, cases):
        """Each case is its name and what is wrong with it, in lines."""
        count, failed = 0, 0
        for case, faults in cases:
            count, failed = count + 1, failed + bool(faults)
            if faults:
                print(f"FAILED {name}: {case}", *faults, sep="\n    ", flush=True)
        self.passed, self.failed = self.passed + count - failed, self.failed + failed
        print(f"passed {name}: {count - failed} of {count}", flush=True)


def answer(program, words, data):
    done = subprocess.run([program, *words], input=data, capture_output=True, timeout=SECONDS)
    return done.stdout.decode(errors="surrogateescape"), done.returncode


def audit_words(side):
    return ["audit", *(["--side", NAMES[side]] if side else [])]


def differences(wanted, got):
    if wanted == got:
        return []
    texts = [text.encode(errors="surrogateescape") for text, _ in (wanted, got)]
    shown = [f"status {status}, {run.shown(*pair)}" for (_, status), pair in ((wanted, texts), (got, texts[::-1]))]
    return [f"want {shown[0]}", f"got  {shown[1]}"]


def audited(program, data, side=None):
    """What is wrong with what the program says of a trace."""
    wanted = trace_marks.audit(data, side)
    assert len(data) > LARGE or wanted == trace_model.audit(data, side), data
    return differences(wanted, answer(program, audit_words(side), data))


# ---- rows and random scripts


def script_faults(program, script, is_audited):
    """What is wrong with the trace of a script, and, if that is audited by the program, with what it says of it."""
    wanted = trace_model.record(script)
    faults = differences(wanted, answer(program, ["record"], script))
    if wanted[1]:
        return faults
    trace = wanted[0].encode()
    told = trace_marks.audit(trace)
    faults += [] if told[1] == 0 else [f"the trace is no world: {told[0]}"]
    return faults + (differences(told, answer(program, ["audit"], trace)) if is_audited else [])


def row_cases(program, is_audited):
    table = rows.read(TOP / "acceptance" / "replay.toml")
    for row in table["row"]:
        yield row["name"], script_faults(program, run.bytes_of(row["input"], table.get("pieces", {})), is_audited)


def random_cases(program, given):
    for number, script in enumerate(spoiled_traces.scripts(given.seed, given.scripts)):
        faults = script_faults(program, script.encode(), not given.record)
        yield f"number {number} of seed {given.seed}", [*faults, *script.splitlines()] if faults else []


# ---- by hand

FIRST = "trace json 2 on 1024 100000 32768"
ASK, TAKEN = b'{"protocol":"json","version":2}\x1e'.hex(), b"{}\x1e".hex()
ASK_PACK, ASK_ONE = (text.encode().hex() for text in ('{"protocol":"messagepack","version":1}\x1e', '{"protocol":"json","version":1}\x1e'))
CALL = '{"arguments":[],"target":"a","type":1}'
CLOSE, CLOSE_AND_COME = (text.encode().hex() for text in ('{"type":7}\x1e', '{"allowReconnect":true,"error":"x","type":7}\x1e'))
OPENED = ["c attach 0", "s attach 0", f"c lent {ASK}", f"s fed {ASK}", "s took shaken", f"s lent {TAKEN}", f"c fed {TAKEN}", "c took shaken"]
SAID = [f"c sent {CALL}", f"c lent {CALL.encode().hex()}1e"]
HEARD = [f"s fed {CALL.encode().hex()}1e", f"s took got 1 {CALL}"]
SERVED = ["s attach 0", f"s fed {ASK}", "s took shaken", f"s lent {TAKEN}"]
EMPTY = "world client sent 0 processed 0 server sent 0 processed 0"
ONE = "world client sent 1 processed 0 server sent 0 processed"
# Lines after FIRST, and what is said of them: the number of a line that breaks a rule counts FIRST too.
WORLDS = [
    ([], EMPTY),
    (OPENED, f"{EMPTY} still"),
    ([*OPENED, *SAID], f"{ONE} 0"),
    ([*OPENED, *SAID, *HEARD], f"{ONE} 1"),
    ([*OPENED, *SAID, *HEARD, "s lent " + b'{"sequenceId":1,"type":8}\x1e'.hex()], f"{ONE} 1"),
    (["c attach 0", f"c lent {TAKEN}"], "line 3 breaks due"),
    (["s attach 0"], "line 2 breaks link"),
    (["c attach 7", "s attach 7", "s attach 7"], "line 4 breaks link"),
    ([*OPENED, "c attach 0"], "line 10 breaks link"),
    ([*OPENED, "c attach 5", "c attach 4"], "line 11 breaks link"),
    (["c detach"], "line 2 breaks link"),
    (["c attach 0", "c detach", "c attach 1"], "line 4 breaks link"),
    (["c attach 0", "c detach", "c fed -"], "line 4 breaks link"),
    (["c attach 0", "c close", "c fed -"], "line 4 breaks state"),
    (["c close", "c close"], "line 3 breaks state"),
    ([f"c sent {CALL}"], "line 2 breaks state"),
    (["c tick 5", "s tick 4"], "line 3 breaks state"),
    (["c attach 0", "c fed 00"], "line 3 breaks bytes"),
    ([*OPENED[:3], f"s fed {ASK}00"], "line 5 breaks bytes"),
    ([*OPENED[:3], f"c lent {ASK}"], "line 5 breaks due"),
    ([*OPENED[:4], f"s lent {TAKEN}"], "line 6 breaks due"),
    ([*OPENED[:3], f"s fed {ASK[:-2]}", "s took shaken"], "line 6 breaks took"),
    ([*OPENED[:4], "s took Shaken"], "line 6 breaks took"),
    ([*OPENED, *SAID, HEARD[0], f"s took got 2 {CALL}"], "line 13 breaks took"),
    # A link of which nothing is heard for 30,000 ms is given up by the tick.
    (["c attach 0", "c tick 30000", "c detach"], "line 4 breaks link"),
    (["c attach 0", "c tick 29999", "c detach"], EMPTY),
    (["c tick 1", "c attach 0", "s attach 0", "c tick 30000", "s tick 30001", "c detach"], EMPTY),
    (["c tick 1", "c attach 0", "s attach 0", "c tick 30000", "s tick 30001", "s detach"], "line 7 breaks link"),
]
# With a buffer of one message, and with a greatest frame of 256 bytes, of which six are too many unread.
FEW, SHORT = "trace json 2 on 1 100000 32768", "trace json 2 on 1024 100000 256"
LONG, LONGER = (CALL.replace(":\"a", ":\"" + "a" * (size - len(CALL) + 1)) for size in (256, 257))
BOUNDS = [
    (FEW, [*OPENED, f"c sent {CALL}", f"c sent {CALL}"], "line 11 breaks room"),
    (SHORT, [*OPENED, f"c sent {LONG}"], f"{ONE} 0"),
    (SHORT, [*OPENED, f"c sent {LONGER}"], "line 10 breaks room"),
    (FEW.replace(" on ", " off "), [*OPENED, *SAID, *SAID], "world client sent 2 processed 0 server sent 0 processed 0"),
    (FEW.replace(" on ", " off "), [*OPENED, "c detach", f"c sent {CALL}"], "line 11 breaks state"),
]
ALONE = [
    ("s", [], "history s sent 0 processed 0"),
    ("s", SERVED, "history s sent 0 processed 0"),
    ("c", ["c attach 0", f"c lent {ASK}", f"c fed {TAKEN}", "c took shaken", *SAID], "history c sent 1 processed 0"),
    ("s", [*SERVED, f"s fed {CALL.encode().hex()}1e", f"s took got 1 {CALL}"], "history s sent 0 processed 1"),
    # In other words the message is the same, and what is taken is told as it is written here.
    ("s", [*SERVED, "s fed " + b'{"type":1, "target":"a","arguments":[]}\x1e'.hex(), f"s took got 1 {CALL}"], "history s sent 0 processed 1"),
    ("s", ["s attach 9", "s attach 3"], "line 3 breaks link"),
    ("s", [*SERVED, "s attach 9", "s attach 3"], "history s sent 0 processed 0"),
    ("s", [*SERVED, "s attach 0"], "line 6 breaks link"),
    ("c", ["c attach 4", f"c lent {ASK}", f"c fed {TAKEN}", "c took shaken", "c attach 3"], "line 6 breaks link"),
    # A server goes on in the codec and the version of the request, whatever the first line has.
    ("s", ["s attach 0", f"s fed {ASK_PACK}", "s took shaken", f"s lent {TAKEN}", "s fed 029106", "s took ping"], "history s sent 0 processed 0"),
    ("s", ["s attach 0", f"s fed {ASK_ONE}", "s took shaken", "s attach 1"], "line 5 breaks link"),
    ("s", ["s attach 0", "s fed 781e", "s took shaken"], "line 4 breaks took"),
    ("s", ["s attach 0", "s fed 781e", "s lent " + b'{"error":"The handshake is not JSON."}\x1e'.hex()], "line 4 breaks due"),
    ("s", [*SERVED, "s fed " + b'{"type":77}\x1e'.hex(), "s took skipped unknown 77"], "history s sent 0 processed 0"),
    ("s", [*SERVED, "s fed " + b'{"sequenceId":1,"type":8}\x1e'.hex(), "s took acked 1"], "line 7 breaks took"),
    # A Close is told by its error alone, whether or not it allows to come back. After it nothing can be taken.
    ("s", [*SERVED, f"s fed {CLOSE}", "s took closed -"], "history s sent 0 processed 0"),
    ("c", ["c attach 0", f"c lent {ASK}", f"c fed {TAKEN}{CLOSE_AND_COME}", "c took shaken", 'c took closed "x"'], "history c sent 0 processed 0"),
    ("s", [*SERVED, f"s fed {CLOSE}", "s took closed -", "s fed 00"], "line 8 breaks state"),
    ("c", ["c attach 0", "c fed " + "00" * 32_773], "history c sent 0 processed 0"),
    ("c", ["c attach 0", "c fed " + "00" * 32_774], "line 3 breaks bytes"),
]
# Lines that no trace has, as its second, and first lines that none has.
REFUSED = ["x", "", "#", "c", "c ", " c detach", "c  detach", "c detach ", "c detach\r", "C detach", "x detach", "c attach", "c attach 00", "c attach -1"]
REFUSED += ["c attach 18446744073709551616", "c attach 0 0", "c attach *", "c fed", "c fed 0", "c fed 0G", "c fed AB", "c fed 0x00", "c fed 00 00", "c fed --"]
REFUSED += ["c lent -", "c lent", "c lent 0", "c sent", "c sent {}", 'c sent {"type":6}', f"c sent {CALL} ", "c sent " + CALL.replace(",", ", ", 1)]
REFUSED += ['c sent {"type":1,"target":"a","arguments":[]}', "c took", "c took ", "c tick", "c tick 01", "c tick 1.0", "c close x", "c failed"]
REFUSED += ["trace json 2 on 1 261 256"]
HEADS = ["", "x", "trace", "trace json 2 on 1024 100000", "trace json 0 on 1024 100000 32768", "trace json 4 on 1024 100000 32768"]
HEADS += ["trace JSON 2 on 1024 100000 32768"]
HEADS += ["trace json 2 yes 1024 100000 32768", "trace json 2 on 0 100000 32768", "trace json 2 on 65537 100000 32768", "trace json 2 on 1 260 256"]
HEADS += ["trace json 2 on 1 261 255", "trace json 2 on 01 261 256", "trace json 2 on 1 16777217 256", "trace json 2 on 1 16777216 1048577"]
HEADS += [f"{FIRST} ", f"{FIRST}\r", "c attach 0"]
ALLOWED = ["c took x", "c took x\r", "c took  ", "c fed -", "s took é", "c tick 18446744073709551615", "c attach 18446744073709551615"]


def by_hand():
    """The name of a case, the trace, the end that is alone, and what is said of it with which status."""
    for head, lines, told in [*((FIRST, *case) for case in WORLDS), *BOUNDS]:
        yield f"{len(lines)} lines: {told}", text_of([head, *lines]), None, told
    for side, lines, told in ALONE:
        yield f"{len(lines)} lines of {side}: {told}", text_of([FIRST, *lines]), side, told
    for line in REFUSED:
        yield f"{line!r} is no line", text_of([FIRST, line]), None, "line 2 refused"
    for line in HEADS:
        yield f"{line!r} is no first line", text_of([line, "x"]), None, "line 1 refused"
    yield from texts_by_hand()


def texts_by_hand():
    yield "no line", b"", None, "line 1 refused"
    yield "a first line without its end", FIRST.encode(), None, "line 1 refused"
    yield "a last line without its end", text_of([FIRST, "c tick 5"])[:-1], None, "line 2 refused"
    yield "a line that is no UTF-8", text_of([FIRST]) + b"c took \xff\n", None, "line 2 refused"
    yield "two lines that are none", text_of([FIRST, "c tick 1", "x", "y"]), None, "line 3 refused"
    yield "a line that is none after one that breaks a rule", text_of([FIRST, "c detach", "x"]), None, "line 3 refused"
    yield "the other end's line", text_of([FIRST, "c tick 1", "s tick 1"]), "c", "line 3 refused"
    for line in ALLOWED:
        told = EMPTY if " tick " in line or " attach " in line else "line 2 breaks link"
        yield f"{line!r} is a line", text_of([FIRST, line]), None, told
    for size, told in (trace_model.MOST_TRACE, "line 2 breaks link"), (trace_model.MOST_TRACE + 1, "line 2 refused"):
        yield f"{size} bytes", text_of([FIRST, "c took "])[:-1].ljust(size - 1, b"x") + b"\n", None, told


def hand_cases(program):
    for name, data, side, told in by_hand():
        status = 2 if told.endswith("refused") else 11 if "breaks" in told else 0
        wanted = f"{told}\n", status
        faults = differences(wanted, answer(program, audit_words(side), data))
        yield name, faults or (audited(program, data, side) if len(data) < LARGE else [])


# ---- spoiled traces


def spoiled_cases(program, seed, count):
    traces = itertools.islice(spoiled_traces.traces(seed, count), count)
    with concurrent.futures.ThreadPoolExecutor(os.cpu_count()) as lanes:
        judge = lambda trace: (trace, audited(program, text_of(trace[0]), trace[1]))  # noqa: E731
        for (lines, side, _), faults in lanes.map(judge, traces):
            yield f"of {NAMES.get(side, 'both ends')}", [*faults, *(line[:SHOWN] for line in lines)] if faults else []


# ---- recordings


def recordings(program, client):
    """What a tap recorded of the server's ends of a client's connections: the client is a function of the port of the tap."""
    with tempfile.TemporaryDirectory(prefix="tap-") as name, Serving(program) as server:
        folder = pathlib.Path(name)
        with tap.tapping(folder, server.port) as port:
            client(port)
            settle(folder)
        return [path.read_bytes() for path in sorted(folder.iterdir())]


def settle(folder):
    """Waits until nothing more is recorded."""
    sizes, end = None, time.monotonic() + SECONDS
    while sizes != (sizes := [path.stat().st_size for path in sorted(folder.iterdir())]) and time.monotonic() < end:
        time.sleep(0.3)


def external(command):
    def client(port):
        done = subprocess.run([*command, f"http://{HOST}:{port}/hub"], env=clients.NODE, capture_output=True, text=True, timeout=SECONDS)
        if done.returncode:
            raise RuntimeError(f"a client ended with {done.returncode}: {done.stderr[-SHOWN:]}")

    return client


def own_client(program, codec):
    """`sr client`, behind a way that is cut."""
    script, _ = client_cuts.asks(40)

    def client(port):
        cuts = client_cuts.random_cuts(client_cuts.random.Random(codec), 12, 400)
        with Watched(port, cuts) as way, Running(program, ["--codec", codec, way.base], script.encode()) as running:
            status, _ = running.ended()
            if status:
                raise RuntimeError(f"the client ended with {status}")

    return client


def recorded_faults(program, client, least):
    """What is wrong with the recordings of a client, of which so many have to be there."""
    found = recordings(program, client)
    faults = [f"{len(found)} recordings, and not {least}"] if len(found) < least else []
    for recording in found:
        try:
            trace = placing.whole(recording, "s").encode()
        except placing.Cannot as why:
            faults += [f"nothing was found that says what was seen at place {why.args[0]}, after", *(line[:SHOWN] for line in why.args[1][-8:])]
            continue
        told, status = trace_marks.audit(trace, "s")
        faults += ([] if status == 0 else [f"no history: {told}"]) + audited(program, trace, "s")
    return faults


def recorded_cases(program, tally):
    known = {
        "a client in Python, with websockets": (clients.python_client(), 3),
        "a client in JavaScript, with ws": (clients.node_client(), 3),
        "sockets by hand": (tap.session_on_two_sockets, 1),
        **{f"its own client in {codec}": (own_client(program, codec), 1) for codec in ("json", "pack")},
    }
    for name, (client, least) in known.items():
        if client is None:
            tally.skipped += 1
            print(f"skipped recordings of {name}: it isn't installed")
        else:
            yield name, recorded_faults(program, external(client) if isinstance(client, list) else client, least)


def main():
    words = argparse.ArgumentParser(description=__doc__, formatter_class=argparse.RawDescriptionHelpFormatter)
    words.add_argument("program", nargs="?", default=str(TOP / "bin" / "sr"))
    words.add_argument("--record", action="store_true")
    words.add_argument("--scripts", type=int, default=300, metavar="N")
    words.add_argument("--spoiled", type=int, default=500, metavar="N")
    words.add_argument("--seed", default="1")
    given = words.parse_args()
    # The first call of bin/sr may prove and build, and has no time limit for that.
    subprocess.run([given.program, "check", "json"], stdin=subprocess.DEVNULL, stdout=subprocess.DEVNULL)
    tally = Tally()
    tally.part("rows", row_cases(given.program, not given.record))
    tally.part("scripts", random_cases(given.program, given))
    if not given.record:
        tally.part("by hand", hand_cases(given.program))
        tally.part("spoiled", spoiled_cases(given.program, given.seed, given.spoiled))
        tally.part("recordings", recorded_cases(given.program, tally))
    print(f"{tally.passed} passed, {tally.failed} failed" + f", {tally.skipped} skipped" * (tally.skipped > 0))
    return 1 if tally.failed or not tally.passed else 0


if __name__ == "__main__":
    sys.exit(main())
