#!/usr/bin/env python3
"""Tries examples/tap: whether what it writes down of either end is what their clients said and heard, byte for byte.

    acceptance/tap.py [PROGRAM]

PROGRAM is bin/sr by default, and so the release if nothing newer was built. The clients are sockets, which say what is written here by
hand, and the recording has to have that. What an auditor finds in a recording, once placing.py has put in what no proxy sees, is by hand too;
the auditor is that of trace_model.py. The last line is 'N passed, N failed'; the status is 0 if none failed."""
import contextlib
import importlib.util
import json
import pathlib
import re
import subprocess
import sys
import tempfile
import time
import types

import placing
import trace_model

TOP = pathlib.Path(__file__).resolve().parent.parent
sys.path.insert(0, str(TOP / "acceptance" / "clients"))
from raw import BINARY, CONTINUATION, TEXT, Hub, Raw, frame  # noqa: E402
from serving import Serving, free_port  # noqa: E402

TAP = TOP / "examples" / "tap" / "tap.py"
PATIENCE = 30  # seconds
PAUSE = 0.05  # seconds between two sockets
ADD = '{"type":1,"invocationId":"1","target":"Add","arguments":[2,3]}'
ECHO = '{"type":1,"invocationId":"2","target":"Echo","arguments":["é"]}'
PACKED_ASK = b'{"protocol":"messagepack","version":1}\x1e'
# An Invocation of Echo with the argument 5, in pieces of a message, and its Completion.
PACKED_ECHO = bytes.fromhex("0d 96 01 80 a1 31 a4 45 63 68 6f 91 05 90")
PACKED_FIVE = bytes.fromhex("07 95 03 80 a1 31 03 05")


def tap_as_module():
    found = importlib.util.spec_from_file_location("examples_tap", TAP)
    module = importlib.util.module_from_spec(found)
    found.loader.exec_module(module)
    return module


class Trial:
    def __init__(self):
        self.passed = self.failed = 0

    def check(self, what, holds, otherwise=""):
        self.passed, self.failed = self.passed + bool(holds), self.failed + (not holds)
        print(f"passed {what}" if holds else f"FAILED {what}\n  {otherwise}", flush=True)


@contextlib.contextmanager
def tapping(folder, server_port, *options):
    """The port of a tap."""
    port = free_port()
    words = [sys.executable, TAP, folder, "--port", str(port), "--to", f"127.0.0.1:{server_port}", *options]
    process = subprocess.Popen(words, stdout=subprocess.PIPE, text=True)
    try:
        line = process.stdout.readline()
        if not line.startswith("tap: "):
            raise RuntimeError(f"the tap says {line!r}")
        yield port
    finally:
        process.kill()
        process.wait()


def lines_of(path, links, side="s"):
    """The lines of a recording, once its link of this number has ended."""
    end = time.monotonic() + PATIENCE
    while True:
        lines = path.read_text().splitlines() if path.exists() else []
        if sum(line == f"{side} detach" for line in lines) == links:
            return lines
        if time.monotonic() > end:
            raise TimeoutError(f"{path} has {lines}")
        time.sleep(0.02)


def negotiated(port):
    """The token of a connection that may go on over further sockets."""
    raw = Raw(port)
    status, body = raw.http("POST", "/hub/negotiate?negotiateVersion=1&useStatefulReconnect=true", b"")
    raw.close()
    if status != 200 or not json.loads(body).get("useStatefulReconnect"):
        raise RuntimeError(f"a negotiate is answered {status} {body}")
    return json.loads(body)["connectionToken"]


def links_of(lines):
    """For each link of a recording the bytes that were fed there, all together, and the frames that were lent."""
    links = []
    for _, kind, *told in (line.split(" ") for line in lines[1:]):
        if kind == "attach":
            links.append((b"", []))
        elif kind == "fed":
            links[-1] = (links[-1][0] + bytes.fromhex(told[0]), links[-1][1])
        elif kind == "lent":
            links[-1][1].append(bytes.fromhex(told[0]))
    return links


def audited(lines, side="s"):
    """What an auditor finds in a recording, once what no proxy sees was put in."""
    try:
        return trace_model.audit(placing.whole("".join(line + "\n" for line in lines).encode(), side).encode(), side)[0]
    except placing.Cannot as why:
        return f"nothing says what was seen at {why.args[0]}"


def moments_of_moves(lines):
    """Of each link's begin and end in a recording: which it is, and the moment of the last tick before it."""
    moment, found = None, []
    for _, kind, *told in (line.split(" ") for line in lines[1:]):
        moment = int(told[0]) if kind == "tick" else moment
        if kind in ("attach", "detach"):
            found.append((kind, moment))
    return found


def heard_until(hub, beginning):
    """The frames that come, up to one with this beginning."""
    heard = []
    while not heard or not heard[-1].startswith(beginning):
        heard.append(hub.hear())
    return [text.encode() + b"\x1e" for text in heard]


def session_on_two_sockets(port):
    """A connection in JSON that goes on over a second socket. Each is ended without a word. Gives what was said on each, and the frames heard."""
    token, links = negotiated(port), []
    for says, beginning in ([ADD], '{"invocationId":"1"'), (['{"type":9,"sequenceId":2}', '{"type":8,"sequenceId":1}', ECHO], '{"invocationId":"2"'):
        hub, said = Hub(port, f"/hub?id={token}"), []
        if not links:
            said.append('{"protocol":"json","version":2}')
            hub.say(*said)
        hub.say(*says)
        heard = heard_until(hub, beginning)
        hub.drop()
        links.append(("".join(text + "\x1e" for text in said + says).encode(), heard))
        time.sleep(PAUSE)
    return links


def try_links(trial, folder, port):
    links = session_on_two_sockets(port)
    lines = lines_of(folder / "2.trace", len(links))
    trial.check("the first line of a recording", lines[0] == "trace json 2 on 8 40000 32768", lines[0])
    trial.check("what was said on two sockets, and heard, is what was recorded", links_of(lines) == links, f"{links_of(lines)}\n  {links}")
    kinds = [line for line in lines[1:] if re.fullmatch(r"s (attach \d+|detach)", line)]
    trial.check("both sockets have their numbers, and end", kinds == ["s attach 0", "s detach", "s attach 1", "s detach"], kinds)
    moments = [int(line[7:]) for line in lines if line.startswith("s tick ")]
    trial.check("moments rise from the first socket on", moments[0] == 0 and moments == sorted(set(moments)), moments)
    moves = moments_of_moves(lines)
    trial.check("the second socket begins at a later moment than the first one's end", moves[2][1] >= moves[1][1] + PAUSE * 500, moves)
    answer = lines.index(f"s lent {links[0][1][-1].hex()}")
    asked = next(place for place, line in enumerate(lines) if ADD.encode().hex() in line)
    trial.check("a call stands before its answer", asked < answer, lines)
    trial.check("an auditor finds two messages each way", audited(lines) == "history s sent 2 processed 2\n", audited(lines))


def try_client_end(trial, server_port):
    """The same session, of which the client's end is recorded."""
    with tempfile.TemporaryDirectory(prefix="tap-") as name:
        with tapping(pathlib.Path(name), server_port, "--resend", "8", "40000", "--end", "client") as port:
            links = session_on_two_sockets(port)
            lines = lines_of(pathlib.Path(name) / "1.trace", len(links), "c")
    said = [(frames_of(said), b"".join(heard)) for said, heard in links]
    found = [(lent, fed) for fed, lent in links_of(lines)]
    trial.check("of a client's end its frames were lent, and what it heard was fed", found == said, f"{found}\n  {said}")
    trial.check("each line is of that end", {line[:2] for line in lines[1:]} == {"c "}, lines)


def frames_of(text):
    return [part + b"\x1e" for part in text.split(b"\x1e")[:-1]]


ASK = b'{"protocol":"json","version":2}\x1e'
NOTHING = "history s sent 0 processed 0\n"


def recorded_by_hand(module, folder, steps):
    """The lines of a recording of a server's end of which this was seen: the moment of each step in ms, and the step."""
    now = [0]
    module.time = types.SimpleNamespace(monotonic=lambda: now[0] / 1000)
    path = folder / "by-hand.trace"
    recording = module.Recording(path, "s", "on", (1024, 100_000))
    for moment, step in steps:
        now[0] = moment
        step(recording)
    lines = path.read_text().splitlines()
    path.unlink()
    return lines


def judged(lines):
    """What an auditor finds in a recording by hand, in which nothing is put but that the request was taken."""
    at = lines.index(f"s fed {ASK.hex()}") + 1
    text = "".join(line + "\n" for line in [*lines[:at], "s took shaken", *lines[at:]])
    return trace_model.audit(text.encode(), "s")[0]


def try_moments(trial, folder):
    """A clock by hand: an end whose second link comes long after the loss of its first, and one that gives up its link by itself."""
    begin = [(0, lambda it: it.attach()), (1, lambda it: it.feed(ASK)), (2, lambda it: it.lend(b"{}\x1e"))]
    opening = b'{"sequenceId":1,"type":9}\x1e'
    again = [(50_000, lambda it: it.attach()), (50_001, lambda it: it.lend(opening)), (79_000, lambda it: it.feed(opening)), (79_001, lambda it: it.detach())]
    lines = recorded_by_hand(tap_as_module(), folder, [*begin, (10_000, lambda it: it.detach()), *again])
    moves = [("attach", 0), ("detach", 10_000), ("attach", 50_000), ("detach", 79_001)]
    trial.check("each link begins and ends at the moment of the tick before it", moments_of_moves(lines) == moves, lines)
    trial.check("a link that comes after a long while without one is no silence", judged(lines) == NOTHING, judged(lines))
    lines.remove("s tick 50000")
    trial.check("and would be one without the tick before it", judged(lines).endswith(" breaks link\n"), judged(lines))
    for last, is_told in (30_001, True), (30_002, False):
        lines = recorded_by_hand(tap_as_module(), folder, [*begin, (last, lambda it: it.detach()), *again])
        trial.check(f"a link that is lost {last - 2} ms after it was heard{'' if is_told else ' was given up, without a line'}", lines.count("s detach") == 1 + is_told, lines)
        trial.check(f"an auditor finds no fault in it after {last - 2} ms", judged(lines) == NOTHING, judged(lines))


def try_pack(trial, folder, port):
    """A connection in MessagePack without a token, whose call comes in two WebSocket frames, and these a byte at a time."""
    raw = Raw(port)
    raw.upgrade("/hub")
    raw.send(frame(BINARY, PACKED_ASK))
    _, answer = raw.read_frame()
    for byte in frame(BINARY, PACKED_ECHO[:5], fin=False) + frame(CONTINUATION, PACKED_ECHO[5:]):
        raw.send(bytes([byte]))
    _, five = raw.read_frame()
    raw.drop()
    lines = lines_of(folder / "3.trace", 1)
    trial.check("the first line of a recording in MessagePack", lines[0] == "trace pack 1 off 8 40000 32768", lines[0])
    trial.check("it has the handshake in JSON, and the messages", links_of(lines) == [(PACKED_ASK + PACKED_ECHO, [answer, five])], links_of(lines))
    trial.check("the answer is five", (answer, five) == (b"{}\x1e", PACKED_FIVE), five)
    trial.check("an auditor finds a call and its answer", audited(lines) == "history s sent 1 processed 1\n", audited(lines))


def try_polls(trial, folder, port):
    """Long polling goes through, on one connection with its negotiate, and isn't recorded."""
    before, raw = sorted(folder.iterdir()), Raw(port)
    status, body = raw.http("POST", "/hub/negotiate?negotiateVersion=1", b"")
    target = f"/hub?id={json.loads(body)['connectionToken']}"
    said = [raw.http("GET", target), raw.http("POST", target, b'{"protocol":"json","version":1}\x1e'), raw.http("GET", target)]
    raw.close()
    trial.check("long polling goes through", (status, said) == (200, [(200, b""), (200, b""), (200, b"{}\x1e")]), said)
    trial.check("and isn't recorded", sorted(folder.iterdir()) == before, sorted(folder.iterdir()))


def try_broken(trial, folder, port):
    """Who says what is no handshake is told so by the server, and has no recording."""
    before, hub = sorted(folder.iterdir()), Raw(port)
    hub.upgrade("/hub")
    hub.send(frame(TEXT, b"x\x1e"))
    opcode, refusal = hub.read_frame()
    hub.close()
    trial.check("a refusal goes through", (opcode, refusal) == (TEXT, b'{"error":"The handshake is not JSON."}\x1e'), refusal)
    trial.check("what asks for no codec has no recording", sorted(folder.iterdir()) == before, sorted(folder.iterdir()))


def main():
    program = sys.argv[1] if len(sys.argv) > 1 else str(TOP / "bin" / "sr")
    # The first call of bin/sr may prove and build, and has no time limit for that.
    subprocess.run([program, "check", "json"], stdin=subprocess.DEVNULL, stdout=subprocess.DEVNULL)
    trial = Trial()
    with tempfile.TemporaryDirectory(prefix="tap-") as name, Serving(program, "--resend", "8", "40000") as server:
        folder = pathlib.Path(name)
        (folder / "1.trace").write_text("an older one\n")
        try:
            with tapping(folder, server.port, "--resend", "8", "40000") as port:
                for part in try_links, try_pack, try_polls, try_broken:
                    part(trial, folder, port)
            try_client_end(trial, server.port)
            try_moments(trial, folder)
            older = (folder / "1.trace").read_text()
            trial.check("a recording that was there stays", older == "an older one\n", older)
            trial.check("the server has nothing to complain about", server.complaints() == [], server.complaints())
        except (OSError, RuntimeError, ValueError, TimeoutError) as why:
            trial.check("the trial comes to its end", False, repr(why))
    print(f"{trial.passed} passed, {trial.failed} failed")
    return 1 if trial.failed or not trial.passed else 0


if __name__ == "__main__":
    sys.exit(main())
