#!/usr/bin/env python3
"""A plain, slow model of traces: what `sr record` writes of a script, and what `sr audit` says of a trace.

    acceptance/trace_model.py record < SCRIPT
    acceptance/trace_model.py audit [--side client | --side server] < TRACE
    acceptance/trace_model.py --check SEED N         N random scripts: their traces, each end's lines alone and spoiled ones of both kinds,
                                                     audited here and by the marks of trace_marks.py, which have to say the same

The first two print what the program has to, and end with its status. The last line of the third is 'N passed, N failed', and its status 0 if
none failed.

A script is played by the ends of replay_model.py. A trace is audited by docs/traces.md: each end is the list of its steps, from which all is read
off anew at each line, and a line breaks the first of its rules that it doesn't keep. No code is shared with the program."""
import re
import sys

import frames_model
import replay_model
from replay_model import End, Refused, Script, json_text, number_of, spell

MOST_SCRIPT, MOST_TRACE = 16_777_216, 67_108_864  # bytes
FRAMING = 5  # bytes that an end may have unread beside a frame
SILENCE = 30_000  # ms
OTHER = {"c": "s", "s": "c"}
SIDES = {"client": "c", "server": "s"}
BREAKS = 11  # the exit status of a trace that breaks a rule
HEAD = re.compile(r"trace (json|pack) ([123]) (on|off) (\d+) (\d+) (\d+)", re.ASCII)
LINE = re.compile(r"([cs]) (attach|detach|fed|lent|sent|took|tick|close)(?: (.+))?", re.DOTALL)
HEX = re.compile(r"(?:[0-9a-f]{2})+")


# ---- what is recorded of a script


class Recorder(Script):
    """A script of two ends that tells each of their steps as it is made. A refusal and a fault are told by no line."""

    def __init__(self):
        super().__init__()
        self.trace, self.bytes = [], {}

    def option(self, word, rest):
        if word == "peers": raise Refused
        super().option(word, rest)

    def begin(self):
        super().begin()
        end = self.ends["c"]
        self.trace.append(f"trace {end.codec} {end.version} {'on' if end.reconnect else 'off'} {' '.join(map(str, end.limits))}")

    def told(self, side, words, act):
        """Does this, and tells it if it was a step."""
        steps = len(self.ends[side].steps)
        act()
        if len(self.ends[side].steps) > steps: self.trace.append(f"{side} {words}")

    def attach(self, side, link):
        self.told(side, f"attach {link}", lambda: Script.attach(self, side, link))

    def lose(self, side):
        self.told(side, "detach", lambda: Script.lose(self, side))

    def close(self, side):
        self.told(side, "close", lambda: Script.close(self, side))

    def tick_end(self, side):
        self.told(side, f"tick {self.now}", lambda: Script.tick_end(self, side))

    def send(self, side, text):
        self.told(side, f"sent {text}", lambda: Script.send(self, side, text))

    def write(self, side, count):
        end, link = self.ends[side], self.ends[side].link()
        while (count is None or count > 0) and (frame := end.due()) is not None:
            piece = spell(frame, end.codec)
            self.told(side, f"lent {piece.hex()}", lambda: Script.write(self, side, 1))
            self.bytes[side, link] = self.bytes.get((side, link), b"") + piece
            if count is not None: count -= 1

    def read(self, side, count):
        end, link = self.ends[side], self.ends[side].link()
        if link is None: return
        frames, said = self.frames.get((OTHER[side], link), []), self.bytes.get((OTHER[side], link), b"")
        at = len(end.fed(link))
        to = len(said) if count is None else min(at + count, len(said))
        while at < to and not end.closed():
            taken = sum(size for _, size in frames[: len(end.taken(link))])
            piece = said[at : min(to, taken + end.limits[2] + FRAMING)]
            self.told(side, f"fed {piece.hex()}", lambda: end.steps.append(("fed", piece)))
            at += len(piece)
            while (frame := end.next_frame(frames)) is not None: self.take(side, frame)

    def take(self, side, frame):
        super().take(side, frame)
        if self.ends[side].steps[-1][0] == "took": self.trace.append(f"{side} took {self.report[-1][2:]}")

    def text_of_trace(self):
        if not self.begun: self.begin()
        return "".join(line + "\n" for line in self.trace)


def record(script):
    """What `record` writes of a script, a text or bytes, and its exit status."""
    data = script if isinstance(script, bytes) else script.encode()
    recorder, end = Recorder(), 0
    for number, line in enumerate(lines_of(data), 1):
        end += len(line)
        try:
            if end > MOST_SCRIPT: raise Refused
            recorder.line(line.removesuffix(b"\n").decode(errors="surrogateescape"))
        except Refused: return f"line {number} refused\n", 2
    return recorder.text_of_trace(), 0


# ---- the grammar


class BadLine(Exception):
    """Its argument is the number of the first line that the grammar lacks."""


def parse(data, side=None):
    """What the lines of a trace say: the first how the ends are begun, each other one the side of a step, its kind and what it tells. Of a trace
    of one end alone the side is named, and the other end's lines aren't in the grammar."""
    found, end = [], 0
    for number, line in enumerate(lines_of(data), 1):
        end += len(line)
        try:
            if not line.endswith(b"\n") or end > MOST_TRACE: raise Refused
            text = line[:-1].decode()
            found.append(head_of(text) if number == 1 else step_of(text, side))
        except (Refused, ValueError):
            raise BadLine(number) from None
    if not found: raise BadLine(1)
    return found


def lines_of(data):
    """The lines with their ends. What comes after the last is one without."""
    lines = [line + b"\n" for line in data.split(b"\n")]
    lines[-1] = lines[-1][:-1]
    return lines if lines[-1] else lines[:-1]


def head_of(line):
    """The codec, the version, whether it is resumable, and the limits."""
    words = HEAD.fullmatch(line)
    if not words: raise Refused
    count, size, frame = limits = tuple(map(number_of, words.groups()[3:]))
    if not (256 <= frame <= 1 << 20 and 1 <= count <= 65_536 and frame + FRAMING <= size <= 16 << 20): raise Refused
    return words[1], int(words[2]), words[3] == "on", limits


def step_of(line, side):
    words = LINE.fullmatch(line)
    if not words or side not in (None, words[1]): raise Refused
    letter, kind, told = words.groups()
    if (told is None) != (kind in ("detach", "close")): raise Refused
    if kind in ("attach", "tick"): told = number_of(told)
    if kind in ("fed", "lent"): told = bytes_of(told, kind == "fed")
    if kind == "sent" and json_text(replay_model.message_of(told)) != told: raise Refused
    return letter, kind, told


def bytes_of(word, may_be_none):
    if word == "-" and may_be_none: return b""
    if not HEX.fullmatch(word): raise Refused
    return bytes.fromhex(word)


# ---- what an end took, in words


def words_of(got, number):
    """The words of a report. A message has a number."""
    kind, *parts = got
    if kind == "message": return f"got {number} {parts[0]}"
    if kind == "sequenced": return f"sequence {parts[0]}"
    if kind == "closed": return f"closed {'-' if parts[0] is None else json_text(parts[0])}"
    return " ".join(map(str, got))


# ---- two ends


class Pair:
    """The two ends of a trace, as the steps that its lines told so far."""

    def __init__(self, head):
        self.head, self.clock = head, 0
        self.ends = {side: End(side, *head) for side in "cs"}

    def said(self, side, link):
        """Each frame that an end said on a link, and its size."""
        end = self.ends[side]
        return [(frame, len(spell(frame, end.codec))) for frame in end.lent(link)]

    def bytes_said(self, side, link):
        return b"".join(spell(frame, self.ends[side].codec) for frame in self.ends[side].lent(link))

    def frames(self, side):
        """Of the present link of an end: the frames that come to it there, each with its size."""
        return self.said(OTHER[side], self.ends[side].link())

    def may_name(self, side, link):
        """The client's links rise, and the server takes each of them once."""
        if side == "c": return all(name < link for name in self.ends["c"].links())
        return link in self.ends["c"].links() and link not in self.ends["s"].links()

    def may_hear(self, side, piece):
        """What comes is the next of what the other end said there."""
        link = self.ends[side].link()
        return self.bytes_said(OTHER[side], link).startswith(self.ends[side].fed(link) + piece)

    def unread(self, side):
        """How many bytes of the present link aren't those of frames that were taken."""
        end = self.ends[side]
        return len(end.fed(end.link())) - sum(size for _, size in self.frames(side)[: len(end.taken(end.link()))])

    def next_got(self, side):
        """The next frame, and what it gives; None if there is none, or it is a fault."""
        end = self.ends[side]
        frame = end.next_frame(self.frames(side))
        if frame is None: return None
        got = ("skipped", f"unknown {frame[1]}") if frame[0] == "foreign" else end.makes(frame)
        return (got, frame) if got[0] != "fault" else None

    # the rules

    def rules(self, side, kind, told):
        """The rules that a line may break, in their order, each with whether it does."""
        end = self.ends[side]
        away = end.link() is None
        return {
            "attach": lambda: [("link", not self.may_attach(side, told))],
            "detach": lambda: [("link", away)],
            "fed": lambda: [("link", away), ("state", end.closed()), ("bytes", not away and not self.may_be_fed(side, told))],
            "lent": lambda: [("link", away), ("due", end.due() is None or spell(end.due(), end.codec) != told)],
            "took": lambda: [("link", away), ("state", end.closed()), ("took", not away and not self.is_taken(side, told))],
            "sent": lambda: [("state", end.closed() or not end.shaken()), ("room", end.refusal(told) is not None)],
            "tick": lambda: [("state", told < self.clock)],
            "close": lambda: [("state", end.closed())],
        }[kind]()

    def may_attach(self, side, link):
        end = self.ends[side]
        return not end.closed() and (not end.links() or end.kept()) and self.may_name(side, link)

    def may_be_fed(self, side, piece):
        return self.may_hear(side, piece) and self.unread(side) + len(piece) <= self.head[3][2] + FRAMING

    def is_taken(self, side, words):
        found = self.next_got(side)
        return found is not None and words_of(found[0], len(self.ends[side].processed()) + 1) == words

    # the steps

    def step(self, side, kind, told):
        """Adds the step of a line that breaks no rule."""
        end = self.ends[side]
        steps = {
            "attach": lambda: ("attached", told, self.clock),
            "detach": lambda: ("detached", self.clock),
            "fed": lambda: ("fed", told),
            "lent": lambda: ("lent", end.due()),
            "took": lambda: ("took", *self.next_got(side)),
            "sent": lambda: ("sent", told),
            "tick": lambda: ("silenced" if self.is_silence(end, told) else "ticked", told),
            "close": lambda: ("closed", None, False),
        }
        step = steps[kind]()
        if kind == "tick": self.clock = told
        end.steps.append(step)

    def is_silence(self, end, now):
        heard = end.heard()
        return end.link() is not None and not end.closed() and heard is not None and now >= heard + SILENCE

    # the verdict

    def told(self):
        client, server = self.ends["c"], self.ends["s"]
        counts = [len(part) for end in (client, server) for part in (end.sent(), end.processed())]
        return "world client sent {} processed {} server sent {} processed {}".format(*counts) + " still" * self.is_still()

    def is_still(self):
        client, server = self.ends["c"], self.ends["s"]
        return client.link() is not None and client.link() == server.link() and all(self.has_done(side) for side in "cs")

    def has_done(self, side):
        """An end is Ready, has nothing to say, and has taken all that the other said on its link."""
        end, link = self.ends[side], self.ends[side].link()
        whole = end.fed(link) == self.bytes_said(OTHER[side], link) and len(end.taken(link)) == len(self.frames(side))
        return whole and end.state() == "Ready" and end.due() is None


# ---- one end alone


class Alone(Pair):
    """One end, whatever is on the other side of its links: it may be fed any bytes, and a server takes any link on which it never stood."""

    def __init__(self, head, side):
        super().__init__(head)
        self.side = side

    def frames(self, side):
        end, link = self.ends[side], self.ends[side].link()
        return cut(end, end.fed(link), link == end.links()[0])

    def may_name(self, side, link):
        links = self.ends[side].links()
        return all(name < link for name in links) if side == "c" else link not in links

    def may_hear(self, side, piece):
        return True

    def step(self, side, kind, told):
        found = self.next_got(side) if kind == "took" else None
        super().step(side, kind, told)
        end = self.ends[side]
        if found and found[1][0] == "request": _, end.codec, end.version = found[1]

    def told(self):
        end = self.ends[self.side]
        return f"history {self.side} sent {len(end.sent())} processed {len(end.processed())}"


def cut(end, data, is_first, most=None):
    """The frames at the front of what came on a link, or so many at most, each with its size. Behind one that can't be read none is looked for."""
    found, at, codec = [], 0, end.codec
    while at < len(data) and len(found) != most:
        is_handshake = is_first and at == 0
        frame, after = frames_model.next_frame("json" if is_handshake else codec, data, at, end.limits[2])
        if frame is None or isinstance(frame, str): break
        read = handshake_of(end, frame) if is_handshake else frame_of(codec, frame)
        if read is None: break
        found.append((read, after - at))
        if read[0] == "request": codec = read[1]
        at = after
    return found


def handshake_of(end, frame):
    """What the first frame of the first link says to this end, or None if it refuses it: a server hears a request, a client the response."""
    try: read = frames_model.value_of(frame)
    except frames_model.Refused: return None
    if not isinstance(read, dict): return None
    if end.side == "c": return ("response",) if read.get("error") is None else None
    codec, version = {"json": "json", "messagepack": "pack"}.get(as_text(read.get("protocol"))), read.get("version")
    return ("request", codec, version) if codec and frames_model.is_whole(version) and version in (1, 2, 3) else None


def as_text(value):
    return value if isinstance(value, str) else None


def frame_of(codec, frame):
    """What a later frame says, or None if it can't be read."""
    try: tree = frames_model.READERS[codec](frame)
    except frames_model.Refused: return None
    if not isinstance(tree, dict): return ("foreign", tree)
    kind = tree["type"]
    if kind <= 5: return ("message", json_text(frames_model.image(tree)))
    if kind == 6: return ("ping",)
    if kind == 7: return ("close", tree.get("error"), tree.get("allowReconnect", False))
    return ("ack", tree["sequenceId"]) if kind == 8 else ("sequence", tree["sequenceId"], tree.get("received"))


# ---- the audit


def verdict(world, lines):
    """What an audit says of these lines, and its exit status. The first of a trace is line 1, and these come after it."""
    for number, line in enumerate(lines, 2):
        broken = next((rule for rule, breaks in world.rules(*line) if breaks), None)
        if broken: return f"line {number} breaks {broken}\n", BREAKS
        world.step(*line)
    return f"{world.told()}\n", 0


def judge(data, side, audit, audit_alone):
    """What `audit` writes of a trace and its exit status, if lines are judged so; of the lines of one end alone, the side is named."""
    try: head, *lines = parse(data, side)
    except BadLine as bad: return f"line {bad.args[0]} refused\n", 2
    return audit_alone(head, side, lines) if side else audit(head, lines)


def audit(data, side=None):
    return judge(data, side, lambda head, lines: verdict(Pair(head), lines), lambda head, side, lines: verdict(Alone(head, side), lines))


def main(words):
    if words[:1] == ["--check"]:
        import spoiled_traces
        return spoiled_traces.check(int(words[1]), int(words[2]))
    if words == ["record"]: text, status = record(sys.stdin.buffer.read())
    elif words == ["audit"]: text, status = audit(sys.stdin.buffer.read())
    elif words[:2] == ["audit", "--side"] and words[2:] in (["client"], ["server"]): text, status = audit(sys.stdin.buffer.read(), SIDES[words[2]])
    else: text, status = f"{__doc__}\n", 2
    sys.stdout.write(text)
    return status


if __name__ == "__main__":
    # spoiled_traces.py needs this module by its name.
    import trace_model
    sys.exit(trace_model.main(sys.argv[1:]))
