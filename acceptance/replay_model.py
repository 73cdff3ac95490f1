#!/usr/bin/env python3
"""A plain, slow model of `sr replay`: two ends as lists of what they did, from which all is read off.

    acceptance/replay_model.py < SCRIPT                 the report that the definitions give
    acceptance/replay_model.py --random SEED N PROGRAM  N random scripts, each run by PROGRAM too and compared, up to the first that differs

The last line of the second is 'N passed, N failed', and its status 0 if none failed.

It follows the rules of docs/delivery.md and docs/protocol.md and shares no code with the program. What scripts with `peers on` do
beside that stands in peers_model.py, and what a message of a script says in frames_model.py."""
import collections
import difflib
import functools
import itertools
import json
import random
import subprocess
import sys

REASON_DONE = None
PROTOCOL = "Protocol error."
SHOWN = 40  # lines of a script whose report isn't as wanted, and of what differs there


class Refused(Exception):
    """A line that the grammar lacks."""


# ---- frames: tuples whose first element names them

def json_text(value):
    return json.dumps(value, separators=(",", ":"), ensure_ascii=False, sort_keys=True)


def message_tree(frame):
    kind, *parts = frame
    if kind == "message": return json.loads(parts[0])
    if kind == "ack": return {"sequenceId": parts[0], "type": 8}
    if kind == "ping": return {"type": 6}
    if kind == "sequence":
        first, received = parts
        return {"sequenceId": first, "type": 9} | ({} if received is None else {"received": received})
    error, allow = parts
    return {"type": 7} | ({} if error is None else {"error": error}) | ({"allowReconnect": True} if allow else {})


def pack(value):
    if value is None: return b"\xc0"
    if value is True: return b"\xc3"
    if value is False: return b"\xc2"
    if isinstance(value, int):
        if 0 <= value < 128: return bytes([value])
        if -32 <= value < 0: return bytes([256 + value])
        kinds = [(0xcc, 1), (0xcd, 2), (0xce, 4), (0xcf, 8)] if value >= 0 else [(0xd0, 1), (0xd1, 2), (0xd2, 4), (0xd3, 8)]
        for marker, size in kinds:
            low, high = (0, 1 << 8 * size) if value >= 0 else (-(1 << 8 * size - 1), 0)
            if low <= value < high: return bytes([marker]) + (value % (1 << 8 * size)).to_bytes(size, "big")
    if isinstance(value, str):
        data = value.encode()
        n = len(data)
        if n < 32: return bytes([0xa0 + n]) + data
        if n < 256: return b"\xd9" + n.to_bytes(1, "big") + data
        if n < 65536: return b"\xda" + n.to_bytes(2, "big") + data
        return b"\xdb" + n.to_bytes(4, "big") + data
    if isinstance(value, list):
        n = len(value)
        head = bytes([0x90 + n]) if n < 16 else b"\xdc" + n.to_bytes(2, "big") if n < 65536 else b"\xdd" + n.to_bytes(4, "big")
        return head + b"".join(map(pack, value))
    n = len(value)
    head = bytes([0x80 + n]) if n < 16 else b"\xde" + n.to_bytes(2, "big") if n < 65536 else b"\xdf" + n.to_bytes(4, "big")
    return head + b"".join(pack(k) + pack(value[k]) for k in sorted(value, key=str.encode))


def packed_message(t):
    kind, headers = t["type"], t.get("headers") or {}
    if kind in (1, 4): return [kind, headers, t.get("invocationId"), t["target"], t["arguments"], t.get("streamIds") or []]
    if kind == 2: return [2, headers, t["invocationId"], t["item"]]
    if kind == 3:
        if t.get("error") is not None: return [3, headers, t["invocationId"], 1, t["error"]]
        if "result" in t: return [3, headers, t["invocationId"], 3, t["result"]]
        return [3, headers, t["invocationId"], 2]
    if kind == 5: return [5, headers, t["invocationId"]]
    if kind == 6: return [6]
    if kind == 7: return [7, t.get("error"), t.get("allowReconnect", False)]
    if kind == 8: return [8, t["sequenceId"]]
    if kind == 9: return [9, t["sequenceId"]] + ([t["received"]] if "received" in t else [])


def bare(frame, codec):
    """The frame without its framing."""
    tree = message_tree(frame)
    return json_text(tree).encode() if codec == "json" else pack(packed_message(tree))


@functools.cache
def spell(frame, codec):
    if frame[0] == "request":
        _, asked, version = frame
        name = {"json": "json", "pack": "messagepack"}[asked]
        return json_text({"protocol": name, "version": version}).encode() + b"\x1e"
    if frame[0] == "response": return b"{}\x1e"
    body = bare(frame, codec)
    if codec == "json": return body + b"\x1e"
    n, head = len(body), b""
    while n >= 128:
        head += bytes([n & 127 | 128])
        n >>= 7
    return head + bytes([n]) + body


# ---- one end: what it did, the first first

class Steps(list):
    """What an end did, the first first. For speed it is sorted by kinds and links too."""

    def __init__(self):
        super().__init__()
        self.link, self.of, self.on_link = None, collections.defaultdict(list), collections.defaultdict(list)

    def append(self, step):
        if step[0] == "attached": self.link = step[1]
        if step[0] in ("detached", "silenced"): self.link = None
        super().append(step)
        self.of[step[0]].append(step)
        self.on_link[step[0], self.link].append(step)


class End:
    def __init__(self, side, codec, version, reconnect, limits):
        self.side, self.codec, self.version, self.reconnect, self.limits = side, codec, version, reconnect, limits
        self.steps = Steps()

    # what is read off the steps
    def of(self, kind): return self.steps.of[kind]
    def link(self): return self.steps.link
    def links(self): return [s[1] for s in self.of("attached")]
    def on_link(self, kind, link): return self.steps.on_link[kind, link]
    def lent(self, link): return [s[1] for s in self.on_link("lent", link)]
    def fed(self, link): return b"".join(s[1] for s in self.on_link("fed", link))
    def taken(self, link): return [s[2] for s in self.on_link("took", link)] + [s[2] for s in self.on_link("failed", link)]
    def shaken(self): return any(s[1][0] == "shaken" for s in self.of("took"))
    def kept(self): return self.shaken() and self.reconnect and self.version in (2, 3)
    def three(self): return self.shaken() and self.version == 3
    def sent(self): return [s[1] for s in self.of("sent")]
    def processed(self): return [s[1][1] for s in self.of("took") if s[1][0] == "message"]
    def acked(self): return max([0] + [s[1][1] for s in self.of("took") if s[1][0] == "acked"] + [s[1][2] for s in self.of("took") if s[1][0] == "resumed"])

    def closed(self):
        if self.of("closed") or self.of("failed"): return True
        if not self.of("detached") and not self.of("silenced"): return any(s[1][0] == "closed" for s in self.of("took"))
        shaken = False
        for s in self.steps:
            if s[0] in ("closed", "failed") or s[0] == "took" and s[1][0] == "closed": return True
            if s[0] == "took" and s[1][0] == "shaken": shaken = True
            if s[0] in ("detached", "silenced") and not (shaken and self.reconnect and self.version in (2, 3)): return True
        return False

    def state(self):
        if self.closed(): return "Closed"
        if not self.shaken(): return "Opening"
        return "Away" if self.link() is None else "Ready"

    def places(self):
        """The place of each message lent, with its link."""
        found, acked, written, here = [], 0, 0, None
        for s in self.steps:
            if s[0] == "attached": here, written = s[1], 0
            if s[0] == "took" and s[1][0] == "acked": acked = max(acked, s[1][1])
            if s[0] == "took" and s[1][0] == "resumed": acked = max(acked, s[1][2])
            if s[0] == "lent" and s[1][0] == "message":
                written = max(acked, written) + 1
                found.append((here, written))
        return found

    def most_lent(self): return max([0] + [p for _, p in self.places()])
    def written(self):
        here = self.link()
        at = [i for i, s in enumerate(self.steps) if s[0] == "attached"]
        return max([0] + [p for l, p in self.places() if l == here]) if at else 0

    def held(self): return self.sent()[self.acked() if self.kept() else self.most_lent():]
    def refusal(self, text):
        """Why a message isn't sent, if it isn't."""
        count, most, limit = self.limits
        framed = lambda m: len(spell(("message", m), self.codec))
        if self.closed(): return "Closed"
        if not self.shaken(): return "Opening"
        size = len(bare(("message", text), self.codec))
        if size > limit: return f"TooLong {size}"
        held = self.held()
        if len(held) >= count or sum(map(framed, held)) + framed(text) > most:
            return f"Full {len(held)} {sum(map(framed, held))} {framed(text)}"

    def number(self, frames):
        n = None
        for f in frames:
            if f[0] in ("request", "response"): n = 1
            if f[0] == "sequence": n = f[1]
            if f[0] == "message" and n is not None: n += 1
        return n

    def moments(self): return [s[-1] for s in self.steps if s[0] in ("attached", "detached", "ticked", "silenced")]
    def moment(self): return max([0] + self.moments())

    # what is due
    def due(self):
        link = self.link()
        if link is None: return None
        said, first = self.lent(link), link == self.links()[0]
        if not said:
            if first and self.side == "c": return None if self.closed() else ("request", self.codec, self.version)
            if first: return ("response",) if self.shaken() else None
            return ("sequence", self.acked() + 1, len(self.processed()) if self.three() else None)
        place = max(self.acked(), self.written()) + 1
        waits = place <= len(self.sent())
        if not self.three() and waits and self.number(said) != place: return ("sequence", place, None)
        told = max([0] + [f[1] for f in said if f[0] == "ack"] + [f[2] or 0 for f in said if f[0] == "sequence"])
        if self.kept() and not self.closed() and told < len(self.processed()): return ("ack", len(self.processed()))
        resumed = any(s[1][0] == "resumed" for s in self.on_link("took", link))
        if waits and (not self.three() or first or resumed): return ("message", self.sent()[place - 1])
        if self.state() == "Ready" and self.quiet(): return ("ping",)
        if self.shaken() and not any(f[0] == "close" for f in said):
            for s in reversed(self.steps):
                if s[0] == "closed": return ("close", s[1], s[2])
                if s[0] == "failed": return ("close", PROTOCOL, False)

    def since_write(self):
        """The moment of the latest lent step on the present link, or of the link's beginning, and the ticks since."""
        wrote, ticks, now = 0, [], 0
        for s in self.steps:
            if s[0] in ("attached", "detached", "ticked", "silenced"): now = max(now, s[-1])
            if s[0] in ("attached", "lent"): wrote, ticks = now, []
            if s[0] == "ticked": ticks.append(s[1])
        return wrote, ticks

    def quiet(self):
        wrote, ticks = self.since_write()
        return any(t >= wrote + 15000 for t in ticks)

    def heard(self):
        heard, now = None, 0
        for s in self.steps:
            if s[0] in ("attached", "detached", "ticked", "silenced"): now = max(now, s[-1])
            if s[0] == "attached": heard = now
            if s[0] == "fed": heard = None
            if s[0] == "ticked" and heard is None: heard = now
        return heard

    # what a frame makes
    def next_frame(self, frames):
        """The next of the other end's frames whose bytes were all fed."""
        link = self.link()
        if link is None or self.closed(): return None
        at, fed, taken = 0, len(self.fed(link)), len(self.taken(link))
        for i, (frame, size) in enumerate(frames):
            at += size
            if at > fed: return None
            if i == taken: return frame
        return None

    def makes(self, frame):
        link, p = self.link(), len(self.processed())
        if frame[0] in ("request", "response"): return ("shaken",)
        if frame[0] == "ping": return ("ping",)
        if frame[0] == "close": return ("closed", frame[1])
        if frame[0] in ("ack", "sequence") and not self.kept(): return ("skipped", "not-used")
        if frame[0] == "ack": return ("acked", frame[1]) if frame[1] <= self.most_lent() else ("fault", f"ack {frame[1]} {self.most_lent()}")
        if frame[0] == "sequence":
            received = frame[2] or 0
            if frame[1] > p + 1: return ("fault", f"gap {frame[1]} {p + 1}")
            if not self.three(): return ("sequenced", frame[1])
            return ("resumed", frame[1], received) if received <= self.most_lent() else ("fault", f"ack {received} {self.most_lent()}")
        n = self.number(self.taken(link))
        if self.three() or not self.kept():
            opened = link == self.links()[0] or self.lent(link)
            n = p + 1 if n is not None and opened else None
        if n is None: return ("skipped", "before-sequence")
        return ("message", frame[1]) if n == p + 1 else ("skipped", f"duplicate {n}")


# ---- a script

def count_of(word):
    if word == "*": return None
    return number_of(word)


def message_of(text):
    """The message of a JSON text in a script, if it is one of those that count."""
    import frames_model
    try: tree = frames_model.message_in_json(text.encode())
    except frames_model.Refused: raise Refused
    if not isinstance(tree, dict) or tree["type"] > 5: raise Refused
    return tree


def is_text(line):
    """A line that was no UTF-8 has letters in it that no text has."""
    return line.isascii() or not any("\udc80" <= letter <= "\udcff" for letter in line)


def number_of(word):
    if not word.isascii() or not word.isdigit() or word != str(int(word)) or int(word) >= 1 << 64: raise Refused
    return int(word)


class Script:
    """What the lines ask for, and what comes of it."""

    def __init__(self):
        self.options, self.begun, self.opened, self.accepted, self.now = {}, False, 0, set(), 0
        self.report, self.ends, self.frames = [], None, {}

    def line(self, text):
        if not is_text(text): raise Refused
        if text == "" or text.startswith("#"): return
        word, _, rest = text.partition(" ")
        if word in OPTIONS: return self.option(word, rest)
        act = self.action(text)
        if not self.begun: self.begin()
        act()

    def option(self, word, rest):
        if self.begun or word in self.options: raise Refused
        if word == "codec" and rest in ("json", "pack"): value = rest
        elif word == "version" and rest in ("1", "2", "3"): value = int(rest)
        elif word == "reconnect" and rest in ("on", "off"): value = rest == "on"
        elif word == "buffer":
            words = rest.split(" ")
            if len(words) != 3: raise Refused
            count, size, frame = map(number_of, words)
            if not (256 <= frame <= 1 << 20 and 1 <= count <= 65536 and frame + 5 <= size <= 16 << 20): raise Refused
            value = (count, size, frame)
        else: raise Refused
        self.options[word] = value

    def begin(self):
        self.begun = True
        o = self.options
        self.ends = {side: End(side, o.get("codec", "json"), o.get("version", 2), o.get("reconnect", True), o.get("buffer", (1024, 100000, 32768))) for side in "cs"}

    def action(self, text):
        word, *words = text.split(" ")
        if word in ("c", "s") and words: return self.action_of_end(word, words[0], words[1:], text[7:])
        if word == "open" and not words:
            if self.opened >= 1024: raise Refused
            link, self.opened = self.opened, self.opened + 1
            return lambda: self.attach("c", link)
        if word == "accept" and len(words) == 1:
            k = number_of(words[0])
            if k >= self.opened or k in self.accepted: raise Refused
            self.accepted.add(k)
            return lambda: self.attach("s", k) if k in self.ends["c"].links() else None
        if word == "tick" and len(words) == 1:
            ms = number_of(words[0])
            if ms < self.now: raise Refused
            self.now = ms
            return self.tick
        raise Refused

    def action_of_end(self, side, verb, words, text):
        if verb == "lose" and not words: return lambda: self.lose(side)
        if verb == "close" and not words: return lambda: self.close(side)
        if verb in ("write", "read") and len(words) == 1:
            n = count_of(words[0])
            return lambda: self.write(side, n) if verb == "write" else self.read(side, n)
        if verb != "send": raise Refused
        tree = message_of(text)
        return lambda: self.send(side, json_text(tree))

    def say(self, side, words): self.report.append(f"{side} {words}")

    def attach(self, side, link):
        e = self.ends[side]
        if e.closed(): return self.say(side, "refused Closed")
        if e.links() and not e.kept(): return self.say(side, "refused NotGranted")
        e.steps.append(("attached", link, self.now))

    def lose(self, side):
        e = self.ends[side]
        if e.link() is not None: e.steps.append(("detached", self.now))

    def close(self, side):
        if not self.ends[side].closed(): self.ends[side].steps.append(("closed", None, False))

    def tick(self):
        for side in "cs": self.tick_end(side)

    def tick_end(self, side):
        e = self.ends[side]
        heard = e.heard()
        if e.link() is not None and not e.closed() and heard is not None and self.now >= heard + 30000:
            e.steps.append(("silenced", self.now))
            self.say(side, "silent")
        else: e.steps.append(("ticked", self.now))

    def send(self, side, text):
        e = self.ends[side]
        if words := e.refusal(text): return self.say(side, f"refused {words}")
        e.steps.append(("sent", text))
        self.say(side, f"sent {len(e.sent())}")

    def write(self, side, n):
        e = self.ends[side]
        while n is None or n > 0:
            frame = e.due()
            if frame is None: return
            self.frames.setdefault((side, e.link()), []).append((frame, len(spell(frame, e.codec))))
            e.steps.append(("lent", frame))
            if n is not None: n -= 1

    def read(self, side, n):
        e, link = self.ends[side], self.ends[side].link()
        if link is None: return
        frames = self.frames.get(("s" if side == "c" else "c", link), [])
        there = sum(size for _, size in frames) - len(e.fed(link))
        left = there if n is None else min(n, there)
        while left > 0 and not e.closed():
            # what is fed is cut as there is room; only its length counts here
            whole, at = len(e.taken(link)), 0
            for _, size in frames[:whole]: at += size
            piece = min(left, e.limits[2] + 5 - (len(e.fed(link)) - at))
            e.steps.append(("fed", b"." * piece))
            left -= piece
            while (frame := e.next_frame(frames)) is not None: self.take(side, frame)

    def take(self, side, frame):
        e = self.ends[side]
        got = e.makes(frame)
        if got[0] == "fault":
            e.steps.append(("failed", got[1], frame))
            return self.say(side, f"fault {got[1]}")
        e.steps.append(("took", got, frame))
        kind, *parts = got
        if kind == "message": told = ["got", len(e.processed()), *parts]
        elif kind == "sequenced": told = ["sequence", *parts]
        elif kind == "closed": told = ["closed", "-" if parts == [None] else json_text(*parts)]
        else: told = got
        self.say(side, " ".join(map(str, told)))

    def stand(self):
        for side, name in ("c", "client"), ("s", "server"):
            e = self.ends[side]
            self.report.append(f"{name} {e.state()} sent {len(e.sent())} processed {len(e.processed())} held {len(e.held())}")

    def text(self):
        if not self.begun: self.begin()
        self.stand()
        return "".join(line + "\n" for line in self.report)


OPTIONS = "codec", "version", "reconnect", "buffer", "peers"


def options_of(lines):
    """The lines before the first that is an action."""
    return itertools.takewhile(lambda line: line == "" or line.startswith("#") or line.split(" ")[0] in OPTIONS, lines)


def new_script(lines):
    if "peers on" not in options_of(lines): return Script()
    import peers_model
    return peers_model.Replay()


def report_of(script):
    """The report of a script, a text or bytes, and the exit status."""
    if isinstance(script, bytes): script = script.decode(errors="surrogateescape")
    lines = script.removesuffix("\n").split("\n") if script else []
    s = new_script(lines)
    for number, line in enumerate(lines, 1):
        try: s.line(line)
        except Refused: return f"line {number} refused\n", 2
    return s.text(), 0


OPENING = ["open", "accept 0", "c write *", "s read *", "s write *", "c read *"]
TURN = ["c write *", "s read *", "s round", "s write *", "c read *", "c round"]
VALUES = ["1", "-5", '"é"', "null", "true", "[false]"]


class RandomScript:
    """The lines of a script, as they are drawn. With peers they are played too, so that lines about calls can name live ones."""

    def __init__(self, draw):
        self.draw, self.lines, self.peers = draw, [], draw.random() < .5
        self.links, self.left, self.now = 0, [], 0
        self.played = new_script(["peers on"]) if self.peers else None

    def say(self, *lines):
        self.lines += lines
        if self.peers:
            for line in lines: self.played.line(line)

    def options(self):
        draw = self.draw
        if self.peers: self.say("peers on")
        if draw.random() < .5: self.say(f"codec {draw.choice(['json', 'pack'])}")
        if draw.random() < .8: self.say(f"version {draw.choice([1, 2, 3])}")
        if draw.random() < .3: self.say(f"reconnect {draw.choice(['on', 'off', 'on'])}")
        if draw.random() < .4: self.say(draw.choice(["buffer 3 400 256", "buffer 2 1000 300", "buffer 1 261 256", "buffer 9 1500 256"]))

    def open(self):
        self.say("open")
        self.left.append(self.links)
        self.links += 1

    def accept(self):
        if self.left: self.say(f"accept {self.left.pop(-1 - self.draw.randrange(min(3, len(self.left))))}")

    def send(self, side):
        draw = self.draw
        target = draw.choice("abc") * draw.choice([1, 1, 5, 200])
        self.say(f'{side} send {{"arguments":[{draw.choice(VALUES)}],"target":"{target}","type":1}}')

    def call(self, side):
        draw = self.draw
        value, n, long = draw.choice(VALUES), draw.randrange(4), "x" * draw.choice([5, 150, 190, 250])
        calls = [f"stream Count [{n}]", f"call Slow [{n},{value}]", f"call Echo [{value}]", f'call Ask ["Confirm",{value}]', f'call Ask ["Sum",{n}]']
        calls += [f"call Add [{n},{value}]", f"call Add [18446744073709551615,{n}]", 'call Fail ["It failed."]', f'call Echo ["{long}"]']
        calls += ["stream Sum []", f"call Count [{n}]", "call a []", f"notify Slow [{n},1]", f'notify Ask ["Confirm",{n}]', f"notify Count [{n}]"]
        if side == "s" and draw.random() < .9:
            calls = [f"call Confirm [{value}]", "call Confirm []", f"stream Confirm [{value}]", "call a []", "stream b [1]", f"notify Confirm [{value}]"]
            calls += [f'call Confirm ["{long}"]', "notify c [2]"]
        uploads = ["upload Sum []"] * 4 + ["upload Echo [1]", "upload Count [2]"] if side == "c" else ["upload Confirm [1]", "upload d []"]
        self.say(f"{side} {draw.choice(uploads if draw.random() < .3 else calls)}")

    def use(self, side):
        draw, calls = self.draw, self.played.calls[side]
        live, uploads = [call for call, _ in calls.live_calls()], [call for call, _ in calls.live_uploads()]
        if draw.random() < .1: live = uploads = [draw.randint(0, calls.drawn() + 1)]
        if uploads and draw.random() < .8:
            upload = draw.choice(uploads[-4:])
            self.say(f"{side} " + draw.choice([f"item {upload} {value}" for value in ("1", "5", "-7", "20", "1", "true")] + [f"done {upload}"] * 2))
        elif live and draw.random() < .5: self.say(f"{side} cancel {draw.choice(live[-3:])}")
        else: self.call(side)

    def speak(self, side):
        if not self.peers: self.send(side)
        elif self.draw.random() < .5: self.call(side)
        elif self.draw.random() < .6: self.use(side)
        else: self.say(f"{side} round")

    def step(self):
        draw = self.draw
        side, k = draw.choice("ccs"), draw.randrange(20)
        if k < 5: self.say(f"{side} write {draw.choice(['*', '*', '1', '2'])}")
        elif k < 9: self.say(f"{side} read {draw.choice(['*', '*', '1', '20', '45', '300'])}")
        elif k < 14: self.speak(side)
        elif k < 16 and self.peers: self.say(*TURN)
        elif k < 17 and draw.random() < .7:
            self.open()
            if draw.random() < .5: self.accept()
        elif k < 18: self.accept()
        elif k < 19 and draw.random() < .5:
            self.now += draw.choice([0, 1, 14999, 15000, 30000])
            self.say(f"tick {self.now}")
        elif draw.random() < .2: self.say(f"{side} {draw.choice(['lose', 'lose', 'close'])}")

    def text(self):
        draw = self.draw
        self.options()
        if draw.random() < .9:
            self.say(*OPENING)
            self.links = 1
        for _ in range(draw.randrange(90 if self.peers else 60)): self.step()
        if self.peers and draw.random() < .5:
            self.open()
            self.say(f"accept {self.left.pop()}", *TURN * 6)
        return "".join(line + "\n" for line in self.lines)


def random_script(draw):
    return RandomScript(draw).text()


def compare(script, program):
    """What is wrong with what the program reports of a script, in lines."""
    return compare_with(*report_of(script), script, program)


def compare_with(wanted, status, script, program):
    run = subprocess.run([program, "replay"], input=script.encode(), capture_output=True, timeout=60)
    got = run.stdout.decode(errors="replace")
    if (got, run.returncode) == (wanted, status): return []
    names = f"want, with status {status}", f"got, with status {run.returncode}"
    return [*script.splitlines()[:SHOWN], *(differences(wanted, got, *names) or names)]


def differences(wanted, got, *names):
    return [*difflib.unified_diff(wanted.splitlines(), got.splitlines(), *names, lineterm="", n=2)][:SHOWN]


def compare_random(seed, n, program):
    for i in range(n):
        wrong = compare(random_script(random.Random(f"{seed} {i}")), program)
        if wrong:
            print(f"FAILED script {i} of seed {seed}", *wrong, sep="\n    ")
            print(f"{i} passed, 1 failed")
            return 1
    print(f"{n} passed, 0 failed")
    return 0


def main():
    if sys.argv[1:2] == ["--random"]: sys.exit(compare_random(int(sys.argv[2]), int(sys.argv[3]), sys.argv[4]))
    text, status = report_of(sys.stdin.read())
    sys.stdout.write(text)
    sys.exit(status)


if __name__ == "__main__":
    # peers_model.py needs this module by its name.
    import replay_model
    replay_model.main()
