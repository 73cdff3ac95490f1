#!/usr/bin/env python3
"""A plain model of doors, dialers, wires and lots in memory: what `crates/ht_doors` is to print of a script.

    acceptance/doors_model.py --check [BUILT] | --write      the script and what the model says of it (committed.py)
    acceptance/doors_model.py                                prints what the model says of a script on its standard input

Each form is the lists that it was made with, and the number of the next call. It shares no code with the program, whose main.rt has the
words of a script."""
import sys

import committed

FIELDS = ("Allow: POST", "Allow: GET, POST, DELETE", "WWW-Authenticate: Bearer", "Sec-WebSocket-Version: 13")


class Failed(Exception):
    """A call that fails, and what is said of it."""


class Refused(Exception):
    pass


def number(word):
    if not (word.isascii() and word.isdigit() and int(word) < 1 << 64):
        raise Refused
    return int(word)


def parts(word):
    return [] if word == "-" else word.split(",")


def numbers(word):
    return [number(part) for part in parts(word)]


def rising(moments):
    if moments != sorted(moments):
        raise Refused
    return moments


class Calls:
    """The calls of a form, counted from 0, of which some are to fail."""

    def __init__(self, failing, failure="failed"):
        self.failing, self.failure, self.at = failing, failure, 0

    def next(self):
        self.at += 1
        if self.at - 1 in self.failing:
            raise Failed(self.failure)


# ---- doors and dialers

class Door:
    asks = ()

    def __init__(self, heard, failing, filling):
        rising([now for now, _ in heard])
        self.heard, self.calls, self.filling = list(heard), Calls(failing, "the outside failed"), filling
        self.now, self.said, self.lanes, self.messages = 0, [], 0, 0

    def say(self, words):
        self.calls.next()
        self.said.append(words)
        return "done"

    def answer(self, word, rest):
        first, _, more = rest.partition(" ")
        kind, _, text = more.partition(" ")
        if word == "given":
            return "".join(["given"] + [f" | {words}" for words in self.said])
        if word == "next":
            self.calls.next()
            self.now, event = self.heard.pop(0) if self.heard else (self.now, "quiet")
            return f"{self.now} {event}"
        if word in self.asks and kind in ("GET", "POST", "DELETE"):
            self.say(f"{word} {self.lanes + 1} {number(first)} {text}")
            self.lanes += 1
            return f"lane {self.lanes}"
        if word == "reply" and not self.asks:
            return self.say(f"reply {number(first)} 202")
        if word == "send":
            self.say(f"bytes {number(first)} {'text' if kind == 'text' else 'octets'} {text}")
            self.messages += 1
            return "sent, full" if self.messages - 1 in self.filling else "sent"
        if word == "shut":
            return self.say(f"shut {number(first)}")
        raise Refused


class Dialer(Door):
    asks = ("ask", "upgrade")


# ---- wires

class Wire:
    def __init__(self, words):
        since, reads, writes = words
        self.since, self.reads, self.writes = number(since), parts(reads), numbers(writes)
        self.written, self.is_shut = "", False


class Wires:
    def __init__(self, wires, moments, failing, room, calls):
        self.moments, self.now, self.calls = rising(moments), 0, Calls(failing)
        self.wires, self.given, self.room, self.told_left = list(wires), 0, room, calls

    def find(self, wire):
        """The wire, if it was given and not shut."""
        if wire >= self.given or self.wires[wire].is_shut:
            raise Failed
        return self.wires[wire]

    def tell(self, count=0):
        """Makes room for an answer with so many bytes. Past the room nothing more is told, and each call fails."""
        if self.told_left < 1 or self.room < count:
            self.told_left = 0
            raise Failed
        self.told_left -= 1
        self.room -= count

    def answer(self, word, rest):
        first, _, more = rest.partition(" ")
        if word == "written":
            wire = number(first)
            return f"written {self.wires[wire].written if wire < len(self.wires) else ''}"
        if word not in ("poll", "accept", "connect", "read", "write", "shut"):
            raise Refused
        arguments = {"read": lambda: (number(first), number(more)), "write": lambda: (number(first), more), "shut": lambda: (number(first),)}
        arguments = arguments.get(word, lambda: ())()
        try:
            self.calls.next()
        except Failed:
            # That a call failed is told too, if there is room.
            if word != "shut":
                self.tell_failure()
                raise
        return getattr(self, word)(*arguments)

    def tell_failure(self):
        self.told_left = max(0, self.told_left - 1)

    def poll(self):
        self.tell()
        self.now = self.moments.pop(0) if self.moments else self.now
        return f"at {self.now}"

    def accept(self):
        self.tell()
        if self.given == len(self.wires) or self.wires[self.given].since > self.now:
            return "none"
        self.given += 1
        return f"wire {self.given - 1}"

    def connect(self):
        if self.given == len(self.wires):
            self.tell_failure()
            raise Failed
        self.tell()
        self.given += 1
        return f"wire {self.given - 1}"

    def read(self, wire, room):
        room = min(room, 8)
        try:
            reads = self.find(wire).reads
        except Failed:
            self.tell_failure()
            raise
        if not reads or reads[0] in "*!":
            self.tell()
            return "ended" if reads and reads.pop(0) == "!" else "not yet"
        text = reads[0][:room]
        self.tell(len(text))
        reads[0] = reads[0][room:]
        if not reads[0]:
            reads.pop(0)
        return f"read {text}"

    def write(self, wire, text):
        try:
            wire = self.find(wire)
        except Failed:
            self.tell_failure()
            raise
        taken = text[:wire.writes[0]] if wire.writes else ""
        self.tell(len(taken))
        wire.writes = wire.writes[1:]
        wire.written += taken
        return f"wrote {len(taken)}"

    def shut(self, wire):
        if wire < self.given:
            self.wires[wire].is_shut = True
        self.tell_failure()
        return "shut"


# ---- lots

class Lots:
    def __init__(self, draws, failing):
        if any(byte > 255 for byte in draws):
            raise Refused
        self.draws, self.calls = draws, Calls(failing)

    def answer(self, word, _rest):
        if word != "draw":
            raise Refused
        self.calls.next()
        if not self.draws:
            raise Failed
        return "draw" + f" {self.draws.pop(0)}" * 16


# ---- scripts

class Bench:
    def __init__(self):
        self.heard, self.wires = [], []
        self.forms = {"door": Door([], [], []), "dialer": Dialer([], [], []), "wires": Wires([], [], [], 0, 0), "lots": Lots([], [])}

    def line(self, line):
        try:
            return self.act(line)
        except Failed as failure:
            return str(failure) or "failed"
        except (Refused, ValueError):
            return f"no action: {line}"

    def act(self, line):
        form, _, words = line.partition(" ")
        word, _, rest = words.partition(" ")
        if form == "note":
            return line
        if line == "system":
            return "two draws that differ"
        if form == "heard":
            kind, lane, *more = rest.split(" ")
            if kind not in ("bytes", "response", "refused", "lost", "drained"):
                raise Refused
            if kind == "refused" and more[1:] and " ".join(more[1:]) not in [f"[{field}]" for field in FIELDS]:
                raise Refused
            self.heard.append((number(word), rest))
            number(lane)
            return "to be heard"
        if form == "wire":
            self.wires.append(Wire(words.split(" ")))
            return "to be given"
        if form in self.forms and word == "start":
            return self.start(form, rest.split(" "))
        if form in self.forms:
            return self.forms[form].answer(word, rest)
        raise Refused

    def start(self, form, words):
        if form in ("door", "dialer"):
            heard, self.heard = self.heard, []
            failing, filling = words
            self.forms[form] = (Door if form == "door" else Dialer)(heard, numbers(failing), numbers(filling))
            return f"a {form}"
        if form == "wires":
            wires, self.wires = self.wires, []
            moments, failing, room, calls = words
            self.forms[form] = Wires(wires, numbers(moments), numbers(failing), number(room), number(calls))
            return "wires"
        draws, failing = words
        self.forms[form] = Lots(numbers(draws), numbers(failing))
        return "lots"


def answers(script):
    bench = Bench()
    return "".join(bench.line(line) + "\n" for line in script.splitlines())


# ---- the cases

HEARD = """heard 3 bytes 1 hello
heard 3 response 2 200
heard 8 lost 1
"""

# The second wire may be accepted from the moment 7 on, the third never in time.
WIRES = """wire 0 abcde,*,! 3,0,9
wire 7 - -
wire 1000 - -
"""

CASES = f"""note a door: number 3 is to fail, and is not kept
{HEARD}door start 1,3 -
door next
door next
door next
door send 1 text lost
door send 1 octets kept
door reply 2
door shut 1
door next
door next
door next
door given
note a door at which nothing is heard
door start - -
door next
door given
note refusals, each with its field
heard 1 refused 1 431
heard 1 refused 2 405 [Allow: POST]
heard 1 refused 3 405 [Allow: GET, POST, DELETE]
heard 1 refused 4 401 [WWW-Authenticate: Bearer]
heard 1 refused 5 400 [Sec-WebSocket-Version: 13]
heard 1 refused 6 400 [Sec-WebSocket-Version: 12]
door start 2 -
door next
door next
door next
door next
door next
door next
door next
note a dialer: the ask of number 1 is to fail, and has no lane
{HEARD}dialer start 1 -
dialer ask 0 POST /negotiate
dialer ask 1 GET /lost
dialer upgrade 18446744073709551615 GET /hub
dialer next
dialer next
dialer next
dialer next
dialer send 2 text hi
dialer shut 2
dialer given
note lanes are full after the messages 0, 2 and 3, on whatever lane: call 1 is to fail and is no message, and there is no message 9
heard 4 drained 1
heard 4 drained 7
door start 1 3,0,9,2
door send 1 text zero
door send 1 text lost
door send 1 octets one
door next
door reply 2
door send 2 text two
door shut 2
door send 1 octets
door send 1 text four
door next
door next
door given
note a new door counts its messages anew, and no message fills a lane unless it is one of the numbers
door start - 1,1
door send 1 text zero
door send 1 text one
door send 1 text two
heard 5 drained 1
door start - -
door send 1 text zero
door next
note a dialer's lanes: asks and calls that fail are no messages
heard 2 drained 2
dialer start 3 1
dialer ask 1 GET /
dialer upgrade 0 GET /hub
dialer send 2 text zero
dialer send 2 text lost
dialer send 1 octets one
dialer send 2 text two
dialer next
dialer next
dialer given
note moments that fall, and words that are no actions
heard 3 lost 1
heard 2 lost 1
door start - -
door next
heard 3 drained
heard 3 drained x
door start -
door start - x
door start - - -
heard 3 gone 1
door reply x
dialer ask 0 OTHER /
dialer ask x GET /
dialer reply 1
note wires answer as their lists say; number 2 is to fail, and takes no moment, and number 6 leaves what is left of the first read
{WIRES}wires start 5,5,9 2,6,26 100 100
wires accept
wires accept
wires poll
wires poll
wires accept
wires read 0 2
wires read 0 2
wires read 0 2
wires read 0 0
wires read 0 2
wires read 0 2
wires read 0 2
wires read 0 2
wires write 0 vwxyz
wires write 0 yz
wires write 0 yz
wires write 0 1
wires poll
wires poll
wires poll
wires read 1 2
wires accept
wires read 1 2
wires accept
note to connect no moment is waited for
wires connect
wires connect
note number 26 is to fail, but is a shut
wires shut 1
wires read 1 2
wires write 1 1
wires write 3 1
wires written 0
wires written 1
wires written 3
note room for four calls, and then all fail but a shut
{WIRES}wires start - - 100 4
wires accept
wires poll
wires read 0 4
wires write 0 vw
wires write 0 x
wires poll
wires shut 0
wires accept
wires written 0
note room for five bytes, read and written
{WIRES}wires start - - 5 100
wires accept
wires read 0 3
wires write 0 vwx
wires write 0
wires poll
wires written 0
note moments that fall
wires start 5,4 - 5 100
note lots: the call of number 1 is to fail, and the draws end before the calls
lots start 1,2,3 1,9
lots draw
lots draw
lots draw
lots draw
lots draw
lots draw
lots start 256 -
note draws of the system
system
"""


if __name__ == "__main__":
    sys.exit(committed.main("ht_doors", lambda: (CASES, answers(CASES)), answers))
