"""Sessions of `sr client` with `sr serve` over a way that is cut: at any bytes, or by dials that are refused (watched.py).

A case is its name, and a function of the program that answers what is wrong, in lines: by the model of scripted.py, as in client_calls.py; by what
each call brings, which is known beforehand, so that each is answered once and each item of a stream comes once and in order; and by the lines of
sockets, each of which is told as lost and come again where it was cut."""
import collections
import itertools
import random

from client_calls import CODECS, Session, differences, room_of, spoken
from serving import Serving
from watched import TO_CLIENT, TO_SERVER, Cut

# ---- sessions that are cut


# The bytes of a response that accepts an upgrade: as many come before anything else.
HEAD = len("HTTP/1.1 101 Switching Protocols\r\nUpgrade: websocket\r\nConnection: Upgrade\r\nSec-WebSocket-Accept: \r\n\r\n") + 28


def random_cuts(draw, count, most):
    """How so many sockets are cut: each third before it is up, which is a lost dial, and the others after that."""
    for number in range(count):
        after = 1 + draw.randrange(draw.choice([30, 200, most]))
        if number % 3 == 2:
            yield Cut(TO_CLIENT, draw.randrange(HEAD))
        elif draw.random() < 0.3:
            yield Cut(TO_SERVER, after)
        else:
            yield Cut(TO_CLIENT, HEAD + after)


def one_by_one(count):
    """Calls, each after the answer to the one before."""
    script = spoken(line for n in range(1, count + 1) for line in (f"call Echo [{n}]", "wait"))
    return script, {n: [f"ended result {n}"] for n in range(1, count + 1)}


def at_once(count):
    return spoken(f"call Add [{n},{n}]" for n in range(1, count + 1)), {n: [f"ended result {2 * n}"] for n in range(1, count + 1)}


def streams(count, items):
    script = spoken(f"stream Count [{items}]" for _ in range(count))
    return script, {n: [*(f"item {item}" for item in range(1, items + 1)), "ended void"] for n in range(1, count + 1)}


def upload(count):
    lines = ["upload Sum []", *(f"item 1 {n}" for n in range(1, count + 1)), "done 1"]
    return spoken(lines), {1: [f"ended result {count * (count + 1) // 2}"]}


def asks(count):
    """The server calls the client in between."""
    script = spoken(line for n in range(1, count + 1) for line in (f'call Ask ["{"Confirm" if n % 2 else "Note"}",{n}]', "wait"))
    return script, {n: [f"ended result {n}" if n % 2 else "ended void"] for n in range(1, count + 1)}


# What is cut: a script with what each of its calls brings, how far apart cuts are at most, and how little is kept by the server and by the client.
LITTLE = ["--resend", "8", "32773"]
ALL, FEW = ([], []), (LITTLE, LITTLE)
CUT = {
    "calls one by one": (one_by_one(200), 400, ALL),
    "calls at once": (at_once(300), 30_000, ALL),
    "calls at once, of which few are kept": (at_once(150), 600, FEW),
    "a stream, of which little is kept": (streams(1, 400), 500, FEW),
    "streams at once": (streams(3, 150), 6_000, ALL),
    "streams at once, of which little is kept": (streams(3, 150), 600, FEW),
    "an upload": (upload(300), 20_000, ALL),
    "an upload, of which little is kept": (upload(300), 600, FEW),
    "calls of the server": (asks(120), 500, ALL),
}
CUTS_OF_EACH = 36
LEAST_CUTS = 300
CUTS = collections.Counter()
LEAST_BYTES = {"json": 60, "pack": 12}  # of what a short session carries each way


def cut_session(name, codec):
    (script, wanted), most, (serves, words) = CUT[name]

    def case(program):
        cuts = random_cuts(random.Random(f"{name} {codec}"), CUTS_OF_EACH, most)
        with Serving(program, *serves) as server:
            session = Session(program, server.port, script, codec, words, cuts=cuts)
            CUTS["made"] += session.way.cut_count()
            faults = session.faults(**room_of(words)) + server.complaints()
        if session.by_call() != wanted:
            faults += differences(shown(wanted), shown(session.by_call()), "by hand", "came")
        return faults + moves(session)

    return f"{name}, cut at any bytes, in {codec}", case


def shown(by_call):
    return [f"{number}: {line}" for number, lines in sorted(by_call.items()) for line in lines]


def moves(session):
    """Each socket that came up but the last was cut, and is told as lost, and each but the first as come again."""
    sockets = session.up()
    count = len(sockets) - 1
    told = session.printed.count("lost"), session.printed.count("again")
    return [] if told == (count, count) and all(socket.is_cut for socket in sockets[:-1]) else [f"of {count} lost sockets {told} are told"]


def cuts_enough(_program):
    return [] if CUTS["made"] >= LEAST_CUTS else [f"{CUTS['made']} cuts, and not {LEAST_CUTS}"]


def cut_at_each_byte(codec, direction, *before):
    """A short session, cut once at each byte that is carried in this direction: on the first socket or, if that was cut already, on the next, where
    it is cut at some of the head and then at each byte. What a client says first is its handshake, which isn't cut off."""

    def case(program):
        with Serving(program) as server:
            for after in itertools.chain(range(0, HEAD, 10), itertools.count(HEAD)) if before else itertools.count(direction == TO_SERVER):
                session = Session(program, server.port, "call Add [2,3]\n", codec, cuts=[*before, Cut(direction, after)])
                if session.way.cut_count() == len(before):
                    # It was over before.
                    return server.complaints() + ([] if after > LEAST_BYTES[codec] else [f"{after} bytes were carried"])
                CUTS["made"] += session.way.cut_count()
                faults = session.faults()
                if session.by_call() != {1: ["ended result 5"]}:
                    faults += session.printed
                if faults:
                    return [f"after {after} bytes", *faults]

    return case


def refused_dials(refused, cuts, codec):
    """Dials that are refused, of which no five come in a row, and sockets that are cut."""
    def case(program):
        script, wanted = one_by_one(12)
        with Serving(program) as server:
            places = [Cut(TO_CLIENT, 120 + 40 * n) for n in range(cuts)]
            session = Session(program, server.port, script, codec, cuts=places, refused=refused)
            faults = session.faults() + moves(session) + server.complaints()
        if session.by_call() != wanted:
            faults += differences(shown(wanted), shown(session.by_call()), "by hand", "came")
        if session.way.cut_count() != cuts:
            faults.append(f"{session.way.cut_count()} cuts, and not {cuts}")
        return faults

    return case


# ---- random sessions


class RandomSession:
    """A script as it is drawn, with what each of its calls brings."""

    CALLS = {
        "call Echo [7]": ["ended result 7"],
        "call Add [1,-3]": ["ended result -2"],
        "call Add [18446744073709551615,1]": ['ended error "Out of range."'],
        'call Fail ["no"]': ['ended error "no"'],
        "call Slow [20,true]": ["ended result true"],
        'call Ask ["Confirm",[1]]': ["ended result [1]"],
        'call Ask ["Note",1]': ["ended void"],
        "stream Count [3]": ["item 1", "item 2", "item 3", "ended void"],
        "call Nothing []": ['ended error "Unknown method."'],
        "call Count [3]": ['ended error "A stream."'],
    }

    def __init__(self, seed):
        self.draw, self.lines, self.wanted, self.number = random.Random(seed), [], {}, 0  # the number of the last call or upload
        for _ in range(self.draw.randrange(20, 60)):
            self.add(self.draw.randrange(20))

    def add(self, k):
        draw = self.draw
        if k < 10:
            line = draw.choice(list(self.CALLS))
            self.number += 1
            self.lines.append(line)
            self.wanted[self.number] = self.CALLS[line]
        elif k < 12:
            self.lines += ["notify Echo [1]", 'notify Ask ["Note",2]'][: draw.randrange(3)]
        elif k < 15:
            self.lines.append("lose")
        elif k < 18:
            self.lines.append("wait")
        else:
            self.upload([draw.randrange(100) for _ in range(draw.randrange(9))])

    def upload(self, items):
        call, self.number = self.number + 1, self.number + 2
        self.lines += ["upload Sum []", *(f"item {call} {item}" for item in items), f"done {call}"]
        self.wanted[call] = [f"ended result {sum(items)}"]

    def script(self):
        return spoken(self.lines)


def random_sessions(codec, count):
    def case(program):
        with Serving(program) as server:
            for number in range(count):
                drawn = RandomSession(f"{codec} {number}")
                cuts = random_cuts(random.Random(number), number % 6, 800)
                session = Session(program, server.port, drawn.script(), codec, cuts=cuts)
                CUTS["made"] += session.way.cut_count()
                faults = session.faults()
                if session.by_call() != drawn.wanted:
                    faults += differences(shown(drawn.wanted), shown(session.by_call()), "by hand", "came")
                if faults:
                    return [f"session {number}", *faults]
            return server.complaints()

    return case

FOUR_IN_A_ROW = {2, 4, 5, 7, 8, 9, 11, 12, 13, 14}
CASES = [
    *(cut_session(name, codec) for name in CUT for codec in CODECS),
    *((f"a short session, cut at each byte {way}, in {codec}", cut_at_each_byte(codec, way)) for way in (TO_CLIENT, TO_SERVER) for codec in CODECS),
    ("a short session whose second socket is cut at each byte", cut_at_each_byte("json", TO_CLIENT, Cut(TO_CLIENT, 0))),
    *((f"random sessions, in {codec}", random_sessions(codec, 20)) for codec in CODECS),
    ("the first ask is refused", refused_dials({0}, 0, "json")),
    ("the first socket is refused", refused_dials({1, 2}, 1, "pack")),
    ("up to four dials in a row are refused", refused_dials(FOUR_IN_A_ROW, 4, "json")),
    ("the first four dials are refused", refused_dials({0, 1, 2, 3}, 2, "pack")),
]
LAST_CASES = [(f"at least {LEAST_CUTS} cuts were made", cuts_enough)]
