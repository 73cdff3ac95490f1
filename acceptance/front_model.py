#!/usr/bin/env python3
"""A plain model of a server's front: what `crates/ht_front` is to print of a script.

    acceptance/front_model.py --check [BUILT] | --write      the script and what the model says of it (committed.py)
    acceptance/front_model.py                                prints what the model says of a script on its standard input

It follows docs/serving.md and shares no code with the program: it keeps the list of what was noted, goes through all of it at each
question, and takes tokens and queries from Python's base64 and urllib."""
import base64
import json
import random
import sys
import urllib.parse

import committed

MOST_LIVE, LIVES_FOR, MOST = 10_000, 30_000, (1 << 64) - 1
TRANSPORTS = [{"transferFormats": ["Text", "Binary"], "transport": "WebSockets"}, {"transferFormats": ["Text", "Binary"], "transport": "LongPolling"}]


class Refused(Exception):
    pass


class Busy(Exception):
    pass


def number(word):
    if not (word.isascii() and word.isdigit()) or int(word) > MOST:
        raise Refused
    return int(word)


# ---- routes

def query_value(query, name):
    for pair in query.split("&"):
        key, _, value = pair.partition("=")
        if pair and urllib.parse.unquote_to_bytes(key.replace("+", " ")) == name.encode():
            return urllib.parse.unquote_to_bytes(value.replace("+", " "))
    return None


def shown(text):
    try:
        return text.decode()
    except UnicodeDecodeError:
        return "no text"


def route_of(method, path, query, socket):
    if path == "/hub/negotiate":
        version = query_value(query, "negotiateVersion")
        if method != "post":
            return "refuse 405"
        if version is None or not version.isdigit() or not 0 < int(version) <= MOST:
            return "refuse 400"
        return "negotiate, to be resumed" if query_value(query, "useStatefulReconnect") == b"true" else "negotiate"
    if path != "/hub":
        return "refuse 404"
    token = query_value(query, "id")
    if socket and token is None:
        return "open"
    if method == "other":
        return "refuse 405"
    if token is None:
        return "refuse 400"
    return f"{'socket' if socket else {'get': 'poll'}.get(method, method)} {shown(token)}"


# ---- connections

class Connection:
    """What the notes of one connection come to, up to the end of a list."""

    def __init__(self, notes):
        self.socket = self.lost = self.poll = self.polled = self.ended = None
        self.gone = False
        _, self.token, self.made, self.promised = notes[0]
        for note in notes[1:]:
            getattr(self, note[0])(*note[1:])

    def on_socket(self, lane, now): self.socket, self.lost = lane, None
    def on_poll(self, lane, now): self.poll, self.polled = (lane, now), None
    def on_ending(self, now): self.ended = now if self.ended is None else self.ended
    def on_closed(self): self.gone = True

    def on_answered(self, lane, now):
        if self.poll is not None and self.poll[0] == lane:
            self.poll, self.polled = None, now

    def on_lost(self, lane, now):
        if self.socket == lane:
            self.socket, self.lost = None, now
        self.on_answered(lane, now)

    def on_expired(self, now):
        if self.standing()[0] == "polling":
            self.ended = now
        else:
            self.gone = True

    def polls(self): return self.poll is not None or self.polled is not None

    def standing(self):
        """Its life but for moments, and since when that counts towards its end."""
        if self.gone:
            return "unknown", None
        if self.ended is not None:
            return "ending", self.ended
        if self.socket is not None:
            return f"socket {self.socket}", None
        if self.lost is not None:
            return "lost", self.lost
        if self.polls():
            return "polling", self.polled
        return "fresh", self.made

    def is_over(self, now):
        since = self.standing()[1]
        return since is not None and since + LIVES_FOR <= now

    def life(self, now):
        life = self.standing()[0]
        return life if not self.is_over(now) else "ending" if life == "polling" else "unknown"


class Front:
    def __init__(self, most=MOST_LIVE):
        self.most = most
        self.notes = []  # of each connection, in order of numbers

    def known(self): return {c: Connection(notes) for c, notes in enumerate(self.notes, 1)}

    def room(self, now):
        """How many more may live, and those that nobody used yet, in order of numbers."""
        lives = {c: known.life(now) for c, known in self.known().items()}
        return self.most - sum(life != "unknown" for life in lives.values()), [c for c, life in lives.items() if life == "fresh"]

    def is_busy(self, now):
        more, unused = self.room(now)
        return more <= 0 and not unused

    def make(self, token, now, promised=False):
        """Its number, and words for the one that gave way."""
        more, unused = self.room(now)
        if more <= 0 and not unused:
            raise Busy
        if more <= 0:
            self.note(unused[0], "on_closed")
        conn = len(self.notes) + 1
        self.notes.append([("made", token and token(conn), now if token else None, promised)])
        return f"{conn}" if more > 0 else f"{conn} in place of {unused[0]}"

    def open_many(self, count, now, used):
        """So many, or as many as can be made: no life ends between two of them. `used`: each stands on a socket at once."""
        more, unused = self.room(now)
        for opened in range(count):
            if more <= 0 and not unused:
                return f"opened {opened}, the last {len(self.notes) if opened else 0}, then busy"
            if more <= 0:
                self.note(unused.pop(0), "on_closed")
            more -= more > 0
            self.notes.append([("made", None, None, False)])
            if used:
                self.note(len(self.notes), "on_socket", 0, now)
            else:
                unused.append(len(self.notes))
        return f"opened {count}, the last {len(self.notes) if count else 0}"

    def negotiate(self, asked, drawn, now, transports):
        made = self.make(lambda conn: base64.urlsafe_b64encode(drawn + conn.to_bytes(8, "big")).decode(), now, asked)
        body = {"availableTransports": transports, "connectionId": str(len(self.notes)), "connectionToken": self.notes[-1][0][1], "negotiateVersion": 1}
        if asked:
            body["useStatefulReconnect"] = True
        return f"made {made} {json.dumps(body, separators=(',', ':'))}"

    def note(self, conn, *note):
        if 1 <= conn <= len(self.notes):
            self.notes[conn - 1].append(note)
        return "noted"

    def with_token(self, token):
        return next((c for c, notes in enumerate(self.notes, 1) if notes[0][1] == token), None)

    def life(self, token, now):
        conn = self.with_token(token)
        return "unknown" if conn is None else Connection(self.notes[conn - 1]).life(now)

    def conn(self, token, now):
        return "none" if self.life(token, now) == "unknown" else f"conn {self.with_token(token)}"

    def connection(self, conn):
        """None where no connection has the number, or it is let go."""
        known = Connection(self.notes[conn - 1]) if 1 <= conn <= len(self.notes) else None
        return None if known is None or known.gone else known

    def at(self, conn, now):
        known = self.connection(conn)
        return "unknown" if known is None else known.life(now)

    def held(self, conn):
        known = self.connection(conn)
        return "none" if known is None or known.poll is None else "held {} since {}".format(*known.poll)

    def promised(self, conn):
        known = self.connection(conn)
        return "yes" if known is not None and known.promised else "no"

    def expired(self, now):
        due = [c for c, entry in self.known().items() if entry.is_over(now)]
        for conn in due:
            self.note(conn, "on_expired", now)
        return " ".join(["expired", *map(str, due)])


class Script:
    def __init__(self):
        self.front = Front()

    def answer(self, line):
        word, _, rest = line.partition(" ")
        try:
            return self.act(word, rest, rest.split(" "))
        except Busy:
            return "busy"
        except (Refused, ValueError, KeyError, TypeError):
            return f"no action: {line}"

    def act(self, word, rest, words):
        if word == "note":
            return f"note {rest}"
        if word == "front":
            most = number(rest) if rest else MOST_LIVE
            if not 1 <= most <= MOST_LIVE:
                raise Refused
            self.front = Front(most)
            return "a front"
        if word == "route":
            method, path, query, kind = words
            if method not in ("get", "post", "delete", "other"):
                raise Refused
            return route_of(method, path, "" if query == "-" else query, {"socket": True, "plain": False}[kind])
        if word in ("negotiate", "sockets"):
            asked, drawn, now = words
            if len(drawn) != 32:
                raise Refused
            return self.front.negotiate({"yes": True, "no": False}[asked], bytes.fromhex(drawn), number(now), TRANSPORTS[:1 if word == "sockets" else 2])
        if word in ("life", "conn"):
            token, now = words
            return getattr(self.front, word)(token, number(now))
        numbers = [number(w) for w in words]
        if word == "open":
            return f"made {self.front.make(None, *numbers)}"
        if word in ("many", "used"):
            return self.front.open_many(*numbers, word == "used")
        if word in ("at", "held", "promised"):
            return getattr(self.front, word)(*(numbers if len(numbers) == (2 if word == "at" else 1) else []))
        if word == "busy":
            return "yes" if self.front.is_busy(*numbers) else "no"
        if word == "expired":
            return self.front.expired(*numbers)
        if len(numbers) != {"socket": 3, "poll": 3, "answered": 3, "lost": 3, "ending": 2, "closed": 1}.get(word):
            raise Refused
        return self.front.note(numbers[0], f"on_{word}", *numbers[1:])


# ---- cases

DRAWN = "00" * 16
TOKEN = "AAAAAAAAAAAAAAAAAAAAAAAAAAAAAAAB"


def routes():
    yield "note the rows that look at no token"
    for query in ("-", "negotiateVersion=1", "negotiateVersion=0", "negotiateVersion=00", "negotiateVersion=01", "negotiateVersion=+1", "negotiateVersion=1x",
                  "negotiateVersion=", "negotiateVersion", "negotiateVersion=18446744073709551615", "negotiateVersion=18446744073709551616",
                  "negotiateVersion=99999999999999999999999", "negotiateVersion=2", "negotiateVersion=0&negotiateVersion=1", "a=b&negotiateVersion=1",
                  "negotiate%56ersion=%31", "negotiateVersion=1&useStatefulReconnect=true", "negotiateVersion=1&useStatefulReconnect=tru%65",
                  "negotiateVersion=1&useStatefulReconnect=True", "negotiateVersion=1&useStatefulReconnect=", "useStatefulReconnect=true",
                  "negotiateVersion=1&useStatefulReconnect=false&useStatefulReconnect=true", "negotiateVersion=1&id=x"):
        for method in ("post", "get"):
            yield f"route {method} /hub/negotiate {query} plain"
    yield "route post /hub/negotiate negotiateVersion=1 socket"
    for path in ("/hub", "/hub/", "/hub/negotiate/", "/negotiate", "/hubnegotiate", "/", "/hu", "/Hub", "/hub/negotiat", "/hub/hub"):
        for query in ("-", "id=abc", "id="):
            for method in ("get", "post", "delete", "other"):
                for kind in ("plain", "socket"):
                    yield f"route {method} {path} {query} {kind}"
    for query in ("id=a+b", "id=a%2Bb", "id=%ff", "id=%", "id=a&id=b", "x&id=a", "&id=a", "ID=a", "%69d=a", "id=a=b", f"id={TOKEN}"):
        yield f"route get /hub {query} plain"
    yield "route get /hub - sockets"
    yield "route put /hub - plain"


def lives():
    yield "note a token that isn't used"
    yield f"negotiate yes {DRAWN} 1000"
    yield from (f"{word} {TOKEN} {now}" for now in (0, 1000, 30_999, 31_000, MOST) for word in ("life", "conn"))
    yield "expired 30999"
    yield "expired 31000"
    yield f"life {TOKEN} 1000"
    yield "note a token moves from lane to lane"
    yield "front"
    yield f"sockets no {DRAWN} 5"
    for line in ("socket 1 7 10", "socket 1 8 11", "lost 1 7 12", "poll 1 9 13", "lost 1 9 14", "lost 1 8 15", "expired 30014", "expired 30015", "socket 1 9 40000"):
        yield line
        yield from (f"life {TOKEN} {now}" for now in (16, 30_013, 30_014, 30_015, MOST))
    yield "note a token polls, expires and ends"
    yield "front"
    yield f"negotiate no {'0123456789abcdef' * 2} 0"
    token = base64.urlsafe_b64encode(bytes.fromhex("0123456789abcdef" * 2) + (1).to_bytes(8, "big")).decode()
    for line in ("poll 1 3 0", "answered 1 4 5", "answered 1 3 10", "poll 1 4 20", "lost 1 4 30", "expired 30029", "expired 30040", "expired 60039", "expired 60040"):
        yield line
        yield "held 1"
        yield from (f"life {token} {now}" for now in (50, 30_009, 30_010, 30_029, 30_030, 30_040, 60_039, 60_040, MOST))
    yield "note the end comes before all, and closed ends it"
    yield "front"
    yield f"negotiate yes {'ff' * 16} 0"
    token = base64.urlsafe_b64encode(b"\xff" * 16 + (1).to_bytes(8, "big")).decode()
    for line in ("socket 1 3 5", "ending 1 6", "ending 1 9", "closed 1", "closed 1", "socket 1 4 7"):
        yield line
        yield from (f"{word} {token} {now}" for now in (0, 30_005, 30_006, 30_009) for word in ("life", "conn"))
    yield "note numbers that no connection has, and those without a token"
    yield "front"
    yield "open 0"
    for line in ("at 0 0", "at 1 0", "at 2 0", "held 0", "held 1", "promised 1", "promised 2", "socket 0 1 1", "poll 2 1 1", "ending 2 1", "closed 2", "answered 9 1 1", "lost 0 1 1", "expired 99999", "socket 1 4 1", "lost 1 4 2", "open 3", "expired 30001",
                 "expired 30002", "open 30003"):
        yield line
    yield "note a moment that has come makes nothing known again"
    yield "front"
    yield f"negotiate yes {DRAWN} 0"
    for line in ("promised 1", "poll 1 5 10", "answered 1 5 10", "socket 1 6 20", "held 1", "at 1 20", "lost 1 6 30", "at 1 30029", "at 1 30030", "expired 30030", "at 1 30030", "promised 1"):
        yield line
    yield "front"
    yield f"negotiate no {DRAWN} 0"
    for line in ("promised 1", "poll 1 5 10", "poll 1 6 20", "held 1", "ending 1 30", "held 1", "ending 1 40", "at 1 30029", "expired 30029", "expired 30030", "held 1", "at 1 30030"):
        yield line
    yield "note moments that fall, and the greatest"
    yield "front"
    yield f"negotiate yes {DRAWN} 50000"
    yield f"negotiate yes {DRAWN} 100"
    yield f"negotiate yes {DRAWN} {MOST}"
    yield f"negotiate yes {DRAWN} {MOST - 30_000}"
    yield from (f"expired {now}" for now in (30_099, 30_100, 79_999, 80_000, MOST - 1, MOST, 0))
    yield "note equal moments: the least number first"
    yield "front"
    yield from (f"negotiate no {DRAWN} {now}" for now in (9, 8, 9, 7, 9))
    yield "expired 30008"
    yield "expired 30009"


def giving_way():
    yield "note those that nobody used give way, the least number first, as long as there are any"
    for most in (1, 2, 3):
        yield f"front {most}"
        yield from (f"negotiate no {DRAWN} {now}" for now in (10, 20, 30))
        yield from (f"at {conn} 30" for conn in (1, 2, 3))
        yield from ("socket 3 1 30", "open 40", "busy 40", "socket 4 2 40", f"sockets yes {DRAWN} 50", "busy 50", "poll 5 3 50", "busy 50", "open 60", f"negotiate no {DRAWN} 60", "closed 3", "open 70")
        yield from (f"at {conn} 70" for conn in range(1, 9))
    yield "note neither one that was lost nor one that ends gives way, and one whose moment has come takes no room"
    yield "front 2"
    yield from (f"negotiate yes {DRAWN} 0", f"negotiate yes {DRAWN} 0", "socket 1 1 0", "lost 1 1 5", "poll 2 2 5", "ending 2 6", "open 7", "busy 7", "open 30005", "at 1 30005", "busy 30005", "open 30005",
                "expired 30006", "busy 30006", f"negotiate no {DRAWN} 30006", "socket 4 1 30006", "busy 60006", "open 60006", "at 5 60006")
    yield "note an older moment, at which more live than may"
    yield "front 2"
    yield from (f"negotiate no {DRAWN} 0", f"negotiate no {DRAWN} 0", f"negotiate no {DRAWN} 30000", f"negotiate no {DRAWN} 30000", "busy 0", "open 0", *(f"at {conn} 0" for conn in range(1, 6)),
                "socket 3 1 0", "socket 4 1 0", "socket 5 1 0", "busy 0", "open 0", "busy 0", "open 0", "busy 0")
    yield "note how many may live"
    yield from ("front 0", "front 10001", "front x", f"front {MOST + 1}", "front 10000", "front 1", "used 2 0", "busy 0")


def bounds():
    yield "note ten thousand live"
    yield "front"
    yield from ("many 10003 0", "at 3 0", "at 4 0", "busy 0", "at 10003 0")
    yield "front"
    yield from ("used 9999 0", "busy 0", f"negotiate yes {DRAWN} 10", "busy 10", "busy 30009", "busy 30010", "open 11", f"negotiate no {DRAWN} 11", f"sockets no {DRAWN} 11", "used 5 30010",
                "closed 77", "busy 30010", "busy 12", "used 5 30010", "expired 30010", "used 1 30010", "poll 3 1 30011", "answered 3 1 30012", "busy 60012", "expired 60012", "busy 60012",
                "busy 90012", "used 2 90012", "expired 90012", "used 1 90012")
    yield "note words that are no action"
    yield from ("open", "open x", "open -1", f"open {MOST + 1}", "negotiate maybe 00 0", f"negotiate yes {DRAWN}0 0", f"negotiate yes {'g' * 32} 0", "life", "conn a", "socket 1 2", "ending 1",
                "closed", "what", "front", "expired", "busy", "at 1", "held", "promised x")


class Session:
    """A front of a few connections, and calls on it that a seed draws, in any order."""

    def __init__(self, draw):
        self.draw, self.script, self.now, self.tokens = draw, Script(), 0, []

    def moment(self):
        self.now += self.draw.choice([0, 0, 1, 10, 4_000, 29_999, 30_000])
        return self.draw.choice([self.now] * 8 + [max(0, self.now - self.draw.randrange(40_000))])

    def line(self):
        word = self.draw.choice(["negotiate", "sockets", "open", "socket", "socket", "poll", "poll", "answered", "answered", "lost", "lost", "ending", "closed", "expired", "life", "conn", "busy", "at", "held", "promised"])
        if word in ("negotiate", "sockets"):
            return f"{word} {self.draw.choice(['yes', 'no'])} {self.draw.randbytes(16).hex()} {self.moment()}"
        if word in ("life", "conn"):
            return f"{word} {self.draw.choice(self.tokens or [TOKEN])} {self.moment()}"
        if word in ("open", "expired", "busy"):
            return f"{word} {self.moment()}"
        conn = self.draw.randrange(len(self.script.front.notes) + 2)
        if word in ("closed", "held", "promised"):
            return f"{word} {conn}"
        if word == "at":
            return f"at {conn} {self.moment()}"
        return f"ending {conn} {self.moment()}" if word == "ending" else f"{word} {conn} {self.draw.randrange(3)} {self.moment()}"

    def lines(self, count):
        first = f"front {self.draw.choice([1, 2, 3, 5, 10_000])}"
        self.script.answer(first)
        yield first
        for _ in range(count):
            line = self.line()
            self.script.answer(line)
            self.tokens = [notes[0][1] for notes in self.script.front.notes if notes[0][1]]
            yield line
            yield from (f"life {token} {self.now}" for token in self.tokens[-2:])


def cases():
    yield from routes()
    yield from lives()
    yield from giving_way()
    yield from bounds()
    draw = random.Random(23)
    yield "note random sessions"
    for _ in range(120):
        yield from Session(draw).lines(40)


def answers(lines):
    script = Script()
    return "".join(script.answer(line) + "\n" for line in lines)


def made():
    lines = list(cases())
    return "".join(line + "\n" for line in lines), answers(lines)


if __name__ == "__main__":
    sys.exit(committed.main("ht_front", made, lambda script: answers(script.splitlines())))
