"""Sessions of `sr client` with `sr serve`, over a way that is watched (watched.py).

A case is its name, and a function of the program that answers what is wrong, in lines. What a client has to print, and to say on each socket, the
model of scripted.py works out from what was handed on to it. What it prints of calls, items and endings is known beforehand too, by hand."""
import collections
import difflib
import itertools
import pathlib
import re

import scripted
from running import Running
from serving import Serving
from watched import Watched

HERE = pathlib.Path(__file__).resolve().parent
PAGE = HERE.parent.parent / "docs" / "clients.md"
CODECS = "json", "pack"
PING = {"json": b'{"type":6}\x1e', "pack": b"\x02\x91\x06"}
SHOWN = 12  # lines of what differs
MOVES = "lost", "again"
FLAGS = "losses", "fresh", "unmodelled"
NUMBERED = re.compile(r"(item|ended) (\d+) (.*)")
MANY_SIGNS = re.compile(r"<([^<>*]+)\*([0-9]+)>")


def differences(wanted, got, *names):
    return list(difflib.unified_diff(wanted, got, *names, lineterm="", n=1))[:SHOWN]


def spoken(lines):
    return "".join(line + "\n" for line in lines)


def room_of(words):
    """What a client of these words keeps, for the model."""
    return {"room": (int(words[1]), int(words[2]))} if words[:1] == ["--resend"] else {}


# ---- one session


class Session:
    """A client with this script, at a server of this port: what it printed, how it ended, and what was carried."""

    def __init__(self, program, port, script, codec, words=(), **cuts):
        self.script, self.codec = script, codec
        with Watched(port, **cuts) as self.way:
            words = ["--codec", codec, *words, self.way.base]
            with Running(program, words, script.encode()) as client:
                self.status, self.printed = client.ended()
            self.way.finish()

    def faults(self, **room):
        """What it printed or said that the model doesn't."""
        model = scripted.Client(self.script, self.codec, **room)
        faults = [fault for place, socket in enumerate(self.up()) for fault in self.faults_on(model, place, socket)]
        faults += differences(model.printed, self.printed, "by the model", "printed")
        if self.status != model.status():
            faults.append(f"status {self.status}")
        return faults

    def up(self):
        return [socket for socket in self.way.sockets if socket.is_up()]

    def faults_on(self, model, place, socket):
        """Plays what came on a socket, and compares what was said there. Of a socket that was cut the last that it said may be missing."""
        if model.is_over():
            return [f"socket {place} comes up after the end"]
        said = [model.spelled(model.comes_up())]
        for number, payload in enumerate(socket.messages()):
            if model.on_link():
                said.append(model.spelled(model.hears(scripted.frames_of(payload, self.codec, place + number == 0))))
        if model.on_link():
            model.is_lost()
        said = [message for message in said if message]
        came = [message for message in socket.said_messages() if message != PING[self.codec]]
        if came == said or socket.is_cut and came == said[: len(came)]:
            return []
        return [f"on socket {place}:", *differences([*map(repr, said)], [*map(repr, came)], "by the model", "said")]

    def of_calls(self):
        """What it printed, but of its sockets."""
        return [line for line in self.printed if line not in MOVES]

    def by_call(self):
        """The items and endings of each call, in order."""
        found = collections.defaultdict(list)
        for line in self.printed:
            if numbered := NUMBERED.fullmatch(line):
                found[int(numbered[2])].append(f"{numbered[1]} {numbered[3]}")
        return dict(found)


# ---- sessions by hand


class Scripted:
    """One of client_sessions.txt."""

    def __init__(self, lines):
        self.title, *rest = lines
        self.lines, self.printed, self.flags, self.words, self.serves = [], [], set(), [], []
        for line in rest:
            for one in spelled_out(line):
                self.take(one)

    def take(self, line):
        word, _, rest = line.partition(" ")
        if line in FLAGS:
            self.flags.add(line)
        elif word == "words":
            self.words = rest.split()
        elif word == "serves":
            self.serves = rest.split()
        elif word == "<":
            self.printed.append(rest)
        else:
            self.lines.append(line)

    def scripts(self):
        """Its script and, if it asks for that, those with a socket that is lost in front of each of its lines, or at the end."""
        yield self.lines
        if "losses" in self.flags:
            yield from ([*self.lines[:place], "lose", *self.lines[place:]] for place in range(len(self.lines) + 1))

    def faults(self, program, codec):
        """Of all its scripts. A server meets them one after the other, or each meets one of its own, where connections are counted."""
        scripts = [*self.scripts()]
        together = [[script] for script in scripts] if "fresh" in self.flags else [scripts]
        for some in together:
            with Serving(program, *self.serves) as server:
                for script in some:
                    if faults := self.faults_of(program, server.port, codec, script):
                        return [*faults, *script[:SHOWN], *server.complaints()]
                if server.complaints():
                    return server.complaints()
        return []

    def faults_of(self, program, port, codec, script):
        session = Session(program, port, "".join(line + "\n" for line in script), codec, self.words)
        told = self.printed if script is self.lines else [line for line in self.printed if line not in MOVES]
        printed = session.printed if script is self.lines else session.of_calls()
        faults = differences(told, printed, "by hand", "printed")
        if "unmodelled" in self.flags:
            return faults + [f"status {session.status}"] * (session.status != 0)
        return faults + session.faults(**room_of(self.words))


def spelled_out(line):
    line = MANY_SIGNS.sub(lambda found: found[1] * int(found[2]), line)
    if not line.startswith("repeat "):
        return [line]
    _, times, one = line.split(" ", 2)
    return [one.replace("#", str(n)) for n in range(1, int(times) + 1)]


def by_hand():
    text = (HERE / "client_sessions.txt").read_text(encoding="utf-8")
    lines = "".join(line + "\n" for line in text.splitlines() if not line.startswith("#"))
    for part, codec in itertools.product(re.split("\n\n+", lines.strip("\n")), CODECS):
        session = Scripted(part.split("\n"))
        losses = ", and lost at each place" if "losses" in session.flags else ""
        yield f"{session.title}, in {codec}{losses}", lambda program, session=session, codec=codec: session.faults(program, codec)


# ---- two clients, and servers that end


def in_a_room(codecs):
    """The first client joins and stays; the second joins, posts and leaves. Both see what is posted, by the number of who posted it."""
    stays = spoken(['call Join ["r"]', "wait", "upload Sum []", "wait"])
    posts = ['call Join ["r"]', 'call Post ["r","hi é"]', 'call Leave ["r"]', 'call Post ["r","2"]', 'call History ["r",9]']
    posts = spoken(line for call in posts for line in (call, "wait"))
    first = ["shaken", "call 1", "ended 1 void", "call 2", 'got Posted ["r","2","hi é"]', 'got Posted ["r","2","2"]']
    got = ["shaken", "call 1", "ended 1 void", "call 2", 'got Posted ["r","2","hi é"]', "ended 2 void", "call 3", "ended 3 void"]
    second = [*got, "call 4", "ended 4 void", "call 5", 'ended 5 result ["hi é","2"]']

    def case(program):
        with Serving(program) as server, Running(program, ["--codec", codecs[0], server.base], stays.encode()) as one:
            one.prints("call 2")
            with Running(program, ["--codec", codecs[1], server.base], posts.encode()) as other:
                ended = other.ended()
            one.prints(first[-1])
            faults = differences(first, one.printed().splitlines(), "by hand", "the first printed")
            return faults + differences(second, ended[1], "by hand", "the second printed") + [f"status {ended[0]}"] * (ended[0] != 0)

    return case


def ends(printed, status, script, words=(), path="/hub", kill_at=None):
    """How a client of a server ends, at this path, or if the server is gone once it has printed this line."""

    def case(program):
        with Serving(program) as server, Running(program, [*words, server.base.replace("/hub", path)], script.encode()) as client:
            if kill_at:
                client.prints(kill_at)
                server.process.kill()
            ended = client.ended()
            return [] if ended == (status, printed) else [f"status {ended[0]}", *ended[1]]

    return case


# How many letters a call of Echo has whose frame has 32,768 bytes. All else of the frame has 62 bytes in JSON, and 15 in MessagePack.
MOST_LETTERS = {"json": 32_706, "pack": 32_753}


def longest(codec):
    """One letter too many is refused, with the size of its frame; the longest call is made, and answered."""
    text = "x" * MOST_LETTERS[codec]
    printed = ["shaken", "refused TooLong 32769", "call 1", f'ended 1 result "{text}"']
    return ends(printed, 0, f'call Echo ["{text}x"]\ncall Echo ["{text}"]\n', ["--codec", codec])


# A session of a page: a script, as `printf` has it, and what it prints.
EXAMPLE = re.compile(r"^    \$ printf '(.*)' \| bin/sr client http://127\.0\.0\.1:8080/hub\n((?:    .+\n)+)", re.MULTILINE)


def examples():
    """Those that docs/clients.md shows."""
    for number, (script, printed) in enumerate(EXAMPLE.findall(PAGE.read_text(encoding="utf-8")), 1):
        lines = [line.strip() for line in printed.splitlines()]
        yield f"example {number} of {PAGE.name}", ends(lines, 0, script.replace("\\n", "\n"))


GOES_ON = "upload Sum []\n"
CASES = [
    *by_hand(),
    *examples(),
    ("two clients in a room, in JSON", in_a_room(("json", "json"))),
    ("two clients in a room, in both codecs", in_a_room(("pack", "json"))),
    *((f"the longest call, and one that is longer, in {codec}", longest(codec)) for codec in CODECS),
    ("an access token, of which this server knows none", ends([], 8, "", ["--token", "secret"])),
    ("another path", ends([], 8, "", path="/other")),
    ("a path that ends with a slash gets a token, and no socket", ends([], 8, "", path="/hub/")),
    ("a server that is gone", ends(["shaken", "call 1", "lost"], 8, GOES_ON, kill_at="call 1")),
]
