"""The kinds `replay`, `record`, `lines` and `words` of fuzz.py: scripts of `sr replay` and `sr record`, lines of scripts of `sr client`, and words of
the command line.

replay_model.py decides all of the first, and trace_model.py all of the second. A client without turns dials nobody and tells only which line is
refused, by the table in docs/protocol.md; so lines that are taken go in front of the next one that isn't. Words are a command as docs/protocol.md has
it and clap takes its options; one that would serve, dial or soak for long isn't run."""
import ipaddress
import itertools
import random
import re
from pathlib import Path

import frames_model
import replay_model
import soak_model
import trace_model
from fuzz_kit import Difference, compared, mutated
from replay_model import Refused, number_of

HERE = Path(__file__).resolve().parent
BASES = 150  # scripts that are mutated
WITH_PEERS = 0.05  # of those for `record`, which refuses them
MOVED = 0.7  # of these, lines are moved too
DRAWS = 12
TAKEN_ANYHOW = 0.1
UNDIALED = ["client", "http://127.0.0.1:9/hub", "--turns", "0"]
NO_TURN = 10


# ---- scripts of replay


def moved(draw, script, other):
    """A script with lines left out, said again, put elsewhere, or followed by those of another."""
    lines = script.split(b"\n")
    for _ in range(draw.choice([1, 1, 2, 5])):
        at = draw.randrange(len(lines))
        line = draw.choice(lines)
        if draw.random() < 0.4:
            del lines[at : at + draw.choice([1, 1, 2, 5])]
        elif draw.random() < 0.7:
            lines.insert(at, line)
        else:
            lines = lines[:at] + draw.choice(other.split(b"\nc write", 1)).split(b"\n")[-40:]
        lines = lines or [b""]
    return b"\n".join(lines)


class Replays:
    name, model = "replay", staticmethod(replay_model.report_of)

    def __init__(self, runs):
        self.runs = runs
        self.scripts = [script.encode() for script in itertools.islice(self.bases(), BASES)]

    def bases(self):
        return (replay_model.random_script(random.Random(f"base {number}")) for number in itertools.count())

    def input(self, draw):
        script = draw.choice(self.scripts)
        if draw.random() < MOVED:
            script = moved(draw, script, draw.choice(self.scripts))
        return script if draw.random() < MOVED / 2 else mutated(draw, script, self.scripts)

    def again(self, data):
        try:
            text, status = self.model(data)
        except RecursionError:  # a model that keeps lists is at its end before the program is
            return None
        return compared((status, text.encode()), self.runs([self.name], data))

    def differences(self, draw, count):
        for _ in range(count):
            data = self.input(draw)
            if self.again(data):
                yield Difference(f"sr {self.name}", data, self.again)


class Records(Replays):
    name, model = "record", staticmethod(trace_model.record)

    def bases(self):
        draw = random.Random("bases of record")
        return (script for script in super().bases() if not script.startswith("peers on") or draw.random() < WITH_PEERS)


# ---- lines of a client's script


def values_of(text):
    try:
        return frames_model.value_of(text.encode())
    except frames_model.Refused:
        raise Refused from None


def check_line(line):
    """Raises `Refused` if a script of a client has no such line."""
    if not replay_model.is_text(line):
        raise Refused
    if line == "" or line.startswith("#") or line in ("wait", "lose"):
        return
    verb, _, rest = line.partition(" ")
    word, space, more = rest.partition(" ")
    if verb in ("call", "stream", "notify", "upload") and word and space:
        if not isinstance(values_of(more), list):
            raise Refused
    elif verb == "item" and space:
        number_of(word)
        values_of(more)
    elif verb in ("done", "cancel") and rest and not space:
        number_of(word)
    else:
        raise Refused


def refused_line(data):
    """The number of the first line that is refused, or None."""
    lines = data.decode(errors="surrogateescape").removesuffix("\n").split("\n") if data else []
    for number, line in enumerate(lines, 1):
        try:
            check_line(line)
        except Refused:
            return number
    return None


def undialed(data):
    """The exit status and the output of a client with this script that has no turn."""
    number = refused_line(data)
    return (2, b"line %d refused\n" % number) if number else (NO_TURN, b"")


def lines_of(path):
    """The lines of the sessions of a client that stand in a file, and further ones."""
    verbs = ("call ", "stream ", "notify ", "upload ", "item ", "done ", "cancel ", "wait", "lose", "#")
    yield from (line.encode() for line in path.read_text().split("\n") if line.startswith(verbs) and refused_line(line.encode()) is None)
    yield from (b'call Echo [{"a":1.5,"a":[null,"\\u00e9"]}]', b"item 18446744073709551615 -9223372036854775808", b"upload Sum\t []", "call É [1]".encode(), b"")


class Lines:
    name = "lines"

    def __init__(self, runs):
        self.runs, self.lines = runs, [*lines_of(HERE / "clients" / "client_sessions.txt")]

    def input(self, draw):
        for _ in range(1 if draw.random() < TAKEN_ANYHOW else DRAWS):
            data = mutated(draw, draw.choice(self.lines), self.lines)
            if refused_line(data) is None:
                return data, True
        return data, False

    def again(self, data):
        return compared(undialed(data), self.runs(UNDIALED, data))

    def differences(self, draw, count):
        front = []
        for left in reversed(range(count)):
            data, is_taken = self.input(draw)
            front.append(data)
            if left == 0 or not is_taken:
                script = b"\n".join(front) + b"\n" * draw.randrange(2)
                if self.again(script):
                    yield Difference(f"sr {' '.join(UNDIALED)}", script, self.again)
                front = []


# ---- words

USAGE = 1, b"usage: sr replay, soak, serve, client, check, convert, user, record or audit\n"
CODECS = "json", "pack"
SIDES = "client", "server"
MOST = 2**64 - 1
LONG = object()  # what would serve, dial or soak for long, or make a file
MOST_STEPS = 40
ANY = object()  # of an address that may be one or none
BASE = re.compile(r"(/[!$%&'()*+,\-.0-9:;=@A-Z\[\]_a-z~/]*)?[!$%&'()*+,\-.0-9:;=@A-Z\[\]_a-z~]")


def number(most, least=0):
    def read(word):
        if not re.fullmatch(r"\+?[0-9]+", word) or not least <= int(word) <= most:
            raise Refused
        return int(word)

    return read


def codec(word):
    if word not in CODECS:
        raise Refused
    return word


def side(word):
    if word not in SIDES:
        raise Refused
    return word


def base(word):
    if not word.startswith("/") or not BASE.fullmatch(word):
        raise Refused
    return word


def address(word):
    try:
        return ipaddress.ip_address(word) if "%" not in word else codec(word)
    except ValueError:
        raise Refused from None


def any_text(word):
    return word


RESEND = [number(65_536, 1), number(524_288, 32_773)]
STORE = {"store": [any_text]}
SERVE = {"port": [number(65_535)], "base": [base], "listen": [address], "resend": RESEND, "live": [number(10_000, 1)], "turns": [number(MOST)], **STORE}
CLIENT = {"codec": [codec], "token": [any_text], "resend": RESEND, "turns": [number(MOST)]}


def read_words(words, options, places):
    """What the options say, by their names, and the words in these places."""
    told, placed, words = {}, [], [*words]
    while words:
        word = words.pop(0)
        if word == "--":
            placed, words = placed + words, []
        elif word.startswith("--"):
            name, equals, attached = word[2:].partition("=")
            if name not in options or name in told:
                raise Refused
            given = [attached] if equals else [words.pop(0) for _ in options[name] if words]
            if len(given) != len(options[name]) or not equals and any(it.startswith("-") and it != "-" for it in given):
                raise Refused
            told[name] = [read(it) for read, it in zip(options[name], given)]
        elif word.startswith("-") and word != "-":
            raise Refused
        else:
            placed.append(word)
    if len(placed) != len(places):
        raise Refused
    return told, [read(it) for read, it in zip(places, placed)]


def hub(word):
    """What is surely the address of a hub is taken, and what surely isn't is refused (docs/protocol.md); others may be either."""
    if not word.lower().lstrip().startswith("http:") or "#" in word or "?" in word or "@" in word.split("/")[2:3]:
        return ANY if word[:1] <= " " or "\t" in word or "\n" in word else no_hub()
    found = re.fullmatch(r"http://([a-z][a-z0-9]*|127\.0\.0\.1)(?::([0-9]{1,5}))?(/[A-Za-z0-9/._~-]*)?", word)
    return word if found and int(found[2] or 0) < 65_536 else ANY


def no_hub():
    raise Refused


def asked(words):
    """What is wanted of the words: an exit status and an output, of which a part may be a test, or LONG."""
    try:
        name, *rest = [word.decode() for word in words]
    except (UnicodeDecodeError, ValueError):
        return USAGE
    if name not in COMMANDS:
        return USAGE
    try:
        return COMMANDS[name](rest)
    except Refused:
        return USAGE


def replay(rest):
    read_words(rest, {}, [])
    return 0, replay_model.report_of("")[0].encode()


def record(rest):
    read_words(rest, {}, [])
    return 0, trace_model.record("")[0].encode()


def audit(rest):
    read_words(rest, {"side": [side]}, [])
    return trace_model.audit(b"")[1], trace_model.audit(b"")[0].encode()


def check(rest):
    read_words(rest, {}, [codec])
    return 0, b""


def convert(rest):
    _, (one, other) = read_words(rest, {}, [codec, codec])
    if one == other:
        raise Refused
    return 0, b""


def soak(rest):
    _, (seed, steps) = read_words(rest, {}, [number(MOST), number(100_000)])
    return LONG if steps > MOST_STEPS else (0, soak_model.line_of(seed, steps).encode())


def serve(rest):
    told, _ = read_words(rest, SERVE, [])
    return (0, b"serving 0\n") if told.get("turns") == [0] and "store" not in told else LONG


def client(rest):
    told, (url,) = read_words(rest, CLIENT, [hub])
    if told.get("turns") != [0]:
        return LONG
    return ANY if url is ANY else (NO_TURN, b"")


def user(rest):
    told, _ = read_words(rest, STORE, [any_text, any_text])
    if "store" not in told:
        raise Refused
    return LONG


COMMANDS = {"replay": replay, "record": record, "audit": audit, "check": check, "convert": convert, "soak": soak, "serve": serve, "client": client, "user": user}
SERVES = b"serve\n--port\n0\n--base\n/a/b.c\n--listen\n127.0.0.1\n--resend\n1024\n100000\n--live\n100\n--turns\n0"
CALLS = b"client\nhttp://127.0.0.1:9/hub\n--codec\njson\n--token\nab\n--resend\n1\n32773\n--turns\n0"
LINES = [SERVES, SERVES, CALLS, CALLS, b"client\n--turns=0\n--codec=pack\n--token=-x\nhttp://localhost/hub", b"serve\n--turns=0\n--listen=::1\n--port=80",
         b"user\nab\nann\n--store=s", b"check\njson", b"check\n--\npack", b"convert\njson\npack", b"convert\npack\njson", b"replay", b"replay\n--", b"record", b"record\n--",
         b"audit", b"audit\n--side\nclient", b"audit\n--side=server\n--",
         b"soak\n7\n20", b"soak\n--\n+07\n0"]


def words_of(data):
    """A word stands on a line of its own. The system's words have no NUL."""
    return data.replace(b"\0", b"").split(b"\n")


class Words:
    name = "words"

    def __init__(self, runs):
        self.runs = runs

    def input(self, draw):
        for draws in itertools.count(1 if draw.random() < 0.5 else DRAWS, -1):
            data = mutated(draw, draw.choice(LINES), LINES)
            wanted = asked(words_of(data))
            if wanted is not LONG and (draws < 1 or wanted != USAGE):
                return data

    def again(self, data):
        words = words_of(data)
        wanted = asked(words)
        if wanted is LONG:
            return None
        came = self.runs(words)
        return None if wanted is ANY and came in (USAGE, (NO_TURN, b"")) else compared(wanted, came)

    def differences(self, draw, count):
        for _ in range(count):
            data = self.input(draw)
            if self.again(data):
                yield Difference("sr, with a word on each line", data, self.again)
