"""How a client dials: its requests byte by byte, what it makes of the responses, and when it dials again after a lost dial.

A case is its name, what it has to answer, and a function of the program. By docs/protocol.md, "Calling a server", and docs/lanes.md: a connection is
dialed by a POST for a token and then a GET with it; a dial whose socket isn't up is lost, and after the first in a row the next comes at once, after
the second, third and fourth 500, 1,000 and 2,000 ms later; the fifth ends the client. A socket that comes up begins that count anew. If a connection
couldn't be made, and none was made after it, standard error says why."""
import base64
import concurrent.futures
import contextlib
import errno
import json
import os
import re
import socket
import threading
import time
import urllib.parse

from raw import HOST
from running import Running
from stub import Stub, Wrong, body_of

ASKED = "/hub/negotiate?negotiateVersion=1&useStatefulReconnect=true"
KEY = re.compile(r"(?<=\r\nSec-WebSocket-Key: )[^\r]*")
REQUEST = '{"protocol":"json","version":2}\x1e'
PAUSES = [0, 0.5, 1, 2]  # seconds before the second, third, fourth and fifth dial in a row
PAUSED = "pauses as they have to be"
CLOCK = 0.002  # the client's is one of whole milliseconds
LATE = 0.3  # seconds by which the best of RUNS may be late, beside what the machine itself makes late
RUNS = 3
NAP = 0.02  # seconds
FEW_DESCRIPTORS = "ulimit -n 4"  # three are those of its input and output
REFUSED = 8, []


# ---- requests


def post(target, host):
    return f"POST {target} HTTP/1.1\r\nHost: {host}\r\nContent-Length: 0\r\n\r\n"


def get(target, host):
    upgrade = "Upgrade: websocket\r\nConnection: Upgrade\r\nSec-WebSocket-Key: KEY\r\nSec-WebSocket-Version: 13\r\n"
    return f"GET {target} HTTP/1.1\r\nHost: {host}\r\n{upgrade}\r\n"


def without_key(head):
    """A request with KEY in place of its key, if that is base64 of 16 bytes as it has to be written."""
    text = head.decode()
    for key in KEY.findall(text):
        drawn = base64.b64decode(key, validate=True)
        if len(drawn) == 16 and base64.b64encode(drawn).decode() == key:
            text = text.replace(key, "KEY")
    return text


def requests(url, *words, token="kT", host=HOST):
    """Both requests of a client with this URL, in which PORT stands for the port, and its status after the socket is refused."""

    def case(program):
        with Stub(host) as stub, Running(program, [*words, url.replace("PORT", str(stub.port))]) as client:
            told = without_key(stub.tells(body_of(token)))
            lane = stub.lane()
            asked = without_key(lane.request())
            lane.answer(404)
            return [it.replace(str(stub.port), "PORT") for it in (told, asked)], client.ended()

    return case


def wants(host, negotiate, target):
    return [post(negotiate, host), get(target, host)], REFUSED


def has_ipv6():
    with contextlib.suppress(OSError), socket.socket(socket.AF_INET6) as found:
        found.bind(("::1", 0))
        return True
    return False


def on_ipv6(case):
    """None, which is told as skipped, where this machine has no IPv6."""
    return lambda program: case(program) if has_ipv6() else None


def quoted(text):
    """As the URL Standard's form-urlencoded serializer writes it: like Python's quote_plus, but for two letters."""
    return urllib.parse.quote_plus(text, safe="*").replace("~", "%7E")


PLAIN = f"{HOST}:PORT"
TOKEN = "a b&c=d/ü+~*-._%"
NO_LETTER = "&access_token="
ACCESS = f"&access_token={quoted(TOKEN)}"
REQUEST_CASES = [
    ("the requests of a dial", wants(PLAIN, ASKED, "/hub?id=kT"), requests(f"http://{PLAIN}/hub")),
    ("a path of several parts, with escapes", wants(PLAIN, "/a%20b/c" + ASKED[4:], "/a%20b/c?id=kT"), requests(f"http://{PLAIN}/a%20b/c")),
    ("a path that ends with a slash", wants(PLAIN, ASKED, "/hub/?id=kT"), requests(f"http://{PLAIN}/hub/")),
    ("no path, which is that of a slash", wants(PLAIN, ASKED[4:], "/?id=kT"), requests(f"http://{PLAIN}")),
    ("a path with dots is that without", wants(PLAIN, ASKED, "/hub?id=kT"), requests(f"http://{PLAIN}/x/../hub")),
    ("a host by name", wants("localhost:PORT", ASKED, "/hub?id=kT"), requests("http://localhost:PORT/hub")),
    ("a scheme and a host in capitals", wants("localhost:PORT", ASKED, "/hub?id=kT"), requests("HTTP://LocalHost:PORT/hub")),
    ("an address of IPv6", wants("[::1]:PORT", ASKED, "/hub?id=kT"), on_ipv6(requests("http://[::1]:PORT/hub", host="::1"))),
    ("an access token stands in both", wants(PLAIN, ASKED + ACCESS, "/hub?id=kT" + ACCESS), requests(f"http://{PLAIN}/hub", "--token", TOKEN)),
    ("an access token without a letter", wants(PLAIN, ASKED + NO_LETTER, "/hub?id=kT" + NO_LETTER), requests(f"http://{PLAIN}/hub", "--token=")),
    ("a token that has to be escaped", wants(PLAIN, ASKED, f"/hub?id={quoted(TOKEN)}"), requests(f"http://{PLAIN}/hub", token=TOKEN)),
    ("a token without a letter", wants(PLAIN, ASKED, "/hub?id="), requests(f"http://{PLAIN}/hub", token="")),
]


# ---- responses


def told(body, status=200):
    """What a client does with this response to a negotiate: whether it asks for a socket, and with which id, and how it ends."""

    def case(program):
        with Stub() as stub, Running(program, [stub.url()]) as client:
            stub.tells(body, status)
            try:
                stub.socket.settimeout(1)
                lane = stub.lane()
            except Wrong:
                return client.ended()
            asked = lane.request().decode().split(" ")[1]
            lane.answer(404)
            return asked, client.ended()

    return case


def grants(granted):
    """Whether a connection with this grant goes on after its first socket is lost."""

    def case(program):
        with Stub() as stub, Running(program, [stub.url()], b"call Echo [1]\n") as client:
            stub.tells(json.dumps({"connectionToken": "kT", **granted}).encode())
            lane = stub.comes_up()
            lane.hear()
            lane.say(b"{}\x1e")
            lane.hear()
            lane.finish()
            if client_goes_on := not gives_up(client):
                stub.lane().answer(404)
            return client_goes_on, client.ended()

    return case


def gives_up(client):
    """Whether it ends by itself within a moment."""
    until = time.monotonic() + 1
    while client.process.poll() is None and time.monotonic() < until:
        time.sleep(0.01)
    return client.process.poll() is not None


def raw_response(text, then_up=False):
    """What a client does if a negotiate is answered by these bytes: `then_up` if it has to dial again."""

    def case(program):
        with Stub() as stub, Running(program, [stub.url()]) as client:
            lane = stub.lane()
            lane.request()
            lane.send(text)
            lane.finish()
            if then_up:
                told = stub.tells(status=404)
                return told.decode().split(" ")[1], client.ended()
            return client.ended()

    return case


LOST = ["shaken", "call 1", "lost"]
KEPT, GONE = (True, (8, LOST)), (False, (8, [*LOST, "ended 1 gone"]))
MEETS = "/hub?id=kT", REFUSED
OTHERS = {"availableTransports": [1.5, {}], "negotiateVersion": 1e400, "url": None, "connectionToken": "kT"}
BODIES = [
    ("no body", b"", REFUSED),
    ("no JSON", b"{'connectionToken':'kT'}", REFUSED),
    ("an array", b'[{"connectionToken":"kT"}]', REFUSED),
    ("a text", b'"connectionToken"', REFUSED),
    ("no token", b'{"connectionId":"kT","negotiateVersion":1}', REFUSED),
    ("a token that is null", b'{"connectionToken":null}', REFUSED),
    ("a token that is a number", b'{"connectionToken":7}', REFUSED),
    ("a token inside of another member", b'{"a":{"connectionToken":"kT"}}', REFUSED),
    ("nothing but a token", b' {"connectionToken" : "kT"}\r\n', MEETS),
    ("other members, fractions too", json.dumps(OTHERS).replace("Infinity", "1.5e3").encode(), MEETS),
    ("two tokens, of which the last counts", b'{"connectionToken":"a","connectionToken":"kT"}', MEETS),
    ("a token with an escape", b'{"connectionToken":"\\u006bT"}', MEETS),
]
GRANTS = [
    ("true", {"useStatefulReconnect": True}, KEPT),
    ("false", {"useStatefulReconnect": False}, GONE),
    ("nothing", {}, GONE),
    ("a text", {"useStatefulReconnect": "true"}, GONE),
    ("a number", {"useStatefulReconnect": 1}, GONE),
]
CHUNKED = b"HTTP/1.1 200 OK\r\nTransfer-Encoding: chunked\r\n\r\n5\r\nhello\r\n0\r\n\r\n"
RESPONSE_CASES = [
    *((f"a negotiate that is answered {status}", REFUSED, told(None, status)) for status in (201, 307, 400, 401, 404, 500, 503)),
    *((f"a body with {name}", wanted, told(body)) for name, body, wanted in BODIES),
    *((f"a grant that is {name}", wanted, grants(granted)) for name, granted, wanted in GRANTS),
    ("a response of 100 is a response", REFUSED, raw_response(b"HTTP/1.1 100 Continue\r\n\r\n")),
    ("bytes that are no response are a lost dial", (ASKED, REFUSED), raw_response(b"SSH-2.0-other\r\n\r\n", True)),
    ("a response that isn't whole is one", (ASKED, REFUSED), raw_response(b"HTTP/1.1 200 OK\r\nContent-Length: 9\r\n\r\n{", True)),
    ("a chunked response is one", (ASKED, REFUSED), raw_response(CHUNKED, True)),
]


# ---- lost dials


class Stalls(threading.Thread):
    """Tells for how long the machine left those alone who wanted to go on, as a busy one does for seconds."""

    def __init__(self):
        super().__init__(daemon=True)
        self.found, self.is_over = [], False

    def __enter__(self):
        self.start()
        return self

    def __exit__(self, *_):
        self.is_over = True
        self.join()

    def run(self):
        while not self.is_over:
            began = time.monotonic()
            time.sleep(NAP)
            self.found.append((began, time.monotonic() - began - NAP))

    def within(self, begin, end):
        return sum(late for began, late in self.found if begin - 1 < began < end)


def pauses_of(program, one):
    """Looks at the pauses before the dials of runs at once: none is too short, and the best of each is no longer than the machine makes it."""
    with Stalls() as stalls, concurrent.futures.ThreadPoolExecutor(RUNS) as lanes:
        runs = list(lanes.map(lambda _: one(program), range(RUNS)))
        gaps = [[*zip(moments, moments[1:])] for moments, _ in runs]
        longer = [[end - begin - pause for (begin, end), pause in zip(run, PAUSES)] for run in gaps]
        late = [[over - stalls.within(*gap) for over, gap in zip(overs, run)] for overs, run in zip(longer, gaps)]
    fine = all(over >= -CLOCK for overs in longer for over in overs) and all(min(overs) < LATE for overs in zip(*late))
    return PAUSED if fine else longer, [end for _, end in runs]


def five_lost(program):
    """Each connection is ended as soon as it is there."""
    with Stub() as stub, Running(program, [stub.url()], b"call Echo [1]\n") as client:
        moments = []
        for _ in range(5):
            lane = stub.lane()
            moments.append(time.monotonic())
            lane.close()
        end = client.ended()
        return moments, (*end, stub.others())


def five_sockets_lost(program):
    """A token is told, and then each socket is lost before it is up: one that asks for no token again."""
    with Stub() as stub, Running(program, [stub.url()]) as client:
        stub.tells()
        targets, moments = [], []
        for _ in range(5):
            lane = stub.lane()
            targets.append(lane.request().decode().split(" ")[1])
            moments.append(time.monotonic())
            lane.close()
        end = client.ended()
        return moments, (*end, stub.others(), {*targets})


def why(number, host=HOST):
    """What is said of a connection that the system couldn't make for this reason."""
    return f"sr: http://{host}:PORT/hub: {os.strerror(number)} (os error {number})\n"


def said_why(client, stub):
    return client.process.stderr.read().decode().replace(f":{stub.port}/", ":PORT/")


def nobody_there(host):
    """Nothing listens at the port. Answers whether it took as long as all pauses, how it ended, and why it says."""

    def case(program):
        name = f"[{host}]" if ":" in host else host
        with Stub(host, listens=False) as stub, Running(program, [f"http://{name}:{stub.port}/hub"], b"call Echo [1]\n") as client:
            end = client.ended()
            return time.monotonic() - client.began >= sum(PAUSES), end, said_why(client, stub)

    return case


def no_descriptor(program):
    """No descriptor is left for a connection, so each dial is lost."""
    with Stub() as stub, Running(program, [stub.url()], limit=FEW_DESCRIPTORS) as client:
        end = client.ended()
        return time.monotonic() - client.began >= sum(PAUSES), end, stub.others(), said_why(client, stub)


def late_server(answers):
    """A server that is there after two seconds and a half, and then does this. Answers how the client ended, and why it says."""

    def case(program):
        with Stub(listens=False) as stub, Running(program, [stub.url()]) as client:
            time.sleep(2.5)
            stub.socket.listen()
            answers(stub)
            return client.ended(), said_why(client, stub)

    return case


def is_met(stub):
    stub.tells()
    greets(stub)


def goes_away(program):
    """A server that is gone once its socket is up."""
    with Stub() as stub, Running(program, [stub.url()], b"call Echo [1]\n") as client:
        stub.tells()
        lane = stub.comes_up()
        lane.hear()
        lane.say(b"{}\x1e")
        lane.hear()
        stub.socket.close()
        lane.finish()
        return client.ended(), said_why(client, stub)


def greets(stub):
    """A socket comes up and the client closes it."""
    lane = stub.comes_up()
    if (said := lane.hear()[1]) != REQUEST.encode():
        raise Wrong(f"came {said!r}")
    lane.say(b"{}\x1e")
    lane.rest_of_it()


def counts_anew(program):
    """Four dials are lost, a socket comes up, and four are lost again."""
    with Stub() as stub, Running(program, [stub.url()], b"call Echo [1]\n") as client:
        for _ in range(4):
            stub.lane().close()
        stub.tells()
        lane = stub.comes_up()
        lane.hear()
        lane.say(b"{}\x1e")
        lane.hear()
        lane.finish()
        for _ in range(4):
            stub.lane().close()
        lane = stub.comes_up()
        lane.hear()
        lane.say(b'{"sequenceId":1,"type":9}\x1e{"invocationId":"1","result":1,"type":3}\x1e')
        lane.rest_of_it()
        return client.ended()


def paused(one, *ends):
    return (PAUSED, [(*REFUSED, *ends)] * RUNS), lambda program: pauses_of(program, one)


DIAL_CASES = [
    ("five dials are lost", *paused(five_lost, 0)),
    ("a token is told, and five sockets are lost", *paused(five_sockets_lost, 0, {"/hub?id=kT"})),
    ("nobody is there", (True, REFUSED, why(errno.ECONNREFUSED)), nobody_there(HOST)),
    ("nobody is there, at IPv6", (True, REFUSED, why(errno.ECONNREFUSED, "[::1]")), on_ipv6(nobody_there("::1"))),
    ("no descriptor is left for a connection", (True, REFUSED, 0, why(errno.EMFILE)), no_descriptor),
    ("a server that comes late is met", ((0, ["shaken"]), ""), late_server(is_met)),
    ("a server that comes late refuses, and nothing is said of the time before", (REFUSED, ""), late_server(lambda stub: stub.tells(status=404))),
    ("a server goes away", ((8, LOST), why(errno.ECONNREFUSED)), goes_away),
    ("a socket that is up begins the count anew", (0, ["shaken", "call 1", "lost", "again", "ended 1 result 1"]), counts_anew),
]


# ---- half a minute

BUSY = 10  # seconds by which a busy machine may be late
TYPED = 31  # seconds, a second more than a response may take


def is_silent(program, granted=True):
    """A server that says nothing more after the handshake. Answers what the client says, when it gives the socket up, and how it ends."""
    with Stub() as stub, Running(program, [stub.url()], b"call Echo [1]\n") as client:
        stub.tells(body_of(kept=granted))
        lane = stub.comes_up()
        lane.socket.settimeout(60)
        lane.hear()
        since = time.monotonic()
        lane.say(b"{}\x1e")
        lane.hear()
        ping = lane.hear()[1].decode()
        pinged = time.monotonic() - since
        opcode, payload = lane.hear()
        given_up = time.monotonic() - since
        lane.rest_of_it()
        if granted:
            lane = stub.comes_up()
            lane.hear()
            lane.say(b'{"sequenceId":1,"type":9}\x1e{"invocationId":"1","result":1,"type":3}\x1e')
            lane.rest_of_it()
        close = opcode, int.from_bytes(payload, "big")
        return ping, 15 - CLOCK <= pinged < 15 + BUSY, 30 - CLOCK <= given_up < 30 + BUSY, close, client.ended()


def answers_nothing(program):
    """A negotiate that isn't answered is a lost dial after half a minute, and so the next one comes at once."""
    with Stub() as stub, Running(program, [stub.url()]) as client:
        stub.socket.settimeout(60)
        since = client.began
        lane = stub.lane()
        lane.request()
        later = stub.lane()
        took = time.monotonic() - since
        later.request()
        later.answer(404)
        return 30 - CLOCK <= took < 30 + BUSY, client.ended()


def typed_slowly(program):
    """A script that is typed for longer than a response may take, and a server that answers. Answers how it ended, and how many dials were lost."""
    read, write = os.pipe()
    with Stub() as stub, Running(program, [stub.url()], stdin=read) as client:
        os.close(read)
        time.sleep(TYPED)
        os.close(write)
        stub.tells()
        greets(stub)
        return client.ended(), stub.others()


PINGED = '{"type":6}\x1e', True, True, (8, 1000)
SLOW_CASES = [
    ("a server that says nothing is pinged after 15 s, lost after 30, and met again", (*PINGED, (0, [*LOST, "again", "ended 1 result 1"])), is_silent),
    ("a client whose connection isn't kept ends then", (*PINGED, (8, [*LOST, "ended 1 gone"])), lambda program: is_silent(program, False)),
    ("a negotiate that isn't answered is lost after 30 s", (True, REFUSED), answers_nothing),
    ("a script may be typed for longer than that", ((0, ["shaken"]), 0), typed_slowly),
]

CASES = REQUEST_CASES + RESPONSE_CASES
