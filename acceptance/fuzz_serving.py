"""The kinds `http` and `sockets` of fuzz.py: what a client says on one connection to `sr serve`, all at once. serving_model.py decides what comes.

Many connections are open at a time, of one server. Each is given up once all has come that is wanted, and after a call of a good client, before which
the server has had time for more, is looked at again: nothing else may have come there."""
import atexit
import contextlib
import pathlib
import re
import socket
import struct
import sys
import time

import frames_model
import fuzz_streams
import replay_model
import serving_model
from frames_model import RECORD
from fuzz_kit import Difference, mutated
from http_model import CONTINUE
from serving_model import BINARY, CLOSE, CONTINUATION, PING, PLACE, PONG, TEXT

sys.path.insert(0, str(pathlib.Path(__file__).resolve().parent / "clients"))
from raw import HOST, KEY, Hub, Raw  # noqa: E402
from serving import Serving  # noqa: E402

AT_ONCE = 50
PATIENCE = 20  # seconds without a byte that is wanted, on a busy machine
LITTLE_PATIENCE = 3  # the same while an input is made small
SOON = 10  # seconds in which no time of a server's has come: after 15 it says a Ping
RESET = "a reset"
MADE = re.compile(
    rb"(HTTP/1\.1 200 OK\r\nContent-Length: )(\d+)(\r\nContent-Type: application/json\r\n(?:Connection: close\r\n)?\r\n"
    rb'\{[^{}]*(?:\{[^{}]*\}[^{}]*)*?"connectionId":")([1-9]\d*)(","connectionToken":")([A-Za-z0-9_-]{32})(")')


class More(Exception):
    """Not all has come that is wanted."""


class Differs(Exception):
    """Another thing has come."""


# ---- what has come, beside what is wanted


def without_number(found):
    """The reply to a negotiate with PLACE for its token and a 0 for its number."""
    head, size, middle, number, name, _, end = found.groups()
    return b"%s%d%s0%s%s%s" % (head, int(size) - len(number) + 1, middle, name, PLACE, end)


def judge(wanted, came, ended):
    """Whether this is what is wanted: else it is `More` or `Differs`. `ended` is True, False or RESET."""
    if wanted.is_undecided:
        return
    at, came = 0, MADE.sub(without_number, came)
    for texts, may_continue in wanted.replies:
        at = after_reply(came, at, texts, may_continue)
    if wanted.socket is not None:
        judge_socket(wanted, Said(came[at:]))
    elif came[at:] and not (wanted.early and any(came[at:] == refusal(status) for status in wanted.early)):
        raise Differs
    if wanted.is_shut and not ended:
        raise More
    if ended == RESET or ended and not wanted.is_shut and not wanted.early:
        raise Differs


def refusal(status):
    return serving_model.http_model.reply_of(status, "none", "-", "close", b"")


def after_reply(came, at, texts, may_continue):
    if may_continue and came.startswith(CONTINUE, at):
        at += len(CONTINUE)
    for text in texts:
        if came.startswith(text, at):
            return at + len(text)
    if came[at:] and not any(text[:12] == came[at : at + 12] or text.startswith(came[at:]) for text in [*texts, *[CONTINUE] * may_continue]):
        raise Differs
    raise More


class Said:
    """What a server said on a WebSocket: bytes of the hub, pongs, and its close frame."""

    def __init__(self, data):
        self.hub, self.pongs, self.close, self.kinds = b"", [], None, []
        while data and self.close is None:
            data = self.frame(data)
        if data:
            raise Differs

    def frame(self, data):
        if len(data) < 2:
            raise More
        opcode, size, at = data[0] & 15, data[1], 2
        if data[0] & 240 != 128 or size > 127 or opcode not in (TEXT, BINARY, CLOSE, PONG):
            raise Differs
        if size > 125:
            at = 4 if size == 126 else 10
            size = int.from_bytes(data[2:at], "big")
        if len(data) < at + size:
            raise More
        payload = data[at : at + size]
        if opcode == CLOSE:
            self.close = payload
        elif opcode == PONG:
            self.pongs.append(payload)
        else:
            self.hub += payload
            self.kinds.append(opcode)
        return data[at + size :]


def judge_socket(wanted, said):
    hub = wanted.hub
    judge_hub(hub, [*cut(hub.codec, said.hub)], is_last=said.close is not None)
    if said.pongs != wanted.pongs[: len(said.pongs)]:
        raise Differs
    later = said.kinds[1:]
    if later and any(kind != (BINARY if hub.codec == "pack" else TEXT) for kind in later):
        raise Differs
    if said.close is None:
        if wanted.close is not None or len(said.pongs) < len(wanted.pongs):
            raise More
    elif not is_close(wanted, said.close) or len(said.pongs) < len(wanted.pongs):
        raise Differs


def is_close(wanted, payload):
    if isinstance(wanted.close, bytes):
        return payload == wanted.close
    return int.from_bytes(payload[:2], "big") in (wanted.early if wanted.close is None else wanted.close)


def cut(codec, data):
    """The frames of the hub, each with its framing. The first is JSON."""
    at, is_first = 0, True
    while at < len(data):
        frame, end = frames_model.next_frame("json" if is_first or codec is None else codec, data, at)
        if not isinstance(frame, bytes):
            raise Differs
        yield data[at:end]
        at, is_first = end, False


def judge_hub(hub, frames, is_last):
    """What the jobs of several turns say may come at any turn, so of such the frames are compared by their calls."""
    ping = replay_model.spell(("ping",), hub.codec or "json")
    frames = [frame for frame in frames if frame != ping]
    most = [text for _, text in hub.many]
    if hub.few == hub.many:
        judge_part(frames, most, most, is_last)
        return
    by_call = [grouped(pairs) for pairs in ([(id_of(hub.codec, frame), frame) for frame in frames], hub.few, hub.many)]
    for call in {*by_call[0], *by_call[2]}:
        judge_call(*(group.get(call, []) for group in by_call), is_last)


def judge_call(frames, few, many, is_last):
    """A call may be cancelled at any of its turns: then it has ended after a first part of what it would have said."""
    if not (few != many and frames and frames[-1] in few[-1:] + many[-1:] and frames[:-1] == many[: len(frames) - 1]):
        judge_part(frames, few if few == many[: len(few)] else [], many, is_last)


def judge_part(frames, few, many, is_last):
    if frames != many[: len(frames)]:
        raise Differs
    if len(frames) < len(few if is_last else many):
        raise Differs if is_last else More


def grouped(pairs):
    found = {}
    for call, frame in pairs:
        found.setdefault(call, []).append(frame)
    return found


def id_of(codec, frame):
    if frame == b"{}" + RECORD:
        return None
    body = frame[:-1] if codec == "json" else frame[frames_model.next_by_length(frame, 0)[1] - len(frames_model.next_by_length(frame, 0)[0]) :]
    tree = frames_model.READERS[codec](body)
    return tree.get("invocationId")


# ---- what is said


def request(first, *fields, body=b"", end="\r\n"):
    lines = [f"{first} HTTP/1.1", "Host: a", *fields, *([f"Content-Length: {len(body)}"] if body else []), "", ""]
    return end.join(lines).encode() + body


def upgrade(target="/hub", *fields):
    return request(f"GET {target}", "Connection: Upgrade", "Upgrade: websocket", "Sec-WebSocket-Version: 13", f"Sec-WebSocket-Key: {KEY}", *fields)


MASKS = [bytes(4), bytes(4), b"\x37\xfa\x21\x3d"]


def spoken(draw, payload, opcode=TEXT, final=True):
    """A frame of a client, most with a mask that changes nothing, so that what is changed in it is changed in its payload."""
    size, mask = len(payload), draw.choice(MASKS)
    short = size if size < 126 else 126 if size < 65_536 else 127
    longer = b"" if size < 126 else struct.pack(">H" if short == 126 else ">Q", size)
    head = bytes([(128 if final else 0) | opcode, 128 | short]) + longer + mask
    return head + bytes(byte ^ mask[at % 4] for at, byte in enumerate(payload))


NEGOTIATE = "POST /hub/negotiate?negotiateVersion=1"
SHAKE = b'{"protocol":"json","version":1}' + RECORD
ADD = b'{"type":1,"invocationId":"1","target":"Add","arguments":[2,3]}' + RECORD
HUB = f"/hub?id={PLACE.decode()}"
POLLS = [request(f"GET {HUB}"), request(f"POST {HUB}", body=SHAKE), request(f"POST {HUB}", body=ADD), request(f"GET {HUB}")]
EXPECTS = "Expect: 100-continue"
REQUESTS = [
    request(NEGOTIATE),
    request(NEGOTIATE + "&useStatefulReconnect=true", "Connection: keep-alive", "Accept: */*"),
    request(NEGOTIATE, EXPECTS, body=b"abc"),
    request(NEGOTIATE, "Connection: close"),
    request(NEGOTIATE + "&access_token=abc"),
    request(NEGOTIATE, "Authorization: Bearer abc"),
    request("POST /hub/negotiate?negotiateVersion=0"),
    request("GET /hub/negotiate?negotiateVersion=1"),
    request("GET /hub"),
    request("PUT /hub?id=a"),
    request("GET /nowhere?a=%41+b", body=b"hello"),
    request("DELETE /hub?id=unknown", end="\n"),
    b"\r\n\r\n" + request("OPTIONS /hub", "Content-Length: 3", "Content-Length: 3") + b"abc",
    b"GET /nowhere HTTP/1.0\r\n\r\n",
    request("POST /nowhere", "Transfer-Encoding: chunked") + b"3\r\nabc\r\n0\r\n\r\n",
    request("POST /nowhere", "Content-Length: 1048577"),
    request(f"GET {HUB}") + request(f"DELETE {HUB}") + request(f"GET {HUB}"),
    b"".join(POLLS),
    b"".join(POLLS) + request(f"DELETE {HUB}"),
    b"".join(POLLS[:2]) + request(f"POST {HUB}", body=b'{"type":7}' + RECORD) + POLLS[3] * 3,
    POLLS[0] + request(f"POST {HUB}", body=b'{"protocol":"x","version":1}' + RECORD) + POLLS[3] * 2 + POLLS[1],
    upgrade(HUB),
    upgrade("/hub", "Sec-WebSocket-Protocol: a", "Origin: b"),
    upgrade("/hub?access_token="),
    upgrade().replace(b"13\r\n", b"12\r\n"),
    POLLS[0] + upgrade(HUB),
]
LONG = [request("GET /nowhere", *[f"A{number}: b" for number in range(1, 99)]), request("GET /nowhere", "A: " + "b" * 16_300)]
SELDOM = 0.01
TOGETHER = [1, 1, 1, 2, 3]


def calls(draw, codec):
    """Some frames of a hub's client: good calls, and what stands in the tables of frames."""
    good = GOOD[codec]
    told = [draw.choice(good if draw.random() < 0.6 else FINE[codec]) for _ in range(draw.choice([1, 2, 3, 5]))]
    return b"".join(told + [draw.choice(SEVERAL[codec])] * (draw.random() < 0.1))


def messages(*texts):
    found = {"json": [], "pack": []}
    for text in texts:
        tree = frames_model.message_in_json(text.encode())
        for codec, told in found.items():
            told.append(frames_model.written(codec, tree))
    return found


GOOD = messages(
    '{"type":1,"invocationId":"1","target":"Add","arguments":[2,3]}',
    '{"type":1,"invocationId":"2","target":"Echo","arguments":[{"a":[null,"\\u00e9"],"b":true}]}',
    '{"type":1,"invocationId":"3","target":"Fail","arguments":["broken"]}',
    '{"type":1,"invocationId":"4","target":"Add","arguments":[18446744073709551615,1]}',
    '{"type":1,"invocationId":"5","target":"Nothing","arguments":[]}',
    '{"type":1,"target":"Echo","arguments":[1]}',
    '{"type":4,"invocationId":"6","target":"Count","arguments":[0]}',
    '{"type":4,"invocationId":"7","target":"Echo","arguments":[1]}',
    '{"type":1,"invocationId":"8","target":"Count","arguments":[1]}',
    '{"type":5,"invocationId":"9"}',
    '{"type":2,"invocationId":"9","item":1}',
    '{"type":3,"invocationId":"s1","result":1}',
    '{"type":6}',
    '{"type":7,"error":"over"}',
    '{"type":8,"sequenceId":1}',
    '{"type":9,"sequenceId":1}',
)
SEVERAL = messages(
    '{"type":4,"invocationId":"a","target":"Count","arguments":[3]}',
    '{"type":1,"invocationId":"b","target":"Slow","arguments":[2,"late"]}',
    '{"type":1,"invocationId":"c","target":"Sum","arguments":[],"streamIds":["u"]}',
    '{"type":2,"invocationId":"u","item":5}',
    '{"type":3,"invocationId":"u"}',
    '{"type":5,"invocationId":"a"}',
)


def fine(codec):
    """Short frames of the tables of frames.py that are read."""
    frames = (fuzz_streams.framed(codec, frame) for frame in fuzz_streams.frames_of(codec))
    return [frame for frame in frames if len(frame) < SHORT and fuzz_streams.is_whole(codec, frame)]


SHORT = 400  # bytes of a frame
FINE = {codec: fine(codec) for codec in ("json", "pack")}
SHAKES = {"json": [SHAKE, b'{"protocol":"json","version":2}' + RECORD, b'{"version":3, "protocol":"json"}' + RECORD],
          "pack": [b'{"protocol":"messagepack","version":1}' + RECORD]}


def said_on_socket(draw):
    """The frames of a WebSocket of a session: the handshake, calls in messages that may be in fragments, pings, and perhaps a close."""
    codec = draw.choice(["json", "json", "pack"])
    parts = [draw.choice(SHAKES[codec]), *(calls(draw, codec) for _ in range(draw.choice([0, 1, 1, 2, 3])))]
    if draw.random() < 0.4:
        parts = [b"".join(parts)]
    frames = [it for part in parts for it in in_frames(draw, part, BINARY if codec == "pack" else TEXT)]
    if draw.random() < 0.15:
        frames.append(spoken(draw, draw.choice([b"", b"\x03\xe8", b"\x03\xe9going away", b"\x0f\xa0"]), CLOSE))
    return b"".join(frames)


def in_frames(draw, payload, opcode):
    if draw.random() < 0.7:
        yield spoken(draw, payload, opcode)
        return
    at = draw.randrange(len(payload) + 1)
    yield spoken(draw, payload[:at], opcode, final=False)
    if draw.random() < 0.5:
        yield spoken(draw, b"here", draw.choice([PING, PONG]))
    yield spoken(draw, payload[at:], CONTINUATION)


# ---- a server


class Server:
    """A server of the program, which goes on till the end."""

    def __init__(self, program):
        self.serving = Serving(program).__enter__()
        self.port = self.serving.port
        atexit.register(self.serving.__exit__)

    def tokens(self, count):
        """New ones, asked for on one connection."""
        lane = Raw(self.port)
        lane.send(request(NEGOTIATE) * count)
        found = [MADE_TOKEN.search(lane.reply()[2])[1] for _ in range(count)]
        lane.close()
        return found

    def is_good(self):
        """Whether a good client is answered, again and again: meanwhile the server has heard what came before."""
        hub = Hub(self.port)
        hub.shake()
        answers = [hub.call("Add", 2, number).get("result") for number in (3, 4)]
        hub.close()
        return answers == [5, 6]


MADE_TOKEN = re.compile(rb'"connectionToken":"([^"]*)"')


class Lane:
    """A connection on which an input is said."""

    def __init__(self, port, data, token, wanted):
        self.came, self.ended, self.wanted, self.began = b"", False, wanted, time.monotonic()
        self.socket = socket.create_connection((HOST, port))
        self.socket.setsockopt(socket.IPPROTO_TCP, socket.TCP_NODELAY, 1)
        with contextlib.suppress(ConnectionError):
            self.socket.sendall(data.replace(PLACE, token))

    def more(self, patience):
        """Whether something has come, in this time."""
        self.socket.settimeout(patience)
        try:
            piece = self.socket.recv(65_536)
        except (socket.timeout, BlockingIOError):
            return False
        except ConnectionError:
            self.ended = RESET
            return True
        self.came, self.ended = self.came + piece, self.ended or not piece
        return True

    def is_as_wanted(self, patience):
        """Reads until all has come that is wanted, another thing, or for a while nothing."""
        while True:
            with contextlib.suppress(More):
                return self.is_fine()
            if self.ended or not self.more(patience):
                return False

    def is_fine(self):
        try:
            judge(self.wanted, self.came, self.ended)
        except Differs:
            return False
        return True

    def is_fine_still(self):
        """After what was wanted nothing more may come."""
        if not self.ended:
            self.more(0)
        try:
            return self.is_fine()
        except More:
            return False

    def is_slow(self):
        return time.monotonic() - self.began > SOON

    def close(self):
        self.socket.close()

    def told(self):
        wanted = {name: part for name, part in vars(self.wanted).items() if name in ("replies", "is_shut", "close", "pongs", "early")}
        hub = self.wanted.hub
        return {**wanted, "hub": hub and [text for _, text in hub.many]}, (self.came, "ended" if self.ended is True else self.ended or "open")


class Servings:
    """A kind of inputs of a server, all of one server."""

    name, server = None, None

    def __init__(self, program):
        self.program = program

    def started(self):
        if Servings.server is None:
            Servings.server = Server(self.program)
        return Servings.server

    def differences(self, draw, count):
        while count > 0:
            inputs = [self.input(draw) for _ in range(min(count, AT_ONCE))]
            count -= len(inputs)
            yield from self.judged(inputs)

    def judged(self, inputs):
        server, wanted = self.started(), [serving_model.Connection(data) for data in inputs]
        lanes = [Lane(server.port, *parts) for parts in zip(inputs, server.tokens(len(inputs)), wanted)]
        fine = [lane.is_as_wanted(PATIENCE) for lane in lanes]
        is_good = server.is_good()
        for data, lane, was_fine in zip(inputs, lanes, fine):
            # What is late on a busy machine, a server's Ping, say, is no difference if it doesn't come again.
            if not (was_fine and lane.is_fine_still()) and not (lane.is_slow() and self.tried(data, PATIENCE) is None):
                yield Difference(f"a connection to sr serve ({lane.told()})"[:3_000], data, self.again)
            lane.close()
        if complaints := server.serving.complaints() + ["a good client isn't answered"] * (not is_good):
            yield Difference(f"sr serve, which is wrong after {len(inputs)} connections: {complaints}", b"".join(inputs), lambda _: None)

    def again(self, data):
        return self.tried(data, LITTLE_PATIENCE)

    def tried(self, data, patience):
        server = self.started()
        lane = Lane(server.port, data, server.tokens(1)[0], serving_model.Connection(data))
        try:
            fine = lane.is_as_wanted(patience) and server.is_good() and lane.is_fine_still()
            return None if fine else lane.told()
        finally:
            lane.close()


class Requests(Servings):
    name = "http"

    def input(self, draw):
        data = b"".join(draw.choice(REQUESTS) for _ in range(draw.choice(TOGETHER)))
        if draw.random() < SELDOM:
            data += draw.choice(LONG)
        return mutated(draw, data, REQUESTS)


class Sockets(Servings):
    name = "sockets"

    def input(self, draw):
        head, said = upgrade(draw.choice(["/hub", "/hub", HUB])), said_on_socket(draw)
        if draw.random() < 0.05:
            return mutated(draw, head + said, REQUESTS)
        return head + (said if draw.random() < 0.1 else mutated(draw, said, [said_on_socket(draw)]))
