"""WebSocket frames that no good client sends, with what has to come of each by RFC 6455 and the limits of docs/clients.md.

A case is its name, what it has to answer, and a function of the port. `ended` is a connection that ends in order, after the close frame."""
import socket
import time

from hostile_http import LATE, SILENCE
from raw import BINARY, CLOSE, CONTINUATION, PING, PONG, TEXT, Hub, frame, record

MOST = 1_048_576
HANDSHAKE = record('{"protocol":"json","version":1}')
NAMES = {TEXT: "text", BINARY: "binary", CLOSE: "close", PING: "ping", PONG: "pong"}


def closed(*parts):
    """Sends frames, and answers the status of the close frame that comes for them and how the connection ends."""

    def case(port):
        hub = Hub(port)
        for part in parts:
            hub.send(part)
        status, end = hub.closing()
        return f"{status}, {end}"

    return case


def heard(count, *parts):
    """Sends frames, and answers the first ones that come."""

    def case(port):
        hub = Hub(port)
        for part in parts:
            hub.send(part)
        came = (hub.read_frame() for _ in range(count))
        return ", ".join(f"{NAMES[opcode]} {payload.decode().strip(chr(30))}".strip() for opcode, payload in came)

    return case


def single_bytes(port):
    hub = Hub(port)
    for byte in frame(TEXT, HANDSHAKE):
        hub.send(bytes([byte]))
    return hub.hear()


def with_the_upgrade(port):
    """A client that doesn't wait for the 101: its first frame comes with the head."""
    hub = Hub.__new__(Hub)
    super(Hub, hub).__init__(port)
    hub.frames = []
    ask, asked = hub.send, []
    hub.send = asked.append
    try:
        hub.rest = b"HTTP/1.1 400 none\r\n\r\n"
        hub.upgrade("/hub")
    finally:
        hub.send = ask
    hub.send(b"".join(asked) + frame(TEXT, HANDSHAKE))
    status = hub.reply()[0]
    return f"{status}, {hub.read_frame()[1].decode().strip(chr(30))}"


def never_reads(port):
    """A client calls and calls, and reads no answer: soon it has said as much as is kept for it, no more is read, and half a minute later it is
    cut off. Others are served meanwhile."""
    began = time.monotonic()
    deaf = Hub(port, timeout=SILENCE + LATE)
    deaf.socket.setsockopt(socket.SOL_SOCKET, socket.SO_RCVBUF, 4_096)
    deaf.send(frame(TEXT, HANDSHAKE))
    # More than what is kept for it and what both systems hold, which grows as a server reads.
    for number in range(1, 4_000):
        call = '{"type":1,"invocationId":"%d","target":"Echo","arguments":["%s"]}' % (number, "x" * 30_000)
        try:
            deaf.send(frame(TEXT, record(call)))
        except socket.timeout:
            return "not cut off"
        except OSError:
            return f"cut off {on_time(began)}"
        if number % 10 == 0 and not is_served(port):
            return "another isn't served"
    return "all is read"


def is_served(port):
    other = Hub(port)
    other.shake()
    result = other.call("Add", 1, 1).get("result")
    other.close()
    return result == 2


def only_socket_pings(port):
    """WebSocket pings are answered, and are no sign of life of a hub's client."""
    began = time.monotonic()
    hub = Hub(port)
    hub.shake()
    for _ in range(3):
        hub.send(frame(PING, b"here"))
        if hub.read_frame() != (PONG, b"here"):
            return "no pong"
        time.sleep(7)
    return closed_on_time(hub, began)


def only_upgraded(port):
    """A client that says no handshake."""
    began = time.monotonic()
    return closed_on_time(Hub(port), began)


def closed_on_time(hub, began):
    status, end = hub.closing()
    return f"{status}, {end} {on_time(began)}"


def on_time(began):
    took = time.monotonic() - began
    return "on time" if SILENCE - 0.5 <= took <= SILENCE + LATE else f"after {took:.1f} s"


SOCKET_CASES = [
    ("a frame without a mask", "1002, ended", closed(frame(TEXT, HANDSHAKE, masked=False))),
    ("a frame of 1,048,577 bytes", "1009, ended", closed(frame(BINARY, bytes(MOST + 1)))),
    ("a frame of 1,048,577 bytes, its head alone", "1009, ended", closed(frame(BINARY, size=MOST + 1))),
    ("a frame of 2^63 - 1 bytes", "1009, ended", closed(frame(BINARY, size=2**63 - 1))),
    ("fragments of more than 1,048,576 bytes", "1009, ended", closed(frame(BINARY, bytes(MOST), fin=False), frame(CONTINUATION, b"..", fin=False))),
    ("a text that isn't UTF-8", "1007, ended", closed(frame(TEXT, b"\xff\xfe"))),
    ("a text cut inside of a letter", "1007, ended", closed(frame(TEXT, "ü".encode()[:1]))),
    ("a letter over two fragments", "text {}", heard(1, frame(TEXT, b'{"a":"\xc3', fin=False), frame(CONTINUATION, b"\xbc\"," + HANDSHAKE[1:]))),
    ("the reserved opcode 3", "1002, ended", closed(frame(3))),
    ("the reserved opcode 11", "1002, ended", closed(frame(11))),
    ("a reserved bit, as of compression", "1002, ended", closed(frame(TEXT, HANDSHAKE, reserved=64))),
    ("a continuation of nothing", "1002, ended", closed(frame(CONTINUATION, b"more"))),
    ("a text within a fragmented text", "1002, ended", closed(frame(TEXT, b"a", fin=False), frame(TEXT, b"b"))),
    ("a ping in fragments", "1002, ended", closed(frame(PING, b"a", fin=False))),
    ("a ping of 126 bytes", "1002, ended", closed(frame(PING, bytes(126)))),
    ("a close of one byte", "1002, ended", closed(frame(CLOSE, b"a"))),
    ("a close with the status 1005", "1002, ended", closed(frame(CLOSE, b"\x03\xed"))),
    ("a close whose reason isn't UTF-8", "1007, ended", closed(frame(CLOSE, b"\x03\xe8\xff"))),
    ("a close with the status 1001", "1001, ended", closed(frame(CLOSE, b"\x03\xe9going"))),
    ("a close without a status", "0, ended", closed(frame(CLOSE))),
    (
        "fragments with pings between",
        "pong a, pong b, text {}",
        heard(
            3,
            frame(TEXT, HANDSHAKE[:5], fin=False),
            frame(PING, b"a"),
            frame(CONTINUATION, HANDSHAKE[5:9], fin=False),
            frame(PING, b"b"),
            frame(CONTINUATION, HANDSHAKE[9:]),
        ),
    ),
    ("a pong that nobody asked for", "text {}", heard(1, frame(PONG, b"a"), frame(TEXT, HANDSHAKE))),
    ("an empty message", "text {}", heard(1, frame(TEXT), frame(BINARY), frame(TEXT, HANDSHAKE))),
    ("frames after a close", "1000, ended", closed(frame(CLOSE, b"\x03\xe8") + frame(TEXT, HANDSHAKE))),
    ("a frame in single bytes", "{}", single_bytes),
    ("a frame that comes with the upgrade", "101, {}", with_the_upgrade),
]

SLOW_SOCKET_CASES = [
    ("a socket that says nothing", "1000, ended on time", only_upgraded),
    ("a socket's pings alone", "1000, ended on time", only_socket_pings),
    ("a client that calls and never reads", "cut off on time", never_reads),
]
