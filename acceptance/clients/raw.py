"""HTTP and WebSockets byte by byte over a TCP socket, for tests that say what no library would say, and see just what came."""
import base64
import json
import os
import socket
import struct
from collections import deque

HOST = "127.0.0.1"
RECORD = b"\x1e"
PING_TEXT = '{"type":6}'
TIMEOUT = 60  # seconds: a trial build on a busy machine is slow
CONTINUATION, TEXT, BINARY, CLOSE, PING, PONG = 0, 1, 2, 8, 9, 10
KEY = "dGhlIHNhbXBsZSBub25jZQ=="  # the example of RFC 6455, section 1.3
ACCEPTED = "s3pPLMBiTxaQ9kYGzzhZRbK+xOo="


class Ended(Exception):
    """The other side has ended the connection: in order ("ended") or by a reset ("reset")."""


def frame(opcode, payload=b"", fin=True, masked=True, reserved=0, size=None):
    """One WebSocket frame of a client. A `size` other than the payload's is for frames that lie, or aren't sent whole."""
    size = len(payload) if size is None else size
    short = size if size < 126 else 126 if size < 65_536 else 127
    head = bytes([(128 if fin else 0) | reserved | opcode, (128 if masked else 0) | short])
    if short == 126:
        head += struct.pack(">H", size)
    elif short == 127:
        head += struct.pack(">Q", size)
    if not masked:
        return head + payload
    mask = os.urandom(4)
    key = int.from_bytes((mask * (len(payload) // 4 + 1))[: len(payload)], "big")
    return head + mask + (int.from_bytes(payload, "big") ^ key).to_bytes(len(payload), "big")


class Raw:
    """A TCP connection to the server, for which the system holds about `unread` bytes that nobody has read."""

    def __init__(self, port, timeout=TIMEOUT, unread=None):
        self.socket = socket.socket()
        self.socket.settimeout(timeout)
        if unread:
            self.socket.setsockopt(socket.SOL_SOCKET, socket.SO_RCVBUF, unread)
        self.socket.connect((HOST, port))
        self.socket.setsockopt(socket.IPPROTO_TCP, socket.TCP_NODELAY, 1)
        self.host = f"{HOST}:{port}"
        self.rest = b""

    def send(self, data):
        self.socket.sendall(data)

    def more(self):
        """Waits for further bytes. At the end of the connection this is `Ended`."""
        try:
            data = self.socket.recv(65_536)
        except (ConnectionResetError, BrokenPipeError):
            raise Ended("reset") from None
        if not data:
            raise Ended("ended")
        self.rest += data

    def take(self, size):
        while len(self.rest) < size:
            self.more()
        data, self.rest = self.rest[:size], self.rest[size:]
        return data

    def end(self):
        """How the server ends the connection, after nothing further: `ended`, `reset`, or the bytes that came instead."""
        try:
            self.more()
        except Ended as ended:
            return str(ended)
        except socket.timeout:
            return "still open"
        return f"said {self.rest[:40]!r}"

    def drop(self):
        """Ends the connection as a cut cable does: nothing is said, and what comes is answered by a reset."""
        self.socket.setsockopt(socket.SOL_SOCKET, socket.SO_LINGER, struct.pack("ii", 1, 0))
        self.socket.close()

    def close(self):
        self.socket.close()

    # HTTP

    def ask(self, method, target, body=None, fields=()):
        lines = [f"{method} {target} HTTP/1.1", f"Host: {self.host}", *fields]
        if body is not None:
            lines.append(f"Content-Length: {len(body)}")
        self.send("\r\n".join([*lines, "", ""]).encode() + (body or b""))

    def reply(self):
        """The next reply: its status, its fields by their names in small letters, and its body."""
        while b"\r\n\r\n" not in self.rest:
            self.more()
        head, self.rest = self.rest.split(b"\r\n\r\n", 1)
        first, *lines = head.decode().split("\r\n")
        fields = {name.lower(): value.strip() for name, value in (line.split(":", 1) for line in lines)}
        return int(first.split(" ")[1]), fields, self.take(int(fields.get("content-length", 0)))

    def http(self, method, target, body=None, fields=()):
        self.ask(method, target, body, fields)
        status, _, body = self.reply()
        return status, body

    # WebSockets

    def ask_upgrade(self, target, version=13, key=KEY, fields=()):
        asked = ["Connection: Upgrade", "Upgrade: websocket", f"Sec-WebSocket-Version: {version}", f"Sec-WebSocket-Key: {key}"]
        self.ask("GET", target, fields=[*asked, *fields])

    def upgrade(self, target, **words):
        self.ask_upgrade(target, **words)
        status, fields, _ = self.reply()
        if status == 101 and fields.get("sec-websocket-accept") != ACCEPTED:
            raise ValueError(f"accepted by {fields}")
        return status

    def read_frame(self):
        """The next WebSocket frame: its opcode and its payload. A server's frames are whole messages without a mask here."""
        first, second = self.take(2)
        size = second & 127
        if size == 126:
            (size,) = struct.unpack(">H", self.take(2))
        elif size == 127:
            (size,) = struct.unpack(">Q", self.take(8))
        if not first & 128 or first & 112 or second & 128:
            raise ValueError(f"a frame that begins with {first:02x} {second:02x}")
        return first & 15, self.take(size)

    def closing(self):
        """The status of the close frame that comes, after whatever other frames, and how the connection ends then."""
        while True:
            opcode, payload = self.read_frame()
            if opcode == CLOSE:
                return int.from_bytes(payload[:2], "big"), self.end()


def record(text):
    return text.encode() + RECORD


class Hub(Raw):
    """A socket of the hub, whose frames are JSON. They are read one by one, in whatever messages they came."""

    def __init__(self, port, target="/hub", timeout=TIMEOUT, fields=(), unread=None):
        super().__init__(port, timeout, unread)
        self.frames = deque()
        self.status = self.upgrade(target, fields=fields)

    def say(self, *texts):
        self.send(frame(TEXT, b"".join(map(record, texts))))

    def shake(self, version=1):
        self.say('{"protocol":"json","version":%d}' % version)
        return self.hear()

    def hear(self):
        """The next hub frame as a text. A close frame is heard as `closed STATUS`."""
        while not self.frames:
            opcode, payload = self.read_frame()
            if opcode == CLOSE:
                return f"closed {int.from_bytes(payload[:2], 'big')}"
            self.frames.extend(self.cut(payload))
        return self.frames.popleft()

    def cut(self, payload):
        """The frames of a message, which are whole."""
        return [part.decode() for part in payload.split(RECORD)[:-1]]

    def call(self, target, *arguments):
        """Calls a method on a plain connection and answers its completion. Nothing but Pings may come meanwhile."""
        self.say(json.dumps({"type": 1, "invocationId": "1", "target": target, "arguments": arguments}))
        while (answer := self.hear()) == PING_TEXT:
            pass
        return json.loads(answer)
