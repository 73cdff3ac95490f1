"""A server for one client in a test: it says byte by byte what the test says, and sees just what came."""
import base64
import hashlib
import json
import socket
import struct

from raw import HOST, TEXT, Raw
from watched import HEAD_END, unmasked

GUID = b"258EAFA5-E914-47DA-95CA-C5AB0DC85B11"  # RFC 6455, section 1.3
SECONDS = 20
TOKEN = "kT"


class Wrong(Exception):
    """What came is another thing than what had to."""


def body_of(token=TOKEN, kept=True):
    """The body of a negotiate's response, as TransportProtocols.md has it."""
    transports = [{"transport": "WebSockets", "transferFormats": ["Text", "Binary"]}]
    body = {"negotiateVersion": 1, "connectionId": "1", "connectionToken": token, "availableTransports": transports}
    return json.dumps(body | ({"useStatefulReconnect": True} if kept else {})).encode()


def accept_of(key):
    return base64.b64encode(hashlib.sha1(key + GUID).digest()).decode()


def spoken(opcode, payload, fin=True):
    """A frame of a server, which has no mask."""
    size = len(payload)
    short = size if size < 126 else 126 if size < 65_536 else 127
    longer = b"" if size < 126 else struct.pack(">H" if short == 126 else ">Q", size)
    return bytes([(128 if fin else 0) | opcode, short]) + longer + payload


class Lane(Raw):
    """A connection that the client has opened."""

    def __init__(self, accepted):
        self.socket, self.rest, self.masks, self.key = accepted, b"", [], None
        self.socket.settimeout(SECONDS)
        self.socket.setsockopt(socket.IPPROTO_TCP, socket.TCP_NODELAY, 1)

    def request(self):
        """The head of the request, whole."""
        while HEAD_END not in self.rest:
            self.more()
        head, mark, self.rest = self.rest.partition(HEAD_END)
        self.key = next((line.split(b": ", 1)[1] for line in head.split(b"\r\n") if line.startswith(b"Sec-WebSocket-Key: ")), None)
        return head + mark

    def answer(self, status, body=b"", fields=()):
        lines = [f"HTTP/1.1 {status} Said", *fields, f"Content-Length: {len(body)}", "", ""]
        self.send("\r\n".join(lines).encode() + body)

    def accept(self, accept=None, rest=b""):
        """The 101, with what accepts the key, or with another text. `rest` follows in the same write."""
        accept = accept_of(self.key) if accept is None else accept
        lines = ["HTTP/1.1 101 Switching Protocols", "Upgrade: websocket", "Connection: Upgrade", f"Sec-WebSocket-Accept: {accept}", "", ""]
        self.send("\r\n".join(lines).encode() + rest)

    def say(self, payload, opcode=TEXT):
        self.send(spoken(opcode, payload))

    def hear(self):
        """The next frame of the client: its opcode and its payload. Each is whole, has no reserved bit, and is masked."""
        first, second = self.take(2)
        if first & 128 == 0 or first & 112 or second & 128 == 0:
            raise Wrong(f"a frame that begins with {first:02x} {second:02x}")
        size = second & 127
        if size > 125:
            size = int.from_bytes(self.take(2 if size == 126 else 8), "big")
        mask = self.take(4)
        self.masks.append(mask)
        return first & 15, unmasked(self.take(size), mask)

    def finish(self):
        """Ends it in order, and reads until the client has ended it too. Answers what came."""
        self.socket.shutdown(socket.SHUT_WR)
        return self.rest_of_it()

    def rest_of_it(self):
        data = self.rest
        try:
            while piece := self.socket.recv(65_536):
                data += piece
        except ConnectionResetError:
            pass
        self.rest = b""
        self.close()
        return data


class Stub:
    """Listens for a client on a port of its own."""

    def __init__(self, host=HOST, listens=True):
        self.socket = socket.socket(socket.AF_INET6 if ":" in host else socket.AF_INET)
        self.socket.bind((host, 0))
        self.socket.settimeout(SECONDS)
        self.port, self.lanes = self.socket.getsockname()[1], []
        if listens:
            self.socket.listen()

    def __enter__(self):
        return self

    def __exit__(self, *_):
        for lane in self.lanes:
            lane.close()
        self.socket.close()

    def url(self, path="/hub"):
        return f"http://{HOST}:{self.port}{path}"

    def lane(self):
        """The next connection."""
        try:
            accepted, _ = self.socket.accept()
        except socket.timeout:
            raise Wrong("nobody dials") from None
        self.lanes.append(Lane(accepted))
        return self.lanes[-1]

    def others(self):
        """How many connections more came that nobody looked at."""
        self.socket.settimeout(0)
        count = 0
        try:
            while True:
                self.lane()
                count += 1
        except OSError:
            return count

    def tells(self, body=None, status=200):
        """Answers the negotiate of the next connection, which the client then ends. Answers its request."""
        lane = self.lane()
        head = lane.request()
        lane.answer(status, body_of() if body is None else body, ["Content-Type: application/json"])
        if rest := lane.rest_of_it():
            raise Wrong(f"after a negotiate came {rest!r}")
        return head

    def comes_up(self):
        """The next connection, as a socket that is up."""
        lane = self.lane()
        lane.request()
        lane.accept()
        return lane
