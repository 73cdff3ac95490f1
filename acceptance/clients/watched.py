"""A way between a client and a server that is cut where a test says, and what was carried there.

Whatever the client opens goes to the server. Of each socket (a connection that asks for an upgrade) is kept what was handed on to the client, and
what that said. Towards the client a cut connection is ended in order, so that it reads all that was handed on."""
import contextlib
import dataclasses
import select
import socket
import threading

from raw import CLOSE, HOST

TO_CLIENT, TO_SERVER = "to the client", "to the server"
HEAD_END = b"\r\n\r\n"
PIECE = 65_536
SECONDS = 40  # a test on a busy machine; and for half a minute nothing may come


# ---- frames of WebSockets


def sizes_of(data):
    """The sizes of the head of a frame, its mask with it, and of its payload. None if they aren't there yet."""
    if len(data) < 2:
        return None
    short, mask = data[1] & 127, 4 if data[1] & 128 else 0
    more = {126: 2, 127: 8}.get(short, 0)
    if len(data) < 2 + more + mask:
        return None
    return 2 + more + mask, int.from_bytes(data[2 : 2 + more], "big") if more else short


def frame_end(data):
    """The place after the frame with which these bytes begin, or None if it isn't whole."""
    sizes = sizes_of(data)
    return sum(sizes) if sizes and len(data) >= sum(sizes) else None


def unmasked(payload, mask):
    size = len(payload)
    key = int.from_bytes((mask * (size // 4 + 1))[:size], "big")
    return (int.from_bytes(payload, "big") ^ key).to_bytes(size, "big")


def messages_in(data):
    """The payloads of the whole messages with which these bytes begin, each of which is one frame here."""
    while end := frame_end(data):
        head, _ = sizes_of(data)
        payload = data[head:end]
        if data[0] & 15 != CLOSE:
            yield unmasked(payload, data[head - 4 : head]) if data[1] & 128 else payload
        data = data[end:]


# ---- what is carried


@dataclasses.dataclass
class Cut:
    """After so many bytes in this direction. On the socket that was up first they count from the handshake's end there, and else from the
    beginning of what comes back, or of what is said on the socket."""

    direction: str
    after: int


@dataclasses.dataclass
class Socket:
    """What was carried on a socket of the client."""

    head: bytes
    is_first: bool
    came: bytes = b""  # handed on to the client, with the head of the response
    said: bytes = b""  # by the client, after its request
    is_cut: bool = False

    def is_up(self):
        return HEAD_END in self.came and self.came.startswith(b"HTTP/1.1 101 ")

    def messages(self):
        return list(messages_in(self.came.partition(HEAD_END)[2]))

    def said_messages(self):
        return list(messages_in(self.said))

    def place(self, cut, came, said):
        """After how many of the bytes that came, or were said, it is cut. None if that isn't known yet."""
        if not self.is_first:
            return cut.after
        if cut.direction == TO_SERVER:
            begin = frame_end(said)
        else:
            head, mark, rest = came.partition(HEAD_END)
            end = frame_end(rest)
            begin = end and len(head + mark) + end
        return begin and begin + cut.after


class Connection:
    """One connection of the client, until one side ends it or it is cut."""

    def __init__(self, client, server, carried, cut):
        self.client, self.server, self.carried, self.cut = client, server, carried, cut

    def run(self, rest):
        self.carry_up(rest)
        while not self.carried.is_cut:
            ready, _, _ = select.select([self.client, self.server], [], [], SECONDS)
            if not ready or not self.take(ready[0]):
                return
        self.server.close()
        self.end(self.client)

    def take(self, one):
        """Hands on what came. False if that side has ended."""
        data = one.recv(PIECE)
        if not data:
            self.end(self.server if one is self.client else self.client)
        elif one is self.client:
            self.carry_up(data)
        else:
            self.carry_down(data)
        return bool(data)

    def end(self, one):
        """Ends what is handed on to this side, and reads until it has ended too."""
        with contextlib.suppress(OSError):
            one.shutdown(socket.SHUT_WR)
            while data := one.recv(PIECE):
                if one is self.client:
                    self.carried.said += data

    def until_cut(self, data, direction):
        """As much of what comes as is handed on in this direction."""
        carried = self.carried
        down = direction == TO_CLIENT
        came, said = carried.came + data * down, carried.said + data * (not down)
        place = carried.place(self.cut, came, said) if self.cut and self.cut.direction == direction else None
        before = len(carried.came if down else carried.said)
        if place is None or before + len(data) < place:
            return data
        carried.is_cut = True
        return data[: max(0, place - before)]

    def carry_down(self, data):
        data = self.until_cut(data, TO_CLIENT)
        self.carried.came += data
        self.client.sendall(data)

    def carry_up(self, data):
        handed = self.until_cut(data, TO_SERVER)
        self.carried.said += data
        self.server.sendall(handed)


def read_head(client):
    data = b""
    while HEAD_END not in data:
        piece = client.recv(PIECE)
        if not piece:
            raise ConnectionResetError
        data += piece
    head, mark, rest = data.partition(HEAD_END)
    return head + mark, rest


# ---- the way


class Watched:
    """The way to a server of this port, on a port of its own. `cuts` says of the client's sockets, one after the other, how each is cut, or None;
    those after them stay. `refused` are the places of connections, counted from 0 over all that the client opens, that are ended unheard."""

    def __init__(self, port, cuts=(), refused=()):
        self.target, self.cuts, self.refused = port, iter(cuts), set(refused)
        self.sockets, self.opened, self.threads, self.lock = [], 0, [], threading.Lock()

    def __enter__(self):
        self.listener = socket.create_server((HOST, 0))
        self.port = self.listener.getsockname()[1]
        self.base = f"http://{HOST}:{self.port}/hub"
        threading.Thread(target=self.accept_all, daemon=True).start()
        return self

    def __exit__(self, *_):
        with contextlib.suppress(OSError):
            self.listener.shutdown(socket.SHUT_RDWR)
        self.listener.close()

    def cut_count(self):
        return sum(it.is_cut for it in self.sockets)

    def accept_all(self):
        with contextlib.suppress(OSError):
            while True:
                client, _ = self.listener.accept()
                place, self.opened = self.opened, self.opened + 1
                if place in self.refused:
                    client.close()
                    continue
                with self.lock:
                    self.threads.append(threading.Thread(target=self.carry, args=(client,), daemon=True))
                    self.threads[-1].start()

    def finish(self):
        """Waits until all that the client opened is over."""
        with self.lock:
            threads = list(self.threads)
        for thread in threads:
            thread.join(SECONDS)

    def carry(self, client):
        with client, contextlib.suppress(OSError), socket.create_connection((HOST, self.target)) as server:
            for one in client, server:
                one.settimeout(SECONDS)
                one.setsockopt(socket.IPPROTO_TCP, socket.TCP_NODELAY, 1)
            head, rest = read_head(client)
            server.sendall(head)
            carried, cut = Socket(head, not any(it.is_up() for it in self.sockets)), None
            if b"\r\nUpgrade: " in head:
                self.sockets.append(carried)
                cut = next(self.cuts, None)
            Connection(client, server, carried, cut).run(rest)
