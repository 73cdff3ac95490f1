"""A plain model of a dialer over wires in memory, and the part of the script of `crates/ht_net` that is a dialer's. It is no program:
net_model.py calls it.

A dialer's lanes are those of lanes_model.py, of the client's side: each begins with the text of its ask (RFC 9112 and 6455), awaits one
response, and becomes a WebSocket whose frames are masked: the mask of the frame with the number n, from 0, is the first four bytes of the SHA-1
of the ask's seed and n as eight bytes, highest first (docs/lanes.md)."""
import base64
import collections
import hashlib
import random

from lanes_model import (GATHERED_BYTES, HEAD, PATIENCE, PHRASES, UNWRITTEN, Door, Failed, Item, Lane, Script, frame, hexed, names_at_random,
                         pieces, talk)

# The 16 bytes whose key RFC 6455 accepts as an example, in section 1.3, and what accepts it there.
KEY = b"the sample nonce"
ACCEPT = "s3pPLMBiTxaQ9kYGzzhZRbK+xOo="
SEED = bytes(range(16))
# How far a message is from its frame: two bytes of head, two or eight more of length from 126 and from 65,536 bytes on, and four of the mask.
LONG_FRAME = 2 + 8 + 4

Upgrade = collections.namedtuple("Upgrade", "key seed", defaults=[SEED])
# What a response says. One that is none is BROKEN.
Response = collections.namedtuple("Response", "status accept body", defaults=[None, b""])
BROKEN = "broken"
# What the writes of a wire take that is never full.
FREE = [1 << 20] * 8


def accept_of(key):
    """What accepts an ask with this key (RFC 6455, section 4.2.2)."""
    text = base64.b64encode(key).decode() + "258EAFA5-E914-47DA-95CA-C5AB0DC85B11"
    return base64.b64encode(hashlib.sha1(text.encode()).digest()).decode()


assert accept_of(KEY) == ACCEPT


def mask_of(seed, number):
    return hashlib.sha1(seed + number.to_bytes(8, "big")).digest()[:4]


def ask_text(address, method, target, upgrade=None):
    """The request line, the host, the length of no body where a method may have one, and the lines that ask for a WebSocket."""
    host, port = address
    host = f"[{host}]" if ":" in host else host
    lines = [f"{method} {target} HTTP/1.1", "Host: " + (host if port == 80 else f"{host}:{port}")]
    lines += ["Content-Length: 0"] if method == "POST" else []
    if upgrade:
        key = base64.b64encode(upgrade.key).decode()
        lines += ["Upgrade: websocket", "Connection: Upgrade", f"Sec-WebSocket-Key: {key}", "Sec-WebSocket-Version: 13"]
    return "".join(line + "\r\n" for line in [*lines, ""]).encode()


class Dialer(Door):
    def __init__(self, moments, wires, failing, names, addresses):
        super().__init__(moments, wires, failing, names)
        self.addresses, self.last, self.failed, self.dialed = addresses, 0, [], "-"

    def accept(self):
        """It accepts nobody."""

    def sealed(self, lane, opcode, payload):
        lane.frames += 1
        return frame(opcode, payload, mask_of(lane.upgrade.seed, lane.frames - 1))

    def ask(self, place, method, target, upgrade):
        self.last += 1
        text = ask_text(self.addresses[place], method, target, upgrade) if place < len(self.addresses) else None
        if text is None or len(text) > UNWRITTEN or not self.dial(self.addresses[place], text, upgrade):
            self.failed.append(self.last)
        return self.last

    def dial(self, address, text, upgrade):
        """Whether a connection is begun, which takes the next wire."""
        self.dialed = "{} {}".format(*address)
        try:
            self.call()
        except Failed:
            return False
        if self.given == len(self.wires):
            return False
        lane = Lane(self.last, self.given, self.wires[self.given], self.heard_at)
        lane.out, lane.texts, lane.upgrade, lane.frames = text, len(text), upgrade, 0
        self.given += 1
        # A list of those that wait has room for as many as there were lanes.
        self.began.append((lane, len(self.lanes)))
        lane.has_waited = True
        self.lanes.append(lane)
        if len(text) >= GATHERED_BYTES:
            self.write_out(lane)
        self.note_waiting()
        return True

    def patience(self):
        return 0 if self.failed else PATIENCE

    def hear(self):
        """Asks that went nowhere are heard first."""
        return f"lost {self.failed.pop(0)}" if self.failed else super().hear()

    def hear_request(self, lane):
        """A lane that asked reads, and then looks for its response, also if its wire broke."""
        room, broke = self.room(lane), False
        if room:
            try:
                piece = self.read(lane, room)
                lane.came += len(piece)
                lane.filled = len(piece) == room
                lane.has_unparsed = lane.has_unparsed or bool(piece)
            except Failed:
                broke = True
        return self.look(lane) or (("broken", None) if broke else None)

    def look(self, lane):
        """A lane that has its response is busy: it looks for no other."""
        if lane.busy or not lane.has_unparsed:
            return None
        item, held = self.item(lane), lane.came - lane.begin
        if item is None or held < item.ready:
            lane.known = len(item.data) if item and item.head and held >= item.head else 0
            lane.has_unparsed = False
            return None
        lane.busy = True
        if item.heard is BROKEN:
            return ("broken", None)
        self.step(lane, item)
        if lane.upgrade is None or item.heard.status != 101:
            return ("response", f"{item.heard.status} {hexed(item.heard.body)}")
        accepts = item.heard.accept == accept_of(lane.upgrade.key) and not item.heard.body
        return ("upgraded" if accepts else "broken", None)


class DialerScript(Script):
    def __init__(self):
        super().__init__()
        self.addresses = []

    def address(self, host, port, base="-", token="-"):
        self.addresses.append((host, port))
        self.say(f"address {host} {port} {base} {token}", "to be dialed")

    def start(self, moments, failing=()):
        """A dialer of the addresses that stand here, or of one."""
        if not self.addresses:
            self.address("hub.example", 5000)
        self.door = Dialer(moments, self.wires, failing, self.names, self.addresses)
        self.wires, self.names, self.addresses = [], [], []
        words = ",".join(map(str, moments)) or "-", ",".join(map(str, sorted(failing))) or "-"
        self.say(f"dialer {words[0]} {words[1]}", "a dialer")

    def ask(self, place=0, method="GET", target="/hub", upgrade=None, lane=None):
        """Answers the text of the ask, but where it went nowhere."""
        words = f" {upgrade.key.hex()} {upgrade.seed.hex()}" if upgrade else ""
        self.asked(f"ask {place} {method} {target}{words}", self.door.ask(place, method, target, upgrade), lane)
        return ask_text(self.door.addresses[place], method, target, upgrade) if place < len(self.door.addresses) else None

    def ask_long(self, size, lane=None):
        """An ask whose text has so many bytes."""
        count = size - len(ask_text(self.door.addresses[0], "GET", ""))
        self.asked(f"ask-long 0 GET {count}", self.door.ask(0, "GET", "/" + "a" * (count - 1), None), lane)

    def asked(self, line, said, lane):
        assert lane is None or said == lane, (len(self.lines), said, lane)
        self.say(line, f"lane {said}")

    def dialed(self, answer):
        assert self.door.dialed == answer, (len(self.lines), self.door.dialed, answer)
        self.say("dialed", f"dialed {answer}")


# ---- what a server says

def response(status, body=None, headers=(), accept=None):
    """A response; one with no body says no length."""
    lines = [f"HTTP/1.1 {status} {PHRASES[status]}", *headers]
    lines += [f"Content-Length: {len(body)}"] if body is not None else []
    lines += ["Upgrade: websocket", "Connection: Upgrade", f"Sec-WebSocket-Accept: {accept}"] if accept else []
    head = "".join(line + "\r\n" for line in [*lines, ""]).encode()
    return Item(head + (body or b""), Response(status, accept, body or b""), head=len(head))


def switching(key=KEY):
    return response(101, accept=accept_of(key))


def broken(data, ready=None):
    """What is no response, once so many of its bytes came."""
    return Item(data, BROKEN, ready=ready)


def said(opcode, payload):
    """A frame of a server, which has no mask."""
    return Item(frame(opcode, payload, None), payload if opcode < 8 else None)


def pinged(payload):
    return Item(frame(9, payload, None), None, reply=(10, payload))


def closes(status):
    payload = status.to_bytes(2, "big")
    return Item(frame(8, payload, None), None, reply=(8, payload), gone="answered")


def breaks(data, status):
    """A frame that a server may not say, after which the lane closes with this status."""
    return Item(data, None, gone=status)


def masked(number, opcode, payload, seed=SEED):
    """The frame of this number, as a client writes it."""
    return frame(opcode, payload, mask_of(seed, number))


FOUND = response(200, b"{}", ["Content-Type: application/json"])
# Heads that no bytes can complete, and with how many of their bytes that is known.
NO_HEADS = [(b"SSH-2.0-server\r\n", 1), (b"HTTP/2.0 200 OK\r\n\r\n", 6), (b"HTTP/1.1 2x0 OK\r\n\r\n", 11),
            (b"HTTP/1.1 200 OK\r\nno colon\r\n\r\n", 20)]
# Heads that are whole, and are refused for what they say.
BAD_LENGTHS = [b"Content-Length: 1\r\nContent-Length: 2", b"Content-Length: 1, 1", b"Content-Length: -1", b"Content-Length: 1048577",
               b"Content-Length: 99999999999999999999999", b"Transfer-Encoding: chunked"]


def served(s, moments, *wires, failing=(), names=()):
    """A dialer with wires that are free to be written, of which each has what its reads give: bytes, items, `*` or `!`. Items among them are
    what is heard, in order."""
    if names:
        s.name(names)
    for reads in wires:
        items = [read for read in reads if isinstance(read, Item)]
        s.wire(0, [read.data if isinstance(read, Item) else read for read in reads], FREE, items)
    s.start(moments, failing)


# ---- by hand

def asks(s):
    s.note("an ask goes to its address, and its text is written once and whole, with the next call or by a flush")
    s.address("hub.example", 5000, "/base", "token")
    s.address("::1", 80)
    s.address("::1", 8080)
    s.address("10.0.0.7", 80)
    served(s, [5], [], [], [], [])
    s.dialed("-")
    s.ask(0, "POST", "/negotiate?negotiateVersion=1", lane=1)
    s.dialed("hub.example 5000")
    s.written(0, b"")
    s.flush()
    first = b"POST /negotiate?negotiateVersion=1 HTTP/1.1\r\nHost: hub.example:5000\r\nContent-Length: 0\r\n\r\n"
    s.written(0, first)
    s.ask(1, "GET", "/", lane=2)
    s.dialed("::1 80")
    s.ask(2, "DELETE", "/hub?id=7", lane=3)
    s.dialed("::1 8080")
    s.ask(3, "GET", "/hub?id=k", Upgrade(KEY), lane=4)
    s.dialed("10.0.0.7 80")
    s.next("at 5 quiet")
    for _ in range(2):
        s.written(0, first)
        s.written(1, b"GET / HTTP/1.1\r\nHost: [::1]\r\n\r\n")
        s.written(2, b"DELETE /hub?id=7 HTTP/1.1\r\nHost: [::1]:8080\r\n\r\n")
        s.written(3, b"GET /hub?id=k HTTP/1.1\r\nHost: 10.0.0.7\r\nUpgrade: websocket\r\nConnection: Upgrade\r\n"
                     b"Sec-WebSocket-Key: dGhlIHNhbXBsZSBub25jZQ==\r\nSec-WebSocket-Version: 13\r\n\r\n")
        s.flush()
        s.next("at 5 quiet")

    s.note("an ask of 65,536 bytes is written at once, and one of a byte less waits")
    served(s, [5], [], [])
    s.ask_long(65535, lane=1)
    s.taken(0, 0)
    s.ask_long(65536, lane=2)
    s.taken(1, 65536)
    s.taken(0, 0)
    s.next("at 5 quiet")
    s.taken(0, 65535)

    s.note("a wire that takes an ask in pieces")
    s.wire(0, [FOUND.data], [3, 0, 5, 0, 0, 100], [FOUND])
    s.start([5])
    text = s.ask(lane=1)
    s.flush()
    s.written(0, text[:3])
    s.next("at 5 response 1 200 7b7d")
    s.written(0, text[:8])
    s.next("at 5 quiet")
    s.written(0, text)


def goes_nowhere(s):
    s.note("an ask that goes nowhere is heard as lost, before all else, and such a call doesn't wait")
    served(s, [1, 2, 3, 4], [FOUND])
    s.ask(0, lane=1)
    s.ask(7, lane=2)
    s.dialed("hub.example 5000")
    s.ask(0, lane=3)
    s.next("at 1 lost 2")
    s.waited(0)
    s.next("at 2 lost 3")
    s.waited(0)
    s.shut(3)
    s.next("at 3 response 1 200 7b7d")
    s.waited(0)
    s.next("at 4 quiet")
    s.waited(100)
    s.shuts(0)
    s.send(2, b"a", True, "sent")
    s.shut(2)
    s.next("at 4 quiet")

    s.note("one whose connection fails takes no wire, and numbers go on")
    served(s, [1], [FOUND], failing=[0])
    s.ask(lane=1)
    text = s.ask(lane=2)
    s.next("at 1 lost 1")
    s.written(0, text)
    s.next("at 1 response 2 200 7b7d")

    s.note("a text of 1,048,576 bytes is asked, and one of a byte more isn't")
    served(s, [1], [FOUND], [FOUND])
    s.ask_long(1048577, lane=1)
    s.dialed("-")
    s.ask_long(1048576, lane=2)
    s.dialed("hub.example 5000")
    s.taken(0, 1048576)
    s.next("at 1 lost 1")
    s.next("at 1 response 2 200 7b7d")

    s.note("a dialer of no wires hears all losses, one in each call, also where a poll fails between")
    s.start([1, 2, 3], [3])
    for lane in (1, 2, 3):
        s.ask(lane=lane)
    s.next("failed")
    s.waited(0)
    for lane in (1, 2, 3):
        s.next(f"at {lane} lost {lane}")
    s.next("at 3 quiet")
    s.waited(100)


def responses(s):
    s.note("what responses say: no length is an empty body, and what follows isn't heard")
    others = [FOUND, response(200), response(204), response(404, b""), response(503, b"a" * 5000), response(200, b"a" * 20000)]
    served(s, [1], *[[it] for it in others], [response(200).data + b"hello"], [talk(FOUND, response(404))])
    s.door.wires[6].items, s.door.wires[7].items = [response(200)], [FOUND, response(404)]
    for lane in range(1, 9):
        s.ask(lane=lane)
    s.next("at 1 response 1 200 7b7d")
    s.next("at 1 response 2 200 -")
    s.next("at 1 response 3 204 -")
    s.next("at 1 response 4 404 -")
    for _ in range(12):
        s.next()
        s.waited()
    s.next("at 1 quiet")
    s.waited(100)

    s.note("a response is heard once whole, cut at any byte; and byte by byte")
    cuts = [[FOUND.data[:cut], FOUND.data[cut:]] for cut in range(1, len(FOUND.data))] + [[bytes([byte]) for byte in FOUND.data]]
    for reads in cuts:
        s.wire(0, reads, FREE, [FOUND])
    s.start([1])
    for lane in range(1, len(cuts) + 1):
        s.ask(lane=lane)
    s.next("at 1 quiet")
    for lane in range(1, len(cuts)):
        s.next(f"at 1 response {lane} 200 7b7d")
    for _ in range(len(FOUND.data)):
        s.next()

    s.note("two asks at once, of which the second is answered first")
    served(s, [1], ["*", FOUND], [response(404, b"no")])
    first, second = s.ask(0, "GET", "/1", lane=1), s.ask(0, "GET", "/2", lane=2)
    s.next("at 1 response 2 404 6e6f")
    s.next("at 1 response 1 200 7b7d")
    s.written(0, first)
    s.written(1, second)

    s.note("after its response a lane hears nothing but its end, and is never overdue")
    served(s, [1, 1, 100000, 100001], [FOUND, "*", response(404), "!"])
    s.ask(lane=1)
    s.next("at 1 response 1 200 7b7d")
    s.next("at 1 quiet")
    s.next("at 100000 quiet")
    s.shuts(0)
    s.next("at 100001 lost 1")
    s.shuts(1)
    s.next("at 100001 quiet")


def no_responses(s):
    s.note("bytes that are no response: the lane is lost at the first byte that no head can have")
    for data, ready in NO_HEADS:
        served(s, [1], [data[:ready - 1] or "*", data[ready - 1:]])
        s.door.wires[0].items = [broken(data, ready)]
        s.ask(lane=1)
        s.next("at 1 quiet")
        s.shuts(0)
        s.next("at 1 lost 1")
        s.shuts(1)
        s.next("at 1 quiet")

    s.note("a head whose length is none, or too great, or whose body has a transfer coding")
    heads = [b"HTTP/1.1 200 OK\r\n" + line + b"\r\n\r\n" for line in BAD_LENGTHS]
    served(s, [1], *[[broken(head)] for head in heads])
    for lane in range(1, len(heads) + 1):
        s.ask(lane=lane)
    for lane in range(1, len(heads) + 1):
        s.next(f"at 1 lost {lane}")
    s.next("at 1 quiet")

    s.note("a head of 16,384 bytes whose end hasn't come, and one of 101 headers; one of a byte less and of a hundred headers is taken")
    line = b"HTTP/1.1 200 OK\r\nX: "
    long = line + b"a" * (HEAD - len(line) - 4) + b"\r\n\r\n"
    many = response(200, headers=["A: b"] * 100)
    too_many = response(200, headers=["A: b"] * 101)
    served(s, [1], [broken(line + b"a" * (HEAD - len(line)), HEAD)], [Item(long, Response(200), head=len(long))], [many], [broken(too_many.data)])
    for lane in range(1, 5):
        s.ask(lane=lane)
    for _ in range(12):
        s.next()
    s.next("at 1 quiet")

    s.note("a wire that ends in the middle of a head, or of a body, or before a byte came, or whose read fails")
    served(s, [1], [FOUND.data[:20], "!"], [FOUND.data[:-1], "!"], ["!"], ["*"], failing=[14])
    s.door.wires[0].items = s.door.wires[1].items = [FOUND]
    for lane in range(1, 5):
        s.ask(lane=lane)
    # Four connects, four writes, a poll, three reads and a shut are the calls 0 to 12. So 14 is the read of the last lane.
    for lane in (3, 4, 1, 2):
        s.next(f"at 1 lost {lane}")
    s.next("at 1 quiet")
    s.shuts(4)

    s.note("no response in 30,000 ms, since what was heard last before the ask")
    served(s, [1000, 1001, 30999, 31000, 31001], [], [FOUND.data[:-1]], ["*", "*", "*", FOUND])
    s.door.wires[1].items = [FOUND]
    s.next("at 1000 quiet")
    s.ask(lane=1)
    s.next("at 1001 quiet")
    s.ask(lane=2)
    s.ask(lane=3)
    s.next("at 30999 quiet")
    s.next("at 31000 lost 1")
    s.shuts(1)
    s.next("at 31001 lost 2")
    s.shuts(2)
    s.next("at 31001 lost 3")
    s.next("at 31001 quiet")

    s.note("before the first call it is since 0")
    served(s, [29999, 30000], [])
    s.ask(lane=1)
    s.next("at 29999 quiet")
    s.next("at 30000 lost 1")


def upgrades(s):
    s.note("an upgrade is heard if what accepts it is right, and else the lane is lost; without one that was asked for it is a response")
    right, body = switching(), Item(switching().data.replace(b"\r\n\r\n", b"\r\nContent-Length: 1\r\n\r\nx"), Response(101, ACCEPT, b"x"))
    other = response(101, accept=accept_of(b"the sample nonse"))
    small = response(101, accept=ACCEPT.lower())
    twice = response(101, headers=[f"sec-websocket-ACCEPT:  {ACCEPT} ", "Sec-WebSocket-Accept: x"])
    twice.heard = Response(101, ACCEPT)
    answers = [right, body, other, small, response(101), twice, response(404, b"no"), response(200, b"ok")]
    served(s, [1], *[[it] for it in answers], [right])
    for lane in range(1, 9):
        s.ask(0, "GET", "/hub", Upgrade(KEY), lane=lane)
    s.ask(lane=9)
    s.next("at 1 upgraded 1")
    for lane in (2, 3, 4, 5):
        s.next(f"at 1 lost {lane}")
    s.shuts(4)
    s.next("at 1 upgraded 6")
    s.next("at 1 response 7 404 6e6f")
    s.next("at 1 response 8 200 6f6b")
    s.next("at 1 response 9 101 -")
    s.next("at 1 quiet")
    s.shuts(4)

    s.note("an upgrade and the message behind it, cut at any byte")
    items = [switching(), said(1, b"hi")]
    whole = talk(*items)
    cuts = [[whole]] + [[whole[:cut], whole[cut:]] for cut in range(1, len(whole))]
    for reads in cuts:
        s.wire(0, reads, FREE, items)
    s.start([1])
    for lane in range(1, len(cuts) + 1):
        s.ask(0, "GET", "/hub", Upgrade(KEY), lane=lane)
    s.next("at 1 upgraded 1")
    for _ in range(2 * len(cuts) + 1):
        s.next()
    s.next("at 1 quiet")


    s.note("what came with the upgrade is heard before the wire is read, and so before its end: each message that is whole, and none that isn't")
    items = [switching(), said(1, b"a"), said(2, b"bc")]
    reads = [talk(*items), talk(*items)[:-1], talk(*items[:1])]
    for piece in reads:
        s.wire(0, [piece, "!"], FREE, items)
    s.start([1])
    for lane in range(1, 4):
        s.ask(0, "GET", "/hub", Upgrade(KEY), lane=lane)
    for lane in range(1, 4):
        s.next(f"at 1 upgraded {lane}")
    s.next("at 1 bytes 1 61")
    s.next("at 1 bytes 2 61")
    s.shuts(0)
    s.next("at 1 lost 3")
    s.next("at 1 bytes 1 6263")
    s.next("at 1 quiet")
    s.next("at 1 lost 2")
    s.next("at 1 lost 1")
    s.next("at 1 quiet")
    s.shuts(3)


def connected(s, moments, *wires, failing=(), names=()):
    """A dialer with a WebSocket on each wire: what its writes take after the ask, and then what its further reads give. The masks of the n-th are
    those of the seed of n. Until nothing more is heard it is at the first moment. Answers what was written on each wire."""
    if names:
        s.name([None] * (len(wires) + 1) + list(names))
    size = len(ask_text(("hub.example", 5000), "GET", "/hub", Upgrade(KEY)))
    for writes, *reads in wires:
        items = [switching(), *(read for read in reads if isinstance(read, Item))]
        s.wire(0, [items[0].data, "*", *(read.data if isinstance(read, Item) else read for read in reads)], [size, *writes], items)
    s.start(moments[:1] * len(wires) + moments, failing)
    texts = [s.ask(0, "GET", "/hub", Upgrade(KEY, bytes([place]) * 16), lane=place + 1) for place in range(len(wires))]
    for place in range(len(wires)):
        s.next(f"at {moments[0]} upgraded {place + 1}")
    s.next(f"at {moments[0]} quiet")
    for place, text in enumerate(texts):
        s.written(place, text)
    return texts


def sockets(s):
    s.note("messages both ways, each frame that is sent with the mask of its number; a pong and a close count")
    seed = bytes(16)
    [text] = connected(s, [1], [FREE, said(1, b"a"), pinged(b"p"), said(2, b"\xff"), "*", closes(1001)])
    s.send(1, b"hello", True, "sent")
    s.send(1, b"", False, "sent")
    s.written(0, text)
    frames = masked(0, 1, b"hello", seed) + masked(1, 2, b"", seed)
    s.next("at 1 bytes 1 61")
    s.next("at 1 quiet")
    s.written(0, text + frames)
    s.next("at 1 quiet")
    frames += masked(2, 10, b"p", seed)
    s.written(0, text + frames)
    s.next("at 1 bytes 1 ff")
    s.send(1, b"x" * 200, False, "sent")
    s.flush()
    frames += masked(3, 2, b"x" * 200, seed)
    s.written(0, text + frames)
    s.next("at 1 quiet")
    s.next("at 1 quiet")
    s.next("at 1 lost 1")
    s.written(0, text + frames + masked(4, 8, b"\x03\xe9", seed))
    s.shuts(1)
    s.next("at 1 quiet")

    s.note("a lane that is shut says so with a mask, and is heard no more; others go on, each with its own masks")
    first, second = connected(s, [1], [FREE, "*", said(1, b"late")], [FREE, "*", said(1, b"b")])
    s.send(1, b"a", True, "sent")
    s.shut(1)
    s.written(0, first + masked(0, 1, b"a", bytes(16)) + masked(1, 8, b"\x03\xe8", bytes(16)))
    s.shuts(1)
    s.send(1, b"a", True, "sent")
    s.send(2, b"a", True, "sent")
    s.next("at 1 quiet")
    s.next("at 1 bytes 2 62")
    s.written(1, second + masked(0, 1, b"a", b"\x01" * 16))
    s.written(0, first + masked(0, 1, b"a", bytes(16)) + masked(1, 8, b"\x03\xe8", bytes(16)))

    s.note("frames that a server may not say, and a text that is none")
    faults = [(frame(1, b"a"), 1002), (frame(1, b"\xff", None), 1007), (frame(3, b"", None), 1002), (frame(9, b"", None, fin=False), 1002),
              (b"\x82\x7f" + (1048577).to_bytes(8, "big"), 1009)]
    texts = connected(s, [1], *[[FREE, breaks(data, status)] for data, status in faults])
    for place, (_, status) in enumerate(faults):
        s.next(f"at 1 lost {place + 1}")
        s.written(place, texts[place] + masked(0, 8, status.to_bytes(2, "big"), bytes([place]) * 16))
    s.shuts(5)

    s.note("a text to send that is none ends the lane, and nothing more is sent there")
    [text] = connected(s, [1], [FREE])
    s.send(1, b"\xff", True, "sent")
    s.send(1, b"a", True, "sent")
    s.next("at 1 lost 1")
    s.written(0, text + masked(0, 8, b"\x03\xe8", bytes(16)))

    s.note("a wire that ends, and one whose write fails")
    connected(s, [1], [FREE, "!"], [FREE], failing=[12])
    s.next()
    s.send(2, b"a", True, "sent")
    s.next()
    s.next()
    s.shuts()


def waits(s):
    s.note("a message before the upgrade is none, and one after it stands behind the ask that the wire didn't take yet")
    s.wire(0, [switching().data], [5, 0, 0, 1000, 1000], [switching()])
    s.start([1])
    text = s.ask(0, "GET", "/hub", Upgrade(KEY), lane=1)
    s.send(1, b"early", True, "sent")
    s.next("at 1 upgraded 1")
    s.written(0, text[:5])
    s.send(1, b"a", True, "sent")
    s.next("at 1 quiet")
    s.written(0, text + masked(0, 1, b"a"))

    s.note("a lane that is shut before its response: its wire is shut once its ask is written, or after 30,000 ms, and nothing is heard")
    for last in (29999, 30000):
        s.wire(0, ["*", FOUND.data], [3, 0, 4, 0, 2, 0, 0] + FREE, [FOUND])
        s.wire(0, [FOUND.data], FREE, [FOUND])
        s.start([1000, 1000, 1000 + last])
        text, other = s.ask(lane=1), s.ask(0, "GET", "/other", lane=2)
        s.shut(2)
        s.written(1, other)
        s.shuts(1)
        s.next("at 1000 quiet")
        s.written(0, text[:7])
        s.shut(1)
        s.written(0, text[:9])
        s.next("at 1000 quiet")
        s.shuts(1)
        s.next(f"at {1000 + last} quiet")
        s.written(0, text if last == 29999 else text[:9])
        s.shuts(2)


def becomes_full(s):
    s.note("a lane of a client is full once 262,145 bytes wait, masks and all, and has drained once 65,536 do")
    # A message of no bytes has a frame of six. Each call of `next` flushes until the wire takes nothing, and so does the turn of the lane.
    [text, _] = connected(s, [1], [[0, 0, 196613, 0, 0, 1, 0, 1 << 20]], [[0] * 9])
    s.fill(1, (1 << 18) - LONG_FRAME, "sent")
    s.fill(2, (1 << 18) - LONG_FRAME + 1, "sent, full")
    s.send(1, b"", False, "sent, full")
    s.next("at 1 quiet")
    s.taken(0, len(text) + 196613)
    s.send(9, b"", False, "sent")
    s.next("at 1 drained 1")
    s.taken(0, len(text) + (1 << 18) + 6)
    s.send(1, b"", False, "sent")
    s.next("at 1 quiet")
    s.taken(0, len(text) + (1 << 18) + 6)
    s.taken(1, len(text))


def fails(s):
    s.note("a poll that fails: what waits is written, and what is heard later is as before")
    served(s, [1], [FOUND], failing=[2])
    text = s.ask(lane=1)
    s.next("failed")
    s.written(0, text)
    s.next("at 1 response 1 200 7b7d")

    s.note("a write that fails loses its lane")
    served(s, [1], [FOUND], [FOUND], failing=[2])
    s.ask(lane=1)
    s.ask(lane=2)
    s.next("at 1 lost 1")
    s.shuts(1)
    s.next("at 1 response 2 200 7b7d")

    s.note("no action: what is a door's, a method or a key that is none")
    served(s, [1], [FOUND])
    for line in ("reply 1 204 none - -", "ask 0 PUT /", "ask 0 OTHER /", "ask x GET /", f"ask 0 GET / {KEY.hex()}", f"ask 0 GET / {KEY.hex()} 00",
                 "address h 65536 - -", "dialer 2,1 -"):
        s.say(line, f"no action: {line}")


# ---- at random

def plan(rng):
    """An ask, and what the server of the wire that it gets says."""
    upgrade = Upgrade(rng.randbytes(16), rng.randbytes(16)) if rng.random() < 0.7 else None
    act = rng.random()
    if act < 0.1:
        items = [broken(*rng.choice(NO_HEADS))]
    elif act < 0.2:
        items = [broken(b"HTTP/1.1 200 OK\r\n" + rng.choice(BAD_LENGTHS) + b"\r\n\r\n")]
    elif act < 0.3 or upgrade is None:
        body = rng.choice([None, b"", rng.randbytes(2), rng.randbytes(rng.choice([300, 5000]))])
        items = [response(rng.choice([200, 404, 503]), body, ["A: b"] * rng.randrange(3)), *[FOUND] * rng.randrange(2)]
    elif act < 0.35:
        items = [switching(rng.randbytes(16))]
    else:
        items = [switching(upgrade.key)]
        for _ in range(rng.randrange(6)):
            size = rng.choice([0, 1, 125, 126, 1000, 5000])
            items.append(said(2, rng.randbytes(size)) if rng.random() < 0.7 else pinged(rng.randbytes(rng.randrange(126))))
        if rng.random() < 0.3:
            items.append(closes(rng.choice([1000, 1001])) if rng.random() < 0.7 else breaks(frame(1, b"a"), 1002))
    return upgrade, items


def wires_at_random(s, rng, steps):
    """Wires, and what is asked of each by whoever gets it."""
    plans = [plan(rng) for _ in range(rng.randrange(1, 7))]
    takes = rng.choice([[0, 1, 10, 100, 1 << 20], [1 << 20], [0, 1000, 65536, 196608]])
    for _, items in plans:
        s.wire(0, pieces(rng, talk(*items)), [rng.choice(takes) for _ in range(rng.randrange(2 * steps))], items)
    return [upgrade for upgrade, _ in plans]


def speak_at_random(s, rng, fills):
    for lane in list(s.door.lanes):
        act = rng.random()
        if act < 0.05 and fills:
            s.fill(lane.number, rng.choice([0, 65522, 65523, (1 << 18) - LONG_FRAME, (1 << 18) - LONG_FRAME + 1]))
        elif act < 0.3:
            text = rng.random() < 0.3
            s.send(lane.number, rng.choice([b"hey", b"hey", b"hey", b"\xff"]) if text else rng.randbytes(rng.choice([0, 3, 200])), text)
        elif act > 0.98:
            s.shut(lane.number)
    if rng.random() < 0.1:
        s.flush()


def at_random(s, seed, steps):
    rng = random.Random(f"dialer {seed}")
    s.note(f"a dialer at random, from {seed}")
    upgrades = wires_at_random(s, rng, steps)
    for _ in range(rng.randrange(1, 3)):
        s.address(rng.choice(["a.example", "::1", "10.0.0.7"]), rng.choice([80, 5000]))
    if seed % 2:
        s.name(names_at_random(rng, steps))
    fills = seed % 4 > 1
    moments = sorted(rng.randrange(rng.choice([100, 100000])) for _ in range(steps))
    s.start(moments, [rng.randrange(150) for _ in range(rng.choice([0, 0, 1, 3]))])
    for _ in range(steps):
        if rng.random() < 0.3 and s.door.last < len(upgrades) + 2:
            upgrade = upgrades[s.door.given] if s.door.given < len(upgrades) else None
            s.ask(rng.choice([0, 0, 0, 0, 1, 2]), rng.choice(["GET", "GET", "POST", "DELETE"]), f"/{rng.randrange(99)}", upgrade)
        speak_at_random(s, rng, fills)
        s.next()
        s.waited()
    for wire in range(len(upgrades)):
        (s.taken if fills else s.written)(wire)
    s.shuts()


def sessions(seeds, steps):
    """Random sessions."""
    s = DialerScript()
    for seed in seeds:
        at_random(s, seed, steps)
    return s


def script(seeds, steps):
    s = DialerScript()
    for part in (asks, goes_nowhere, responses, no_responses, upgrades, sockets, waits, becomes_full, fails):
        part(s)
    for seed in seeds:
        at_random(s, seed, steps)
    return s
