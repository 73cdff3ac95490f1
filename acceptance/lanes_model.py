"""A plain model of lanes over wires in memory, as a door has them, and what those of a dialer have in common with them. It is no program:
net_model.py and dialer_model.py make scripts by it.

A conversation of the other side is a list of items whose bytes and meaning are known beforehand: requests or a response, what is refused, and the
frames of a WebSocket (RFC 9110, 9112 and 6455). So the model parses nothing; it counts bytes. It shares no code with the program
`crates/ht_net`, whose main.rt has the words of a script."""
import base64
import collections
import hashlib

PIECE = 4096
HEAD = 16384
UNWRITTEN = 1 << 20
NAMED = 64
WAIT = 30000
CLOSING = 30000
FULL = 1 << 18
DRAINED = 1 << 16
STALLED = 30000
# What is sent waits to be written while less than so many bytes do, and through at most so many calls of `next`.
GATHERED_BYTES = 1 << 16
GATHERED = 31
# How long each call of `next` may wait.
PATIENCE = 100
PHRASES = {101: "Switching Protocols", 200: "OK", 202: "Accepted", 204: "No Content", 400: "Bad Request", 401: "Unauthorized", 404: "Not Found",
           405: "Method Not Allowed", 409: "Conflict", 411: "Length Required", 413: "Payload Too Large", 431: "Request Header Fields Too Large",
           500: "Internal Server Error", 503: "Service Unavailable"}
KINDS = {"none": "", "json": "Content-Type: application/json\r\n", "octets": "Content-Type: application/octet-stream\r\n"}
CONTINUE = b"HTTP/1.1 100 Continue\r\n\r\n"
KEY = "dGhlIHNhbXBsZSBub25jZQ=="
ACCEPT = base64.b64encode(hashlib.sha1((KEY + "258EAFA5-E914-47DA-95CA-C5AB0DC85B11").encode()).digest()).decode()
assert ACCEPT == "s3pPLMBiTxaQ9kYGzzhZRbK+xOo="


def hexed(data):
    return data.hex() or "-"


def frame(opcode, payload=b"", mask=b"\x37\xfa\x21\x3d", fin=True):
    size = len(payload)
    short = size if size < 126 else 126 if size < 65536 else 127
    longer = b"" if size < 126 else size.to_bytes(2, "big") if size < 65536 else size.to_bytes(8, "big")
    head = bytes([(128 if fin else 0) + opcode, (128 if mask else 0) + short]) + longer
    if mask is None:
        return head + payload
    return head + mask + bytes(b ^ mask[i % 4] for i, b in enumerate(payload))


# How the door refuses what is no request: the field is a line of the reply's head, or None.
Refusal = collections.namedtuple("Refusal", "status field", defaults=[None])


def reply_text(status, kind="none", body=b"", accept=None, field=None, close=False):
    text = f"HTTP/1.1 {status} {PHRASES[status]}\r\n"
    if accept is not None:
        text += f"Upgrade: websocket\r\nConnection: Upgrade\r\nSec-WebSocket-Accept: {accept}\r\n"
    else:
        text += f"{field}\r\n" if field else ""
        text += f"Content-Length: {len(body)}\r\n" + (KINDS[kind] if body else "") if status != 204 else ""
        text += "Connection: close\r\n" if close else ""
    return text.encode() + b"\r\n" + body


class Item:
    """A part of what the other side says: its bytes, what is heard once `ready` of them came, and how long its head is, if it has one. A frame
    may have a `reply`, an opcode and a payload, and a WebSocket is gone after one that is `answered` so, or that breaks the rules: then `gone`
    is the status of the close frame."""

    def __init__(self, data, heard, ready=None, head=None, upgrade=False, reply=None, gone=None, expects=False):
        self.data, self.heard, self.ready = data, heard, len(data) if ready is None else ready
        self.head, self.upgrade, self.reply, self.gone, self.expects = head, upgrade, reply, gone, expects


def request(method, path, query="", body=b"", close=False, headers=(), expects=False):
    target = path + (f"?{query}" if query else "")
    head = f"{method} {target} HTTP/1.1\r\nHost: x\r\n" + "".join(f"{h}\r\n" for h in headers)
    head += "Connection: close\r\n" if close else ""
    head += "Expect: 100-continue\r\n" if expects else ""
    head += f"Content-Length: {len(body)}\r\n" if body else ""
    data = head.encode() + b"\r\n"
    shut = "shut" if close else "kept"
    return Item(data + body, f"{method} {path} ?{query} - - {shut} {hexed(body)}", head=len(data), expects=expects)


def upgrade(path):
    data = (f"GET {path} HTTP/1.1\r\nHost: x\r\nUpgrade: websocket\r\nConnection: Upgrade\r\nSec-WebSocket-Key: {KEY}\r\n"
            "Sec-WebSocket-Version: 13\r\n\r\n").encode()
    return Item(data, f"GET {path} ? - {ACCEPT} kept -", head=len(data), upgrade=True)


def refused(status):
    line = "POST /r HTTP/1.1\r\nHost: x\r\n"
    data = {400: line + "Content-Length: 1\r\nContent-Length: 2\r\n\r\n", 411: line + "Transfer-Encoding: chunked\r\n\r\n",
            413: line + "Content-Length: 1048577\r\n\r\n", 431: line + "X: " + "a" * (HEAD - len(line) - 2)}[status].encode()
    return Item(data, Refusal(status), ready=min(len(data), HEAD))


def bad_upgrade(version):
    """It asks for a WebSocket of another version, so it is told which one is known."""
    data = (f"GET /hub HTTP/1.1\r\nHost: x\r\nUpgrade: websocket\r\nConnection: Upgrade\r\nSec-WebSocket-Key: {KEY}\r\n"
            f"Sec-WebSocket-Version: {version}\r\n\r\n").encode()
    return Item(data, Refusal(400, "Sec-WebSocket-Version: 13"))


def message(opcode, payload):
    return Item(frame(opcode, payload), payload)


def ping(payload):
    return Item(frame(9, payload), None, reply=(10, payload))


def closing(status):
    payload = status.to_bytes(2, "big")
    return Item(frame(8, payload), None, reply=(8, payload), gone="answered")


class Wire:
    def __init__(self, since, reads, writes, items):
        self.since, self.reads, self.writes, self.items = since, list(reads), list(writes), items
        self.written, self.shut = b"", False


class Full:
    """How long a lane is full: when a turn last found that something was written since the one before it, as the first does, how much was
    written on the wire by then, and whether the last turn found that this is too long ago."""

    def __init__(self):
        self.since, self.written, self.is_late = None, None, False

    def turn(self, written, now):
        if written != self.written:
            self.since, self.written, self.is_late = now, written, False
        else:
            self.is_late = now - self.since >= STALLED


def waits(lane):
    """Something waits to be written on a live lane."""
    return lane.stage == "live" and bool(lane.out)


class Lane:
    def __init__(self, number, place, wire, now):
        self.number, self.place, self.wire, self.since = number, place, wire, now
        self.came = 0            # bytes that were read
        self.at = 0              # the next item
        self.begin = 0           # where it begins
        self.known = 0           # its length, if its head was read
        self.continues = False   # a 100 is to be written
        self.socket = self.busy = False
        self.has_unparsed = self.wants_read = True
        self.filled = True     # the last read filled its room, or there was none
        self.gone = None         # the status of the close frame that a WebSocket which is gone still has to write, or `answered`
        self.out = b""
        self.texts = 0           # how many of its first bytes are texts of HTTP
        self.stage = "live"
        self.closed_at = None    # since when it closes
        self.full = None
        self.has_waited = False  # something waited there after the action before


class Failed(Exception):
    pass


class Door:
    def __init__(self, moments, wires, failing, names=()):
        self.moments, self.wires, self.failing, self.names = list(moments), wires, set(failing), list(names)
        self.calls = self.moment = self.heard_at = self.given = self.first = self.waited = self.shuts = 0
        # What the wires name now, which was heard last or, where nothing was, began a search by its name, and how many in a row began so since nothing was
        # heard.
        self.named, self.last_wire, self.searches_by_name = (), 0, 0
        self.lanes = []
        # Since the last flush: whether there was a `send`, and how many calls of `next`.
        self.has_sent, self.gathered = False, 0
        # Where something began to wait since nothing did: the lane, and how many there were.
        self.began = []

    # ---- the wires

    def call(self):
        self.calls += 1
        if self.calls - 1 in self.failing:
            raise Failed

    def poll(self, wait):
        self.named = self.names.pop(0) if self.names else ()
        self.waited = 0 if any(map(self.is_awake, self.lanes)) else wait
        self.call()
        if self.moments:
            self.moment = self.moments.pop(0)

    def accept(self):
        self.call()
        if self.given < len(self.wires) and self.wires[self.given].since <= self.moment:
            self.lanes.append(Lane(self.given, self.given, self.wires[self.given], self.moment))
            self.given += 1

    def ready_after(self, number):
        """The next that is named after this one, in an order that goes round, or None."""
        return min(self.named, key=lambda name: (name <= number, name), default=None)

    def read(self, lane, room):
        self.call()
        reads = lane.wire.reads
        if not reads:
            return b""
        if reads[0] == "!":
            reads.pop(0)
            raise Failed
        if reads[0] == "*":
            reads.pop(0)
            return b""
        piece, rest = reads[0][:room], reads[0][room:]
        reads[:1] = [rest] if rest else []
        return piece

    def write(self, lane, data):
        self.call()
        count = min(lane.wire.writes.pop(0) if lane.wire.writes else 0, len(data))
        lane.wire.written += data[:count]
        return count

    def shut_wire(self, lane):
        self.calls += 1
        self.shuts += 1
        lane.wire.shut = True

    # ---- one lane

    def is_awake(self, lane):
        """Whether something may be heard at once."""
        if lane.stage != "live":
            return lane.stage == "lost"
        if self.has_drained(lane):
            return True
        if lane.socket:
            return not lane.wants_read or lane.filled
        return (lane.has_unparsed and not lane.busy) or (lane.filled and self.room(lane) > 0)

    def has_drained(self, lane):
        return lane.full is not None and len(lane.out) <= DRAINED

    def room(self, lane):
        """How many bytes of requests are read at once."""
        return min(PIECE, max(HEAD, lane.known) - (lane.came - lane.begin))

    def end(self, lane):
        self.shut_wire(lane)
        lane.out = b""
        lane.stage = "lost" if lane.stage == "live" else "over"

    def close(self, lane, moment):
        lane.stage, lane.closed_at = "closing", moment

    def say(self, lane):
        """Writes what waits, but for a lane that has closed for so long that it is dropped."""
        if lane.stage == "closing" and self.moment - lane.closed_at >= CLOSING:
            self.end(lane)
        else:
            self.write_out(lane)

    def write_out(self, lane):
        """Writes what waits. The texts of HTTP and the frames after them are two pieces, with a write each."""
        if lane.stage not in ("live", "closing"):
            return
        fine = True
        try:
            while lane.out:
                text = lane.out if lane.texts == 0 else lane.out[:lane.texts]
                count = self.write(lane, text)
                lane.out = lane.out[count:]
                lane.texts = max(0, lane.texts - count)
                if count == 0:
                    break
        except Failed:
            fine = False
        if not fine or len(lane.out) > UNWRITTEN or (lane.stage == "closing" and not lane.out):
            self.end(lane)

    def add(self, lane, data):
        lane.out += data
        if not lane.socket:
            lane.texts = len(lane.out)

    def sealed(self, lane, opcode, payload):
        """The next frame that is sent on a lane: that of a server has no mask."""
        return frame(opcode, payload, None)

    def item(self, lane):
        items = lane.wire.items
        return items[lane.at] if lane.at < len(items) else None

    def step(self, lane, item):
        lane.at, lane.begin, lane.known = lane.at + 1, lane.begin + len(item.data), 0

    def look(self, lane):
        """What is heard of the bytes that are held."""
        if lane.busy or not lane.has_unparsed:
            return None
        item = self.item(lane)
        held = lane.came - lane.begin
        if item is None or held < item.ready:
            if item and item.head and held >= item.head and not lane.known:
                lane.known = len(item.data)
                # The head was read just now, and the body isn't there.
                lane.continues = lane.continues or item.expects
            lane.has_unparsed = False
            return None
        if isinstance(item.heard, Refusal):
            return ("refused", item.heard)
        lane.busy = True
        lane.asked = item
        self.step(lane, item)
        return ("request", item.heard)

    def hear_request(self, lane):
        heard = self.look(lane)
        if heard:
            return heard
        room = self.room(lane)
        if room:
            try:
                piece = self.read(lane, room)
            except Failed:
                return ("broken", None)
            lane.came += len(piece)
            lane.filled = len(piece) == room
            lane.has_unparsed = lane.has_unparsed or bool(piece)
        return self.look(lane)

    def open(self, lane):
        """The lane is a WebSocket. What came with its upgrade is heard before its wire is read."""
        lane.socket = lane.filled = True
        lane.wants_read = lane.came == lane.begin

    def hear_message(self, lane):
        if lane.wants_read:
            try:
                piece = self.read(lane, PIECE)
            except Failed:
                return ("broken", None)
            lane.came += len(piece)
            lane.filled = len(piece) == PIECE
        lane.wants_read = False
        if lane.gone:
            return ("gone", None)
        while True:
            item = self.item(lane)
            if item is None or lane.came - lane.begin < item.ready:
                lane.wants_read = True
                return None
            self.step(lane, item)
            if item.reply:
                self.add(lane, self.sealed(lane, *item.reply))
            if item.gone:
                lane.gone = item.gone
                return ("gone", None)
            if item.heard is not None:
                return ("bytes", item.heard)

    def turn(self, lane):
        if lane.stage == "lost":
            lane.stage = "over"
            return f"lost {lane.number}"
        if lane.stage != "live":
            self.say(lane)
            return None
        if self.has_drained(lane):
            lane.full = None
            self.say(lane)
            return f"drained {lane.number}"
        if lane.full and lane.full.is_late and len(lane.wire.written) == lane.full.written:
            self.end(lane)
            lane.stage = "over"
            return f"lost {lane.number}"
        event = self.turn_on(lane)
        if lane.full:
            lane.full.turn(len(lane.wire.written), self.moment)
        return event

    def turn_on(self, lane):
        """The turn of a live lane that hasn't drained, nor is lost for being full for so long."""
        heard, event = (self.hear_message if lane.socket else self.hear_request)(lane), None
        if lane.continues:
            self.add(lane, CONTINUE)
            lane.continues = False
        if heard is None:
            if not lane.socket and not lane.busy and self.moment - lane.since >= WAIT:
                self.end(lane)
        elif heard[0] in ("request", "response"):
            event = f"{heard[0]} {lane.number} {heard[1]}"
        elif heard[0] == "upgraded":
            self.open(lane)
            event = f"upgraded {lane.number}"
        elif heard[0] == "bytes":
            event = f"bytes {lane.number} {hexed(heard[1])}"
        elif heard[0] == "refused":
            status, field = heard[1]
            self.add(lane, reply_text(status, field=field, close=True))
            self.close(lane, self.moment)
            event = f"refused {lane.number} {status}" + (f" [{field}]" if field else "")
        elif heard[0] == "broken":
            self.end(lane)
        else:
            if lane.gone != "answered":
                self.add(lane, self.sealed(lane, 8, lane.gone.to_bytes(2, "big")))
            self.close(lane, self.moment)
            event = f"lost {lane.number}"
        if lane.stage == "lost" and heard is not None and event is None:
            lane.stage = "over"
            return f"lost {lane.number}"
        self.say(lane)
        if event is None and lane.stage == "lost":
            lane.stage, event = "over", f"lost {lane.number}"
        return event

    # ---- the door

    def note_waiting(self):
        """After each action on a lane: it is noted where something began to wait."""
        for lane in self.lanes:
            if waits(lane) and not lane.has_waited:
                self.began.append((lane, len(self.lanes)))
            lane.has_waited = waits(lane)

    def flush(self):
        """Each live lane writes what waits, in the order in which that began, once for each time that it did; or if it did more often than
        there were lanes, in the order of all. Noted are then those on which something still waits."""
        self.has_sent, self.gathered = False, 0
        if not any(map(waits, self.lanes)):
            return
        is_short = all(place < lanes for place, (_, lanes) in enumerate(self.began))
        for lane in [lane for lane, _ in self.began] if is_short else self.lanes:
            if waits(lane):
                self.write_out(lane)
        left = [(lane, len(self.lanes)) for lane in self.lanes if waits(lane)]
        self.began = [noted for noted in self.began if waits(noted[0])] if is_short else left
        self.note_waiting()

    def may_gather(self):
        """Whether what was sent may wait for longer: the wires name another one than was heard last."""
        return (self.has_sent and any(map(waits, self.lanes)) and self.gathered < GATHERED
                and self.ready_after(self.last_wire) not in (None, self.last_wire))

    def next(self):
        wait = self.patience()
        if self.may_gather():
            self.gathered, wait = self.gathered + 1, 0
        else:
            self.flush()
        self.lanes = [lane for lane in self.lanes if lane.stage != "over"]
        try:
            self.poll(wait)
            self.accept()
        except Failed:
            self.flush()
            return "failed"
        event = self.hear()
        self.heard_at = self.moment
        return f"at {self.moment} {event or 'quiet'}"

    def patience(self):
        return PATIENCE

    def hear(self):
        event, name = None, self.ready_after(self.last_wire)
        by_name = name is not None and self.searches_by_name < NAMED
        if by_name:
            self.last_wire, self.searches_by_name = name, self.searches_by_name + 1
        else:
            self.searches_by_name = 0
        begin = name if by_name else self.first
        for lane in sorted(self.lanes, key=lambda lane: (lane.place < begin, lane.place)):
            if event is None:
                event = self.turn(lane)
                self.note_waiting()
                if event:
                    self.last_wire = lane.place
                    self.first = self.first if by_name else lane.place + 1
            elif lane.stage == "closing":
                self.say(lane)
        if event is None:
            self.searches_by_name = 0
        return event

    def find(self, number):
        return next((lane for lane in self.lanes if lane.number == number and lane.stage == "live"), None)

    def more(self, lane):
        if len(lane.out) > UNWRITTEN:
            self.end(lane)
        else:
            self.write_out(lane)

    def reply(self, number, status, kind, body, accept):
        lane = self.find(number)
        if not lane or lane.socket or not lane.busy:
            return
        self.add(lane, reply_text(status, kind, body, accept))
        if status == 101:
            self.open(lane)
        else:
            lane.busy, lane.since = False, self.heard_at
        self.more(lane)
        self.note_waiting()

    def send(self, number, data, text):
        """Answers whether the lane is full then."""
        self.has_sent = self.has_sent or any(lane.number == number for lane in self.lanes)
        lane = self.find(number)
        if lane and lane.socket and not lane.gone:
            if text and not is_text(data):
                lane.gone = 1000
            else:
                self.send_frame(lane, self.sealed(lane, 1 if text else 2, data))
        return bool(lane and lane.stage == "live" and lane.full)

    def send_frame(self, lane, data):
        self.add(lane, data)
        if len(lane.out) >= GATHERED_BYTES:
            self.more(lane)
        self.note_waiting()
        if lane.full is None and len(lane.out) > FULL:
            lane.full = Full()
        elif self.has_drained(lane):
            lane.full = None

    def shut(self, number):
        lane = self.find(number)
        if not lane:
            return
        if lane.socket and lane.gone != "answered":
            self.add(lane, self.sealed(lane, 8, (lane.gone or 1000).to_bytes(2, "big")))
        self.close(lane, self.heard_at)
        self.write_out(lane)
        self.note_waiting()


def is_text(data):
    try:
        data.decode()
    except UnicodeDecodeError:
        return False
    return True


class Script:
    """Lines and what each is answered: by the model, or by what is written down by hand. The door is the side that they speak to."""

    def __init__(self):
        self.lines, self.answers, self.wires, self.names, self.door = [], [], [], [], None

    def say(self, line, answer):
        self.lines.append(line)
        self.answers.append(answer)

    def note(self, text):
        self.say(f"note {text}", f"note {text}")

    def wire(self, since, reads, writes, items=()):
        words = ",".join(r if isinstance(r, str) else hexed(r) for r in reads) or "-"
        self.wires.append(Wire(since, reads, writes, list(items)))
        self.say(f"wire {since} {words} {','.join(map(str, writes)) or '-'}", "to be given")

    def name(self, names):
        """What is named after each poll: a number, some that rise, or None."""
        self.names = [() if name is None else (name,) if isinstance(name, int) else name for name in names]
        self.say(f"names {','.join('+'.join(map(str, named)) or '*' for named in self.names)}", "to be named")

    def start(self, moments, failing=()):
        self.door, self.wires, self.names = Door(moments, self.wires, failing, self.names), [], []
        words = ",".join(map(str, moments)) or "-", ",".join(map(str, sorted(failing))) or "-"
        self.say(f"door {words[0]} {words[1]}", "a door")

    def next(self, answer=None):
        said = self.door.next()
        assert answer is None or said == answer, (len(self.lines), said, answer)
        self.say(f"next {PATIENCE}", said)
        return said

    def reply(self, lane, status, kind="none", body=b"", accept=None):
        self.door.reply(lane, status, kind, body, accept)
        self.say(f"reply {lane} {status} {kind} {hexed(body)} {accept or '-'}", "replied")

    def send(self, lane, data, text, answer=None):
        self.sent(f"send {lane} {'text' if text else 'octets'} {hexed(data)}", self.door.send(lane, data, text), answer)

    def fill(self, lane, count, answer=None):
        self.sent(f"fill {lane} {count}", self.door.send(lane, bytes(count), False), answer)

    def sent(self, line, is_full, answer):
        said = "sent, full" if is_full else "sent"
        assert answer is None or said == answer, (len(self.lines), said, answer)
        self.say(line, said)

    def shut(self, lane):
        self.door.shut(lane)
        self.say(f"shut {lane}", "shut")

    def flush(self):
        self.door.flush()
        self.say("flush", "flushed")

    def written(self, wire, answer=None):
        data = self.door.wires[wire].written if wire < self.door.given else b""
        assert answer is None or data == answer, (len(self.lines), data, answer)
        self.say(f"written {wire}", f"written {hexed(data)}")

    def taken(self, wire, answer=None):
        count = len(self.door.wires[wire].written) if wire < self.door.given else 0
        assert answer is None or count == answer, (len(self.lines), count, answer)
        self.say(f"taken {wire}", f"taken {count}")

    def waited(self, answer=None):
        wait = self.door.waited
        assert answer is None or wait == answer, (len(self.lines), wait, answer)
        self.say("waited", f"waited {wait}")

    def shuts(self, answer=None):
        count = self.door.shuts
        assert answer is None or count == answer, (len(self.lines), count, answer)
        self.say("shuts", f"shuts {count}")

FREE = [1 << 20] * 50


def talk(*items):
    return b"".join(item.data for item in items)

def pieces(rng, data):
    reads = []
    while data:
        count = rng.choice([1, 7, 40, 500, 4096, 9000, len(data)])
        reads.append(data[:count])
        data = data[count:]
        reads += ["*"] * (rng.random() < 0.3)
    return reads + ["!"] * (rng.random() < 0.4)


def names_at_random(rng, steps):
    return [rng.choice([None, 0, 1, 2, 3, 9, (0, 9), (1, 9), (2, 9), (0, 1, 2, 3)]) for _ in range(steps)]

