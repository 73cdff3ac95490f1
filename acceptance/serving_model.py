"""A plain model of one connection to `sr serve`: what has to come for any bytes that a client says on it, all at once.

The bytes are requests as http_model.py reads them, and front_model.py says where each leads; after a 101 they are frames of a WebSocket (RFC 6455),
whose payloads are frames of a hub, which frames_model.py reads. What the hub does with those is that of peers_model.py. No code is shared with the
program. What nothing here decides is told as undecided."""
import http_model
import front_model
import frames_model
import peers_model
import replay_model
from frames_model import MOST, RECORD, Refused

# The token of a request that has one is put in this place.
PLACE = b"PLACE-OF-A-TOKEN-PLACE-OF-A-TOKN"
MOST_MESSAGE = 1_048_576
MOST_ROUNDS = 200
MOST_POLLED = 32_763
CONTINUATION, TEXT, BINARY, CLOSE, PING, PONG = 0, 1, 2, 8, 9, 10
BREACH, NOT_TEXT, TOO_LONG, NORMAL = 1002, 1007, 1009, 1000
LIMITS = 1_024, 100_000, MOST
LEAST = {126: 126, 127: 65_536}  # the least size that is to be spelled so
RESERVED = 3, 4, 5, 6, 7, 11, 12, 13, 14, 15
METHODS = {b"GET": "get", b"POST": "post", b"DELETE": "delete"}


class Undecided(Exception):
    """Nothing here says what comes from now on."""


# ---- frames of a WebSocket


class Socket:
    """What a server, or a client, hears of the bytes on a WebSocket: `found` has ("payload", bytes), ("pong", bytes), and at last ("gone", statuses), any of which
    its close frame may have, or ("answered", payload). `early` has statuses with which it may be gone though the last frame isn't whole."""

    def __init__(self, data, is_client=False):
        self.data, self.at, self.found, self.early, self.is_client = data, 0, [], set(), is_client
        self.message, self.opcode = None, None
        while self.next():
            pass

    def next(self):
        """Whether more may be found."""
        head = self.data[self.at : self.at + 2]
        if len(head) < 2:
            self.early = {BREACH} if head and (head[0] & 112 or head[0] & 15 in RESERVED) else set()
            return False
        final, opcode, masked, short = head[0] & 128, head[0] & 15, head[1] & 128, head[1] & 127
        longer = {126: 2, 127: 8}.get(short, 0)
        begin = self.at + 2 + longer + (4 if masked else 0)
        spelled = self.data[self.at + 2 : self.at + 2 + longer]
        least, size = (int.from_bytes(spelled.ljust(longer, end), "big") if longer else short for end in (b"\0", b"\xff"))
        faults = self.faults(head, final, opcode, masked, short, least, size)
        if len(self.data) < begin or len(self.data) < begin + size and TOO_LONG not in faults:
            self.early = faults
            return False
        if faults:
            return self.gone(*faults)
        mask = bytes(4) if self.is_client else self.data[begin - 4 : begin]
        payload = bytes(byte ^ mask[at % 4] for at, byte in enumerate(self.data[begin : begin + size]))
        self.at = begin + size
        return self.control(opcode, payload) if opcode >= CLOSE else self.fragment(final, opcode, payload)

    def faults(self, head, final, opcode, masked, short, least, most):
        """What is wrong with the head of a frame, of whose size only the first bytes may be there: it is between these two."""
        is_control = opcode >= CLOSE
        breaches = head[0] & 112, opcode in RESERVED, bool(masked) == self.is_client, is_control and (not final or short > 125)
        breaches = *breaches, most < LEAST.get(short, 0), least >= 1 << 63
        out_of_order = not is_control and (opcode == CONTINUATION) == (self.message is None)
        found = {BREACH} if any(breaches) or out_of_order else set()
        before = len(self.message or b"") if not is_control else 0
        return found | ({TOO_LONG} if before + least > MOST_MESSAGE else set())

    def gone(self, *statuses):
        self.found.append(("gone", {*statuses}))
        return False

    def control(self, opcode, payload):
        if opcode == PING:
            self.found.append(("pong", payload))
        if opcode != CLOSE:
            return True
        status = int.from_bytes(payload[:2], "big")
        wrong = {BREACH} if len(payload) == 1 or payload and not is_status(status) else set()
        wrong |= set() if is_text(payload[2:]) else {NOT_TEXT}
        if wrong or status in (1012, 1013, 1014):
            return self.gone(*wrong, *([status, BREACH] if status in (1012, 1013, 1014) else []))
        self.found.append(("answered", payload))
        return False

    def fragment(self, final, opcode, payload):
        self.opcode = opcode or self.opcode
        self.message = (self.message or b"") + payload
        if self.opcode == TEXT and not is_text(self.message, final):
            return self.gone(NOT_TEXT)
        if final:
            self.found.append(("payload", self.message))
            self.message = None
        return True


def is_status(status):
    """RFC 6455, section 7.4. Those registered since may be known or not."""
    return status in (1000, 1001, 1002, 1003, *range(1007, 1015)) or 3000 <= status < 5000


def is_text(data, whole=True):
    try:
        data.decode()
    except UnicodeDecodeError as wrong:
        return not whole and wrong.reason == "unexpected end of data"
    return True


# ---- a hub


class HubEnd(peers_model.Replay):
    """The server's end of a connection that lives on one link. An eager one goes on until nothing is left to do; of another the jobs have one turn at
    each thing that is heard, and the server's may have had any number between the two."""

    def __init__(self, codec, version, is_eager):
        super().__init__()
        self.options = {"peers": True, "codec": codec, "version": version, "reconnect": False, "buffer": LIMITS}
        self.begin()
        self.end, self.is_eager = self.ends["s"], is_eager
        self.end.steps.append(("attached", 0, 0))
        self.take("s", ("request", codec, version))

    def say(self, side, words):
        pass

    def hears(self, frames):
        for frame in frames:
            if self.end.closed():
                break
            if frame == ("refused",):
                self.end.steps.append(("failed", "frame", frame))
            else:
                self.take("s", frame)
        self.has_rounds(MOST_ROUNDS if self.is_eager else 1)

    def has_rounds(self, most):
        for _ in range(most):
            if not self.may_turn("s") or not any(self.jobs["s"].is_due(job) for job, _ in self.jobs["s"].live_jobs()):
                return
            self.round("s")
        if most == MOST_ROUNDS:
            raise Undecided

    def says(self):
        """The frames that are due, each with the id of its call."""
        said = []
        while (frame := self.end.due()) is not None:
            self.end.steps.append(("lent", frame))
            said.append((replay_model.message_tree(frame).get("invocationId") if frame[0] == "message" else None, replay_model.spell(frame, self.end.codec)))
        return said


def handshake(frame):
    """What a handshake asks for, a codec and a version, or the error with which it is refused."""
    try:
        asked = frames_model.value_of(frame)
    except Refused:
        asked = None
    if not isinstance(asked, dict):
        return "The handshake is not JSON."
    protocol, version = asked.get("protocol"), asked.get("version")
    if not isinstance(protocol, str) or not frames_model.is_whole(version):
        return "The handshake lacks a field."
    if protocol not in ("json", "messagepack"):
        return "The protocol is not known."
    return ({"json": "json", "messagepack": "pack"}[protocol], version) if version in (1, 2, 3) else "The version is not known."


class Hub:
    """A connection of the hub, by a lazy end and an eager one."""

    def __init__(self):
        self.rest, self.codec, self.ends, self.refusal, self.is_closed = b"", None, [], None, False
        self.few, self.many = [], []

    def hears(self, payload):
        if self.is_closed:
            return
        self.rest += payload
        if self.codec or self.is_shaken():
            frames = [*self.frames()]
            for end in self.ends:
                end.hears(frames)
            few, many = (end.end.closed() for end in self.ends)
            if few != many or few and self.reasons():
                raise Undecided
            self.is_closed = few

    def reasons(self):
        """Whether the two are closed for different causes."""
        one, other = ([step for step in end.end.steps if step[0] in ("closed", "failed")] for end in self.ends)
        return one != other

    def is_shaken(self):
        """Takes the handshake, if it is whole and fine."""
        frame, end = frames_model.next_frame("json", self.rest, 0)
        if isinstance(frame, str):
            self.is_closed = True
        if not isinstance(frame, bytes):
            return False
        asked = handshake(frame)
        if isinstance(asked, str):
            self.refusal, self.is_closed = (None, b'{"error":"%s"}' % asked.encode() + RECORD), True
            return False
        self.rest, (self.codec, version) = self.rest[end:], asked
        self.ends = [HubEnd(self.codec, version, is_eager) for is_eager in (False, True)]
        return True

    def frames(self):
        """The whole frames that came, as an end has them."""
        while True:
            frame, end = frames_model.next_frame(self.codec, self.rest, 0)
            if isinstance(frame, bytes):
                self.rest = self.rest[end:]
                try:
                    tree = frames_model.READERS[self.codec](frame)
                except Refused:
                    frame = "refused"
                else:
                    if isinstance(tree, dict):
                        yield frame_of(tree)
                    continue
            if frame is not None:
                yield ("refused",)
            return

    def says(self):
        if self.refusal:
            self.few, self.many, self.refusal = [self.refusal], [self.refusal], None
        for said, end in zip((self.few, self.many), self.ends):
            said += end.says()

    def settles(self, may_end):
        """At last a lazy end goes on too, unless it is closed, or its socket may be gone before."""
        for end in self.ends[1:] if may_end else self.ends:
            if not self.is_closed:
                end.has_rounds(MOST_ROUNDS)
        self.says()


def frame_of(tree):
    """A message as an end of replay_model.py has it."""
    if frames_model.image(tree) != tree:
        raise Undecided  # a model in JSON has no bytes
    kind = tree["type"]
    if kind <= 5:
        return ("message", replay_model.json_text(tree))
    if kind == 6:
        return ("ping",)
    if kind == 7:
        return ("close", tree.get("error"), tree.get("allowReconnect", False))
    return ("ack", tree["sequenceId"]) if kind == 8 else ("sequence", tree["sequenceId"], tree.get("received"))


# ---- requests


class Asks(http_model.Lane):
    """The requests of a connection, as they are, each with its body."""

    def __init__(self):
        super().__init__(http_model.REQUEST, http_model.CUT_REQUEST, lambda head: self.read_head(http_model.request_of(head)))

    def read_head(self, request):
        return request.length, request.accept is not None, request.expects, request

    def handed_out(self, request, body):
        return request, body


class Connection:
    """What has to come for these bytes: `replies`, each the texts of which one has to come, with whether a 100 may stand before it; and if one of them
    is a 101, the `socket`, with the `hub` that hears it. `is_shut`: the server ends the connection then."""

    def __init__(self, data):
        self.replies, self.hub, self.socket, self.is_shut, self.is_undecided, self.early = [], None, None, False, False, set()
        self.life, self.polled = "fresh", None
        try:
            self.hears(data)
        except Undecided:
            self.is_undecided = True

    def hears(self, data):
        lane, at = Asks(), 0
        while not self.is_shut:
            fed = lane.feed(data[at:])
            at, found = at + fed, lane.next()
            if isinstance(found, str):
                return self.refused(found.split(" ", 2), lane.held)
            if found is None and fed:
                continue
            if found is None:
                return self.waits(lane)
            request, body = found
            if not self.answers(request, body):
                return None
            if self.socket is not None:
                return self.opens(lane.held + data[at:])
            lane.ended = False  # a lane whose upgrade is refused speaks HTTP on
        return None

    def waits(self, lane):
        """A body that isn't whole is asked for, if its head was read. A head that isn't may be known to be none."""
        if lane.take_continue():
            self.says({http_model.CONTINUE})
        head = lane.held if lane.want == 0 else b""
        if not is_text(head) or head.count(b"\n") > http_model.MOST_HEADERS:
            self.early = {400, 431}

    def refused(self, words, held):
        """Where no head can come of it, it may be too long too."""
        statuses = {int(words[1])}
        if statuses & {400, 431} and (len(held) >= http_model.MOST_HEAD or held.count(b"\n") > http_model.MOST_HEADERS):
            statuses |= {400, 431}
        field = "version" if len(words) > 2 else "-"
        self.says({http_model.reply_of(status, "none", field, "close", b"") for status in statuses})
        self.is_shut = True

    def says(self, texts, may_continue=False):
        self.replies.append((texts, may_continue))

    def answers(self, request, body):
        """Answers a request, unless that is a poll that is held."""
        path, query = request.path.decode(), request.query.decode()
        route, _, token = front_model.route_of(METHODS.get(request.method, "other"), path, query, request.accept is not None).partition(" ")
        if route.startswith("negotiate"):
            return self.makes(request, route == "negotiate,")
        if route == "open":
            return self.replied(request, 401, field="bearer") if request.bearer is not None else self.upgraded(request)
        if route == "refuse":
            field = {"405": "allow-post" if path.endswith("/negotiate") else "allow-all"}.get(token, "-")
            return self.replied(request, int(token), field=field)
        life = self.life if token.encode() == PLACE else "unknown"
        return getattr(self, f"{route}_{life}")(request, body)

    def replied(self, request, status, kind="none", field="-", body=b""):
        close = "close" if request.shut or status == 400 else "-"
        self.says({http_model.reply_of(status, kind, field, close, body)}, request.expects)
        self.is_shut = close == "close"
        return True

    def makes(self, request, is_resumed):
        """A token isn't known beforehand: the text has PLACE for it, and a 0 for its number."""
        if request.bearer is not None:
            return self.replied(request, 401, field="bearer")
        body = {"availableTransports": front_model.TRANSPORTS, "connectionId": "0", "connectionToken": PLACE.decode(), "negotiateVersion": 1}
        text = replay_model.json_text(body | ({"useStatefulReconnect": True} if is_resumed else {})).encode()
        return self.replied(request, 200, "json", body=text)

    def upgraded(self, request, *_):
        self.says({http_model.reply_of(101, "none", "-", "-", request.accept)}, request.expects)
        self.socket, self.hub = b"", Hub()
        return True

    def not_found(self, request, *_): return self.replied(request, 404)
    def conflicts(self, request, *_): return self.replied(request, 409)

    socket_unknown = socket_ending = poll_unknown = post_unknown = post_ending = delete_unknown = not_found
    socket_polling = post_fresh = conflicts
    socket_fresh = upgraded

    def poll_fresh(self, request, _):
        self.life, self.hub = "polling", Hub()
        return self.replied(request, 200, "octets")

    def poll_polling(self, request, _):
        self.hub.hears(b"")
        said = self.due()
        return self.replied(request, 200, "octets", body=said) if said else False

    def poll_ending(self, request, _):
        said = self.due()
        self.life = "ending" if said else "unknown"
        return self.replied(request, 200 if said else 204, "octets", body=said)

    def due(self):
        """What is due, where that is no matter of turns."""
        self.hub.few, self.hub.many = [], []
        self.hub.says()
        said = b"".join(text for _, text in self.hub.many)
        if self.hub.few != self.hub.many or len(said) > MOST_POLLED:
            raise Undecided
        return said

    def post_polling(self, request, body):
        self.hub.hears(body)
        self.life = "ending" if self.hub.is_closed else "polling"
        return self.replied(request, 200)

    def delete_fresh(self, request, _):
        self.life = "unknown"
        return self.replied(request, 202)

    delete_polling = delete_ending = delete_fresh

    def opens(self, data):
        """What is heard on the WebSocket. Once the hub is closed nothing more is."""
        self.socket = Socket(data)
        self.pongs, self.close, heard = [], None, 0
        for kind, told in self.socket.found:
            if kind == "payload":
                self.hub.hears(told)
                self.hub.says()
            if kind == "pong":
                self.pongs.append(told)
            if kind in ("gone", "answered"):
                self.close = told
            if self.hub.is_closed or self.close is not None:
                break
        if self.hub.is_closed and self.close is None:
            self.close = {NORMAL}
        if self.close is None:
            self.early = self.socket.early
            self.hub.settles(may_end=bool(self.early))
        self.is_shut = self.close is not None
