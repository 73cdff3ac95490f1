"""A model of `sr client`: of what it prints and says, if this is what comes to it.

What comes are sockets that come up, messages on them, and their losses. After each of these the client does in this order: it takes the whole
frames that came; each of its jobs has a turn; each line of its script that can be done is done; after the last, once no call is live, it
closes; and all that is due is said, in one message. Its end, its calls and its jobs are those of replay_model.py and peers_model.py, which
share no code with the program, and its lines are those of docs/protocol.md, "Calling a server"."""
import json
import pathlib
import sys

sys.path.insert(0, str(pathlib.Path(__file__).resolve().parent.parent))
import peers_model  # noqa: E402
import replay_model  # noqa: E402
from replay_model import json_text, number_of  # noqa: E402

MOST_FRAME = 32_768  # bytes
ROOM = 1_024, 100_000  # messages, and their bytes
PRINTED = {"shaken", "call", "refused", "item", "ended", "got", "lost", "again", "closed"}
RECORD = b"\x1e"


# ---- MessagePack, by its specification: what a server writes, which is the shortest of each


def value_at(data, at):
    """The value that begins at a place, and the place after it."""
    mark, at = data[at], at + 1
    if mark < 0x80 or mark >= 0xE0:
        return mark if mark < 0x80 else mark - 256, at
    if mark < 0xC0:
        kind, count = (mark & 0xF0, mark & 15) if mark < 0xA0 else (0xA0, mark & 31)
        return several(kind, count, data, at)
    if mark in (0xC0, 0xC2, 0xC3):
        return {0xC0: None, 0xC2: False, 0xC3: True}[mark], at
    if mark in range(0xCC, 0xD4):
        size = 1 << (mark & 3)
        return int.from_bytes(data[at : at + size], "big", signed=mark >= 0xD0), at + size
    kind, size = {0xD9: (0xA0, 1), 0xDA: (0xA0, 2), 0xDB: (0xA0, 4), 0xDC: (0x90, 2), 0xDD: (0x90, 4), 0xDE: (0x80, 2), 0xDF: (0x80, 4)}[mark]
    return several(kind, int.from_bytes(data[at : at + size], "big"), data, at + size)


def several(kind, count, data, at):
    """A text of so many bytes, or so many values or pairs."""
    if kind == 0xA0:
        return data[at : at + count].decode(), at + count
    values = []
    for _ in range(count if kind == 0x90 else 2 * count):
        value, at = value_at(data, at)
        values.append(value)
    return values if kind == 0x90 else dict(zip(values[::2], values[1::2])), at


def after_lengths(data):
    """The frames of a message, each after its length."""
    while data:
        size = shift = at = 0
        while data[at] > 127:
            size, shift, at = size + (data[at] - 128 << shift), shift + 7, at + 1
        size, at = size + (data[at] << shift), at + 1
        yield data[at : at + size]
        data = data[at + size :]


# ---- frames as replay_model.py has them, from what a server said


def tree_of(array):
    """The object of a message in MessagePack."""
    kind, *parts = array
    if kind in (1, 4):
        tree = {"type": kind, "invocationId": parts[1], "target": parts[2], "arguments": parts[3], "streamIds": parts[4]}
        return {name: part for name, part in tree.items() if part not in (None, []) or name == "arguments"}
    if kind == 2:
        return {"type": 2, "invocationId": parts[1], "item": parts[2]}
    if kind == 3:
        ending = {1: "error", 3: "result"}.get(parts[2])
        return {"type": 3, "invocationId": parts[1]} | ({ending: parts[3]} if ending else {})
    if kind == 5:
        return {"type": 5, "invocationId": parts[1]}
    names = {7: ("error", "allowReconnect"), 8: ("sequenceId",), 9: ("sequenceId",)}.get(kind, ())
    return {"type": kind, **dict(zip(names, parts))}


def frame_of(tree):
    kind = tree.get("type")
    if kind is None:
        return ("response",)
    if kind <= 5:
        return ("message", json_text(tree))
    if kind == 7:
        return ("close", tree.get("error"), tree.get("allowReconnect", False))
    return {6: ("ping",), 8: ("ack", tree.get("sequenceId")), 9: ("sequence", tree.get("sequenceId"), None)}[kind]


def frames_of(payload, codec, is_first):
    """The frames of a message, which are whole. The first on a client's first socket is the handshake's answer, which is JSON."""
    if codec == "json":
        return [frame_of(json.loads(part)) for part in payload.split(RECORD)[:-1]]
    answer = []
    if is_first:
        text, _, payload = payload.partition(RECORD)
        answer = [frame_of(json.loads(text))]
    return answer + [frame_of(tree_of(value_at(part, 0)[0])) for part in after_lengths(payload)]


# ---- the client


class Client(peers_model.Replay):
    """A client of this script, whose connection outlives its sockets or doesn't."""

    def __init__(self, script, codec="json", kept=True, room=ROOM):
        super().__init__()
        self.options = {"peers": True, "codec": codec, "reconnect": kept, "buffer": (*room, MOST_FRAME)}
        self.begin()
        self.end = self.ends["c"]
        lines = script.split("\n")
        self.orders = [self.order(line) for line in lines if line and not line.startswith("#")]
        self.passed, self.sockets, self.printed, self.is_done = 0, 0, [], False

    # ---- what comes

    def comes_up(self):
        """A socket is up. Answers the frames that are said then, and so do the next two."""
        self.end.steps.append(("attached", self.sockets, 0))
        if self.sockets > 0:
            self.say("c", "again")
        self.sockets += 1
        return self.turn()

    def hears(self, frames):
        for frame in frames:
            if self.end.link() is not None and not self.end.closed():
                self.take("c", frame)
        return self.turn()

    def is_lost(self):
        self.lose_link()
        return self.turn()

    # ---- what it does

    def turn(self):
        if not self.end.closed():
            self.round("c")
            while self.passed < len(self.orders) and not self.end.closed() and self.end.shaken() and self.orders[self.passed]():
                self.passed += 1
            self.close_at_end()
        self.tell_gone("c")
        return [*self.all_due()]

    def close_at_end(self):
        if self.passed == len(self.orders) and self.end.shaken() and not self.end.closed() and not self.calls["c"].live_calls():
            self.close("c")
            self.is_done = True

    def all_due(self):
        while (frame := self.end.due()) is not None:
            self.end.steps.append(("lent", frame))
            yield frame

    def lose_link(self):
        if self.end.link() is not None:
            self.end.steps.append(("detached", 0))
            self.say("c", "lost")

    def is_over(self):
        return self.end.closed()

    def on_link(self):
        return self.end.link() is not None and not self.end.closed()

    # ---- lines of its script: each answers whether it is done

    def order(self, line):
        verb, _, rest = line.partition(" ")
        word, _, more = rest.partition(" ")
        if line == "wait":
            return lambda: not self.calls["c"].live_calls()
        if line == "lose":
            return lambda: self.lose_link() is None
        if verb in ("call", "stream", "notify", "upload"):
            kind, uploads = ("call", 1) if verb == "upload" else (verb, 0)
            arguments = peers_model.values_of(more)
            return lambda: self.did(self.make_call("c", kind, uploads, word, arguments), "call")
        if verb == "cancel":
            call = number_of(rest)
            return lambda: self.did(self.cancelled(call))
        call = number_of(word)
        tree = {"type": 3} if verb == "done" else {"type": 2, "item": peers_model.value_of(more)}
        return lambda: self.did(self.uploaded(call, tree))

    def did(self, made, word=None):
        """A refusal is a text. One for want of room is no end of the line."""
        if isinstance(made, str):
            if made.startswith("Full "):
                return False
            self.say("c", f"refused {made}")
        elif word:
            self.say("c", f"{word} {made}")
        return True

    def cancelled(self, call):
        calls = self.calls["c"]
        is_live = call in [n for n, _ in calls.live_calls()]
        return self.send("c", {"type": 5, "invocationId": calls.id(call)}) if is_live else "UnknownId"

    def uploaded(self, call, tree):
        calls = self.calls["c"]
        if (call, 0) not in calls.live_uploads():
            return "UnknownId"
        refusal = self.send("c", tree | {"invocationId": calls.id(call + 1)})
        if refusal is None and tree["type"] == 3:
            calls.upload_ended(call, 0)
        return refusal

    # ---- what it prints

    def say(self, side, words):
        if words.split(" ")[0] in PRINTED:
            self.printed.append(words)

    def accept(self, side, kind, tree):
        begun = len(self.jobs[side].calls())
        super().accept(side, kind, tree)
        if len(self.jobs[side].calls()) > begun and tree["target"] != "Confirm":
            self.say(side, f"got {tree['target']} {json_text(tree['arguments'])}")

    def spelled(self, frames):
        return b"".join(replay_model.spell(frame, self.end.codec) for frame in frames)

    def status(self):
        """The exit status once it is over."""
        return 0 if self.is_done else 8
