"""Plays client_exchanges.txt: what a client says to a server by hand, message by message, and what it prints."""
import re
import socket

from raw import BINARY, CLOSE, PING, PONG, TEXT, Ended
from running import Running
from shown import bytes_of, shown
from stub import SECONDS, Stub, Wrong, body_of, spoken

MANY_SIGNS = re.compile(r"<([^<>*]+)\*([0-9]+)>")
NAMES = {"close": CLOSE, "ping": PING, "pong": PONG}
SILENT = 0.3  # seconds in which nothing may come
SHAKE = ['> {"protocol":"json","version":2}␞', "< {}␞"]
SHAKE_PACK = ['> {"protocol":"messagepack","version":2}␞', "< {}␞"]


class Exchange:
    """One exchange of the file: the words and the script of the client, the steps, and how it ends."""

    def __init__(self, lines):
        self.title, *rest = lines
        self.words, self.script, self.printed, self.steps, self.status, self.kept = [], [], [], [], 0, True
        for line in rest:
            self.take(MANY_SIGNS.sub(lambda found: found[1] * int(found[2]), line))

    def take(self, line):
        word, _, rest = line.partition(" ")
        if word == "words":
            self.words = rest.split()
        elif word == "script":
            self.script.append(rest)
        elif word == "=":
            self.printed.append(rest)
        elif word == "status":
            self.status = int(rest)
        elif line == "told plain":
            self.kept = False
        elif line == "shake":
            self.steps += SHAKE_PACK if self.is_packed() else SHAKE
        else:
            self.steps.append(line)

    def is_packed(self):
        return "pack" in self.words

    def wanted(self):
        return self.status, self.printed

    def run(self, program):
        """Its status and its lines, or what was wrong with what it said."""
        script = "".join(line + "\n" for line in self.script).encode()
        with Stub() as stub, Running(program, [*self.words, stub.url()], script) as client:
            play = Play(stub, self.is_packed())
            stub.tells(body_of(kept=self.kept))
            for step in ["-- up", *self.steps] if not self.steps[0].startswith("-- ") else self.steps:
                play.step(step)
            ended = client.ended()
            play.at_end()
        return ended


class Play:
    def __init__(self, stub, is_packed):
        self.stub, self.lane, self.kind = stub, None, BINARY if is_packed else TEXT

    def step(self, step):
        try:
            sign, text = step[:2], step[3:]
            {"> ": self.hear, "< ": self.say, "--": self.do}[sign](text if sign == "--" else step[2:])
        except (Wrong, Ended, OSError) as wrong:
            raise Wrong(f"{step[:200]}: {wrong}") from None

    def hear(self, text):
        opcode, payload = self.lane.hear()
        name = next((name for name, number in NAMES.items() if number == opcode), None)
        got = f"close {int.from_bytes(payload[:2], 'big')}" if name == "close" else f"{name} {payload.decode()}" if name else shown(payload)
        wanted = text if text.split(" ")[0] in NAMES else shown(bytes_of(text))
        if got != wanted:
            raise Wrong(f"came {got[:400]}")
        if not name and opcode != self.kind:
            raise Wrong(f"came in a message of kind {opcode}")

    def say(self, text):
        word, _, rest = text.partition(" ")
        if word == "bytes":
            self.lane.send(bytes.fromhex(rest))
        elif word == "close":
            self.lane.send(spoken(CLOSE, int(rest).to_bytes(2, "big")))
        elif word in NAMES:
            self.lane.send(spoken(NAMES[word], rest.encode()))
        else:
            self.lane.say(bytes_of(text), self.kind)

    def do(self, text):
        word, *more = text.split()
        getattr(self, word)(*more)

    # ---- what the server does

    def up(self):
        self.lane = self.stub.comes_up()

    def lost(self):
        """The server ends the connection. The client says nothing more there."""
        if data := self.lane.finish():
            raise Wrong(f"came {data!r}")

    def reset(self):
        self.lane.drop()

    def left(self):
        """The client ends the connection."""
        if data := self.lane.rest_of_it():
            raise Wrong(f"came {data!r}")

    def dropped(self):
        """The next connection is ended when its ask is there."""
        lane = self.stub.lane()
        lane.request()
        lane.finish()

    def answered(self, status):
        lane = self.stub.lane()
        lane.request()
        lane.answer(status)

    def accepted(self, _wrongly):
        lane = self.stub.lane()
        lane.request()
        lane.accept("s3pPLMBiTxaQ9kYGzzhZRbK+xOo=")
        lane.rest_of_it()

    def silent(self):
        self.lane.socket.settimeout(SILENT)
        try:
            self.lane.more()
        except socket.timeout:
            self.lane.socket.settimeout(SECONDS)
            return
        raise Wrong(f"came {self.lane.rest!r}")

    def at_end(self):
        """Nobody dials any more, each socket was asked for with a key of its own, and no two frames have one mask."""
        if count := self.stub.others():
            raise Wrong(f"{count} connections more at the end")
        keys = [lane.key for lane in self.stub.lanes if lane.key]
        masks = [mask for lane in self.stub.lanes for mask in lane.masks]
        if len({*keys}) < len(keys):
            raise Wrong("a key came twice")
        if len({*masks}) < len(masks):
            raise Wrong("a mask came twice")


def exchanges(path):
    lines = "".join(line + "\n" for line in path.read_text(encoding="utf-8").splitlines() if not line.startswith("#"))
    for part in re.split("\n\n+", lines.strip("\n")):
        yield Exchange(part.split("\n"))
