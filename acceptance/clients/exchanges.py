"""The blocks `exchange` and `refused` of a page (page.py): sockets, and the frames that go over them."""
import json
import re
import socket
import time

from raw import BINARY, PING, PONG, RECORD, TEXT, TIMEOUT, Hub, Raw, frame, record
from shown import HEX, Wrong, compare, without_remark

NEGOTIATE = "/hub/negotiate?negotiateVersion=1"
RECONNECT = "&useStatefulReconnect=true"
PAUSE = 0.3  # seconds in which the server goes on by itself
LONG = "x" * 30_000
COUNTED = re.compile(r"N from (\d+) to (\d+)")
# A Close with the error `Protocol error.`, as HubProtocol.md spells one in either codec.
BROKEN = {
    "json": '{"error":"Protocol error.","type":7}',
    "messagepack": "13 93 07 af 50 72 6f 74 6f 63 6f 6c 20 65 72 72 6f 72 2e c2",
}


class PackHub(Hub):
    """A socket whose frames are MessagePack, each shown by its bytes, behind a handshake."""

    shaken = False

    def cut(self, payload):
        frames = []
        if not self.shaken:
            self.shaken = True
            handshake, _, payload = payload.partition(RECORD)
            frames.append(handshake.decode())
        while payload:
            end = next(place for place, byte in enumerate(payload) if byte < 128) + 1
            end += sum((byte & 127) << 7 * place for place, byte in enumerate(payload[:end]))
            frames.append(payload[:end].hex(" "))
            payload = payload[end:]
        return frames


class Exchange:
    """A connection, which sends what a block shows, and looks at what comes."""

    def __init__(self, client, words):
        self.client = client
        self.words = words
        self.unsent = []
        self.other = None
        self.negotiate()

    def negotiate(self):
        self.target = "/hub"
        if not {"plain", "calls"} & set(self.words):
            _, _, body = self.client.ask("POST", NEGOTIATE + ("" if "negotiated" in self.words else RECONNECT))
            self.target += "?id=" + json.loads(body)["connectionToken"]
        self.open()
        if "calls" in self.words:
            compare(0, "{}", self.hub.shake())

    def open(self, shaken=False):
        kind = PackHub if "pack" in self.words else Hub
        self.hub = kind(self.client.port, self.target, fields=self.client.socket_fields)
        self.hub.shaken, self.hub.open = shaken, True

    def do(self, number, line):
        if line.startswith("> "):
            self.unsent.append(line[2:])
            return
        self.send()
        if line.startswith("< "):
            compare(number, line[2:], self.hub.hear())
        else:
            self.act(number, line[3:])

    def send(self):
        """Sends what gathered: in one message, or each frame in its own."""
        sent = [bytes.fromhex(text) if HEX.fullmatch(text) else record(text) for text in self.unsent]
        opcode = [BINARY if HEX.fullmatch(text) else TEXT for text in self.unsent]
        if self.client.named:
            self.hub.send(b"".join(map(frame, opcode, sent)))
        elif sent:
            self.hub.send(frame(opcode[0], b"".join(sent)))
        self.unsent = []

    def end(self):
        """Sends the rest. Nothing may have come that isn't shown."""
        if self.unsent:
            self.send()
            time.sleep(PAUSE)
        if self.hub.open:
            self.hub.send(frame(PING))
            came = (TEXT, self.hub.frames) if self.hub.frames else self.hub.read_frame()
            if came != (PONG, b""):
                raise Wrong(f"at the end: wanted nothing more\n        came   {came[1]}")

    # What is done or seen beside frames

    def act(self, number, line):
        for pattern, act in self.ACTS.items():
            if found := re.fullmatch(pattern, line):
                return act(self, number, *found.groups())
        raise Wrong(f"line {number}: {line} isn't known")

    def see_end(self, number, status):
        compare(number, f"closed {status}", self.hub.hear())
        compare(number, "ended", self.hub.end())
        self.hub.open = False

    def lose(self):
        """The socket is lost, once the server has read what was said there, and the server has seen that."""
        time.sleep(PAUSE)
        self.hub.drop()
        self.hub.open = False
        time.sleep(PAUSE)

    def lose_and_open(self, number):
        self.lose()
        self.open(shaken=True)
        compare(number, 101, self.hub.status)

    def lose_and_begin(self, _):
        self.lose()
        self.negotiate()

    def lose_two(self, number):
        """The next socket is lost before its 101 is read, which the server may have sent."""
        self.lose()
        lane = Raw(self.client.port)
        lane.ask_upgrade(self.target, fields=self.client.socket_fields)
        lane.drop()
        time.sleep(PAUSE)
        self.open(shaken=True)
        compare(number, 101, self.hub.status)

    def lose_all(self, number):
        self.lose()
        compare(number, 404, Raw(self.client.port).upgrade(self.target, fields=self.client.socket_fields))

    def see_nothing(self, number, seconds):
        self.hub.socket.settimeout(float(seconds))
        try:
            compare(number, "nothing", self.hub.hear())
        except socket.timeout:
            self.hub.socket.settimeout(TIMEOUT)

    def let_another(self, number, text):
        """Another client's call, which has been answered when this returns."""
        if not self.other:
            self.other = Hub(self.client.port)
            self.other.shake()
        self.other.say(text)
        answer = json.loads(self.other.hear())
        compare(number, [3, False], [answer["type"], "error" in answer])

    ACTS = {
        r"closed with (\d+)": see_end,
        r"the socket is lost, and opened again(?:: .*)?": lose_and_open,
        r"the socket is lost, and a new connection is negotiated": lose_and_begin,
        r"the socket is lost, and the next one too, before its 101 came; it is opened again": lose_two,
        r"the socket is lost, and its token is gone": lose_all,
        r"nothing comes for ([\d.]+) s": see_nothing,
        r"another client: (.*)": let_another,
    }


def spread(line):
    """The lines that a line stands for."""
    text, _, remark = line.partition("   #")
    counted = COUNTED.search(remark)
    text = text.rstrip().replace("LONG", LONG)
    if not counted:
        return [text]
    return [re.sub(r"\bN\b", str(number), text) for number in range(int(counted[1]), int(counted[2]) + 1)]


def exchange(client, block, _):
    link = Exchange(client, block.words)
    for number, shown_line in block.lines:
        for line in spread(shown_line):
            link.do(number, line)
    link.end()


def refused(client, block, _):
    codec = "messagepack" if "pack" in block.words else "json"
    for number, line in block.lines:
        link = Exchange(client, ["plain", *block.words])
        link.do(number, '> {"protocol":"%s","version":1}' % codec)
        link.do(number, "< {}")
        link.do(number, "> " + without_remark(line))
        link.do(number, "< " + BROKEN[codec])
        link.do(number, "-- closed with 1000")
