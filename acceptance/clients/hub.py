"""A connection to a hub that outlives its sockets: hub protocol version 2 in JSON over Debian's python3-websockets 10.4, with the API that
later versions call legacy.

Of the five kinds of messages that are numbered, those that we send are kept until the server acknowledges them, and those that come are
counted, so that after a lost socket each side says again what the other may lack, and passes over what it has."""
import json
from collections import defaultdict, deque
from urllib.parse import urlsplit

from websockets.legacy.client import connect

INVOCATION, ITEM, COMPLETION, STREAM, CANCEL, PING, CLOSE, ACK, SEQUENCE = range(1, 10)
NUMBERED = {INVOCATION, ITEM, COMPLETION, STREAM, CANCEL}
RECORD = "\x1e"
ACK_AFTER = 16  # messages; a server keeps at most 1,024


class Refused(Exception):
    """The server refused the handshake, or closed the connection with an error."""


def socket_address(base, token=None):
    parts = urlsplit(base)
    return f"ws://{parts.netloc}{parts.path}" + (f"?id={token}" if token else "")


def spelled(message):
    return json.dumps(message, separators=(",", ":"), ensure_ascii=False) + RECORD


class Hub:
    def __init__(self, base, token):
        self.address = socket_address(base, token)
        self.frames = deque()  # come, and not handled
        self.last_id = 0
        self.sent = 0  # how many numbered messages we sent
        self.kept = deque()  # (number, text) of those that aren't acknowledged
        self.processed = 0  # the number of the last message that we processed
        self.coming = 1  # the number of the next one on this socket
        self.told = 0  # the last number that we acknowledged
        self.acks = True
        self.duplicates = 0
        self.items = defaultdict(list)  # by the call's id
        self.endings = {}
        self.calls = deque()  # that the server made

    # Sockets

    async def open(self):
        """The first socket: the handshake is the first frame each way. Answers the server's."""
        self.socket = await connect(self.address)
        await self.socket.send('{"protocol":"json","version":2}' + RECORD)
        answer = await self.frame()
        if json.loads(answer).get("error"):
            raise Refused(answer)
        return answer

    async def open_again(self):
        """A later socket: no handshake, but the number from which on we say our messages, and these."""
        self.frames.clear()
        self.coming = None  # until the server tells it
        self.socket = await connect(self.address)
        first = self.kept[0][0] if self.kept else self.sent + 1
        await self.socket.send(spelled({"type": SEQUENCE, "sequenceId": first}))
        for _, text in self.kept:
            await self.socket.send(text)

    def lose(self):
        """The socket is gone without a word, as if the network had failed."""
        self.socket.transport.abort()
        self.socket = None

    async def close(self):
        """Ends the connection, and answers the status with which the server closes the socket."""
        await self.socket.send(spelled({"type": CLOSE}))
        await self.socket.wait_closed()
        return self.socket.close_code

    # What goes out

    async def send(self, message):
        """Sends a numbered message. Without a socket it is only kept."""
        self.sent += 1
        text = spelled(message)
        self.kept.append((self.sent, text))
        if self.socket:
            await self.socket.send(text)

    async def acknowledge(self):
        self.told = self.processed
        await self.socket.send(spelled({"type": ACK, "sequenceId": self.processed}))

    async def begin(self, kind, target, *arguments, uploads=0):
        """Sends a call, and answers its id and those of its uploads."""
        call, *streams = (str(self.last_id + 1 + n) for n in range(1 + uploads))
        self.last_id += 1 + uploads
        message = {"type": kind, "invocationId": call, "target": target, "arguments": arguments}
        await self.send({**message, "streamIds": streams} if streams else message)
        return call, *streams

    # What comes in

    async def frame(self):
        while not self.frames:
            self.frames.extend((await self.socket.recv()).split(RECORD)[:-1])
        return self.frames.popleft()

    def is_new(self):
        """Counts a numbered message, and answers whether it didn't come before."""
        if self.coming is None:
            return False
        number, self.coming = self.coming, self.coming + 1
        if number <= self.processed:
            self.duplicates += 1
            return False
        self.processed = number
        return True

    async def handle(self):
        """Waits for a message, and does what it asks for."""
        message = json.loads(await self.frame())
        kind = message["type"]
        if kind in NUMBERED:
            if self.is_new():
                self.take(kind, message)
            if self.acks and self.processed - self.told >= ACK_AFTER:
                await self.acknowledge()
        elif kind == SEQUENCE:
            self.coming = message["sequenceId"]
        elif kind == ACK:
            while self.kept and self.kept[0][0] <= message["sequenceId"]:
                self.kept.popleft()
        elif kind == CLOSE:
            raise Refused(message.get("error"))

    def take(self, kind, message):
        if kind == ITEM:
            self.items[message["invocationId"]].append(message["item"])
        elif kind == COMPLETION:
            self.endings[message["invocationId"]] = message
        elif kind == INVOCATION:
            self.calls.append(message)

    async def ending(self, call):
        """The completion of a call, once it came."""
        while call not in self.endings:
            await self.handle()
        return self.endings.pop(call)

    async def some_items(self, call, count):
        """Waits until so many items of a stream came."""
        while len(self.items[call]) < count:
            await self.handle()

    async def server_call(self):
        """The next call that the server makes."""
        while not self.calls:
            await self.handle()
        return self.calls.popleft()

    async def call(self, target, *arguments, kind=INVOCATION):
        """Makes a call, and answers its completion."""
        (call,) = await self.begin(kind, target, *arguments)
        return await self.ending(call)
