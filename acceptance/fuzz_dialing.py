"""The kind `dialed` of fuzz.py: what a server answers to `sr client`. client_model.py decides which requests the client makes, what it prints and how
it ends. One of the answers is mutated, and the connection ends after each."""
import contextlib
import os
import re
import select
import signal
import socket
import struct
import time

import client_model
import frames_model
import fuzz_kit
import fuzz_serving
from client_model import ACCEPTS
from fuzz_kit import Difference, mutated
from serving_model import BINARY, CONTINUATION, TEXT, Undecided
from stub import accept_of, body_of

BETWEEN = b"\n-- the next answer --\n"
HEAD_END = b"\r\n\r\n"
REFUSES = b"HTTP/1.1 404 Not Found\r\nContent-Length: 0\r\n\r\n"
KEY = re.compile(rb"Sec-WebSocket-Key: ([^\r]*)")
SECONDS = 60


def response(first, *fields, body=b""):
    return "\r\n".join([f"HTTP/1.1 {first}", *fields, *([f"Content-Length: {len(body)}"] if body else []), "", ""]).encode() + body


TELLS = response("200 OK", "Content-Type: application/json", body=body_of("kT", kept=False))
TOLD = [
    TELLS,
    response("200 OK", body=b'{"connectionToken":"a b&c=d/+~*"}'),
    response("200 OK", body=b'{"a":[1.5,{"connectionToken":"x"}],"connectionToken":"\\u006bT\\n","connectionId":"1"}'),
    b"HTTP/1.0 200\n" + response("200 OK", body=body_of("kT", kept=False)).split(b"\r\n", 1)[1],
    response("503 Service Unavailable", "Retry-After: 5"),
]
UP = response("101 Switching Protocols", "Upgrade: websocket", "Connection: Upgrade", f"Sec-WebSocket-Accept: {ACCEPTS.decode()}")
SCRIPTS = [
    "call Echo [1]\nstream Count [2]\n",
    "call Add [2,3]\nnotify Echo [1]\nupload Sum []\nitem 2 5\ndone 2\n",
    "",
    "call A []\ncancel 1\nlose\ncall B []\n",
]
SAID = fuzz_serving.messages(
    '{"type":3,"invocationId":"1","result":1}',
    '{"type":3,"invocationId":"2","error":"broken"}',
    '{"type":2,"invocationId":"2","item":{"a":[1,"\\u00e9"]}}',
    '{"type":3,"invocationId":"2"}',
    '{"type":1,"invocationId":"s1","target":"Confirm","arguments":[7]}',
    '{"type":1,"target":"Posted","arguments":["lobby",1]}',
    '{"type":4,"invocationId":"s2","target":"Note","arguments":[]}',
    '{"type":6}',
    '{"type":5,"invocationId":"s1"}',
    '{"type":8,"sequenceId":1}',
    '{"type":7,"error":"over","allowReconnect":true}',
)


def spoken(payload, opcode, final=True):
    size = len(payload)
    head = bytes([(128 if final else 0) | opcode, size if size < 126 else 126])
    return head + (struct.pack(">H", size) if size > 125 else b"") + payload


def said_on_socket(draw, codec):
    """The frames of a server: its answer to the handshake, and what it says to the calls."""
    parts = [b"{}" + frames_model.RECORD]
    parts += [b"".join(draw.choice(SAID[codec]) for _ in range(draw.choice([1, 2, 3]))) for _ in range(draw.choice([1, 1, 2, 3]))]
    for part in parts:
        opcode, at = BINARY if codec == "pack" else TEXT, draw.randrange(len(part) + 1)
        yield from [spoken(part, opcode)] if draw.random() < 0.8 else [spoken(part[:at], opcode, False), spoken(part[at:], CONTINUATION)]
    if draw.random() < 0.2:
        yield spoken(draw.choice([b"\x03\xe8", b"\x03\xe9going"]), 8)


class Running:
    """The client while it runs, and the server that it dials."""

    def __init__(self, program):
        self.program, self.runs = program, fuzz_kit.Runs(program)
        self.listener = socket.create_server(("127.0.0.1", 0))
        self.listener.setblocking(False)
        self.url = f"http://127.0.0.1:{self.listener.getsockname()[1]}/hub"

    def __call__(self, codec, script, answers):
        """Its requests, the lines that it prints, and its exit status."""
        process = self.runs.begun(["client", self.url, "--codec", codec], script.encode())
        lanes, end = [], time.monotonic() + SECONDS
        while (status := os.waitpid(process, os.WNOHANG)) == (0, 0):
            if time.monotonic() > end:
                os.kill(process, signal.SIGKILL)
                return "no end", [], 0, os.waitpid(process, 0)
            self.serves(lanes, answers)
        self.accepts(lanes)
        for lane in lanes:
            lane.socket.close()
        asked = [lane.line() for lane in lanes if lane.came]
        return asked, self.runs.output(), fuzz_kit.exit_status(status[1])

    def accepts(self, lanes):
        with contextlib.suppress(BlockingIOError):
            while True:
                lanes.append(Lane(self.listener.accept()[0]))

    def serves(self, lanes, answers):
        """Waits for what a client says, and answers each request once it is whole."""
        open_lanes = {lane.socket: lane for lane in lanes if not lane.is_over}
        ready, _, _ = select.select([self.listener, *open_lanes], [], [], 0.005)
        self.accepts(lanes)
        for found in ready:
            if found in open_lanes:
                open_lanes[found].reads()
        for at, lane in enumerate(lanes):
            lane.answers(answers[at] if at < len(answers) else REFUSES)


class Lane:
    def __init__(self, accepted):
        self.socket, self.came, self.is_over, self.has_answered = accepted, b"", False, False
        self.socket.setblocking(False)

    def reads(self):
        try:
            piece = self.socket.recv(65_536)
        except OSError:
            piece = b""
        self.came, self.is_over = self.came + piece, not piece

    def answers(self, answer):
        """Says all of the answer at once, also what follows a 101, and then it ends."""
        head, mark, _ = self.came.partition(HEAD_END)
        if not mark or self.has_answered:
            return
        self.has_answered = True
        with contextlib.suppress(OSError):
            key, size = KEY.search(head), client_model.head_of(answer)
            first = answer[:size].replace(ACCEPTS, accept_of(key[1]).encode()) if key else answer[:size]
            self.socket.sendall(first + answer[size:])
            self.socket.shutdown(socket.SHUT_WR)

    def line(self):
        """The method and the target of its request."""
        return self.came.split(b"\r\n")[0].decode(errors="replace").removesuffix(" HTTP/1.1")


class Dialed:
    name = "dialed"

    def __init__(self, program):
        self.running = Running(program)

    def input(self, draw):
        codec = draw.choice(["json", "json", "pack"])
        if draw.random() < 0.4:
            return codec, draw.choice(SCRIPTS), [mutated(draw, draw.choice(TOLD), TOLD)]
        said = b"".join(said_on_socket(draw, codec))
        if draw.random() < 0.3:
            return codec, draw.choice(SCRIPTS), [TELLS, mutated(draw, UP, [UP, *TOLD]) + said]
        return codec, draw.choice(SCRIPTS), [TELLS, UP + mutated(draw, said, [said, b"".join(said_on_socket(draw, codec))])]

    def differences(self, draw, count):
        for _ in range(count):
            codec, script, answers = self.input(draw)
            again = self.tried(codec, script)
            if again(BETWEEN.join(answers)):
                yield Difference(f"sr client --codec {codec} with the script {script!r}, at these answers,", BETWEEN.join(answers), again)

    def tried(self, codec, script):
        def again(data):
            answers = data.split(BETWEEN)
            try:
                wanted = client_model.Dialed(script, codec, answers)
            except Undecided:
                wanted = None
            came = self.running(codec, script, answers)
            if wanted is None:
                return None if came[2] in (0, 8) else ("an exit status of 0 or 8", came)
            want = wanted.asked, "".join(line + "\n" for line in wanted.printed).encode(), wanted.status
            return fuzz_kit.compared(want, came)

        return again
