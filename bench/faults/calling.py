"""A session of `sr client` with a server by hand, which answers as said here and shuts the first socket in the middle of a stream. What the client
prints and what the server hears is known beforehand, so that of a client which ends early each is a first part."""
import contextlib
import json
import os
import select
import subprocess
import sys
import tempfile

from preload import HERE, ended_at_last

sys.path.insert(0, str(HERE.parent.parent / "acceptance" / "clients"))
from raw import CLOSE, RECORD, Ended  # noqa: E402
from stub import Lane, Stub, body_of  # noqa: E402
from served import CLOSED, HANGS, SECONDS, UNTOLD  # noqa: E402

SCRIPT = b"""call Add [2,3]
wait
stream Count [2]
wait
upload Sum []
item 3 4
done 3
wait
"""
# By hand, from docs/protocol.md, "Calling a server", and docs/clients.md.
PRINTED = ["shaken", "call 1", "ended 1 result 5", "call 2", "item 2 1", "lost", "again", "item 2 2", "ended 2 void", "call 3", "ended 3 result 4"]
COUNT = '{"arguments":[2],"invocationId":"2","target":"Count","type":4}'
HEARD = [
    "POST /hub/negotiate?negotiateVersion=1&useStatefulReconnect=true HTTP/1.1",
    "GET /hub?id=kT HTTP/1.1",
    '{"protocol":"json","version":2}',
    '{"arguments":[2,3],"invocationId":"1","target":"Add","type":1}',
    COUNT,
    "GET /hub?id=kT HTTP/1.1",
    '{"sequenceId":2,"type":9}',
    COUNT,
    '{"arguments":[],"invocationId":"3","streamIds":["4"],"target":"Sum","type":1}',
    '{"invocationId":"4","item":4,"type":2}',
    '{"invocationId":"4","type":3}',
    '{"type":7}',
    CLOSED,
]
EXPECTED = {"its output": [line + "\n" for line in PRINTED], "the server": HEARD}


class Gone(Exception):
    """The client has ended, and nobody dials any more."""


class Server:
    """The server by hand. `heard` are the first lines of its requests, and its frames but for Acks and Pings; `turned` the connections on which
    nothing came."""

    def __init__(self, stub, process):
        self.stub, self.process, self.heard, self.turned = stub, process, [], []
        self.lane, self.frames = None, []

    def dialed(self):
        """The next connection, unless the client ends before one comes."""
        gone = os.pidfd_open(self.process.pid)
        try:
            ready, _, _ = select.select([self.stub.socket, gone], [], [], SECONDS)
        finally:
            os.close(gone)
        if not ready:
            raise TimeoutError
        if self.stub.socket not in ready:
            raise Gone
        return self.stub.lane()

    def requested(self):
        """The next connection on which a request comes."""
        while True:
            self.lane = self.dialed()
            try:
                self.heard.append(self.lane.request().split(b"\r\n")[0].decode())
                return self.lane
            except Ended:
                if self.lane.rest:
                    raise
                self.turned.append("a connection without a request")

    def upgrades(self):
        self.requested().accept()
        self.frames = []

    def says(self, *texts):
        self.lane.say(b"".join(text.encode() + RECORD for text in texts))

    def hears(self, count=1):
        while count:
            while not self.frames:
                opcode, payload = self.lane.hear()
                if opcode == CLOSE:
                    self.heard.append(f"closed {int.from_bytes(payload[:2], 'big')}")
                    return
                self.frames += [text.decode() for text in payload.split(RECORD)[:-1]]
            text = self.frames.pop(0)
            if json.loads(text).get("type") not in UNTOLD:
                self.heard.append(text)
                count -= 1

    def drains(self):
        if self.lane and self.lane.key:
            with contextlib.suppress(Ended, OSError, ValueError):
                while True:
                    self.hears()


def session(server):
    server.requested().answer(200, body_of(), ["Content-Type: application/json"])
    server.lane.rest_of_it()
    server.lane = None
    server.upgrades()
    server.hears()
    server.says("{}")
    server.hears()
    server.says('{"type":8,"sequenceId":1}', '{"type":3,"invocationId":"1","result":5}')
    server.hears()
    server.says('{"type":2,"invocationId":"2","item":1}')
    server.lane.finish()
    server.upgrades()
    server.says('{"type":9,"sequenceId":1}', '{"type":3,"invocationId":"1","result":5}', '{"type":2,"invocationId":"2","item":1}')
    server.hears(2)
    server.says('{"type":2,"invocationId":"2","item":2}', '{"type":3,"invocationId":"2"}')
    server.hears(3)
    server.says('{"type":3,"invocationId":"3","result":4}')
    server.hears(2)


def call(program, fault):
    """The session, with a client that has this fault: its exit status, what it printed and the server heard, and dials on which nothing came."""
    with Stub() as stub, tempfile.TemporaryFile() as given, tempfile.TemporaryFile() as out:
        given.write(SCRIPT)
        given.seek(0)
        words = [program, "client", stub.url()]
        with ended_at_last(subprocess.Popen(words, stdin=given, stdout=out, stderr=subprocess.DEVNULL, env=fault.environment())) as process:
            server = Server(stub, process)
            with contextlib.suppress(Gone, Ended, OSError):
                session(server)
            server.drains()
            if server.lane:
                server.lane.close()
            try:
                status = process.wait(SECONDS)
            except subprocess.TimeoutExpired:
                status = HANGS
        out.seek(0)
        return status, {"its output": out.read().decode().splitlines(keepends=True), "the server": server.heard}, server.turned
