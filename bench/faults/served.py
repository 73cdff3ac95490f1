"""A session with `sr serve` of three clients, in two rooms: one that is resumed in the middle of a stream, one that isn't resumable, and one that
polls. What each is told is known beforehand, so that of a server which ends early each has been told a first part of it."""
import contextlib
import json
import select
import socket
import subprocess
import sys

from preload import HERE, ended_at_last

sys.path.insert(0, str(HERE.parent.parent / "acceptance" / "clients"))
from raw import HOST, RECORD, Ended, Hub, Raw, record  # noqa: E402
from serving import free_port  # noqa: E402

SECONDS = 30  # until something comes, on a busy machine
MOMENT = 0.05  # seconds for which a server is watched whose session is whole
TRIES = 3  # of a request
POLLS = 20  # until something is told
SERVES = "serves"  # in place of an exit status
HANGS = "hangs"
LINE = b"serving 0\n"
NEGOTIATE = "/hub/negotiate?negotiateVersion=1"
KEPT = "&useStatefulReconnect=true"
# An Ack and a Ping come when they are due, which no order of what else is said tells.
UNTOLD = 6, 8

# By hand, from the tables of docs/protocol.md and docs/clients.md. Connections are numbered as they come: 1 is resumed, 2 polls, 3 isn't resumable.
POSTED = '{"arguments":["%s","%s","%s"],"target":"Posted","type":1}'
ITEM = '{"invocationId":"4","item":%d,"type":2}'
DONE = '{"invocationId":"%d","type":3}'
ENDED = '{"invocationId":"%d","result":%s,"type":3}'
SINCE = [POSTED % ("one", "1", "first"), DONE % 3, POSTED % ("two", "2", "second"), *(ITEM % number for number in range(1, 7)), DONE % 4]
CLOSED = "closed 1000"
LAST = [CLOSED, "ended"]
EXPECTED = {
    "resumed": [
        *["200 connection 1 resumable True", "101", "{}", DONE % 1, DONE % 2, *SINCE],
        *["101", '{"sequenceId":3,"type":9}', *SINCE, ENDED % (5, '["first"]'), ENDED % (6, 3), *LAST],
    ],
    "polling": ["200 connection 2 resumable False", "{}", DONE % 1, POSTED % ("two", "2", "second"), DONE % 2, "202"],
    "plain": [
        *["101", "{}", DONE % 1, POSTED % ("one", "1", "first"), '{"arguments":["yes"],"invocationId":"s1","target":"Confirm","type":1}'],
        *[ENDED % (2, '"yes"'), ENDED % (3, 6), DONE % 4, *LAST],
    ],
}


class Over(Exception):
    """The server has ended, or turned a client away more often than it may."""


def call(number, target, *arguments, kind=1, streams=()):
    named = {"streamIds": list(streams)} if streams else {}
    return json.dumps({"type": kind, "invocationId": str(number), "target": target, "arguments": arguments, **named})


class Told:
    """What one client is told, in lines. `turned` has what it was told in place of an answer, before it asked once more."""

    def __init__(self, port):
        self.port, self.lines, self.turned, self.hub = port, [], [], None

    def again(self, ask):
        """What `ask` answers, which opens a connection: after a 500, or a connection that is shut before anything comes, it is asked once more."""
        for _ in range(TRIES):
            try:
                answer = ask()
            except (Ended, ConnectionError) as ended:
                self.turned.append(str(ended))
                continue
            if answer[0] != 500:
                return answer
            self.turned.append("500")
        raise Over

    def http(self, method, target, body=None):
        return self.again(lambda: Raw(self.port, SECONDS).http(method, target, body))

    def negotiates(self, query=""):
        """Asks for a token, and answers the target with it."""
        status, body = self.http("POST", NEGOTIATE + query)
        told = json.loads(body) if status == 200 else {}
        self.lines.append(f"{status} connection {told.get('connectionId')} resumable {told.get('useStatefulReconnect', False)}")
        return "/hub?id=" + told.get("connectionToken", "")

    def opens(self, target="/hub"):
        """A socket of this target is up."""

        def ask():
            self.hub = Hub(self.port, target, SECONDS)
            return [self.hub.status]

        self.lines += map(str, self.again(ask))

    def says(self, *texts):
        self.hub.say(*texts)

    def hears(self, count=1):
        """So many frames more come."""
        while count:
            text = self.hub.hear()
            if text == CLOSED or json.loads(text).get("type") not in UNTOLD:
                self.lines.append(text)
                count -= 1

    def ends(self):
        self.hears()
        self.lines.append(self.hub.end())

    def posts(self, target, *texts):
        status, _ = self.http("POST", target, b"".join(map(record, texts)))
        if status != 200:
            self.lines.append(str(status))

    def polls(self, target, count=1):
        """Polls until so many frames came."""
        for _ in range(POLLS):
            status, body = self.http("GET", target)
            texts = [text.decode() for text in body.split(RECORD)[:-1]] if status == 200 else [str(status)]
            texts = [text for text in texts if status != 200 or json.loads(text).get("type") not in UNTOLD]
            self.lines += texts
            count -= len(texts)
            if count <= 0:
                return
        raise Over

    def drains(self):
        """What else was told before the end."""
        if self.hub:
            with contextlib.suppress(Ended, OSError, ValueError):
                while True:
                    self.hears()


def session(resumed, polling, plain):
    """What the three say, one after the other, and hear of it."""
    resumable, polled = resumed.negotiates(KEPT), polling.negotiates()
    resumed.opens(resumable)
    resumed.says('{"protocol":"json","version":2}')
    resumed.hears()
    for number, room in (1, "one"), (2, "two"):
        resumed.says(call(number, "Join", room))
        resumed.hears()
    resumed.says('{"type":8,"sequenceId":2}')
    plain.opens()
    plain.says('{"protocol":"json","version":1}', call(1, "Join", "one"))
    plain.hears(2)
    polling.http("GET", polled)
    polling.posts(polled, '{"protocol":"json","version":1}')
    polling.polls(polled)
    polling.posts(polled, call(1, "Join", "two"))
    polling.polls(polled)
    resumed.says(call(3, "Post", "one", "first"))
    resumed.hears(2)
    plain.hears()
    polling.posts(polled, call(2, "Post", "two", "second"))
    polling.polls(polled, 2)
    resumed.hears()
    resumed.says(call(4, "Count", 6, kind=4))
    resumed.hears(7)
    resumed.hub.drop()
    resumed.opens(resumable)
    resumed.says('{"type":9,"sequenceId":5}')
    resumed.hears(11)
    resumed.says(call(5, "History", "one", 10), call(6, "Slow", 5, 3))
    resumed.hears(2)
    plain.says(call(2, "Ask", "Confirm", "yes"))
    plain.hears()
    plain.says('{"type":3,"invocationId":"s1","result":"yes"}')
    plain.hears()
    items = ['{"type":2,"invocationId":"u","item":%d}' % item for item in (1, 2, 3)]
    plain.says(call(3, "Sum", streams=["u"]), *items, '{"type":3,"invocationId":"u"}')
    plain.hears()
    plain.says(call(4, "Leave", "one"))
    plain.hears()
    polling.lines.append(str(polling.http("DELETE", polled)[0]))
    for client in resumed, plain:
        client.says('{"type":7}')
        client.ends()


def first_line(process):
    """What the server writes first. Nothing if it ends before that."""
    ready, _, _ = select.select([process.stdout], [], [], SECONDS)
    return process.stdout.readline() if ready else b""


def outcome(process, clients, fault):
    """How a server ends, or that it serves on, after all that its clients were told."""
    over = ""
    try:
        session(*clients.values())
    except socket.timeout:
        over = HANGS
    except (Over, Ended, OSError) as ended:
        over = f"over: {ended!r}"
    try:
        # A server whose session is over in another way has ended, or will at once, and so will one that has met its fault last.
        met = (SECONDS if fault.ends else MOMENT) if fault.has_come() else 0
        status = process.wait(SECONDS if over else met)
    except subprocess.TimeoutExpired:
        status = SERVES if not over else over
        process.kill()
    for client in clients.values():
        client.drains()
    return status


def begun_server(program, port, fault):
    """A server of this program that has this fault."""
    words = [program, "serve", "--port", str(port)]
    options = {"stdin": subprocess.DEVNULL, "stdout": subprocess.PIPE, "stderr": subprocess.DEVNULL}
    return ended_at_last(subprocess.Popen(words, **options, env=fault.environment()))


def serve(program, fault):
    """The session, with a server that has this fault: its exit status, what each was told, and who was turned away."""
    port = free_port()
    clients = {name: Told(port) for name in EXPECTED}
    with begun_server(program, port, fault) as process:
        line = first_line(process)
        if line == LINE:
            status = outcome(process, clients, fault)
        else:
            with contextlib.suppress(subprocess.TimeoutExpired):
                process.wait(SECONDS)
            status = HANGS if process.poll() is None else process.returncode
    told = {name: client.lines for name, client in clients.items()}
    return status, {"its output": [line.decode()] * bool(line), **told}, [it for client in clients.values() for it in client.turned]
