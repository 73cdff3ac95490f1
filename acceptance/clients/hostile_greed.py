"""Clients that try to make a server keep much, or keep it busy: one attacker each, on a server of its own with little memory.

An attack is a function of the server that gives what came, and closes what it opened. While it runs, a good client calls `Add` again and
again. What has to hold, by the limits of docs/clients.md and docs/serving.md:

- what came is what the attack has to get;
- the good client was answered each time within MOST_PATIENCE;
- the server never holds more than MOST_GROWN beyond what it held at its beginning, and soon after the attack no more than MOST_LEFT.

Set apart are the texts that were posted, since they are kept for those who ask for the history, whoever posted them: at most
MOST_ROW_BYTES, and ROW_COST for each. That is what rooms are for, and no attack adds to it."""
import contextlib
import json
import os
import socket
import threading
import time

from hostile_http import LATE, NEGOTIATE, SILENCE
from raw import PING_TEXT, Ended, Hub, Raw
from serving import Serving

MIB = 1_024  # KiB
MOST_GROWN = 96 * MIB
MOST_LEFT = 16 * MIB
ADDRESS_SPACE = 1_000_000  # KiB: `ulimit -v` of each of these servers
MOST_ROW_BYTES = 16_384  # KiB of rooms, names and texts, of all rows that a server keeps
ROW_COST = 0.25  # KiB: what a row takes beside its bytes
MOST_PATIENCE = 5  # seconds for an answer; the machine does other things too
SOON = 10  # seconds after the attacker's end until its memory is back
CALLS = 30  # in one message, which has at most 1,048,576 bytes
MOST_SHARED = 4 * MIB  # a copy for each of 300 members would be 27 MB
JSON = '{"protocol":"json","version":1}'
KEPT = '{"protocol":"json","version":2}'
TOO_LONG = "The answer is too long."
WRONG = "Wrong arguments."
TOO_MANY = "Too many groups."
MOST_GROUPS = 256
MOST_WEIGHT = 16_777_216  # of what the live calls of a connection carry
VALUE = 48  # what each value, id, target and list of arguments weighs beside the bytes of its text
FLOODED = "Too many inputs."


class Beside(threading.Thread):
    """A good client, which calls and calls, and sees each time how much memory the server holds."""

    def __init__(self, server):
        super().__init__(daemon=True)
        self.server, self.hub = server, Hub(server.port)
        self.hub.shake()
        self.fault, self.longest, self.most, self.ends = None, 0, 0, threading.Event()
        self.call()

    def call(self):
        began = time.monotonic()
        result = self.hub.call("Add", 2, 3).get("result")
        self.longest = max(self.longest, time.monotonic() - began)
        self.most = max(self.most, self.server.memory() or 0)
        if result != 5:
            raise ValueError(f"2 + 3 is {result}")

    def run(self):
        try:
            while not self.ends.wait(0.02):
                self.call()
        except Exception as wrong:
            self.fault = repr(wrong)

    def told(self):
        self.ends.set()
        self.join(MOST_PATIENCE)
        if self.fault or self.is_alive():
            return f"a good client had {self.fault or 'no answer'}"
        return "others are answered" if self.longest <= MOST_PATIENCE else f"others waited {self.longest:.1f} s"


def under_attack(program, attack, rows):
    """What came of an attack, of which `rows` KiB of texts are kept, on a server of its own."""
    with Serving(program, address_space=ADDRESS_SPACE) as server:
        beside = Beside(server)
        before = beside.most
        beside.start()
        came, others = attack(server), beside.told()
        grown = beside.most - before - rows
        bounded = "memory is bounded" if grown <= MOST_GROWN else f"memory grew by {grown} KiB"
        return ", ".join([came, others, bounded, left(server, before + rows), *server.complaints()])


def left(server, before):
    until = time.monotonic() + SOON
    while (growth := (server.memory() or 0) - before) > MOST_LEFT and time.monotonic() < until:
        time.sleep(0.1)
    return "and back" if growth <= MOST_LEFT else f"not back from {growth} KiB"


def calling(hub, target, lists):
    """Calls with each of these lists of arguments, some at once, and gives the errors that came, or None, in order."""
    came = []
    for begin in range(0, len(lists), CALLS):
        part = lists[begin : begin + CALLS]
        calls = ({"type": 1, "invocationId": str(n), "target": target, "arguments": given} for n, given in enumerate(part))
        hub.say(*map(json.dumps, calls))
        answers = {}
        while len(answers) < len(part):
            heard = hub.hear()
            if heard.startswith("closed"):
                raise Ended(heard)
            answer = json.loads(heard)
            if answer["type"] == 3:
                answers[int(answer["invocationId"])] = answer.get("error")
        came += [answers[n] for n in range(len(part))]
    return came


def attacker(port):
    hub = Hub(port)
    hub.shake()
    return hub


def kinds(errors):
    return " and ".join(sorted({str(error) for error in errors}))


def long_histories(seconds):
    """Texts of which a hundred don't fit in a frame, and calls for them all the time."""

    def attack(server):
        hub = attacker(server.port)
        posted = kinds(calling(hub, "Post", [["a", "x" * 30_000]] * 100))
        until, came = time.monotonic() + seconds, set()
        while time.monotonic() < until:
            came |= set(calling(hub, "History", [["a", 100]] * CALLS))
        hub.close()
        return f"{posted}, {kinds(came)}"

    return attack, 100 * 30


def many_posts(count, size):
    """More bytes of texts than are kept, in many rooms."""

    def attack(server):
        hub = attacker(server.port)
        posted = kinds(calling(hub, "Post", [[f"room {n % 500}", "x" * size] for n in range(count)]))
        hub.close()
        return posted

    return attack, min(MOST_ROW_BYTES, count * size // 1_024) + count * ROW_COST


def long_names(count):
    def attack(server):
        hub = attacker(server.port)
        joined = kinds(calling(hub, "Join", [[f"{n:06}" + "x" * 30_000] for n in range(count)]))
        hub.close()
        return joined

    return attack, 0


def many_groups(server):
    """More groups than a connection may be in. It goes on, and may be in another one once it has left one."""
    hub = attacker(server.port)
    names = [[f"group {n}" + "." * 240] for n in range(MOST_GROUPS + 44)]
    joined = calling(hub, "Join", names)
    first, rest = joined[:MOST_GROUPS], joined[MOST_GROUPS:]
    after = [calling(hub, "Leave", names[:1]), calling(hub, "Join", names[-1:]), calling(hub, "Join", names[:1])]
    served = hub.call("Add", 2, 3).get("result")
    hub.close()
    return f"{kinds(first)}, {kinds(rest)}, {kinds(sum(after, []))}, {served}"


def flood(count):
    """Tokens that nobody uses. Then another client may have one, and use it."""

    def attack(server):
        lane = Raw(server.port)
        asked = f"POST {NEGOTIATE} HTTP/1.1\r\nHost: a\r\n\r\n".encode()
        statuses = set()
        for _ in range(0, count, 100):
            lane.send(asked * 100)
            statuses |= {lane.reply()[0] for _ in range(100)}
        status, body = Raw(server.port).http("POST", NEGOTIATE)
        if status != 200:
            return f"{sorted(statuses)}, and another client gets {status}"
        hub = Hub(server.port, "/hub?id=" + json.loads(body)["connectionToken"])
        hub.shake()
        lane.close()
        return f"{sorted(statuses)}, {hub.call('Add', 2, 3).get('result')}"

    return attack, 0


def heavy_calls(server):
    """Long lists that are kept while their calls wait. As many are taken as may be kept; the next one ends the connection."""
    hub = attacker(server.port)
    nulls = 6_500
    slow = ['{"type":1,"invocationId":"%03d","target":"Slow","arguments":[1000000,[%s]]}' % (n, ",".join(["null"] * nulls)) for n in range(100)]
    weight = VALUE * (5 + nulls) + len("000") + len("Slow")  # an id, a target, the arguments, a number, the list and what is in it
    most = MOST_WEIGHT // weight
    for begin in range(0, most, CALLS):
        hub.say(*slow[begin : min(begin + CALLS, most)])
    served = hub.call("Add", 2, 3).get("result")
    hub.say(slow[most])
    told = hub.hear()
    while '"type":7' not in told and not told.startswith("closed"):
        told = hub.hear()
    hub.close()
    return f"{served}, {json.loads(told).get('error') if told.startswith('{') else told}"


def descriptors(server):
    return len(os.listdir(f"/proc/{server.process.pid}/fd"))


def never_reading(server):
    """Clients that read nothing, but say Pings: of streams, which wait for them until they are cut off; and of answers, until some wait at the
    server; then they say Close. The lanes end though nobody reads what is left, and nobody closes them."""
    had = descriptors(server)
    deaf = [deaf_client(server.port, STREAMS) for _ in range(16)]
    ending = [deaf_client(server.port, []) for _ in range(12)]
    fill(server.port, ending)
    for client in ending:
        client.say('{"type":7}')
    time.sleep(5)
    waited, began = descriptors(server) - had, time.monotonic()
    while descriptors(server) > had and time.monotonic() < began + 2 * SILENCE + LATE:
        time.sleep(1)
        ping_all(deaf)
    open_ones = descriptors(server) - had
    for client in deaf + ending:
        client.close()
    return f"{'lanes' if waited >= len(ending) else waited} wait, and {open_ones} after a minute"


def fill(port, clients):
    """Has these clients ask for answers until the system takes no more of them, so that some wait on their lanes."""
    echoes = ['{"type":1,"invocationId":"%d","target":"Echo","arguments":["%s"]}' % (n, "x" * 32_000) for n in range(8)]
    waiting = {client: [-1, -2] for client in clients}
    while True:
        growing = [client for client in clients if waiting[client][-1] != waiting[client][-2]]
        if not growing:
            return
        for client in growing:
            client.say(*echoes)
        time.sleep(0.3)
        queues = queued(port)
        for client in growing:
            waiting[client].append(queues.get(client.socket.getsockname()[1]))


def queued(port):
    """How many bytes the system holds for the peers of this port's connections, by the ports of these."""
    queues = {}
    with open("/proc/net/tcp") as lines:
        for _, ours, theirs, _, sizes, *_ in map(str.split, list(lines)[1:]):
            if int(ours.split(":")[1], 16) == port:
                queues[int(theirs.split(":")[1], 16)] = int(sizes.split(":")[0], 16)
    return queues


def ping_all(clients):
    for client in clients:
        with contextlib.suppress(OSError):
            client.say(PING_TEXT)


STREAMS = ['{"type":4,"invocationId":"%d","target":"Count","arguments":[1000000]}' % n for n in range(8)]


def deaf_client(port, texts):
    hub = Hub(port)
    hub.socket.setsockopt(socket.SOL_SOCKET, socket.SO_RCVBUF, 4_096)
    with contextlib.suppress(OSError):
        hub.say(JSON, *texts)
    return hub


def members_away(count):
    """Members of a room whose sockets are lost, and so are kept all that is posted: that is one copy for all of them. They come back to
    close."""

    def attack(server):
        lane, targets = Raw(server.port), []
        for _ in range(count):
            _, body = lane.http("POST", NEGOTIATE + "&useStatefulReconnect=true")
            targets.append("/hub?id=" + json.loads(body)["connectionToken"])
            hub = Hub(server.port, targets[-1])
            hub.say(KEPT, '{"type":1,"invocationId":"1","target":"Join","arguments":["a"]}')
            while json.loads(hub.hear()).get("type") != 3:
                pass
            hub.drop()
        hub, before = attacker(server.port), server.memory() or 0
        posted = kinds(calling(hub, "Post", [["a", "x" * 30_000]] * 3))
        growth = (server.memory() or 0) - before
        hub.close()
        back = {back_to_close(server.port, target) for target in targets}
        return f"{posted}, {'one copy' if growth <= MOST_SHARED else f'{growth} KiB'}, {back}"

    return attack, 3 * 30


def back_to_close(port, target):
    """How many texts of 30,000 bytes come, and the status with which the socket is closed."""
    hub, texts = Hub(port, target), 0
    while texts < 3:
        texts += len(hub.hear()) > 30_000
    hub.say('{"type":7}')
    status, _ = hub.closing()
    hub.close()
    return texts, status


FINE = "others are answered, memory is bounded, and back"
# Each is its name, what has to come of it, and the attack with the KiB of texts that are kept of it.
GREEDY_CASES = [
    ("100 posts of 30,000 bytes, and their history again and again", f"None, {TOO_LONG}, {FINE}", *long_histories(4)),
    ("3,000 posts of 10,000 bytes", f"None, {FINE}", *many_posts(3_000, 10_000)),
    ("2,000 names of groups of 30,000 bytes", f"{WRONG}, {FINE}", *long_names(2_000)),
    ("300 groups", f"None, {TOO_MANY}, None and {TOO_MANY}, 5, {FINE}", many_groups, 0),
    ("calls that carry long lists and wait", f"5, {FLOODED}, {FINE}", heavy_calls, 0),
    ("300 members without a socket, and 90,000 bytes for each", f"None, one copy, {{(3, 1000)}}, {FINE}", *members_away(300)),
    ("10,000 tokens that nobody uses", f"[200], 5, {FINE}", *flood(10_000)),
]
SLOW_GREEDY_CASES = [("28 clients that never read", f"lanes wait, and 0 after a minute, {FINE}", never_reading, 0)]
