#!/usr/bin/env python3
"""Has many connections come to `sr serve` and go, in all ways, and looks whether its memory stays. The gate doesn't run it.

    bench/soak_connections.py [--count N] [--processes P] [--threads T] [--seed S] [PROGRAM]

There are N connections (1,000,000 by default), of T clients at once in each of P processes, drawn by the seed. Each joins a room, posts
there and asks for a stream, unless it is cut before: over a WebSocket or by long polling, resumed or not, ended by a Close, a DELETE, a
cut or by silence. First the server is given three times the texts that it keeps, and BEFORE connections, which don't count. Its resident
memory is told after each tenth; after the first and the last half a minute later, when no token waits any more: the second is to be
within MOST_RATIO of the first, no answer wrong, and no descriptor left. PROGRAM is bin/sr by default. The status is 0 if all of that
holds."""
import argparse
import collections
import json
import multiprocessing
import os
import pathlib
import random
import sys
import threading
import time

TOP = pathlib.Path(__file__).resolve().parent.parent
sys.path.insert(0, str(TOP / "acceptance" / "clients"))
from raw import TEXT, Hub, Raw, frame, record  # noqa: E402
from serving import Serving  # noqa: E402

MOST_RATIO = 1.1
ROWS = 65_536  # as many texts as a server keeps
SILENCE = 30  # seconds for which a token lives that isn't used
DRAINED = SILENCE + 5
BEFORE = 30_000  # connections that aren't counted
ROOMS = 100
ITEMS = 20
JSON = '{"protocol":"json","version":%d}'
CLOSE = '{"type":7}'
FIRST = '{"sequenceId":1,"type":9}'


class Wrong(Exception):
    """Something else came than has to."""


def expect(got, wanted):
    if got != wanted:
        raise Wrong(f"{got!r} in place of {wanted!r}")


def calls(draw):
    """A connection's calls: to join, to post and for a stream, of which the last has the id 3."""
    room = f"room {draw.randrange(ROOMS)}"
    called = [(1, "Join", [room]), (1, "Post", [room, "x" * draw.randrange(10, 200)]), (4, "Count", [ITEMS])]
    return [json.dumps({"type": kind, "invocationId": str(n), "target": target, "arguments": given}) for n, (kind, target, given) in enumerate(called, 1)]


def is_last(text):
    message = json.loads(text)
    return message["type"] == 3 and message["invocationId"] == "3"


def hear_all(hub):
    while True:
        heard = hub.hear()
        if heard.startswith("closed"):
            raise Wrong(heard)
        if is_last(heard):
            return


def negotiated(lane, query=""):
    status, body = lane.http("POST", "/hub/negotiate?negotiateVersion=1" + query)
    expect(status, 200)
    return "/hub?id=" + json.loads(body)["connectionToken"]


def opened(port, draw, version=1):
    """A socket on which the calls are under way, its target, and the calls."""
    lane, called = Raw(port), calls(draw)
    target = "/hub" if version == 1 and draw.random() < 0.5 else negotiated(lane, "&useStatefulReconnect=true" if version == 2 else "")
    lane.drop()
    hub = Hub(port, target)
    expect(hub.status, 101)
    expect(hub.shake(version), "{}")
    hub.say(*called)
    return hub, target, called


# How a connection comes and goes. Whoever has seen that it is over ends its side by a reset, which leaves no port waiting.


def closes(port, draw):
    hub, _, _ = opened(port, draw)
    hear_all(hub)
    hub.say(CLOSE)
    while (heard := hub.hear()) != "closed 1000":
        expect(json.loads(heard).get("target"), "Posted")
    return hub


def is_cut(port, draw):
    """In the middle of the stream, or of a frame of its own."""
    hub, _, _ = opened(port, draw)
    if draw.random() < 0.5:
        hub.hear()
    else:
        hub.send(frame(TEXT, record(calls(draw)[1]))[: draw.randrange(1, 60)])
    return hub


def says_half(port, draw):
    """A request that is cut in its head or its body."""
    lane = Raw(port)
    text = b"POST /hub/negotiate?negotiateVersion=1 HTTP/1.1\r\nHost: a\r\nContent-Length: 100\r\n\r\n" + bytes(99)
    lane.send(text[: draw.randrange(1, len(text))])
    return lane


def resumes(port, draw):
    """Cut, and there again: each side says again what the other hasn't acknowledged, which is all."""
    hub, target, called = opened(port, draw, version=2)
    if draw.random() < 0.5:
        hear_all(hub)
    hub.drop()
    hub = Hub(port, target)
    expect(hub.status, 101)
    expect(hub.hear(), FIRST)
    hub.say(FIRST, *called)
    hear_all(hub)
    hub.say(CLOSE)
    while not hub.hear().startswith("closed"):
        pass
    return hub


def is_lost(port, draw):
    """Cut, and awaited for half a minute."""
    return opened(port, draw, version=2)[0]


def polling(port, draw):
    lane = Raw(port)
    target = negotiated(lane)
    expect(lane.http("GET", target), (200, b""))
    expect(lane.http("POST", target, b"".join(map(record, [JSON % 1, *calls(draw)])))[0], 200)
    return lane, target


def polled(lane, target):
    """Polls until the stream has ended."""
    heard = []
    while not any(is_last(text) for text in heard if text != "{}"):
        status, body = lane.http("GET", target)
        expect(status, 200)
        heard = body.decode().split("\x1e")[:-1]


def deletes(port, draw):
    lane, target = polling(port, draw)
    if draw.random() < 0.7:
        polled(lane, target)
    expect(lane.http("DELETE", target)[0], 202)
    return lane


def polls_and_closes(port, draw):
    lane, target = polling(port, draw)
    polled(lane, target)
    expect(lane.http("POST", target, record(CLOSE))[0], 200)
    while (status := lane.http("GET", target)[0]) != 204:
        expect(status, 200)
    return lane


def stops_polling(port, draw):
    return polling(port, draw)[0]


def is_unused(port, draw):
    lane = Raw(port)
    negotiated(lane)
    return lane


# With how often each is drawn. Those that the server awaits for half a minute are few, as it has room for 10,000.
WAYS = {closes: 30, is_cut: 25, says_half: 5, resumes: 15, deletes: 12, polls_and_closes: 12, is_lost: 0.5, stops_polling: 0.5, is_unused: 0.5}


def one(port, draw, told):
    (way,) = draw.choices(list(WAYS), list(WAYS.values()))
    try:
        way(port, draw).drop()
        told[way.__name__] += 1
    except Exception as wrong:
        told[f"{way.__name__}: {wrong!r}"[:200]] += 1


def work(port, seed, count, threads, answers):
    """Some connections, of several clients at once. What became of them is counted by the way, or by what was wrong."""
    told = collections.Counter()
    left = iter(range(count))

    def go_on(number):
        draw = random.Random(f"{seed} {number}")
        for _ in left:
            one(port, draw, told)

    clients = [threading.Thread(target=go_on, args=(number,)) for number in range(threads)]
    for client in clients:
        client.start()
    for client in clients:
        client.join()
    answers.put(told)


def connections(port, asked, count, seed):
    answers = multiprocessing.Queue()
    shares = [count // asked.processes + (number < count % asked.processes) for number in range(asked.processes)]
    words = [(port, f"{seed} {number}", share, asked.threads, answers) for number, share in enumerate(shares)]
    processes = [multiprocessing.Process(target=work, args=each) for each in words]
    for process in processes:
        process.start()
    told = sum((answers.get() for _ in processes), collections.Counter())
    for process in processes:
        process.join()
    return told


def fill(port):
    """Gives the server three times as many texts as it keeps, of the lengths that come later."""
    hub, draw = Hub(port), random.Random(0)
    hub.shake()
    for begin in range(0, 3 * ROWS, 500):
        posts = (["Post", [f"room {draw.randrange(ROOMS)}", "x" * draw.randrange(10, 200)]] for _ in range(500))
        hub.say(*(json.dumps({"type": 1, "invocationId": str(n), "target": target, "arguments": given}) for n, (target, given) in enumerate(posts)))
        for _ in range(500):
            expect("error" in json.loads(hub.hear()), False)
    hub.drop()


def state(server):
    """Its resident memory in KiB, and how many descriptors it has, once no token waits."""
    time.sleep(DRAINED)
    return server.memory(), len(os.listdir(f"/proc/{server.process.pid}/fd"))


def soaked(server, asked):
    """What became of the connections, and the server's state after the first tenth and the last. Others come before, since a small first
    tenth hasn't the peaks of the rest: of those that wait for half a minute, and of what these keep."""
    fill(server.port)
    told, states, begun = collections.Counter(), [], time.monotonic()
    for number in range(BEFORE // 1_000):
        connections(server.port, asked, 1_000, f"{asked.seed} before {number}")
    begun = time.monotonic()
    for tenth in range(1, 11):
        told += connections(server.port, asked, asked.count // 10, f"{asked.seed} {tenth}")
        print(f"{sum(told.values()):,} connections, {time.monotonic() - begun:.0f} s: {server.memory():,} KiB", flush=True)
        if tenth in (1, 10):
            states.append(state(server))
            print("half a minute later {:,} KiB and {} descriptors".format(*states[-1]), flush=True)
    return told, states


def main():
    parser = argparse.ArgumentParser(description=__doc__, formatter_class=argparse.RawDescriptionHelpFormatter)
    for name, default in (("count", 1_000_000), ("processes", 2), ("threads", 8), ("seed", 1)):
        parser.add_argument(f"--{name}", type=int, default=default)
    parser.add_argument("program", nargs="?", default=str(TOP / "bin" / "sr"))
    asked = parser.parse_args()
    with Serving(asked.program) as server:
        told, ((few, had), (many, has)) = soaked(server, asked)
        complaints = server.complaints()
    for what, count in told.most_common():
        print(f"{count:>9,} {what}")
    wrong = sum(count for what, count in told.items() if ":" in what)
    print(f"ratio {many / few:.3f}, {wrong} wrong", *complaints, sep="\n")
    return 0 if many <= MOST_RATIO * few and has <= had and not wrong and not complaints else 1


if __name__ == "__main__":
    sys.exit(main())
