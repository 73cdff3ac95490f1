#!/usr/bin/env python3
"""What `crates/ht_net` is to print of a script: of a door over wires in memory, whose lines are made here, and of a dialer (dialer_model.py).

    acceptance/net_model.py --check [BUILT] | --write      the script and its answers, by hand and by the models (committed.py)
    acceptance/net_model.py --random SEED COUNT BUILT      has that program play so many random sessions, from this seed on

Both go by the model of lanes_model.py, which knows beforehand what the bytes of each connection mean."""
import random
import subprocess
import sys

import committed
import dialer_model
from lanes_model import (ACCEPT, CONTINUE, DRAINED, FREE, FULL, GATHERED_BYTES, PHRASES, Script, closing, frame, message, names_at_random, ping,
                         pieces, refused, reply_text, request, bad_upgrade, talk, upgrade)

NEGOTIATED = (b'{"availableTransports":[{"transferFormats":["Text","Binary"],"transport":"WebSockets"},{"transferFormats":["Text","Binary"],'
              b'"transport":"LongPolling"}],"connectionId":"1","connectionToken":"AAAAAAAAAAAAAAAAAAAAAAAAAAAAAAAB","negotiateVersion":1,'
              b'"useStatefulReconnect":true}')
def by_hand(s):
    s.note("a session: negotiate, and a socket that says one message and hears one")
    asked = request("POST", "/hub/negotiate", "negotiateVersion=1&useStatefulReconnect=true")
    items = [asked, upgrade("/hub"), message(1, b'{"protocol":"json","version":1}\x1e'), closing(1000)]
    s.wire(0, [items[0].data[:20], items[0].data[20:], talk(*items[1:3]), "*", items[3].data, "!"], FREE, items)
    s.start([1000])
    s.next("at 1000 quiet")
    s.next("at 1000 request 0 POST /hub/negotiate ?negotiateVersion=1&useStatefulReconnect=true - - kept -")
    s.reply(0, 200, "json", NEGOTIATED)
    negotiated = b"HTTP/1.1 200 OK\r\nContent-Length: 273\r\nContent-Type: application/json\r\n\r\n" + NEGOTIATED
    s.written(0, negotiated)
    s.next(f"at 1000 request 0 GET /hub ? - {ACCEPT} kept -")
    s.next("at 1000 quiet")
    s.reply(0, 101, accept=ACCEPT)
    upgraded = negotiated + (b"HTTP/1.1 101 Switching Protocols\r\nUpgrade: websocket\r\nConnection: Upgrade\r\n"
                             b"Sec-WebSocket-Accept: s3pPLMBiTxaQ9kYGzzhZRbK+xOo=\r\n\r\n")
    s.written(0, upgraded)
    said = s.next()
    assert said == "at 1000 bytes 0 " + items[2].heard.hex(), said
    s.send(0, b"{}\x1e", True)
    s.written(0, upgraded)
    s.flush()
    s.written(0, upgraded + bytes.fromhex("81037b7d1e"))
    s.next("at 1000 quiet")
    s.next("at 1000 lost 0")
    s.written(0, upgraded + bytes.fromhex("81037b7d1e" "880203e8"))
    s.next("at 1000 quiet")

    s.note("what came with the request for a socket is heard before the wire is read, and so before its end")
    items = [upgrade("/hub"), message(1, b"a"), message(2, b"bc")]
    s.wire(0, [talk(*items), "!"], FREE, items)
    s.start([1])
    s.next(f"at 1 request 0 GET /hub ? - {ACCEPT} kept -")
    s.reply(0, 101, accept=ACCEPT)
    s.next("at 1 bytes 0 61")
    s.next("at 1 bytes 0 6263")
    s.next("at 1 quiet")
    s.shuts(0)
    s.next("at 1 lost 0")
    s.shuts(1)

    s.note("a head of forty headers and 3,000 bytes")
    headers = ["Connection: keep-alive"] + [f"X-{i:02}: {'a' * 60}" for i in range(38)]
    spare = 3000 - len(request("GET", "/hub", "id=1", headers=headers).data)
    headers[-1] += "a" * spare
    browser = request("GET", "/hub", "id=1", headers=headers)
    assert spare >= 0 and len(browser.data) == 3000 and browser.data.count(b"\r\n") == 42
    s.wire(0, [browser.data], FREE, [browser])
    s.start([7])
    s.next("at 7 request 0 GET /hub ?id=1 - - kept -")

    s.note("a wire that takes the 101 and nothing after it: fifteen messages wait, and the sixteenth is too much")
    items = [upgrade("/hub")]
    s.wire(0, [items[0].data], [1 << 20], items)
    s.start([1])
    s.next(f"at 1 request 0 GET /hub ? - {ACCEPT} kept -")
    s.reply(0, 101, accept=ACCEPT)
    for _ in range(15):
        s.fill(0, 65536)
        s.next("at 1 quiet")
    s.fill(0, 65536)
    s.fill(0, 1)
    s.next("at 1 lost 0")
    s.next("at 1 quiet")
    s.written(0, upgraded[len(negotiated):])

    s.note("refusals")
    for status in (400, 411, 413, 431):
        item = refused(status)
        s.wire(0, [item.data], FREE, [item])
    s.start([5])
    for lane, status in enumerate((400, 411, 413)):
        s.next(f"at 5 refused {lane} {status}")
        s.written(lane, f"HTTP/1.1 {status} {PHRASES[status]}\r\nContent-Length: 0\r\nConnection: close\r\n\r\n".encode())
    for _ in range(3):
        s.next("at 5 quiet")
    s.next("at 5 refused 3 431")

    s.note("an upgrade of another version is told which one is known")
    item = bad_upgrade(12)
    s.wire(0, [item.data], FREE, [item])
    s.start([5])
    s.next("at 5 refused 0 400 [Sec-WebSocket-Version: 13]")
    s.written(0, b"HTTP/1.1 400 Bad Request\r\nSec-WebSocket-Version: 13\r\nContent-Length: 0\r\nConnection: close\r\n\r\n")

    s.note("a lane that was shut writes until 30,000 ms are over, and then what waits is dropped")
    for last in (29999, 30000):
        items = [request("GET", "/a")]
        s.wire(0, [items[0].data], [3, 0, 0, 4, 0] + FREE, items)
        s.start([1000, 1000, 1000 + last])
        s.next("at 1000 request 0 GET /a ? - - kept -")
        s.reply(0, 204)
        s.shut(0)
        s.written(0, b"HTT")
        s.next("at 1000 quiet")
        s.next(f"at {1000 + last} quiet")
        s.written(0, b"HTTP/1." if last == 30000 else b"HTTP/1.1 204 No Content\r\n\r\n")
        s.next(f"at {1000 + last} quiet")

    s.note("so does one that was refused")
    for last in (29999, 30000):
        s.wire(0, [refused(411).data], [2, 0, 1, 0] + FREE, [refused(411)])
        s.start([7, 7, 7 + last])
        s.next("at 7 refused 0 411")
        s.written(0, b"HT")
        s.next("at 7 quiet")
        s.next(f"at {7 + last} quiet")
        s.written(0, b"HTT" if last == 30000 else b"HTTP/1.1 411 Length Required\r\nContent-Length: 0\r\nConnection: close\r\n\r\n")

    s.note("so does a WebSocket that is gone, also in calls in which another lane is heard")
    for last in (29999, 30000):
        items = [upgrade("/hub"), closing(1000)]
        others = [request("GET", f"/{i}") for i in range(3)]
        s.wire(0, [items[0].data, items[1].data], [1 << 20, 1, 0] + FREE, items)
        s.wire(0, [talk(*others[:2]), "*", others[2].data], FREE, others)
        s.start([9, 9, 9, 9 + last])
        s.next(f"at 9 request 0 GET /hub ? - {ACCEPT} kept -")
        s.reply(0, 101, accept=ACCEPT)
        s.next("at 9 request 1 GET /0 ? - - kept -")
        s.written(0, upgraded[len(negotiated):])
        s.reply(1, 204)
        s.next("at 9 lost 0")
        s.written(0, upgraded[len(negotiated):] + bytes.fromhex("88"))
        s.next(f"at {9 + last} request 1 GET /1 ? - - kept -")
        s.written(0, upgraded[len(negotiated):] + bytes.fromhex("88" if last == 30000 else "880203e8"))

    s.note("a lane that waits for 30,000 ms is shut, and one that owes a reply isn't")
    items = [request("GET", "/a")]
    s.wire(0, [items[0].data], FREE, items)
    s.wire(0, [b"GET /b"], FREE, [request("GET", "/b")])
    s.start([10, 10, 30009, 30010, 50000, 60010, 79999, 80000])
    s.next("at 10 request 0 GET /a ? - - kept -")
    s.next("at 10 quiet")
    s.next("at 30009 quiet")
    s.next("at 30010 lost 1")
    s.next("at 50000 quiet")
    s.reply(0, 204)
    s.written(0, b"HTTP/1.1 204 No Content\r\n\r\n")
    s.next("at 60010 quiet")
    s.next("at 79999 quiet")
    s.next("at 80000 lost 0")

    s.note("two requests at once, the second heard after the first is replied to, and the end after both")
    items = [request("GET", "/1"), request("POST", "/2", body=b"ab", close=True)]
    s.wire(0, [talk(*items), "!"], FREE, items)
    s.start([1])
    s.next("at 1 request 0 GET /1 ? - - kept -")
    s.reply(0, 200, "octets", b"x")
    s.next("at 1 request 0 POST /2 ? - - shut 6162")
    s.reply(0, 202)
    s.shut(0)
    s.written(0, reply_text(200, "octets", b"x") + reply_text(202))
    s.next("at 1 quiet")
    s.reply(0, 200)
    s.send(0, b"a", True)
    s.shut(0)
    s.shut(7)

    s.note("a body that is expected is asked for, once, and before anything else is said")
    item = request("POST", "/e", body=b"abcdef", expects=True)
    half = len(item.data) - 3
    s.wire(0, [item.data[:10], item.data[10:-6], "*", item.data[-6:half], item.data[half:]], FREE, [item])
    s.start([1])
    s.next("at 1 quiet")
    s.written(0, b"")
    s.next("at 1 quiet")
    s.written(0, CONTINUE)
    for _ in range(2):
        s.next("at 1 quiet")
        s.written(0, CONTINUE)
    s.next("at 1 request 0 POST /e ? - - kept 616263646566")
    s.written(0, CONTINUE)
    s.reply(0, 204)
    s.written(0, CONTINUE + b"HTTP/1.1 204 No Content\r\n\r\n")

    s.note("a body that came with its head isn't asked for, nor one that nobody expects to be asked for")
    items = [item, request("POST", "/f", body=b"abc")]
    s.wire(0, [items[0].data, items[1].data[:-1], items[1].data[-1:]], FREE, items)
    s.start([1])
    s.next("at 1 request 0 POST /e ? - - kept 616263646566")
    s.reply(0, 204)
    s.next("at 1 quiet")
    s.next("at 1 request 0 POST /f ? - - kept 616263")
    s.written(0, b"HTTP/1.1 204 No Content\r\n\r\n")

    s.note("the head of the next request counts as read once the one before is replied to, also where the rest comes in the same turn")
    first = request("GET", "/g")
    s.wire(0, [first.data + item.data[:half], item.data[half:]], FREE, [first, item])
    s.wire(0, [first.data + item.data[:half], "*", item.data[half:]], FREE, [first, item])
    s.wire(0, [first.data + item.data[:half], item.data[half:]], FREE, [first, item])
    s.start([1])
    for lane in range(3):
        s.next(f"at 1 request {lane} GET /g ? - - kept -")
        s.written(lane, b"")
    s.reply(0, 204)
    s.written(0, b"HTTP/1.1 204 No Content\r\n\r\n")
    s.next("at 1 request 0 POST /e ? - - kept 616263646566")
    s.written(0, b"HTTP/1.1 204 No Content\r\n\r\n" + CONTINUE)
    # While the reply was owed the rest came too: the whole body is held once the head counts as read.
    s.next("at 1 quiet")
    s.reply(2, 204)
    s.next("at 1 request 2 POST /e ? - - kept 616263646566")
    s.written(2, b"HTTP/1.1 204 No Content\r\n\r\n")
    s.reply(1, 204)
    s.next("at 1 request 1 POST /e ? - - kept 616263646566")
    s.written(1, b"HTTP/1.1 204 No Content\r\n\r\n")

    s.note("lanes are heard in turns, and a wire that is written in pieces")
    asked = [request("GET", f"/{i}") for i in range(6)]
    for i in range(3):
        s.wire(0, [talk(asked[2 * i], asked[2 * i + 1])], [3, 0, 4] + FREE, asked[2 * i:2 * i + 2])
    s.start([1])
    for lane, path in ((0, 0), (1, 2), (2, 4)):
        s.next(f"at 1 request {lane} GET /{path} ? - - kept -")
    for lane in range(3):
        s.reply(lane, 204)
        s.written(lane, b"HTT")
    for lane, path in ((0, 1), (1, 3), (2, 5)):
        s.next(f"at 1 request {lane} GET /{path} ? - - kept -")
        for wire in range(3):
            s.written(wire, b"HTTP/1.1 204 No Content\r\n\r\n")

    s.note("the lane that is named is heard first, and the order of all goes on where it was")
    asked = [request("GET", f"/{i}") for i in range(8)]
    for i in range(4):
        s.wire(0, [talk(asked[2 * i], asked[2 * i + 1])], FREE, asked[2 * i:2 * i + 2])
    s.name([None, None, None, None, 3, 7, None, 1, 1])
    s.start([1])
    for lane, path in ((0, 0), (1, 2), (2, 4), (3, 6)):
        s.next(f"at 1 request {lane} GET /{path} ? - - kept -")
    for lane in range(4):
        s.reply(lane, 204)
    for lane, path in ((3, 7), (0, 1), (1, 3), (2, 5)):
        s.next(f"at 1 request {lane} GET /{path} ? - - kept -")
    s.next("at 1 quiet")

    s.note("a lane that is never named is heard all the same: the sixty-fifth search in a row begins where the order of all is")
    asked = [request("GET", f"/{i}") for i in range(130)]
    s.wire(0, [talk(*asked)], FREE * 4, asked)
    s.wire(0, [asked[0].data], FREE, asked[:1])
    s.name([0] * 200)
    s.start([1])
    for path in range(129):
        s.next(f"at 1 request 0 GET /{path} ? - - kept -")
        s.reply(0, 204)
    s.next("at 1 request 1 GET /0 ? - - kept -")
    s.next("at 1 request 0 GET /129 ? - - kept -")

    s.note("failing calls: of poll and accept the door's, of a wire its lane's")
    items = [request("GET", "/f")]
    s.wire(0, [items[0].data], FREE, items)
    s.wire(0, [items[0].data], FREE, items)
    s.start([1, 2, 3, 4, 5, 6, 7, 8], [0, 2, 5, 10, 15])
    s.next("failed")
    s.next("failed")
    s.next("at 2 lost 0")
    s.next("at 3 request 1 GET /f ? - - kept -")
    s.reply(1, 200)
    s.next("at 4 lost 1")
    s.written(1, b"")
    s.next("failed")
    s.next("at 6 quiet")
    s.note("no action")
    s.say("next", "no action: next")
    s.say("reply 0 200 text - -", "no action: reply 0 200 text - -")
    s.say("door 2,1 -", "no action: door 2,1 -")


# A message of a server has a head of two bytes, of four from 126 bytes on and of ten from 65,536 bytes on (RFC 6455, section 5.2). After one
# of so many bytes, on a lane on which nothing else waits, 262,144 bytes wait, or one more, and then the lane is full.
BEFORE_FULL, FULLEST = 262134, 262135
UPGRADED = reply_text(101, accept=ACCEPT)
assert len(UPGRADED) == 129


def sockets(s, moments, *wires, names=(), failing=(), others=()):
    """A door with a WebSocket on each wire: what its writes take after the 101, and then what its further reads give, a list of items each, or
    `*` or `!`. Until the door hears nothing more it is at the first moment. From the moment 2 on others come, with a request each."""
    if names:
        s.name([None] * (len(wires) + 1) + list(names))
    for writes, *reads in wires:
        items = [upgrade("/hub"), *(item for read in reads if not isinstance(read, str) for item in read)]
        data = [read if isinstance(read, str) else talk(*read) for read in reads]
        s.wire(0, [items[0].data, "*", *data], [len(UPGRADED), *writes], items)
    for item in others:
        s.wire(2, [item.data], [], [item])
    s.start(moments[:1] * len(wires) + moments, failing)
    for lane in range(len(wires)):
        s.next(f"at {moments[0]} request {lane} GET /hub ? - {ACCEPT} kept -")
        s.reply(lane, 101, accept=ACCEPT)
    s.next(f"at {moments[0]} quiet")


def becomes_full(s):
    s.note("a lane is full once 262,145 bytes wait after a message, heads and all, and not at 262,144")
    sockets(s, [1], [[]], [[]])
    s.fill(0, BEFORE_FULL, "sent")
    s.fill(1, FULLEST, "sent, full")
    s.fill(0, 0, "sent, full")
    s.taken(0, 129)

    s.note("so it is after several messages; what the wire took doesn't count, and what waits of the 101 does")
    sockets(s, [1], [[]], [[]], [[1, 0]])
    for lane, last, said in ((0, 65502, "sent"), (1, 65503, "sent, full")):
        for _ in range(3):
            s.fill(lane, 65536, "sent")
        s.fill(lane, last, said)
    s.fill(2, FULLEST, "sent")
    s.taken(2, 130)
    for count, said in ((BEFORE_FULL - 119, "sent"), (FULLEST - 119, "sent, full")):
        s.wire(0, [upgrade("/hub").data], [10], [upgrade("/hub")])
        s.start([1])
        s.next(f"at 1 request 0 GET /hub ? - {ACCEPT} kept -")
        s.reply(0, 101, accept=ACCEPT)
        s.fill(0, count, said)
        s.taken(0, 10)

    s.note("1,048,576 bytes may wait on a full lane, and with more it is lost, and not full")
    sockets(s, [1], [[]])
    for said in ("sent", "sent, full", "sent, full", "sent, full"):
        s.fill(0, BEFORE_FULL, said)
    s.next("at 1 quiet")
    s.shuts(0)
    s.fill(0, 0, "sent")
    s.shuts(1)
    s.fill(0, 0, "sent")
    s.next("at 1 lost 0")
    s.waited(0)
    s.next("at 1 quiet")
    s.waited(100)
    s.shuts(1)

    s.note("no lane is full that is shut, gone or none, or that is no WebSocket; one stays so if it can't send, as the text is none")
    sockets(s, [1], [[]], [[]])
    for lane in (0, 1):
        s.fill(lane, FULLEST, "sent, full")
    s.send(0, b"\xff", True, "sent, full")
    s.fill(0, 0, "sent, full")
    s.shut(1)
    s.fill(1, FULLEST, "sent")
    s.next("at 1 lost 0")
    s.fill(0, FULLEST, "sent")
    s.wire(0, [], [])
    s.start([1])
    for _ in range(2):
        s.fill(0, FULLEST, "sent")
        s.next("at 1 quiet")


def drains(s):
    s.note("a full lane has drained once 65,536 bytes wait, and not at 65,537: it is heard once, in its next turn, for which no wire waits")
    # One write is tried of the message, and in each call one before the poll, and one after the lane's turn if something is left.
    sockets(s, [1], [[0, 196608, 0, 0, 0, 1, 0, 0, 65000, 0, 0, 0, 1 << 20]])
    s.fill(0, FULLEST, "sent, full")
    for taken in (129 + 196608, 129 + 196609):
        s.next("at 1 quiet")
        s.waited(100)
        s.taken(0, taken)
    s.next("at 1 drained 0")
    s.waited(0)
    s.taken(0, 129 + 196609 + 65000)
    s.fill(0, 0, "sent")
    for taken in (129 + 196609 + 65000, 129 + 262147):
        s.next("at 1 quiet")
        s.waited(100)
        s.taken(0, taken)

    s.note("where so much is written before the poll it is heard in that call, and after a flush in the next")
    sockets(s, [1], [[0, 196608, 0, 0, 1, 0]], [[0, 0, 0, 196609, 0]])
    for lane in (0, 1):
        s.fill(lane, FULLEST, "sent, full")
    s.next("at 1 quiet")
    s.waited(100)
    s.next("at 1 drained 0")
    s.waited(0)
    s.taken(0, 129 + 196609)
    s.taken(1, 129 + 196609)
    s.next("at 1 drained 1")
    s.waited(0)
    sockets(s, [1], [[0, 196609, 0]])
    s.fill(0, FULLEST, "sent, full")
    s.flush()
    s.next("at 1 drained 0")
    s.waited(0)
    s.next("at 1 quiet")
    s.waited(100)

    s.note("so is a lane of which all is written, and it may be full again, which is heard again")
    sockets(s, [1], [[0, 0, 1 << 20, 0, 0, 1 << 20]])
    for _ in range(2):
        s.fill(0, FULLEST, "sent, full")
        s.next("at 1 quiet")
        s.next("at 1 drained 0")
        s.waited(0)
    s.next("at 1 quiet")
    s.waited(100)
    s.taken(0, 129 + 2 * 262145)

    s.note("a message after which 65,536 bytes wait is answered by false, and nothing more is heard of it; at 65,537 the lane stays full")
    sockets(s, [1], [[0, 196610, 0, 3, 0, 0, 0, 0, 0, 0, 0, 0, 1 << 20]])
    s.fill(0, FULLEST, "sent, full")
    s.fill(0, 0, "sent, full")
    s.fill(0, 0, "sent")
    for _ in range(2):
        s.next("at 1 quiet")
        s.waited(100)
    s.fill(0, 196598, "sent")
    s.fill(0, 0, "sent, full")
    s.next("at 1 quiet")
    s.next("at 1 drained 0")
    s.waited(0)

    s.note("so it is where it had drained before the message, and wasn't heard; nothing is written of one after which 65,535 wait")
    sockets(s, [1], [[0, 0, 196609, 0, 0, 0, 2, 0]], [[0, 0, 196609, 0, 2, 0]], [[0, 0, 196612, 0, 1]])
    for lane in range(3):
        s.fill(lane, FULLEST, "sent, full")
    s.next("at 1 quiet")
    s.fill(0, 0, "sent, full")
    s.fill(1, 0, "sent")
    s.fill(2, 0, "sent")
    s.taken(1, 129 + 196609 + 2)
    s.taken(2, 129 + 196612)
    s.next("at 1 quiet")
    s.waited(100)
    s.next("at 1 drained 0")
    s.waited(0)
    s.next("at 1 quiet")
    s.waited(100)


def ends_full(s):
    s.note("of a lane that has drained nothing is heard once it was shut")
    sockets(s, [1], [[0, 0, 196609, 0, 1 << 20]], [[0, 0, 0, 0, 1 << 20]])
    s.fill(0, FULLEST, "sent, full")
    s.fill(1, FULLEST, "sent, full")
    s.next("at 1 quiet")
    s.shut(0)
    s.shut(1)
    s.shuts(1)
    for shuts in (2, 2):
        s.next("at 1 quiet")
        s.waited(100)
        s.shuts(shuts)
    s.taken(0, 129 + 262145 + 4)
    s.taken(1, 129 + 262145 + 4)

    s.note("nor once it is lost, and it is heard before what comes after it: the end, and a write that fails")
    sockets(s, [1], [[0, 0, 0, 0], "*", "!"], [[0, 0, 196609, 0], "*", "!"])
    s.fill(0, FULLEST, "sent, full")
    s.fill(1, FULLEST, "sent, full")
    s.next("at 1 quiet")
    s.next("at 1 lost 0")
    s.waited(0)
    s.next("at 1 drained 1")
    s.next("at 1 lost 1")
    s.next("at 1 quiet")
    s.shuts(2)
    for failing in (17, 14):
        # The call of number 14 is the write of a message after the lane has drained, or before a poll, and 17 is the write once that is heard.
        sockets(s, [1], [[0, 0, 196609, 0, 0]], failing=[failing])
        s.fill(0, FULLEST, "sent, full")
        s.next("at 1 quiet")
        if failing == 14:
            s.fill(0, 0, "sent")
        else:
            s.next("at 1 drained 0")
        s.shuts(1)
        s.next("at 1 lost 0")
        s.next("at 1 quiet")
    sockets(s, [1], [[0, 0, 196609, 0]], failing=[14])
    s.fill(0, FULLEST, "sent, full")
    s.next("at 1 quiet")
    s.next("at 1 lost 0")
    s.waited(0)
    s.shuts(1)


def stalls(s):
    s.note("a full lane on which nothing is written for 30,000 ms from its first turn on is lost, in the turn after the one that finds so")
    sockets(s, [1000, 5000, 34999, 35000, 35000], [[]])
    s.fill(0, FULLEST, "sent, full")
    for now in (5000, 34999, 35000):
        s.next(f"at {now} quiet")
        s.waited(100)
        s.fill(0, 0, "sent, full")
    s.shuts(0)
    s.next("at 35000 lost 0")
    s.waited(100)
    s.shuts(1)
    s.fill(0, 0, "sent")
    s.next("at 35000 quiet")
    s.shuts(1)
    s.taken(0, 129)

    s.note("its time begins anew with each turn after something was written, also if that was after the turn that found it late")
    moments = [1, 1, 30000, 59999, 60000, 70000, 99999, 100000, 100001, 130000, 130001, 130001]
    # Two writes are tried in each call, and one of the second message: they take 1 at 30,000, with that message, and before the poll at 100,001.
    sockets(s, moments, [[0, 0, 0, 0, 1, 0, 0, 0, 0, 0, 1, 0, 0, 0, 0, 0, 0, 0, 1, 0]])
    s.fill(0, FULLEST, "sent, full")
    for now in (1, 30000, 59999, 60000):
        s.next(f"at {now} quiet")
    s.taken(0, 130)
    s.fill(0, 0, "sent, full")
    s.taken(0, 131)
    for now in (70000, 99999, 100000):
        s.next(f"at {now} quiet")
    s.taken(0, 131)
    for now in (100001, 130000, 130001):
        s.next(f"at {now} quiet")
        s.taken(0, 132)
    s.next("at 130001 lost 0")
    s.shuts(1)

    s.note("calls in which another lane is heard are no turns: its time doesn't begin with them, but what is written in them counts")
    a, b, c, d = [message(2, data) for data in (b"a", b"b", b"c", b"d")]
    names = [1, 1, None, None, None, 1, None, None, 1, None]
    moments = [1, 40000, 80000, 80000, 109999, 110000, 110000, 140000, 170000, 170000, 170000]
    # Where the other is heard one write is tried of this lane, before the poll, and two where nothing is: in the call that hears c it takes 1.
    sockets(s, moments, [[0, 0, 0, 0, 0, 0, 0, 0, 0, 1, 0]], [[], [a, b], "*", "*", [c], "*", [d]], names=names)
    s.fill(0, FULLEST, "sent, full")
    s.next("at 40000 bytes 1 61")
    s.next("at 80000 bytes 1 62")
    for now in (80000, 109999, 110000):
        s.next(f"at {now} quiet")
    s.next("at 110000 bytes 1 63")
    s.taken(0, 130)
    for now in (140000, 170000):
        s.next(f"at {now} quiet")
    s.next("at 170000 bytes 1 64")
    s.shuts(0)
    s.next("at 170000 lost 0")
    s.shuts(1)

    s.note("one that was late and has drained is heard as drained, and one that isn't full may be silent for as long as it likes")
    sockets(s, [1, 1, 30001, 30001, 90000, 150000], [[0, 0, 0, 0, 0, 196611, 0]])
    s.fill(0, FULLEST, "sent, full")
    for now in (1, 30001):
        s.next(f"at {now} quiet")
    s.fill(0, 0, "sent")
    for now in (30001, 90000, 150000):
        s.next(f"at {now} quiet")
    sockets(s, [1, 1, 30001, 30001, 30001], [[0, 0, 0, 0, 0, 196609, 0]], [[], "*", "*", [a]], names=[None, None, 1, None])
    s.fill(0, FULLEST, "sent, full")
    for now in (1, 30001):
        s.next(f"at {now} quiet")
    s.next("at 30001 bytes 1 61")
    s.next("at 30001 drained 0")
    s.waited(0)

    s.note("a full lane is read and heard as any other, and what it says itself waits behind the messages")
    sockets(s, [1], [[0], [a, ping(b"?")], [b, closing(1000)]])
    s.fill(0, FULLEST, "sent, full")
    for heard in ("bytes 0 61", "quiet", "bytes 0 62"):
        s.next(f"at 1 {heard}")
        s.fill(0, 0, "sent, full")
    s.next("at 1 lost 0")
    s.fill(0, 0, "sent")
    s.next("at 1 quiet")


ASKED = request("GET", "/")


def beside(s, writes, names, failing=()):
    """A door with a WebSocket, whose writes take so much after the 101, and for each name a wire that comes in a call of its own: its request
    is heard, from the lane 1 on, and isn't replied to. So no lane is awake, and the WebSocket has no turn where one of these is named."""
    sockets(s, [1, 2], [writes], names=names, failing=failing, others=[ASKED] * len(names))


def asks(lane):
    return f"at 2 request {lane} GET / ? - - kept -"


def waits_for_a_call(s):
    s.note("what is sent waits for a flush or the next call, and all that waits on a lane goes out in one write")
    sockets(s, [1], [[6, 3]])
    s.flush()
    s.send(0, b"a", False, "sent")
    s.send(0, b"b", True, "sent")
    s.written(0, UPGRADED)
    for _ in range(2):
        s.flush()
        s.written(0, UPGRADED + bytes.fromhex("820161" "810162"))
    s.send(0, b"c", False, "sent")
    s.taken(0, 129 + 6)
    s.next("at 1 quiet")
    s.waited(100)
    s.written(0, UPGRADED + bytes.fromhex("820161" "810162" "820163"))

    s.note("65,535 bytes wait, and 65,536 are written at once, in several messages too; what the wire leaves waits with what is sent next")
    sockets(s, [1], [[65535]], [[65536]], [[65536]], [[1, 0, 65538]])
    s.fill(0, 65531, "sent")
    s.fill(1, 65532, "sent")
    s.fill(2, 65529, "sent")
    s.taken(2, 129)
    s.fill(2, 1, "sent")
    s.fill(3, 65532, "sent")
    for lane, taken in enumerate((0, 65536, 65536, 1)):
        s.taken(lane, 129 + taken)
    s.fill(3, 1, "sent")
    s.taken(3, 129 + 65539)
    s.flush()
    for lane, taken in enumerate((65535, 65536, 65536, 65539)):
        s.taken(lane, 129 + taken)

    s.note("a flush on a wire that takes nothing leaves what waits, and none writes on a lane that was shut")
    sockets(s, [1], [[0, 2, 0, 1]], [[0, 7]])
    s.send(1, b"a", False, "sent")
    s.shut(1)
    s.send(0, b"a", False, "sent")
    for taken in (0, 2, 3):
        s.flush()
        s.taken(0, 129 + taken)
        s.taken(1, 129)
    s.shuts(0)
    s.next("at 1 quiet")
    s.taken(1, 129 + 3 + 4)
    s.shuts(1)

    s.note("a shut takes along what waited, and on another lane it goes on waiting")
    sockets(s, [1], [[7]], [[3]])
    s.send(0, b"a", False, "sent")
    s.send(1, b"b", False, "sent")
    s.shut(0)
    s.written(0, UPGRADED + bytes.fromhex("820161" "880203e8"))
    s.shuts(1)
    s.taken(1, 129)
    s.flush()
    s.taken(1, 129 + 3)

    s.note("so does a reply, which is flushed as messages are where the wire didn't take it")
    s.wire(0, [ASKED.data, ASKED.data], [3, 0, 5, 0, 0, 0, 46], [ASKED] * 2)
    s.start([1])
    for taken in (3, 2 * 27):
        s.next("at 1 request 0 GET / ? - - kept -")
        s.reply(0, 204)
        s.taken(0, taken)
        s.flush()
        s.taken(0, max(8, taken))


def fails_to_write(s):
    s.note("a flush whose write fails ends the lane, which is heard as lost in the next call, or in the one that flushed")
    # The call of number 7 is the first after the WebSocket is there.
    for flushes in (True, False):
        sockets(s, [1], [[3]], failing=[7])
        s.send(0, b"a", False, "sent")
        if flushes:
            s.flush()
            s.shuts(1)
            s.send(0, b"b", False, "sent")
            s.flush()
        s.next("at 1 lost 0")
        s.waited(0)
        s.shuts(1)
        s.taken(0, 129)
        s.next("at 1 quiet")

    s.note("the others are written all the same, each in the order in which something began to wait there")
    for failed, other in ((0, 1), (1, 0)):
        # With two wires it is that of number 12.
        sockets(s, [1], [[3]], [[3]], failing=[12])
        for lane in (failed, other):
            s.send(lane, b"a", False, "sent")
        s.flush()
        s.shuts(1)
        s.taken(failed, 129)
        s.taken(other, 129 + 3)
        s.next(f"at 1 lost {failed}")

    s.note("a call that fails writes what waits: what was sent before it, and what the write before the poll left")
    # The first call is 7 to 9. In the second nothing is written first: 10 is the poll, 11 accepts, and the write is 11 or 12.
    for failing in (10, 11):
        beside(s, [3, 3], [(1, 99), (1, 99), (2, 99)], failing=[failing])
        s.next(asks(1))
        s.send(0, b"a", False, "sent")
        s.next("failed")
        s.waited(0)
        s.taken(0, 129 + 3)
        s.send(0, b"b", False, "sent")
        s.next(asks(2))
        s.waited(0)
        s.taken(0, 129 + 3)
    for failing in (8, 9):
        sockets(s, [1], [[0, 3]], failing=[failing])
        s.send(0, b"a", False, "sent")
        s.next("failed")
        s.waited(100)
        s.taken(0, 129 + 3)
    # 7 and 9 write, and 8 is the poll.
    sockets(s, [1], [[0, 3]], failing=[8, 9])
    s.send(0, b"a", False, "sent")
    s.next("failed")
    s.shuts(1)
    s.next("at 1 lost 0")
    s.waited(0)
    s.taken(0, 129)


def gathers(s):
    s.note("while the wires name another one a call writes nothing first, and its poll doesn't wait: 31 in a row after a flush, and then one writes")
    beside(s, [3, 96, 3], [(lane, 99) for lane in range(1, 36)])
    s.next(asks(1))
    s.waited(100)
    s.send(0, b"a", False, "sent")
    s.next(asks(2))
    s.waited(0)
    s.taken(0, 129)
    s.flush()
    s.taken(0, 129 + 3)
    for lane in range(3, 34):
        s.send(0, b"a", False, "sent")
        s.next(asks(lane))
        s.waited(0)
        s.taken(0, 129 + 3)
    s.send(0, b"a", False, "sent")
    s.next(asks(34))
    s.waited(100)
    s.taken(0, 129 + 3 + 96)
    s.send(0, b"a", False, "sent")
    s.next(asks(35))
    s.waited(0)
    s.taken(0, 129 + 3 + 96)

    s.note("a lane on which nothing is heard in its own turn writes there, so nothing waits after a quiet call")
    s.next("at 2 quiet")
    s.waited(0)
    s.taken(0, 129 + 3 + 96 + 3)

    s.note("so it is with the calls after one message: 31 write nothing")
    beside(s, [3], [(lane, 99) for lane in range(1, 34)])
    s.next(asks(1))
    s.send(0, b"a", False, "sent")
    for lane in range(2, 33):
        s.next(asks(lane))
        s.waited(0)
        s.taken(0, 129)
    s.next(asks(33))
    s.waited(100)
    s.taken(0, 129 + 3)

    s.note("nothing is gathered where none is named, or only the one that was heard last; where another is, it may be one of no lane")
    for name, wait, taken in ((None, 100, 3), (0, 0, 0), (1, 100, 3), (99, 0, 0)):
        beside(s, [3], [name, (2, 99)])
        s.next(asks(1))
        s.send(0, b"a", False, "sent")
        s.next(asks(2))
        s.waited(wait)
        s.taken(0, 129 + taken)
    # The call of number 7 is the first poll after the WebSocket is there, after which this is named and nothing is searched.
    for name, wait, taken in ((0, 100, 3), (5, 0, 0)):
        beside(s, [3], [name, (1, 99)], failing=[7])
        s.next("failed")
        s.send(0, b"a", False, "sent")
        s.next(asks(1))
        s.waited(wait)
        s.taken(0, 129 + taken)

    s.note("nor where nothing was sent since the last flush, though something waits, or where all was written at once")
    beside(s, [0, 0, 3, 65536, 3], [(lane, 99) for lane in range(1, 7)])
    s.next(asks(1))
    s.send(0, b"a", False, "sent")
    s.flush()
    for lane, taken in ((2, 0), (3, 3)):
        s.next(asks(lane))
        s.waited(100)
        s.taken(0, 129 + taken)
    s.fill(0, 65532, "sent")
    s.taken(0, 129 + 3 + 65536)
    s.next(asks(4))
    s.waited(100)
    s.send(0, b"a", False, "sent")
    s.next(asks(5))
    s.waited(0)
    s.taken(0, 129 + 3 + 65536)

    s.note("where another lane is heard a WebSocket that closes goes on writing, and one that doesn't waits")
    beside(s, [0, 3, 0, 4], [(1, 99), (2, 99), (3, 99)])
    s.next(asks(1))
    s.send(0, b"a", False, "sent")
    s.next(asks(2))
    s.taken(0, 129)
    s.shut(0)
    s.taken(0, 129)
    s.next(asks(3))
    s.taken(0, 129 + 3)


def conversation(rng):
    """Items of one client, and whether its upgrade is to be accepted."""
    items = []
    for _ in range(rng.randrange(4)):
        body = rng.randbytes(rng.choice([0, 0, 1, 300, 5000]))
        items.append(request(rng.choice(["GET", "POST", "DELETE"]), f"/{rng.randrange(9)}", rng.choice(["", "id=7"]), body, rng.random() < 0.2,
                             expects=rng.random() < 0.3))
    end = rng.random()
    if end < 0.2:
        items.append(refused(rng.choice([400, 411, 413, 431])) if rng.random() < 0.8 else bad_upgrade(8))
    elif end < 0.8:
        items.append(upgrade("/hub"))
        for _ in range(rng.randrange(6)):
            size = rng.choice([0, 1, 125, 126, 5000])
            items.append(message(2, rng.randbytes(size)) if rng.random() < 0.7 else ping(rng.randbytes(rng.randrange(126))))
        if rng.random() < 0.5:
            items.append(closing(rng.choice([1000, 1001])))
    return items


def at_random(s, seed, steps=60):
    rng = random.Random(seed)
    s.note(f"at random, from {seed}")
    moment = 0
    for _ in range(rng.randrange(1, 5)):
        items = conversation(rng)
        writes = [rng.choice([0, 1, 10, 100, 1 << 20, 1 << 20]) for _ in range(rng.randrange(60))]
        moment += rng.randrange(3) * rng.randrange(9)
        s.wire(moment, pieces(rng, talk(*items)), writes, items)
    moments = sorted(rng.randrange(rng.choice([100, 100000])) for _ in range(steps))
    if seed % 2:
        s.name(names_at_random(rng, steps))
    s.start(moments, [rng.randrange(200) for _ in range(rng.choice([0, 0, 1, 5]))])
    for _ in range(steps):
        for lane in list(s.door.lanes):
            act = rng.random()
            if lane.busy and not lane.socket and act < 0.7:
                if lane.asked.upgrade:
                    s.reply(lane.number, 101, accept=ACCEPT)
                else:
                    status = rng.choice([200, 202, 204, 404])
                    s.reply(lane.number, status, rng.choice(["none", "json", "octets"]), b"" if status == 204 else rng.randbytes(rng.choice([0, 2, 200])))
            elif act < 0.3:
                text = rng.random() < 0.3
                s.send(lane.number, rng.randbytes(rng.choice([0, 3, 200])) if not text else rng.choice([b"hey", b"\xff"]), text)
            elif act > 0.98:
                s.shut(lane.number)
            elif act > 0.96 and not (lane.busy and lane.asked.upgrade):
                # After an upgrade that was declined the frames would be read as requests, of which a conversation says nothing.
                s.reply(lane.number, 500)
        if rng.random() < 0.1:
            s.flush()
        s.next()
        s.waited()
    for wire in range(5):
        s.written(wire)


def payload_for(count):
    """How many bytes a message of a server has whose frame has this many, or None if none has."""
    return next((count - head for head in (2, 4, 10) if count >= head and len(frame(2, bytes(count - head), None)) == count), None)


def to_the_byte(rng, lane):
    """A message after which as many bytes wait as a lane may have that isn't full, has drained, or is gathered, or one more."""
    writes = lane.wire.writes
    takes = sum(writes[:writes.index(0)] if 0 in writes else writes)
    wanted = rng.choice([FULL, DRAINED, GATHERED_BYTES - 1]) + rng.randrange(2) + takes - len(lane.out)
    return payload_for(wanted) if 0 < wanted < 2 * FULL else None


def full_at_random(s, seed, steps=60):
    """WebSockets that are full, drain, stall and are lost."""
    rng = random.Random(f"full {seed}")
    s.note(f"full lanes at random, from {seed}")
    wires = []
    for _ in range(rng.randrange(1, 4)):
        writes = [rng.choice([0, 0, 0, 0, 1, 1000, 65536, 196608, 196609]) for _ in range(rng.randrange(2 * steps))]
        reads = [[message(2, rng.randbytes(2)) for _ in range(rng.randrange(1, 4))] if rng.random() < 0.3 else "*" for _ in range(steps)]
        wires.append([writes, *reads, *["!"] * (rng.random() < 0.3)])
    moments = [1]
    for _ in range(steps):
        moments.append(moments[-1] + rng.choice([0, 0, 1, 9999, 10000, 30000]))
    names = names_at_random(rng, steps) if seed % 2 else ()
    sockets(s, moments, *wires, names=names, failing=[100 + rng.randrange(300) for _ in range(rng.choice([0, 0, 2]))])
    left = 3000000
    for _ in range(steps):
        for lane in list(s.door.lanes):
            act = rng.random()
            count = to_the_byte(rng, lane) if act < 0.2 else rng.choice([0, 1, 65536, BEFORE_FULL]) if act < 0.4 else None
            if count is not None and count < left:
                s.fill(lane.number, count)
                left -= count
            elif act > 0.99:
                s.shut(lane.number)
        if rng.random() < 0.1:
            s.flush()
        s.next()
        s.waited()
    for wire in range(len(wires)):
        s.taken(wire)
    s.shuts()


def crowded_at_random(s, seed, steps=60):
    """WebSockets of which the first two speak nearly always, and are named by turns, so what is sent to others is gathered."""
    rng = random.Random(f"crowded {seed}")
    s.note(f"a crowd at random, from {seed}")
    wires = []
    for lane in range(rng.randrange(3, 6)):
        writes = [rng.choice([0, 0, 1, 100, 1 << 20, 1 << 20]) for _ in range(steps)]
        said = 1 if lane < 2 else 0.1
        reads = [[message(2, rng.randbytes(1)) for _ in range(6)] if rng.random() < said else "*" for _ in range(steps // 6)]
        wires.append([writes, *reads])
    names = [(0, 1) if rng.random() < 0.99 else rng.choice([None, 0, (2, 9)]) for _ in range(steps)]
    failing = [100 + rng.randrange(10 * steps) for _ in range(rng.choice([0, 0, 1]))]
    sockets(s, [1], *wires, names=names, failing=failing)
    for _ in range(steps):
        for _ in range(rng.randrange(3)):
            lane = rng.choice(s.door.lanes) if s.door.lanes else None
            count = to_the_byte(rng, lane) if lane and rng.random() < 0.05 else rng.randrange(3)
            if lane and count is not None and rng.random() < 0.9:
                s.fill(lane.number, count)
            elif lane and rng.random() < 0.02:
                s.shut(lane.number)
        if rng.random() < 0.02:
            s.flush()
        s.next()
        s.waited()
        s.taken(rng.randrange(len(wires)))
    for wire in range(len(wires)):
        s.taken(wire)
    s.shuts()


def script(seeds):
    s = Script()
    for part in (by_hand, waits_for_a_call, fails_to_write, gathers, becomes_full, drains, ends_full, stalls):
        part(s)
    for seed in seeds:
        at_random(s, seed)
        full_at_random(s, seed)
        crowded_at_random(s, seed)
    return s


def text(lines):
    return "".join(line + "\n" for line in lines)


def made():
    door, dialer = script(range(4)), dialer_model.script(range(8), 40)
    return text(door.lines + dialer.lines), text(door.answers + dialer.answers)


def sessions(seeds, steps):
    """Random sessions of a door and of a dialer."""
    door, dialer = Script(), dialer_model.sessions(seeds, steps)
    for seed in seeds:
        for part in (at_random, full_at_random, crowded_at_random):
            part(door, seed, steps)
    return text(door.lines + dialer.lines), text(door.answers + dialer.answers)


def random_sessions(seed, count, program):
    """Has the program play so many, one after the other, from this seed on."""
    for at in range(int(seed), int(seed) + int(count)):
        lines, wanted = sessions([at], 100)
        run = subprocess.run([program], input=lines, capture_output=True, text=True, timeout=committed.SECONDS)
        if not committed.alike("net_model", wanted, run.stdout, f"what {program} printed of {at}"):
            return 1
    print(f"net_model: {count} random sessions of a door and of a dialer are as the models say")
    return 0


if __name__ == "__main__":
    sys.exit(committed.main("ht_net", made, options={"--random": random_sessions}))
