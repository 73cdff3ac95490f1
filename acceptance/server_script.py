#!/usr/bin/env python3
"""What `crates/ht_server` is to print: each line of its script stands beside what it wants.

    acceptance/server_script.py --check [BUILT] | --write      the lines and their answers (committed.py)
    acceptance/server_script.py --random SEED N PROGRAM        N random sessions, done by PROGRAM too and compared

The sessions at its beginning are written by hand. Those behind them are random, of five connections or so each, and their answers are those of
`server_model.py`, a server over plain lists."""
import random
import subprocess
import sys

import committed
from server_model import USUAL, Server, compact, lane_of, token_of


# the most bytes that an end of a server may hold
MOST_RESEND_BYTES = 524288

SESSIONS = 150
STEPS = 60
# how much the ends of a session's server hold: as they usually do, few messages, or few bytes beside those of a frame that is to come
ROOMS = [USUAL, USUAL, (1, 32773), (2, 65546), (4, 100000), (8, 33000)]
# one in so many lanes is full after a message
FILLS = [0, 0, 6, 2, 1]

SHAKE = '{"protocol":"json","version":1}|'
SHAKE_2 = '{"protocol":"json","version":2}|'
NEGOTIATE = "POST /hub/negotiate?negotiateVersion=1"
RECONNECT = NEGOTIATE + "&useStatefulReconnect=true"


def call(number, target, *arguments):
    return compact({"type": 1, "invocationId": str(number), "target": target, "arguments": list(arguments)}) + "|"


def stream(number, count): return compact({"type": 4, "invocationId": str(number), "target": "Count", "arguments": [count]}) + "|"


def item(number, value): return compact({"type": 2, "invocationId": str(number), "item": value}) + "|"


def notify(target, *arguments): return compact({"type": 1, "target": target, "arguments": list(arguments)}) + "|"


def ended(number, **ending): return compact({"type": 3, "invocationId": str(number), **ending}) + "|"


def acked(number): return compact({"type": 8, "sequenceId": number}) + "|"


def body(conn, token, reconnect):
    transports = '[{"transferFormats":["Text","Binary"],"transport":"WebSockets"},{"transferFormats":["Text","Binary"],"transport":"LongPolling"}]'
    end = ',"useStatefulReconnect":true}' if reconnect else "}"
    return f'{{"availableTransports":{transports},"connectionId":"{conn}","connectionToken":"{token}","negotiateVersion":1{end}'


FIRST = "AAAAAAAAAAAAAAAAAAAAAAAAAAAAAAAB"


def socket(lane, token, key="k"): return f"request {lane} GET /hub?id={token} upgrade={key}"


def rows():
    """Rooms, a store that fails, tokens and their moments, polls, broadcasts in both codecs, and a door that fails."""
    token = f"reply 1 200 Json {body(1, FIRST, True)}"
    posted = notify("Posted", "r", "1", "hi")
    slow = "x" * 30000
    seq = '{"sequenceId":1,"type":9}|'
    posted_slow = notify("Posted", "s", "1", slow)
    all_held = "\n".join(f"""0 text 1 {notify("Post", "s", slow)} => -
0 quiet => text 4 {posted_slow}""" for _held in range(MOST_RESEND_BYTES // len(posted_slow)))
    return f"""
note a room
server - - - => a server
0 request 1 GET /hub upgrade=k => reply 1 101 None accept k
0 text 1 {SHAKE} => text 1 {{}}|
0 text 1 {call(1, "Join", "r")} => -
idle => false
0 quiet => text 1 {ended(1)}
0 text 1 {call(2, "Post", "r", "hi")} => -
0 quiet => text 1 {posted}
0 quiet => text 1 {ended(2)}
idle => true
note a store that fails
server 0 - - => a server
0 request 1 GET /hub upgrade=k => reply 1 101 None accept k
0 text 1 {SHAKE}{call(1, "Join", "r")} => text 1 {{}}|
0 quiet => text 1 {ended(1)}
0 text 1 {call(2, "Post", "r", "hi")} => -
0 quiet => text 1 {ended(2, error="The store failed.")}
0 quiet => -
note a token in time
server - - - => a server
1000 request 1 {RECONNECT} => {token}
30999 {socket(2, FIRST)} => reply 2 101 None accept k
note a token too late
server - - - => a server
1000 request 1 {RECONNECT} => {token}
31000 {socket(2, FIRST)} => reply 2 404 None
note a resumption in time
server - - - => a server
1000 request 1 {RECONNECT} => {token}
1000 {socket(2, FIRST)} => reply 2 101 None accept k
1000 text 2 {SHAKE_2} => text 2 {{}}|
2000 lost 2 => -
31999 {socket(3, FIRST, "l")} => reply 3 101 None accept l; text 3 {seq}
note a resumption too late
server - - - => a server
1000 request 1 {RECONNECT} => {token}
1000 {socket(2, FIRST)} => reply 2 101 None accept k
1000 text 2 {SHAKE_2} => text 2 {{}}|
2000 lost 2 => -
32000 {socket(3, FIRST)} => reply 3 404 None
note what a life excludes
server - - - => a server
0 request 1 {RECONNECT} => {token}
0 {socket(2, FIRST)} => reply 2 101 None accept k
0 request 3 GET /hub?id={FIRST} => reply 3 409 None
0 request 3 DELETE /hub?id={FIRST} => reply 3 409 None
0 {socket(4, FIRST)} => reply 4 409 None
0 request 5 POST /hub/negotiate?negotiateVersion=0 => reply 5 400 None close; shut 5
0 request 6 GET /hub/negotiate?negotiateVersion=1 => reply 6 405 None allow=POST
0 request 6 {NEGOTIATE} => reply 6 200 Json {body(2, token_of(1, 2), False)}
0 request 7 GET /hub?id={token_of(1, 2)} => reply 7 200 None
0 {socket(8, token_of(1, 2))} => reply 8 409 None
note polls
server - - - => a server
0 request 1 {NEGOTIATE} => reply 1 200 Json {body(1, FIRST, False)}
0 request 2 GET /hub?id={FIRST} => reply 2 200 None
0 request 3 GET /hub?id={FIRST} => -
0 request 4 GET /hub?id={FIRST} => reply 3 204 None
0 request 5 POST /hub?id={FIRST} body={SHAKE}{compact({"type": 6})}| => reply 5 200 None; reply 4 200 Octets {{}}|
0 request 6 DELETE /hub?id={FIRST} shut => reply 6 202 None close; shut 6
0 request 7 GET /hub?id={FIRST} => reply 7 404 None
note a broadcast, to a member in MessagePack and to one that acknowledges nothing
server - - - => a server
0 request 1 GET /hub upgrade=k => reply 1 101 None accept k
0 text 1 {SHAKE}{notify("Join", "r")}{notify("Join", "r")} => text 1 {{}}|
0 request 2 GET /hub upgrade=k => reply 2 101 None accept k
0 text 2 {{"protocol":"messagepack","version":1}}| => bytes 2 7b7d1e
0 bytes 2 0d960180c0a44a6f696e91a17290 => -
0 request 3 {RECONNECT} => reply 3 200 Json {body(3, token_of(0, 3), True)}
0 {socket(4, token_of(0, 3))} => reply 4 101 None accept k
0 text 4 {SHAKE_2}{notify("Join", "s")} => text 4 {{}}|{{"sequenceId":1,"type":8}}|
0 quiet => -
0 text 1 {notify("Post", "r", "hi")} => -
0 quiet => text 1 {posted}; bytes 2 14960180c0a6506f7374656493a172a131a2686990
0 text 1 {notify("Post", "s", slow)} => -
0 quiet => text 4 {notify("Posted", "s", "1", slow)}
0 text 1 {notify("Post", "s", slow)} => -
0 quiet => text 4 {notify("Posted", "s", "1", slow)}
0 text 1 {notify("Post", "s", slow)} => -
0 quiet => text 4 {notify("Posted", "s", "1", slow)}
0 text 1 {notify("Post", "s", slow)} => -
0 quiet => text 4 {compact({"type": 7, "error": "Too slow."})}|; shut 4
0 {socket(5, token_of(0, 3))} => reply 5 404 None
0 text 1 {call(9, "History", "r", 10)} => -
0 quiet => text 1 {ended(9, result=["hi"])}
note ends that hold one message, and go on once it is acknowledged
resend 1 32773 => so much
server - - - => a server
0 request 1 {RECONNECT} => {token}
0 {socket(2, FIRST)} => reply 2 101 None accept k
0 text 2 {SHAKE_2} => text 2 {{}}|
0 text 2 {call(1, "Join", "r")}{call(2, "Leave", "r")} => text 2 {acked(2)}
0 quiet => text 2 {ended(1)}
0 quiet => -
0 lost 2 => -
0 {socket(3, FIRST)} => reply 3 101 None accept k; text 3 {seq}{acked(2)}{ended(1)}
0 text 3 {{"sequenceId":3,"type":9}}|{acked(1)} => text 3 {ended(2)}
note an end that holds as many bytes as there may be, before it is too slow
resend 65536 {MOST_RESEND_BYTES} => so much
server - - - => a server
0 request 1 GET /hub upgrade=k => reply 1 101 None accept k
0 text 1 {SHAKE} => text 1 {{}}|
0 request 2 {RECONNECT} => reply 2 200 Json {body(2, token_of(0, 2), True)}
0 {socket(4, token_of(0, 2))} => reply 4 101 None accept k
0 text 4 {SHAKE_2}{notify("Join", "s")} => text 4 {{}}|{acked(1)}
0 quiet => -
{all_held}
0 text 1 {notify("Post", "s", slow)} => -
0 quiet => text 4 {compact({"type": 7, "error": "Too slow."})}|; shut 4
note what an end can't hold
resend 0 32773 => out of range
resend 65537 32773 => out of range
resend 1 32772 => out of range
resend 1 {MOST_RESEND_BYTES + 1} => out of range
resend 1024 100000 => so much
note where as many live as may, a token that nobody used gives way
live 2 => so many
server - - - => a server
0 request 1 {NEGOTIATE} => reply 1 200 Json {body(1, FIRST, False)}
0 request 1 {NEGOTIATE} => reply 1 200 Json {body(2, token_of(1, 2), False)}
0 request 1 {NEGOTIATE} => reply 1 200 Json {body(3, token_of(2, 3), False)}
0 {socket(2, FIRST)} => reply 2 404 None
0 {socket(2, token_of(1, 2))} => reply 2 101 None accept k
0 request 3 GET /hub upgrade=k => reply 3 101 None accept k
0 {socket(4, token_of(2, 3))} => reply 4 404 None
0 request 4 {NEGOTIATE} => reply 4 503 None
0 request 4 GET /hub upgrade=k => reply 4 503 None
0 lost 3 => -
0 request 4 {NEGOTIATE} => reply 4 200 Json {body(5, token_of(3, 5), False)}
note but for no draw, nor for one who may have no connection
live 1 => so many
server - 1 Ann => a server
0 request 1 {NEGOTIATE} bearer=Ann => reply 1 200 Json {body(1, FIRST, False)}
0 request 1 {NEGOTIATE} => reply 1 500 None
0 request 1 {NEGOTIATE} bearer=Eve => reply 1 401 None authenticate=Bearer
0 {socket(2, FIRST)} => reply 2 101 None accept k
live 0 => out of range
live 10001 => out of range
live 10000 => so many
note who calls
server 1 0 Ann,Bob => a server
0 request 1 GET /hub upgrade=k bearer=Eve => reply 1 401 None authenticate=Bearer
0 request 1 GET /hub upgrade=k bearer=Ann => reply 1 500 None
0 request 1 {NEGOTIATE} bearer=Ann => reply 1 500 None
0 request 1 {NEGOTIATE} bearer=Ann => reply 1 200 Json {body(1, FIRST, False)}
0 {socket(2, FIRST)} => reply 2 101 None accept k
0 request 3 GET /hub upgrade=l bearer=Bob => reply 3 101 None accept l
0 text 3 {SHAKE}{call(1, "Tell", "Ann", "hi")} => text 3 {{}}|
0 quiet => text 3 {ended(1)}
0 text 2 {SHAKE} => text 2 {{}}|
0 text 3 {call(2, "Tell", "Ann", "you")} => text 2 {notify("Told", "Bob", "you")}
note a Ping, a silence, and a resumption in time
server - - - => a server
1000 request 1 {RECONNECT} => {token}
2000 {socket(2, FIRST)} => reply 2 101 None accept k
2000 text 2 {SHAKE_2} => text 2 {{}}|
16999 quiet => -
17000 quiet => text 2 {{"type":6}}|
31999 quiet => -
32000 quiet => shut 2
61999 {socket(3, FIRST)} => reply 3 101 None accept k; text 3 {seq}
note a silence, and a resumption too late
server - - - => a server
1000 request 1 {RECONNECT} => {token}
2000 {socket(2, FIRST)} => reply 2 101 None accept k
2000 text 2 {SHAKE_2} => text 2 {{}}|
17000 quiet => text 2 {{"type":6}}|
32000 quiet => shut 2
62000 {socket(3, FIRST)} => reply 3 404 None
note a keeper that fails when it is asked who calls
server 0 - Ann => a server
0 request 1 GET /hub upgrade=k bearer=Ann => reply 1 500 None
note a keeper that fails at a deed
server 1 - Ann => a server
0 request 1 GET /hub upgrade=k bearer=Ann => reply 1 101 None accept k
0 text 1 {SHAKE} => text 1 {{}}|
0 text 1 {call(1, "Join", "r")} => -
0 quiet => text 1 {ended(1)}
0 text 1 {call(2, "Post", "r", "hi")} => -
0 quiet => text 1 {ended(2, error="The store failed.")}
note a door that fails
server - - - => a server
hear 0 request 1 GET /hub upgrade=k => to be heard
hear 0 text 1 {SHAKE} => to be heard
serve 5 - - => served: reply 1 101 None accept k; text 1 {{}}|
hear 0 text 1 {call(1, "Join", "r")} => to be heard
hear 0 quiet => to be heard
serve 3 2 - => the door failed: -
serve 1 0 - => the door failed: -
serve 1 - - => served: -
"""


def full_lanes():
    """Lanes that are full, on which nothing is said of a connection that is open, until they have drained."""
    seq, close, ping = '{"sequenceId":1,"type":9}|', compact({"type": 7}) + "|", compact({"type": 6}) + "|"
    slow, posted, told = compact({"type": 7, "error": "Too slow."}) + "|", notify("Posted", "r", "1", "hi"), notify("Posted", "r", "1", "you")
    token = f"reply 1 200 Json {body(1, FIRST, True)}"
    plain = f"""server - - - => a server
0 request 1 GET /hub upgrade=k => reply 1 101 None accept k
full 1 0 text 1 {SHAKE} => text 1 {{}}|"""
    granted = f"""server - - - => a server
0 request 1 {RECONNECT} => {token}
0 {socket(2, FIRST)} => reply 2 101 None accept k
full 2 0 text 2 {SHAKE_2} => text 2 {{}}|"""
    member = f"""server - - - => a server
0 request 1 GET /hub upgrade=k => reply 1 101 None accept k
0 text 1 {SHAKE} => text 1 {{}}|
0 request 2 GET /hub upgrade=k => reply 2 101 None accept k
0 text 2 {SHAKE}{notify("Join", "r")} => text 2 {{}}|
0 quiet => -"""
    return f"""
note on a full lane what is due waits, in order, until it has drained
{plain}
0 text 1 {call(1, "Join", "r")}{call(2, "Leave", "r")} => -
0 quiet => -
0 quiet => -
idle => true
0 drained 1 => text 1 {ended(1)}{ended(2)}
0 quiet => -
note a lane that is full again says no more
{plain}
0 text 1 {call(1, "Join", "r")} => -
0 quiet => -
full 1 0 drained 1 => text 1 {ended(1)}
0 text 1 {call(2, "Leave", "r")} => -
0 quiet => -
0 drained 1 => text 1 {ended(2)}
note a lane that is drained without having been full, and one that nobody has
{plain}
0 drained 1 => -
0 drained 1 => -
0 drained 7 => -
0 text 1 {call(1, "Join", "r")} => -
0 quiet => text 1 {ended(1)}
note one lane is full, and another isn't
{member}
full 2 0 text 1 {notify("Post", "r", "hi")} => -
full 2 0 quiet => text 2 {posted}
0 text 1 {notify("Post", "r", "you")}{call(1, "History", "r", 9)} => -
0 quiet => text 1 {ended(1, result=["hi", "you"])}
0 drained 1 => -
0 drained 2 => text 2 {told}
note one message fills two lanes
{member}
0 text 1 {notify("Join", "r")} => -
0 quiet => -
0 text 1 {notify("Post", "r", "hi")} => -
full 1,2 0 quiet => text 1 {posted}; text 2 {posted}
0 text 1 {notify("Post", "r", "you")} => -
0 quiet => -
0 drained 2 => text 2 {told}
0 drained 1 => text 1 {told}
note a stream waits for its reader while its end holds a message
resend 1 32773 => so much
{plain}
0 text 1 {stream(1, 3)} => -
0 quiet => -
idle => true
0 drained 1 => text 1 {item(1, 1)}
idle => false
full 1 0 quiet => text 1 {item(1, 2)}
idle => false
0 quiet => -
idle => true
9000 quiet => -
9000 drained 1 => text 1 {item(1, 3)}
9000 quiet => text 1 {ended(1)}
note another stream goes on meanwhile
{plain}
0 request 2 GET /hub upgrade=k => reply 2 101 None accept k
0 text 2 {SHAKE} => text 2 {{}}|
0 text 1 {stream(1, 2)} => -
0 text 2 {stream(1, 2)} => text 2 {item(1, 1)}
0 quiet => text 2 {item(1, 2)}
0 quiet => text 2 {ended(1)}
0 drained 1 => text 1 {item(1, 1)}
0 quiet => text 1 {item(1, 2)}
0 quiet => text 1 {ended(1)}
note a stream waits where its end has no room for any frame
resend 9 32900 => so much
{plain}
0 text 1 {stream(1, 9)} => -
0 quiet => -
0 quiet => -
idle => false
0 quiet => -
idle => true
0 quiet => -
0 drained 1 => text 1 {"".join(item(1, n) for n in range(1, 5))}
resend 1024 100000 => so much
note on a full lane no Ping is said
{plain}
15000 quiet => -
16000 drained 1 => text 1 {ping}
note after a full lane has drained, what is due stands in place of a Ping
{plain}
0 text 1 {call(1, "Join", "r")} => -
15000 quiet => -
15000 drained 1 => text 1 {ended(1)}
29999 quiet => -
30000 quiet => shut 1
note a silence on a full lane
{plain}
29999 quiet => -
30000 quiet => shut 1
30000 drained 1 => -
note what comes on a full lane is heard
{plain}
29000 text 1 {ping} => -
58999 quiet => -
59000 quiet => shut 1
note a full lane that is lost
{plain}
0 text 1 {call(1, "Join", "r")} => -
0 lost 1 => -
0 drained 1 => -
0 request 1 GET /hub upgrade=k => reply 1 101 None accept k
0 text 1 {SHAKE} => text 1 {{}}|
note a connection that can be resumed says no Ack on a full lane
{granted}
0 text 2 {call(1, "Join", "r")} => -
0 quiet => -
0 drained 2 => text 2 {acked(1)}{ended(1)}
note its full lane is lost, and it goes on on another
{granted}
0 text 2 {call(1, "Join", "r")} => -
0 lost 2 => -
0 quiet => -
0 {socket(3, FIRST, "l")} => reply 3 101 None accept l; text 3 {seq}{acked(1)}{ended(1)}
0 drained 2 => -
note it goes on on another while its lane is full
{granted}
0 text 2 {call(1, "Join", "r")} => -
0 quiet => -
0 {socket(3, FIRST, "l")} => shut 2; reply 3 101 None accept l; text 3 {seq}{acked(1)}{ended(1)}
note the other lane is full from its first message on
{granted}
full 3 0 {socket(3, FIRST, "l")} => shut 2; reply 3 101 None accept l; text 3 {seq}
0 text 3 {seq}{call(1, "Join", "r")} => -
0 quiet => -
0 drained 2 => -
0 drained 3 => text 3 {acked(1)}{ended(1)}
note a silence on a full lane, and a resumption in time
{granted}
0 text 2 {call(1, "Join", "r")} => -
30000 quiet => shut 2
59999 {socket(3, FIRST)} => reply 3 101 None accept k; text 3 {seq}{acked(1)}{ended(1)}
note a Close on a full lane: what is due is said
{plain}
0 text 1 {call(1, "Join", "r")} => -
0 quiet => -
full 1 0 text 1 {close} => text 1 {ended(1)}; shut 1
0 drained 1 => -
note an Ack too far on a full lane
{granted}
0 text 2 {acked(9)} => text 2 {compact({"type": 7, "error": "Protocol error."})}|; shut 2
note a member on a full lane is too slow where its end has no room
resend 1 32773 => so much
{member}
0 text 1 {notify("Post", "r", "hi")} => -
full 2 0 quiet => text 2 {posted}
0 text 1 {notify("Post", "r", "you")} => -
0 quiet => -
0 text 1 {notify("Post", "r", "hi")} => -
0 quiet => text 2 {told}{slow}; shut 2
0 text 1 {notify("Post", "r", "hi")} => -
0 quiet => -
note a member with room is not, by bytes
resend 9 32900 => so much
{member}
0 text 1 {notify("Post", "r", "hi")} => -
full 2 0 quiet => text 2 {posted}
0 text 1 {notify("Post", "r", "x" * 32000)} => -
0 quiet => -
0 text 1 {notify("Post", "r", "x" * (900 - 2 * len(notify("Posted", "r", "1", ""))))} => -
0 quiet => -
0 text 1 {notify("Post", "r", "")} => -
0 quiet => text 2 {notify("Posted", "r", "1", "x" * 32000)}{notify("Posted", "r", "1", "x" * (900 - 2 * len(notify("Posted", "r", "1", ""))))}{slow}; shut 2
resend 1024 100000 => so much
note a poll is answered while its poster's lane is full
{plain}
0 request 2 {NEGOTIATE} => reply 2 200 Json {body(2, token_of(0, 2), False)}
0 request 3 GET /hub?id={token_of(0, 2)} => reply 3 200 None
0 request 4 GET /hub?id={token_of(0, 2)} => -
full 4 0 request 5 POST /hub?id={token_of(0, 2)} body={SHAKE}{notify("Join", "r")} => reply 5 200 None; reply 4 200 Octets {{}}|
0 request 4 GET /hub?id={token_of(0, 2)} => -
0 text 1 {notify("Post", "r", "hi")} => -
0 quiet => reply 4 200 Octets {posted}
note a lane of a connection that is gone is another's, and isn't full
{plain}
full 1 0 text 1 {close} => shut 1
0 request 1 GET /hub upgrade=k => reply 1 101 None accept k
0 text 1 {SHAKE}{call(1, "Join", "r")} => text 1 {{}}|
0 quiet => text 1 {ended(1)}
note a door that fails at a message: the answer to the one before it is noted
server - - - => a server
hear 0 request 1 GET /hub upgrade=k => to be heard
hear 0 text 1 {SHAKE}{notify("Join", "r")} => to be heard
hear 0 request 2 GET /hub upgrade=k => to be heard
hear 0 text 2 {SHAKE}{notify("Join", "r")} => to be heard
hear 0 text 1 {notify("Post", "r", "hi")} => to be heard
hear 0 quiet => to be heard
serve 7 11 2 => the door failed: reply 1 101 None accept k; text 1 {{}}|; reply 2 101 None accept k; text 2 {{}}|; text 1 {posted}
hear 0 text 2 {notify("Post", "r", "you")} => to be heard
hear 0 quiet => to be heard
hear 0 drained 1 => to be heard
serve 3 - - => served: text 2 {notify("Posted", "r", "2", "you")}; text 1 {notify("Posted", "r", "2", "you")}
"""


# what is said to a request that names a token, by the token's life: a socket, a poll, a POST, a DELETE and another method. `-` is a poll that is held
LIVES = {
    "unknown": ([], ["404 None", "404 None", "404 None", "404 None", "405 None allow=GET,POST,DELETE"]),
    "fresh": ([RECONNECT], ["101 None accept k", "200 None", "409 None", "202 None", "405 None allow=GET,POST,DELETE"]),
    "on a socket, not granted": ([NEGOTIATE, "socket", SHAKE_2], ["409 None", "409 None", "409 None", "409 None", "405 None allow=GET,POST,DELETE"]),
    "on a socket, before its handshake": ([RECONNECT, "socket"], ["409 None", "409 None", "409 None", "409 None", "405 None allow=GET,POST,DELETE"]),
    "on a socket, granted": ([RECONNECT, "socket", SHAKE_2], ["101 None accept k", "409 None", "409 None", "409 None", "405 None allow=GET,POST,DELETE"]),
    "lost": ([RECONNECT, "socket", SHAKE_2, "lost"], ["101 None accept k", "409 None", "409 None", "409 None", "405 None allow=GET,POST,DELETE"]),
    "polling": ([RECONNECT, "poll"], ["409 None", "-", "200 None", "202 None", "405 None allow=GET,POST,DELETE"]),
    "ending": ([RECONNECT, "poll", "close"], ["404 None", "200 Octets {}|", "404 None", "202 None", "405 None allow=GET,POST,DELETE"]),
}


def begun(actions):
    """The lines that bring the first token to a life."""
    lines = ["server - - - => a server"]
    for action in actions:
        if action in (NEGOTIATE, RECONNECT):
            lines.append(f"0 request 1 {action} => reply 1 200 Json {body(1, FIRST, action == RECONNECT)}")
        elif action == "socket":
            lines.append(f"0 {socket(2, FIRST)} => reply 2 101 None accept k")
        elif action == SHAKE_2:
            lines.append(f"0 text 2 {SHAKE_2} => text 2 {{}}|")
        elif action == "lost":
            lines.append("0 lost 2 => -")
        elif action == "poll":
            lines.append(f"0 request 2 GET /hub?id={FIRST} => reply 2 200 None")
        else:
            lines.append(f"0 request 3 POST /hub?id={FIRST} body={SHAKE}{compact({'type': 7})}| => reply 3 200 None")
    return lines


def by_life():
    """Each row of the table that looks at a life."""
    lines = []
    for life, (actions, answers) in LIVES.items():
        for method, answer in zip(["GET", "GET", "POST", "DELETE", "PUT"], answers):
            is_socket = method == "GET" and answer is answers[0]
            lines += [f"note {method} of a token that is {life}"] + begun(actions)
            said = answer if answer == "-" else f"reply 9 {answer}"
            if is_socket and "101" in answer and life not in ("fresh", "unknown"):
                said += '; text 9 {"sequenceId":1,"type":9}|'
                said = ("shut 2; " if "granted" in life else "") + said
            lines.append(f"0 request 9 {method} /hub?id={FIRST}{' upgrade=k' if is_socket else ''} => {said}")
    return "\n".join(lines)


def asks(method, path, query=None, upgrade=None, text=""):
    return dict(method=method, path=path, query=query or {}, upgrade=upgrade, bearer=None, shut=False, body=text)


def door_sessions():
    """Each a list of lines with their events: a room, a token and its socket, polls, and a stream on a lane that drains now and then."""
    join, post, close = call(1, "Join", "r"), call(2, "Post", "r", "hi"), compact({"type": 7}) + "|"
    version, named = {"negotiateVersion": "1"}, {"id": FIRST}
    quiet = ("0 quiet", 0, "quiet")
    room = [("0 request 1 GET /hub upgrade=k", 0, "request", 1, asks("GET", "/hub", None, "k")), (f"0 text 1 {SHAKE}{join}", 0, "text", 1, SHAKE + join),
            quiet, (f"0 text 1 {post}", 0, "text", 1, post), quiet, quiet, (f"0 text 1 {close}", 0, "text", 1, close)]
    granted = {**version, "useStatefulReconnect": "true"}
    token = [(f"1000 request 1 {RECONNECT}", 1000, "request", 1, asks("POST", "/hub/negotiate", granted)),
             (f"30999 {socket(2, FIRST)}", 30999, "request", 2, asks("GET", "/hub", named, "k"))]
    sent = SHAKE + compact({"type": 6}) + "|"
    polls = [(f"0 request 1 {NEGOTIATE}", 0, "request", 1, asks("POST", "/hub/negotiate", version))]
    polls += [(f"0 request {lane} GET /hub?id={FIRST}", 0, "request", lane, asks("GET", "/hub", named)) for lane in (2, 3, 4)]
    polls += [(f"0 request 5 POST /hub?id={FIRST} body={sent}", 0, "request", 5, asks("POST", "/hub", named, None, sent)),
              (f"0 request 6 DELETE /hub?id={FIRST}", 0, "request", 6, asks("DELETE", "/hub", named)),
              (f"0 request 7 GET /hub?id={FIRST}", 0, "request", 7, asks("GET", "/hub", named))]
    drained = [("0 drained 1", 0, "drained", 1)]
    going_on = stream(3, 3)
    streams = [*room[:2], (f"0 text 1 {going_on}", 0, "text", 1, going_on), quiet, *drained, quiet, *drained, quiet, *drained, *drained]
    return [room, token, polls, streams]


def calls_of(events, filling):
    """The calls of a door at which this is heard and whose lanes are full after these of its messages: what is given in each, or None."""
    server, calls, messages = Server([], [], []), [], 0
    for _line, now, *event in events:
        said = server.hear(now, *event)
        calls += [None] + said
        for lane in filter(None, map(lane_of, said)):
            server.note_sent(lane, messages in filling)
            messages += 1
    return calls, messages


def with_door(events, calls, failing, filling):
    """The lines of a session with a door, whose call of this number fails, if there is one."""
    given = [word for word in calls[:failing] if word]
    served = "served" if failing == len(calls) else "the door failed"
    filled = ",".join(map(str, filling)) or "-"
    return ["server - - - => a server"] + [f"hear {line} => to be heard" for line, *_ in events] + [
        f"serve {len(events)} {failing} {filled} => {served}: {'; '.join(given) or '-'}"]


def doors():
    """A door that fails at each of its calls in turn: what it was given before stands. And one whose lanes are full after some of its messages."""
    lines = []
    for events in door_sessions():
        calls, messages = calls_of(events, [])
        for failing in range(len(calls) + 1):
            lines += [f"note a door that fails at call {failing}"] + with_door(events, calls, failing, [])
        for filling in [[message] for message in range(messages)] + [[*range(messages)]]:
            calls, _messages = calls_of(events, filling)
            lines += [f"note a door of lanes that are full after the messages {filling}"] + with_door(events, calls, len(calls), filling)
    return "\n".join(lines)


class Play:
    """A session beside a model of the server."""

    def __init__(self, title, keeper_fails, lots_fail, most=USUAL):
        self.server, self.now, self.lane, self.number = Server(keeper_fails, lots_fail, ["Ann", "Bob"], most), 0, 0, 0
        comma = [",".join(map(str, fails)) or "-" for fails in (keeper_fails, lots_fail)]
        self.lines = [f"note {title}", f"resend {most[0]} {most[1]} => so much", f"server {comma[0]} {comma[1]} Ann,Bob => a server"]

    def hear(self, line, *event):
        """An event, and then what the door answers to each message that is said."""
        said, full = self.server.hear(self.now, *event), self.filled()
        for lane in filter(None, map(lane_of, said)):
            self.server.note_sent(lane, lane in full)
        filled = f"full {','.join(map(str, full))} " if full else ""
        self.lines.append(f"{filled}{self.now} {line} => {'; '.join(said) or '-'}")
        return said

    def filled(self):
        """The lanes that are full after a message that is said now."""
        return []

    def request(self, method, path, query=None, upgrade=None, bearer=None, shut=False, text=""):
        self.lane += 1
        lane, query = self.lane, query or {}
        target = path + ("?" + "&".join(f"{k}={v}" for k, v in query.items()) if query else "")
        words = [f"bearer={bearer}"] * bool(bearer) + [f"upgrade={upgrade}"] * bool(upgrade) + ["shut"] * shut + [f"body={text}"] * bool(text)
        return self.hear(" ".join(["request", str(lane), method, target, *words]), "request", lane,
                         dict(method=method, path=path, query=query, upgrade=upgrade, bearer=bearer, shut=shut, body=text))


def refused_once(play, *words):
    """A request that is made again where the first was refused with 500."""
    if play.request(*words) == [f"reply {play.lane} 500 None"]:
        play.request(*words)


def with_a_fault(name, failing):
    """How often a keeper or lots are asked in a session that meets a fault at this of their calls, and the lines of it."""
    play = Play(f"a fault of the {name} at call {failing}", [failing] * (name == "keeper"), [failing] * (name == "lots"))
    negotiate = ("POST", "/hub/negotiate", {"negotiateVersion": "1"}, None)
    refused_once(play, *negotiate, "Ann")
    refused_once(play, "GET", "/hub", None, "k", "Bob")
    for text in (SHAKE + call(1, "Join", "r"), call(2, "Post", "r", "hi"), call(3, "Post", "r", "you"), call(4, "History", "r", 2), call(5, "History", "r", 1)):
        play.hear(f"text {play.lane} {text}", "text", play.lane, text)
        play.hear("quiet", "quiet")
        play.hear("quiet", "quiet")
    refused_once(play, *negotiate, "Bob")
    refused_once(play, *negotiate)
    return play.server.asked if name == "keeper" else play.server.drawn, play.lines


def stores():
    """A keeper and lots that fail at each of their calls in turn: who asked is told, and the server goes on."""
    lines = []
    for name in ("keeper", "lots"):
        failing, asked = 0, 1
        while failing < asked:
            asked, session_lines = with_a_fault(name, failing)
            lines += session_lines
            failing += 1
    return "\n".join(lines)


class Draw(Play):
    """A random session, and what its clients know."""

    def __init__(self, seed):
        self.random = random.Random(seed)
        self.fails = [sorted(self.random.sample(range(14), self.random.randrange(3))), sorted(self.random.sample(range(5), self.random.randrange(2)))]
        self.fills, self.is_busy = self.random.choice(FILLS), self.random.randrange(2) == 0
        super().__init__(f"session {seed}", *self.fails, self.random.choice(ROOMS))
        if self.is_busy:
            for _member in range(3):
                self.join()

    def filled(self): return [lane for lane in range(1, self.lane + 1) if self.fills and self.random.randrange(self.fills) == 0]

    def join(self):
        """One more member of a room, if there is a token for it."""
        shake, made = SHAKE, len(self.server.conns)
        if self.random.randrange(2):
            self.request("GET", "/hub", None, "k")
        else:
            shake = SHAKE_2
            self.request("POST", "/hub/negotiate", {"negotiateVersion": "1", "useStatefulReconnect": "true"})
            if len(self.server.conns) == made:
                return
            self.request("GET", "/hub", {"id": self.server.conns[made + 1].token}, "k")
        self.text(self.lane, shake + notify("Join", "r"))

    def text(self, lane, text): self.hear(f"text {lane} {text}", "text", lane, text)

    def conn(self):
        some = [conn for conn in self.server.conns.values() if not conn.gone or self.random.randrange(8) == 0]
        return self.random.choice(some) if some else None

    def named(self, method, upgrade=None, text=""):
        conn = self.conn()
        token = conn.token if conn and conn.token else token_of(99, 77)
        self.request(method, "/hub", {"id": token}, upgrade, None, self.random.randrange(5) == 0, text)

    def frames(self, conn):
        """What a client sends: its handshake first; after a resumption its Sequence; then calls, Acks, Pings, rarely a Close."""
        end = conn.end
        if end is None or not end.shaken:
            return self.random.choice([SHAKE, SHAKE, SHAKE_2, SHAKE_2, SHAKE_2 + self.message(), "x|"] if self.random.randrange(9) else ["x|"])
        if end.link and end.link["next"] is None and self.random.randrange(4):
            return compact({"type": 9, "sequenceId": self.random.randrange(1, end.processed + 2)}) + "|" + self.message()
        what = self.random.randrange(16)
        if what == 0:
            return compact({"type": 6}) + "|"
        if what == 1 and self.random.randrange(3) == 0:
            return compact({"type": 7}) + "|"
        if what < 5 and end.kept:
            return compact({"type": 8, "sequenceId": self.random.randrange(end.lent + 1)}) + "|"
        if what == 5 and end.kept and self.random.randrange(6) == 0:
            return compact({"type": 8, "sequenceId": end.lent + 1}) + "|" + self.message()
        return self.message() + (self.message() if what == 6 else "")

    def message(self):
        room, text = self.random.choice("rrrs" if self.is_busy else "rst"), self.random.choice(["hi", "there", "x"])
        if self.random.randrange(8) == 0:
            self.number += 1
            return stream(self.number, self.random.randrange(6))
        target = self.random.choice(["Join", "Join", "Leave", "Post", "Post", "Post", "Tell", "History", "Away"])
        arguments = {"Join": [room], "Leave": [room], "Post": [room, text], "Tell": [self.random.choice(["Ann", "Bob"]), text],
                     "History": [room, self.random.randrange(4)], "Away": []}[target]
        if self.random.randrange(3) == 0:
            return notify(target, *arguments)
        self.number += 1
        return call(self.number, target, *arguments)

    def standing(self):
        some = [conn for conn in self.server.conns.values() if conn.socket is not None and not conn.gone]
        return self.random.choice(some) if some else None

    def step(self):
        self.now += self.random.choice([0, 0, 0, 0, 1, 10, 500, 4000, 14000, 16000, 29999, 30000] if self.random.randrange(4) == 0 else [0, 1])
        what = self.random.randrange(24)
        conn = self.standing()
        if self.server.full and self.random.randrange(6) == 0:
            lane = self.random.choice(sorted(self.server.full))
            self.hear(f"drained {lane}", "drained", lane)
            return
        if self.random.randrange(12) == 0:
            self.lines.append(f"idle => {str(self.server.idle()).lower()}")
        if (what < 9 or (self.is_busy and self.random.randrange(2))) and conn:
            self.text(conn.socket, self.frames(conn))
        elif what < 12 and len(self.server.conns) < 7:
            bearer = self.random.choice([None, None, "Ann", "Bob", "Eve"])
            if self.random.randrange(3) == 0:
                self.request("GET", "/hub", None, "k", bearer, self.random.randrange(4) == 0)
            else:
                reconnect = {"useStatefulReconnect": self.random.choice(["true", "false"])} if self.random.randrange(3) else {}
                self.request("POST", "/hub/negotiate", {"negotiateVersion": self.random.choice(["1", "1", "1", "2", "0", "x"]), **reconnect}, None, bearer)
        elif what < 14:
            self.named("GET", "k")
        elif what < 17:
            self.named("GET")
        elif what < 19:
            poller = self.conn()
            text = self.frames(poller) if poller else SHAKE
            token = poller.token if poller and poller.token else token_of(98, 1)
            self.request("POST", "/hub", {"id": token}, None, None, False, text)
        elif what < 20 and self.random.randrange(3) == 0:
            self.named("DELETE")
        elif what < 21:
            lanes = [c.socket for c in self.server.conns.values() if c.socket is not None and not c.gone] + [c.poll[0] for c in self.server.conns.values() if c.poll and not c.gone]
            if lanes:
                lane = self.random.choice(lanes)
                if self.random.randrange(8) == 0:
                    self.hear(f"refused {lane} 400", "refused", lane)
                else:
                    self.hear(f"lost {lane}", "lost", lane)
        elif what < 22 and self.lane and self.random.randrange(6) == 0:
            lane = self.random.randrange(1, self.lane + 2)
            self.hear(f"drained {lane}", "drained", lane)
        elif what < 22 and self.random.randrange(6) == 0:
            self.request(self.random.choice(["GET", "PUT"]), self.random.choice(["/hub", "/", "/hub/"]))
        else:
            self.hear("quiet", "quiet")


def session(seed):
    draw = Draw(seed)
    for _step in range(STEPS):
        draw.step()
    return "\n".join(draw.lines)


def made():
    return committed.pairs("\n".join([rows().strip(), full_lanes().strip(), by_life(), doors(), stores(), *(session(seed) for seed in range(SESSIONS))]))


def at_random(seed, count, program):
    """Random sessions, done by a program too."""
    lines, wanted = committed.pairs("\n".join(session(one) for one in range(int(seed), int(seed) + int(count))))
    run = subprocess.run([program], input=lines, capture_output=True, text=True)
    if not committed.alike("server_script", wanted, run.stdout, program) or run.returncode:
        return 1
    print(f"server_script: {count} random sessions of {len(wanted.splitlines())} lines are as the model says")
    return 0


if __name__ == "__main__":
    sys.exit(committed.main("ht_server", made, options={"--random": at_random}))
