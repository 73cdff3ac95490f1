#!/usr/bin/env python3
"""A session with a hub server, as a client in Python has it: Debian's python3-websockets 10.4, and the standard library.

    session.py http://127.0.0.1:PORT/hub

The server must be a fresh one, since connections are counted. What is printed has to be session.txt; session.mjs prints the same."""
import asyncio
import http.client
import json
import sys
from urllib.parse import urlsplit

from websockets.exceptions import InvalidStatusCode
from websockets.legacy.client import connect as connect_socket

from hub import INVOCATION, ITEM, COMPLETION, STREAM, CANCEL, RECORD, Hub, socket_address, spelled
from pack import framed, frames, packed, unpacked

NESTED = {"list": [1, -2, None, True, [], ""], "map": {"a": {"b": {}}}, "text": "grüße 😀 \"\\\n", "whole": 9007199254740991}


def shown(value):
    return json.dumps(value, separators=(",", ":"), ensure_ascii=False)


def ending(completion):
    """How a call ended, in words."""
    if "error" in completion:
        return f"error {completion['error']}"
    return f"result {shown(completion['result'])}" if "result" in completion else "void"


def request(base, method, path, body=None):
    """One request on a connection of its own: the status and the body of its reply."""
    parts = urlsplit(base)
    connection = http.client.HTTPConnection(parts.netloc, timeout=20)
    connection.request(method, parts.path + path, body)
    reply = connection.getresponse()
    answer = reply.status, reply.read().decode()
    connection.close()
    return answer


def negotiate(base, query="&useStatefulReconnect=true"):
    status, body = request(base, "POST", f"/negotiate?negotiateVersion=1{query}")
    return status, json.loads(body)


async def connect(base):
    _, told = negotiate(base)
    hub = Hub(base, told["connectionToken"])
    await hub.open()
    return hub


async def greet(base):
    status, told = negotiate(base)
    print(f"negotiate {status} version {told['negotiateVersion']} connection {told['connectionId']}", end=" ")
    print(f"reconnect {shown(told['useStatefulReconnect'])}")
    for transport in told["availableTransports"]:
        print(f"transport {transport['transport']} {' '.join(transport['transferFormats'])}")
    hub = Hub(base, told["connectionToken"])
    print(f"handshake {await hub.open()}")
    return hub


async def calls(hub):
    print(f"Add {ending(await hub.call('Add', 2, 3))}")
    print(f"Echo {ending(await hub.call('Echo', NESTED))}")
    print(f"Fail {ending(await hub.call('Fail', 'broken'))}")
    print(f"Nothing {ending(await hub.call('Nothing'))}")
    print(f"Add of one {ending(await hub.call('Add', 1))}")
    print(f"Count as a call {ending(await hub.call('Count', 5))}")
    print(f"Echo as a stream {ending(await hub.call('Echo', 5, kind=STREAM))}")


async def streams(hub):
    (count,) = await hub.begin(STREAM, "Count", 5)
    end = await hub.ending(count)
    print(f"Count items {shown(hub.items[count])} {ending(end)}")
    call, upload = await hub.begin(INVOCATION, "Sum", uploads=1)
    for item in 1, 2, 3:
        await hub.send({"type": ITEM, "invocationId": upload, "item": item})
    await hub.send({"type": COMPLETION, "invocationId": upload})
    print(f"Sum {ending(await hub.ending(call))}")
    (long,) = await hub.begin(STREAM, "Count", 1_000_000)
    await hub.some_items(long, 10)
    await hub.send({"type": CANCEL, "invocationId": long})
    end = await hub.ending(long)
    items = hub.items[long]
    in_order = items == list(range(1, len(items) + 1))
    print(f"Count cancelled {ending(end)} in order {shown(in_order)} early {shown(len(items) < 1_000_000)}")


async def client_result(hub):
    (ask,) = await hub.begin(INVOCATION, "Ask", "Confirm", 7)
    asked = await hub.server_call()
    print(f"asked {asked['target']} {shown(asked['arguments'])}")
    await hub.send({"type": COMPLETION, "invocationId": asked["invocationId"], "result": asked["arguments"][0]})
    print(f"Ask {ending(await hub.ending(ask))}")


async def room(base, first):
    second = await connect(base)
    for hub in first, second:
        print(f"Join {ending(await hub.call('Join', 'lobby'))}")
    print(f"Post {ending(await first.call('Post', 'lobby', 'hello'))}")
    for name, hub in ("first", first), ("second", second):
        posted = await hub.server_call()
        print(f"{name} got {posted['target']} {shown(posted['arguments'])} answer wanted {shown('invocationId' in posted)}")
    print(f"Leave {ending(await second.call('Leave', 'lobby'))}")
    print(f"Post {ending(await second.call('Post', 'lobby', 'from outside'))}")
    print(f"first got {shown((await first.server_call())['arguments'])}")
    print(f"History {ending(await first.call('History', 'lobby', 10))}")
    print(f"second closed {await second.close()}, and was called {len(second.calls)} times more")


async def losses(hub):
    """The socket is dropped in the middle of a stream. While we acknowledge nothing, the server has to say all of it again."""
    await hub.acknowledge()
    hub.acks = False
    (count,) = await hub.begin(STREAM, "Count", 200)
    await hub.some_items(count, 50)
    hub.lose()
    (echo,) = await hub.begin(INVOCATION, "Echo", "said without a socket")
    await hub.open_again()
    end = await hub.ending(count)
    items = hub.items[count]
    print(f"Count across sockets {len(items)} items in order {shown(items == list(range(1, 201)))} {ending(end)}", end=" ")
    print(f"duplicates {hub.duplicates}")
    print(f"Echo {ending(await hub.ending(echo))}")
    await hub.acknowledge()
    print(f"Add {ending(await hub.call('Add', 1, 2))}")
    hub.duplicates = 0
    hub.lose()
    await hub.open_again()
    print(f"Add {ending(await hub.call('Add', 20, 22))} duplicates {hub.duplicates}")
    hub.acks = True


async def message_pack(base):
    """A connection without a negotiate. Its handshake is JSON, and what follows is MessagePack."""
    async with connect_socket(socket_address(base)) as socket:
        await socket.send('{"protocol":"messagepack","version":1}' + RECORD)
        print(f"pack handshake {(await socket.recv()).decode().rstrip(RECORD)}")
        await socket.send(framed(packed([1, {}, "1", "Add", [2, 3], []])))
        answer = await socket.recv()
        print(f"pack answer {answer.hex()}")
        for frame in frames(answer):
            print(f"pack says {shown(unpacked(frame)[0])}")


def long_polling(base):
    _, told = negotiate(base, "")
    target = f"?id={told['connectionToken']}"
    print(f"poll reconnect {shown(told.get('useStatefulReconnect', False))}")
    print("first poll %d %s" % request(base, "GET", target))
    call = {"type": INVOCATION, "invocationId": "1", "target": "Add", "arguments": [2, 3]}
    body = '{"protocol":"json","version":1}' + RECORD + spelled(call)
    print("post %d %s" % request(base, "POST", target, body.encode()))
    status, body = request(base, "GET", target)
    print(f"poll {status} {body.replace(RECORD, ' ').strip()}")
    print("delete %d %s" % request(base, "DELETE", target))
    print("poll %d %s" % request(base, "GET", target))


async def refusals(base):
    print("no version %d %s" % request(base, "POST", "/negotiate"))
    print("wrong id %d %s" % request(base, "GET", "?id=nobody"))
    try:
        await connect_socket(socket_address(base, "nobody"))
    except InvalidStatusCode as refused:
        print(f"socket with a wrong id {refused.status_code}")


async def session(base):
    hub = await greet(base)
    await calls(hub)
    await streams(hub)
    await client_result(hub)
    await room(base, hub)
    await losses(hub)
    await message_pack(base)
    long_polling(base)
    await refusals(base)
    print(f"closed {await hub.close()}")


if __name__ == "__main__":
    sys.stdout.reconfigure(encoding="utf-8")
    asyncio.run(session(sys.argv[1]))
