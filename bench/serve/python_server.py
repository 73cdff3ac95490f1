#!/usr/bin/env python3
"""A SignalR hub server over asyncio and Debian's python3-websockets, to measure `sr serve` beside. It is no test.

    bench/serve/python_server.py PORT [single]

It has what bench/serve/load.c asks for: negotiate, WebSockets, the hub protocol in JSON, Echo, Join, Post and Count, pings and
silences. A stream says 64 items and then lets others have a turn: in one message, or with `single` in 64. It prints `serving PORT`
once it listens."""
import asyncio
import collections
import http
import json
import secrets
import sys
import time
import urllib.parse

import websockets
from websockets.exceptions import ConnectionClosed
from websockets.legacy.http import read_request
from websockets.legacy.server import WebSocketServerProtocol, serve

BASE = "/hub"
SEPARATOR = "\x1e"
PING = '{"type":6}' + SEPARATOR
KEEP_ALIVE, SILENCE, FRESH = 15, 30, 30
MOST = 1_048_576
TURN = 64
TRANSPORTS = [{"transport": "WebSockets", "transferFormats": ["Text"]}]

encode = json.JSONEncoder(separators=(",", ":"), ensure_ascii=False).encode
decode = json.JSONDecoder().decode

rooms = collections.defaultdict(set)
connections = set()
rows = []
tokens = {}


class Connection(WebSocketServerProtocol):
    """One connection, whose first request may be a negotiate."""

    made = 0
    is_single = False

    async def read_http_request(self):
        """As the library, which knows GET alone; a negotiate before it is answered here."""
        head = await self.reader.readuntil(b"\r\n\r\n")
        while head.startswith(b"POST "):
            self.transport.write(negotiated(head))
            head = await self.reader.readuntil(b"\r\n\r\n")
        reader = asyncio.StreamReader()
        reader.feed_data(head)
        self.path, self.request_headers = await read_request(reader)
        return self.path, self.request_headers

    async def process_request(self, path, request_headers):
        address = urllib.parse.urlsplit(path)
        token = dict(urllib.parse.parse_qsl(address.query)).get("id")
        if address.path != BASE or token is not None and tokens.pop(token, None) is None:
            return http.HTTPStatus.NOT_FOUND, [], b""
        return None

    async def run(self):
        Connection.made += 1
        self.number, self.rooms, self.streams = str(Connection.made), set(), {}
        self.heard_at = self.said_at = time.monotonic()
        connections.add(self)
        try:
            await self.hear()
        except ConnectionClosed:
            pass
        finally:
            self.end()

    def end(self):
        connections.discard(self)
        for stream in self.streams.values():
            stream.cancel()
        for room in self.rooms:
            rooms[room].discard(self)
            if not rooms[room]:
                del rooms[room]

    async def hear(self):
        rest, take = "", self.shake
        async for text in self:
            self.heard_at = time.monotonic()
            *frames, rest = (rest + text).split(SEPARATOR)
            for frame in frames:
                await take(decode(frame))
                take = self.take

    async def shake(self, request):
        if request.get("protocol") == "json" and request.get("version") in (1, 2):
            return await self.say("{}" + SEPARATOR)
        await self.say(encode({"error": "The protocol is not known."}) + SEPARATOR)
        return await self.close()

    async def take(self, message):
        kind = message["type"]
        if kind == 1:
            await self.call(message)
        elif kind == 4:
            number = message["invocationId"]
            self.streams[number] = asyncio.create_task(self.count(number, *message["arguments"]))
        elif kind == 5 and message["invocationId"] in self.streams:
            self.streams.pop(message["invocationId"]).cancel()
        elif kind == 7:
            await self.close()

    async def call(self, message):
        method = METHODS.get(message["target"])
        ending = {"error": "Unknown method."} if method is None else {"result": method(self, *message["arguments"])}
        if "invocationId" in message:
            await self.say(encode({"type": 3, "invocationId": message["invocationId"], **ending}) + SEPARATOR)

    async def count(self, number, count):
        for first in range(1, count + 1, TURN):
            items = [encode({"type": 2, "invocationId": number, "item": item}) + SEPARATOR for item in range(first, min(first + TURN, count + 1))]
            for text in items if self.is_single else ["".join(items)]:
                await self.say(text)
            await asyncio.sleep(0)
        self.streams.pop(number, None)
        await self.say(encode({"type": 3, "invocationId": number}) + SEPARATOR)

    async def say(self, text):
        self.said_at = time.monotonic()
        await self.send(text)


def echo(_connection, value):
    return value


def join(connection, room):
    connection.rooms.add(room)
    rooms[room].add(connection)


def post(connection, room, text):
    rows.append((room, connection.number, text))
    say_all(rooms.get(room, ()), encode({"type": 1, "target": "Posted", "arguments": [room, connection.number, text]}) + SEPARATOR)


METHODS = {"Echo": echo, "Join": join, "Post": post}


def say_all(members, text):
    now = time.monotonic()
    for member in members:
        member.said_at = now
    websockets.broadcast(members, text)


def negotiated(head):
    target = head.split(b" ", 2)[1].partition(b"?")[0].decode("latin-1")
    if target != f"{BASE}/negotiate":
        return b"HTTP/1.1 404 Not Found\r\nContent-Length: 0\r\n\r\n"
    token = secrets.token_urlsafe(16)
    tokens[token] = time.monotonic()
    body = encode({"connectionId": token, "connectionToken": token, "negotiateVersion": 1, "availableTransports": TRANSPORTS}).encode()
    return b"HTTP/1.1 200 OK\r\nContent-Type: application/json\r\nContent-Length: %d\r\n\r\n%s" % (len(body), body)


async def keep_alive():
    while True:
        await asyncio.sleep(1)
        now = time.monotonic()
        for connection in [it for it in connections if now - it.heard_at >= SILENCE]:
            connection.transport.abort()
        say_all([it for it in connections if now - it.said_at >= KEEP_ALIVE], PING)
        for token in [it for it, at in tokens.items() if now - at >= FRESH]:
            del tokens[token]


async def main():
    port = int(sys.argv[1])
    Connection.is_single = sys.argv[2:] == ["single"]
    settings = {"compression": None, "ping_interval": None, "max_size": MOST, "backlog": 1024}
    async with serve(Connection.run, "127.0.0.1", port, create_protocol=Connection, **settings):
        print(f"serving {port}", flush=True)
        await keep_alive()


if __name__ == "__main__":
    asyncio.run(main())
