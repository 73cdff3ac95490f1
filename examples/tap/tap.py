#!/usr/bin/env python3
"""Stands between clients and a hub server, and writes down what one end of each connection was given and said.

    tap.py FOLDER [--port N] [--to HOST:PORT] [--end server | --end client] [--resend COUNT BYTES]

It listens at 127.0.0.1, on port 8081 if N isn't given, and passes all bytes on to the server, at 127.0.0.1:8080 if no other is given.
Of each hub connection that comes over WebSockets FOLDER gets a recording, 1.trace, 2.trace and so on, which goes on as the connection
does on further sockets. Numbers that are there are passed over. Long polling is passed on and not recorded. It ends with ^C. Python 3.9 or later is enough.

A recording is UTF-8, and is that of the server's end if no other is asked for. Its first line is `trace CODEC VERSION RECONNECT COUNT BYTES
32768`: what the client asked for, json or pack and the version, whether the server granted it to go on over further sockets, on or off, and
the option `--resend` of the end, which has to be told if it isn't 1024 100000. After it comes a line for each thing that was seen, in order, with
`c` in place of `s` if it is the client's end:

    s tick MS       it is this many milliseconds since the connection's first socket
    s attach K      a socket is up, the connection's K-th from 0
    s fed HEX       the other end has said these bytes, before this one is given them
    s lent HEX      this end has said this frame, with its framing
    s detach        the socket has ended

A socket begins and ends at the moment of the last tick before that line. An end that was given nothing for 30,000 ms, from the first tick
after that on, gives up its socket at the next tick by itself, so no `detach` comes after that one.

A tap sees bytes, and not what the end did: when it processed a message isn't in a recording."""
import argparse
import asyncio
import contextlib
import json
import pathlib
import re
import time
import urllib.parse

PIECE = 65_536
SEPARATOR = b"\x1e"
FRAME = 32_768
SILENCE = 30_000  # ms
CODECS = {"json": "json", "messagepack": "pack"}
ENDS = {"client": "c", "server": "s"}
DATA = 0, 1, 2  # the WebSocket frames that carry a message, or a part of one


class Recording:
    """Of one end of one connection. Nothing is written until the client has said what it asks for."""

    def __init__(self, path, side, reconnect, limits):
        self.path, self.side, self.reconnect, self.limits = path, side, reconnect, limits
        self.began = self.moment = None
        self.links, self.is_up = 0, False
        self.heard = None  # the moment of the first tick since it was last given something, if there was one
        self.request, self.said = b"", b""  # what the client has said until its request is whole, and of this end's next frame
        self.codec, self.has_shaken = None, False
        self.waiting = []  # lines, until there is a first one

    def now(self):
        """In milliseconds since its first socket."""
        if self.began is None:
            self.began = time.monotonic()
        return int((time.monotonic() - self.began) * 1000)

    def tick(self):
        """Tells the moment, if it is a later one. The end may lose its link by that."""
        now = self.now()
        if now == self.moment:
            return
        self.moment = now
        self.write(f"tick {now}")
        if self.heard is None:
            self.heard = now
        self.is_up = self.is_up and now < self.heard + SILENCE

    def write(self, words):
        self.waiting.append(f"{self.side} {words}\n")
        if self.codec:
            with open(self.path, "a", encoding="utf-8") as file:
                file.write("".join(self.waiting))
            self.waiting.clear()

    def attach(self):
        """The number of the new link, which begins at the moment of the last tick."""
        self.tick()
        self.write(f"attach {self.links}")
        self.said, self.is_up, self.heard = b"", True, self.moment
        self.links += 1
        return self.links - 1

    def detach(self):
        self.tick()
        if self.is_up:
            self.write("detach")
        self.is_up = False

    def feed(self, data):
        """These bytes are on their way to this end."""
        if self.side == "s":
            self.ask(data)
        self.tick()
        if self.is_up:
            self.write(f"fed {data.hex()}")
        self.heard = None

    def lend(self, data):
        """This end has said these bytes, of which each frame has a line once it is whole."""
        if self.side == "c":
            self.ask(data)
        self.said += data
        while size := self.size_of_frame():
            frame, self.said = self.said[:size], self.said[size:]
            self.has_shaken = True
            self.tick()
            if self.is_up:
                self.write(f"lent {frame.hex()}")

    def ask(self, data):
        """Writes the first line, once the client's request is whole."""
        if self.codec:
            return
        self.request += data
        request, end, _ = self.request.partition(SEPARATOR)
        if not end:
            return
        with contextlib.suppress(ValueError, KeyError, TypeError):
            asked = json.loads(request)
            codec, version = CODECS[asked["protocol"]], int(asked["version"])
            self.path.write_text(f"trace {codec} {version} {self.reconnect} {' '.join(map(str, self.limits))} {FRAME}\n")
            self.codec = codec

    def size_of_frame(self):
        """How many bytes the first frame of what was said has, with its framing. 0 if it isn't whole."""
        if not self.has_shaken or self.codec != "pack":
            return self.said.find(SEPARATOR) + 1
        size, shift = 0, 0
        for digits, byte in enumerate(self.said, 1):
            size |= (byte & 127) << shift
            shift += 7
            if byte < 128:
                return digits + size if len(self.said) >= digits + size else 0
        return 0


class Payloads:
    """Reads the messages' bytes out of one direction of a WebSocket."""

    def __init__(self):
        self.rest = b""

    def push(self, data):
        self.rest += data
        found = b""
        while (frame := self.next()) is not None:
            found += frame
        return found

    def next(self):
        """The bytes of the next frame, none of one that carries no message. None if it isn't whole."""
        rest = self.rest
        if len(rest) < 2:
            return None
        opcode, masked, short = rest[0] & 15, rest[1] >> 7, rest[1] & 127
        wide = {126: 2, 127: 8}.get(short, 0)
        start = 2 + wide + 4 * masked
        size = int.from_bytes(rest[2 : 2 + wide], "big") if wide else short
        if len(rest) < start or len(rest) < start + size:
            return None
        payload, mask = rest[start : start + size], rest[start - 4 : start]
        self.rest = rest[start + size :]
        if opcode not in DATA:
            return b""
        return bytes(byte ^ mask[place % 4] for place, byte in enumerate(payload)) if masked else payload


class Seen:
    """One TCP connection, as far as it was seen."""

    def __init__(self, tap):
        self.tap, self.asked, self.replied = tap, b"", b""
        self.recording = self.link = None
        self.inward, self.outward = Payloads(), Payloads()

    def from_client(self, data):
        if self.link is None:
            self.asked = (self.asked + data)[-PIECE:]
        else:
            self.see_payload(self.inward.push(data), "c")

    def from_server(self, data):
        if self.link is None:
            data = self.see_head(data)
        if self.link is not None:
            self.see_payload(self.outward.push(data), "s")

    def see_payload(self, payload, speaker):
        """What one end says on a link, if the other stands on it."""
        if payload and self.stands():
            (self.recording.lend if speaker == self.recording.side else self.recording.feed)(payload)

    def see_head(self, data):
        """Looks for the reply that begins a WebSocket, behind others. Gives what comes after its head."""
        self.replied = (self.replied + data)[-PIECE:]
        upgraded = re.search(rb"HTTP/1\.1 101 .*?\r\n\r\n", self.replied, re.DOTALL)
        targets = re.findall(rb"GET ([^ ]*) HTTP/1\.1\r\n", self.asked)
        if not upgraded or not targets:
            self.tap.see_reply(self.replied)
            return b""
        query = urllib.parse.urlsplit(targets[-1].decode()).query
        self.recording = self.tap.recording(urllib.parse.parse_qs(query).get("id", [f"none {id(self)}"])[0])
        self.link = self.recording.attach()
        return self.replied[upgraded.end() :]

    def stands(self):
        """Whether the end stands on this socket, and not on a later one."""
        return self.recording.links == self.link + 1

    def ended(self):
        if self.link is not None and self.stands():
            self.recording.detach()


class Tap:
    """All recordings, by the tokens of their connections."""

    socket, kind = Seen, Recording

    def __init__(self, folder, side, limits):
        self.folder, self.side, self.limits = folder, side, limits
        self.number, self.recordings, self.granted = 0, {}, set()

    def recording(self, token):
        if token not in self.recordings:
            self.recordings[token] = self.kind(self.free_path(), self.side, "on" if token in self.granted else "off", self.limits)
        return self.recordings[token]

    def free_path(self):
        """That of a file which isn't there, nor will be another recording's."""
        self.number += 1
        while (path := self.folder / f"{self.number}.trace").exists():
            self.number += 1
        return path

    def see_reply(self, text):
        """A reply may be that of a negotiate, with a token, and the grant to go on over further sockets."""
        token = re.search(rb'"connectionToken":"([^"\\]*)"', text)
        if token and re.search(rb'"useStatefulReconnect":true', text):
            self.granted.add(token[1].decode())


async def pass_on(reader, writer, see):
    """Passes bytes on, after they were seen."""
    with contextlib.suppress(OSError):
        while data := await reader.read(PIECE):
            see(data)
            writer.write(data)
            await writer.drain()
    with contextlib.suppress(OSError):
        writer.close()


async def listen(tap, port, to):
    """Begins to listen at a port, and to pass on to a host and a port."""

    async def meet(reader, writer):
        try:
            far_reader, far_writer = await asyncio.open_connection(*to)
        except OSError:
            writer.close()
            return
        seen = tap.socket(tap)
        await asyncio.gather(pass_on(reader, far_writer, seen.from_client), pass_on(far_reader, writer, seen.from_server))
        seen.ended()

    return await asyncio.start_server(meet, "127.0.0.1", port)


async def run(tap, port, to):
    server = await listen(tap, port, to)
    print(f"tap: http://127.0.0.1:{port} to {to[0]}:{to[1]}, recordings in {tap.folder}", flush=True)
    async with server:
        await server.serve_forever()


def main():
    words = argparse.ArgumentParser(description="Records what one end of each hub connection is given and says.")
    words.add_argument("folder", type=pathlib.Path)
    words.add_argument("--port", type=int, default=8081)
    words.add_argument("--to", default="127.0.0.1:8080", metavar="HOST:PORT")
    words.add_argument("--end", choices=ENDS, default="server")
    words.add_argument("--resend", type=int, nargs=2, default=[1024, 100_000], metavar=("COUNT", "BYTES"))
    given = words.parse_args()
    given.folder.mkdir(parents=True, exist_ok=True)
    host, _, port = given.to.rpartition(":")
    with contextlib.suppress(KeyboardInterrupt):
        asyncio.run(run(Tap(given.folder, ENDS[given.end], given.resend), given.port, (host, int(port))))


if __name__ == "__main__":
    main()
