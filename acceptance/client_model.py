"""A plain model of `sr client` at a server that answers its requests so: which requests it makes, what it prints, and its exit status.

Responses are read as http_model.py has it, a token as JSON says it, frames of a WebSocket as in serving_model.py, and what the client does at each
message is that of clients/scripted.py. The connection isn't resumable. Each request that has no answer here is answered 404."""
import pathlib
import sys
import urllib.parse

import frames_model
import http_model
import serving_model
from serving_model import Undecided

sys.path.insert(0, str(pathlib.Path(__file__).resolve().parent / "clients"))
from scripted import Client  # noqa: E402

ACCEPTS = b"PLACE-OF-WHAT-ACCEPTS-A-KEY="  # is put in place of that
NEGOTIATE = "POST /hub/negotiate?negotiateVersion=1&useStatefulReconnect=true"
LOST = "lost"


class Answers(http_model.Lane):
    """The responses on a connection, as they are, each with its body."""

    def __init__(self):
        super().__init__(http_model.RESPONSE, http_model.CUT_RESPONSE, lambda head: self.read_head(http_model.response_of(head)))

    def read_head(self, response):
        return response.length, response.status == 101, False, response

    def handed_out(self, response, body):
        return response, body


def response_in(data):
    """The response with which the bytes begin, its body, and the bytes behind it; or LOST, if they end before or are none."""
    lane, at = Answers(), 0
    while True:
        taken = lane.feed(data[at:])
        at += taken
        found = lane.next()
        if isinstance(found, str):
            return LOST
        if found is not None:
            return (*found, lane.held + data[at:])
        if at == len(data) or not taken:
            return LOST


def is_up(response, body):
    return response.status == 101 and response.accept == ACCEPTS and not body


def head_of(data):
    """How many of these bytes are those of the response: those up to the end of a 101 by which the client comes up, or all."""
    answer = response_in(data)
    return len(data) - len(answer[2]) if answer != LOST and is_up(*answer[:2]) else len(data)


def token_in(body):
    """The token that a body tells, or None."""
    try:
        read = frames_model.DECODER.decode(body.decode())
    except (ValueError, RecursionError, frames_model.Refused):
        return None
    if not isinstance(read, frames_model.Members) or not frames_model.is_readable(read, frames_model.MOST_NESTED):
        return None
    told = frames_model.settled(read)
    token = told.get("connectionToken")
    if told.get("useStatefulReconnect") is True:
        raise Undecided
    return token if isinstance(token, str) else None


def quoted(text):
    """As the URL Standard's form-urlencoded serializer writes it."""
    return urllib.parse.quote_plus(text, safe="*").replace("~", "%7E")


class Dialed:
    """What a client with this script does if these are the answers to its first requests."""

    def __init__(self, script, codec, answers):
        self.script, self.codec, self.answers = script, codec, [*answers]
        self.asked, self.printed, self.status = [], [], 8
        self.negotiates()

    def answer(self, line):
        """Asks, and gives what is answered."""
        self.asked.append(line)
        return response_in(self.answers.pop(0)) if self.answers else (http_model.Response(404, None, 0), b"", b"")

    def negotiates(self):
        """A dial that is lost is followed by another."""
        while (answer := self.answer(NEGOTIATE)) == LOST:
            pass
        response, body, _ = answer
        token = token_in(body) if response.status == 200 else None
        if token is not None:
            self.opens(f"GET /hub?id={quoted(token)}")

    def opens(self, line):
        while True:
            answer = self.answer(line)
            if answer == LOST:
                continue
            response, body, rest = answer
            if response.status != 101:
                return
            if is_up(response, body):
                self.talks(rest)
                return

    def talks(self, data):
        """It is up, and hears these bytes, and then the loss."""
        client, stream = Client(self.script, self.codec, kept=False), Stream(self.codec)
        client.comes_up()
        for kind, told in serving_model.Socket(data, is_client=True).found:
            if kind == "payload" and not client.is_over():
                hears(client, stream.frames(told))
        if not client.is_over():
            client.is_lost()
        self.printed, self.status = client.printed, client.status()


def hears(client, frames):
    """What comes before a frame that can't be read is taken."""
    taken = [frame for frame in frames if frame != ("refused",)]
    if len(taken) == len(frames):
        client.hears(taken)
        return
    for frame in taken:
        if not client.end.closed():
            client.take("c", frame)
    if not client.end.closed():
        client.end.steps.append(("failed", "frame", ("refused",)))
    client.turn()


class Stream:
    """The frames that a server says, however they are cut into messages."""

    def __init__(self, codec):
        self.codec, self.rest, self.is_shaken = codec, b"", False

    def frames(self, payload):
        """The whole ones that came. One that is refused is the last."""
        self.rest, found = self.rest + payload, []
        while not found or found[-1] != ("refused",):
            frame, end = frames_model.next_frame(self.codec if self.is_shaken else "json", self.rest, 0)
            if frame is None:
                break
            told = self.told(frame) if isinstance(frame, bytes) else ("refused",)
            self.rest = self.rest[end:]
            found += [told] if told else []
        return found

    def told(self, frame):
        try:
            if not self.is_shaken:
                return self.response(frame)
            tree = frames_model.READERS[self.codec](frame)
        except frames_model.Refused:
            return ("refused",)
        return serving_model.frame_of(tree) if isinstance(tree, dict) else None

    def response(self, frame):
        """The server's answer to the handshake refuses it by an error of any kind, or is none."""
        told = frames_model.value_of(frame)
        self.is_shaken = isinstance(told, dict) and told.get("error") is None
        return ("response",) if self.is_shaken else ("refused",)
