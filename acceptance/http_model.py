#!/usr/bin/env python3
"""A plain model of the lanes of HTTP: what `crates/ht_http` is to print of a script.

    acceptance/http_model.py --check [BUILT] | --write      the script and what the model says of it (committed.py)
    acceptance/http_model.py                                prints what the model says of a script on its standard input

It follows docs/http.md and shares no code with the program: heads are found by regular expressions, each time anew, and the phrases,
the digests and the decoding of queries are those of Python's http, hashlib, base64 and urllib."""
import base64
import collections
import hashlib
import http
import re
import sys
import urllib.parse

import committed

MOST_HEAD, MOST_BODY, MOST_HEADERS = 16_384, 1_048_576, 100
GUID = b"258EAFA5-E914-47DA-95CA-C5AB0DC85B11"

TOKEN = rb"[!#$%&'*+\-.^_`|~0-9A-Za-z]"
TARGET = rb"[^\x00-\x20\x7f]"
VALUE = rb"[\t\x20-\x7e\x80-\xff]"
END = rb"\r?\n"
FIELD = TOKEN + rb"+:" + VALUE + rb"*" + END
CUT_FIELD = rb"(?:\r|" + TOKEN + rb"+|" + TOKEN + rb"+:" + VALUE + rb"*\r?)?"


def cuts(text):
    """The beginnings of a text, as an expression."""
    return rb"(?:" + b"|".join(re.escape(text[:n]) for n in range(len(text), 0, -1)) + rb")?"


START = TOKEN + rb"+ " + TARGET + rb"+ HTTP/1\.[01]"
REQUEST = re.compile(
    rb"(?:" + END + rb")*(" + TOKEN + rb"+) (" + TARGET + rb"+) HTTP/1\.([01])" + END + rb"((?:" + FIELD + rb")*)" + END)
CUT_REQUEST = re.compile(
    rb"(?:" + END + rb")*(?:\r|" + TOKEN + rb"+|" + TOKEN + rb"+ " + TARGET + rb"*|" + TOKEN + rb"+ " + TARGET + rb"+ " + cuts(b"HTTP/1.")
    + rb"|" + START + rb"\r?|" + START + END + rb"(?:" + FIELD + rb")*" + CUT_FIELD + rb")?\Z")
STATUS = rb"HTTP/1\.[01] [0-9]{3}(?: " + VALUE + rb"*)?"
RESPONSE = re.compile(
    rb"(?:" + END + rb")*HTTP/1\.([01]) ([0-9]{3})(?: " + VALUE + rb"*)?" + END + rb"((?:" + FIELD + rb")*)" + END)
CUT_RESPONSE = re.compile(
    rb"(?:" + END + rb")*(?:\r|" + cuts(b"HTTP/1.") + rb"|HTTP/1\.[01](?: [0-9]{0,3})?|" + STATUS + rb"\r?|" + STATUS + END
    + rb"(?:" + FIELD + rb")*" + CUT_FIELD + rb")?\Z")


class Refused(Exception):
    def __init__(self, status, field=None):
        super().__init__(f"refused {status}" + (f" [{field}]" if field else ""))


# ---- what fields say

def fields_of(text):
    lines = re.split(END, text)[:-1]
    return [(name.lower(), value.strip(b" \t")) for name, value in (line.split(b":", 1) for line in lines)]


def first(fields, name):
    return next((value for key, value in fields if key == name), None)


def elements(fields, name):
    return [e.strip(b" \t").lower() for key, value in fields if key == name for e in value.split(b",")]


def length_of(fields):
    """The length of the body, or None if the lengths are no one number."""
    values = [value for key, value in fields if key == b"content-length"]
    if not all(re.fullmatch(rb"[0-9]+", value) for value in values):
        return None
    numbers = {int(value) for value in values}
    return None if len(numbers) > 1 else (numbers or {0}).pop()


def check_host(minor, fields):
    """RFC 9112, section 3.2, says so of HTTP/1.1; HTTP/1.0 knew no such field, but two of them mean nothing there either."""
    if [key for key, _ in fields].count(b"host") not in ({b"0": (0, 1), b"1": (1,)}[minor]):
        raise Refused(400)


def check_body(fields, length):
    if first(fields, b"transfer-encoding") is not None:
        raise Refused(411)
    if length > MOST_BODY:
        raise Refused(413)


def accept_of(key):
    return base64.b64encode(hashlib.sha1(key + GUID).digest())


def upgrade_of(method, fields):
    if method != b"GET" or b"websocket" not in elements(fields, b"upgrade") or b"upgrade" not in elements(fields, b"connection"):
        return None
    if first(fields, b"sec-websocket-version") != b"13":
        raise Refused(400, "Sec-WebSocket-Version: 13")
    key = first(fields, b"sec-websocket-key")
    try:
        nonce = base64.b64decode(key or b"", validate=True)
    except ValueError:
        raise Refused(400) from None
    if len(nonce) != 16 or base64.b64encode(nonce) != key:
        raise Refused(400)
    return accept_of(key)


def decoded(text):
    return urllib.parse.unquote_to_bytes(text.replace(b"+", b" "))


def query_value(query, name):
    for pair in query.split(b"&"):
        key, _, value = pair.partition(b"=")
        if pair and decoded(key) == name:
            return decoded(value)
    return None


def bearer_of(fields, query):
    value = first(fields, b"authorization")
    if value is not None and value[:7].lower() == b"bearer ":
        return value[7:]
    return query_value(query, b"access_token")


# ---- lanes

class Lane:
    def __init__(self, whole, cut, read):
        self.whole, self.cut, self.read = whole, cut, read
        self.held, self.want, self.spent, self.ended, self.due = b"", 0, None, False, False

    def feed(self, piece):
        room = 0 if self.spent else max(MOST_HEAD, self.want) - len(self.held)
        count = min(len(piece), room)
        self.held += piece[:count]
        return count

    def next(self):
        if self.spent:
            return self.spent
        if self.ended:
            return None
        try:
            return self.find()
        except Refused as refused:
            self.spent = str(refused)
            return self.spent

    def take_continue(self):
        due, self.due = self.due, False
        return due

    def find(self):
        head = self.whole.match(self.held)
        lines = len(re.findall(FIELD, self.held[: head.end()] if head else self.held))
        if head is None and self.cut.match(self.held) is None:
            raise Refused(400)
        if lines > MOST_HEADERS or (head is None and len(self.held) >= MOST_HEAD):
            raise Refused(431)
        if head is None:
            return None
        length, ended, expects, line = self.read(head)
        just_read, self.want = self.want == 0, head.end() + length
        if len(self.held) < self.want:
            self.due = expects if just_read else self.due
            return None
        body = self.held[head.end() : self.want]
        self.held, self.want, self.ended, self.due = self.held[self.want :], 0, ended, False
        return self.handed_out(line, body)

    def handed_out(self, line, body):
        return line + f"{len(body)} [{shown(body[:64])}]"


# A head that isn't refused. The target's parts are its bytes; a bearer and the text that accepts a WebSocket may be None.
Request = collections.namedtuple("Request", "method path query bearer accept shut length expects")


def request_of(head):
    method, target, minor, text = head.groups()
    try:
        target.decode("utf-8")
    except UnicodeDecodeError:
        raise Refused(400) from None
    fields = fields_of(text)
    upgrade = upgrade_of(method, fields)
    length = length_of(fields)
    if length is None:
        raise Refused(400)
    check_host(minor, fields)
    check_body(fields, length)
    expects = minor == b"1" and b"100-continue" in elements(fields, b"expect")
    path, _, query = target.partition(b"?")
    shut = minor == b"0" or b"close" in elements(fields, b"connection")
    return Request(method, path, query, bearer_of(fields, query), upgrade, shut, length, expects)


def read_request(head):
    it = request_of(head)
    word = {b"GET": "Get", b"POST": "Post", b"DELETE": "Delete"}.get(it.method, "Other")
    said = f"{dash(it.bearer)} {dash(it.accept)} {'shut' if it.shut else 'open'} "
    return it.length, it.accept is not None, it.expects, f"request {word} [{shown(it.path)}] [{shown(it.query)}] {said}"


Response = collections.namedtuple("Response", "status accept length")


def response_of(head):
    _, digits, text = head.groups()
    fields = fields_of(text)
    length = length_of(fields)
    if length is None:
        raise Refused(400)
    check_body(fields, length)
    return Response(int(digits), first(fields, b"sec-websocket-accept"), length)


def read_response(head):
    it = response_of(head)
    return it.length, it.status == 101, False, f"response {it.status} {dash(it.accept)} "


# ---- what is written

FIELDS = {"-": b"", "allow-post": b"Allow: POST\r\n", "allow-all": b"Allow: GET, POST, DELETE\r\n",
          "bearer": b"WWW-Authenticate: Bearer\r\n", "version": b"Sec-WebSocket-Version: 13\r\n"}


def reply_of(status, kind, field, close, bytes_):
    phrase = "Payload Too Large" if status == 413 else http.HTTPStatus(status).phrase
    text = f"HTTP/1.1 {status} {phrase}\r\n".encode()
    if status == 101:
        return text + b"Upgrade: websocket\r\nConnection: Upgrade\r\nSec-WebSocket-Accept: " + bytes_ + b"\r\n\r\n"
    text += FIELDS[field]
    if status != 204:
        text += f"Content-Length: {len(bytes_)}\r\n".encode()
    types = {"json": b"application/json", "octets": b"application/octet-stream"}
    if bytes_ and kind in types:
        text += b"Content-Type: " + types[kind] + b"\r\n"
    if close == "close":
        text += b"Connection: close\r\n"
    return text + b"\r\n" + bytes_


CONTINUE = f"HTTP/1.1 {http.HTTPStatus.CONTINUE.value} {http.HTTPStatus.CONTINUE.phrase}\r\n\r\n".encode()


def continue_of():
    return f"continue [{shown(CONTINUE)}]"


def ask_of(method, host, target, key):
    lines = [f"{method} {target} HTTP/1.1", f"Host: {host}"]
    if method == "POST":
        lines.append("Content-Length: 0")
    if key:
        text = base64.b64encode(key.encode()).decode()
        lines += ["Upgrade: websocket", "Connection: Upgrade", f"Sec-WebSocket-Key: {text}", "Sec-WebSocket-Version: 13"]
    return "".join(line + "\r\n" for line in lines + [""]).encode()


# ---- scripts

def spelled(text):
    names = {"r": b"\r", "n": b"\n", "\\": b"\\"}
    found = re.findall(r"\\x[0-9a-f]{2}|\\.|[^\\]", text)
    return b"".join(
        bytes([int(it[2:], 16)]) if it.startswith("\\x") else names[it[1]] if it.startswith("\\") else it.encode() for it in found)


def shown(bytes_):
    names = {13: "\\r", 10: "\\n", 92: "\\\\"}
    return "".join(names.get(b) or (chr(b) if 32 <= b <= 126 else f"\\x{b:02x}") for b in bytes_)


def dash(text):
    return "-" if text is None else f"[{shown(text)}]"


def drip(lane, size, bytes_):
    """Feeds the bytes, `size` at a time, and gives the answers that come meanwhile."""
    for place in range(0, len(bytes_), size):
        lane.feed(bytes_[place : place + size])
        answer = lane.next()
        if answer:
            yield answer
        if lane.take_continue():
            yield continue_of()
    yield "dripped"


class Bench:
    def __init__(self):
        self.anew()

    def anew(self):
        self.requests = Lane(REQUEST, CUT_REQUEST, read_request)
        self.responses = Lane(RESPONSE, CUT_RESPONSE, read_response)

    def carry_out(self, line):
        word, _, rest = line.partition(" ")
        lane = self.responses if word in ("hear", "hear-drip", "answer", "after") else self.requests
        if word == "note": yield f"note {rest}"
        elif word == "lanes":
            self.anew()
            yield "lanes"
        elif word in ("feed", "hear"): yield f"fed {lane.feed(spelled(rest))}"
        elif word == "fill":
            count, _, byte = rest.partition(" ")
            yield f"fed {lane.feed(byte.encode() * int(count))}"
        elif word in ("drip", "hear-drip"):
            size, _, text = rest.partition(" ")
            yield from drip(lane, int(size), spelled(text))
        elif word in ("next", "answer"): yield lane.next() or "none"
        elif word == "continue": yield continue_of() if lane.take_continue() else "nothing due"
        elif word in ("rest", "after"): yield f"{word} [{shown(lane.held)}]"
        elif word == "reply":
            status, kind, field, close, text = (rest + " ").split(" ", 4)
            yield f"reply [{shown(reply_of(int(status), kind, field, close, spelled(text.rstrip(' '))))}]"
        elif word == "ask":
            method, host, target, key = (rest + " ").split(" ", 3)
            yield f"ask [{shown(ask_of(method, host, target, key.rstrip(' ')))}]"
        elif word == "accept": yield f"accept [{shown(accept_of(spelled(rest)))}]"
        elif word == "query":
            query, _, name = rest.partition(" ")
            value = query_value(spelled(query), spelled(name))
            yield "no value" if value is None else f"value [{shown(value)}]"


def answers(script):
    bench = Bench()
    return "".join(f"{answer}\n" for line in script.splitlines() for answer in bench.carry_out(line))


# ---- the cases

HOST = r"Host: a\r\n"
GET = r"GET /hub HTTP/1.1\r\n" + HOST
SOCKET = GET + r"Upgrade: websocket\r\nConnection: Upgrade\r\n"
KEY = r"Sec-WebSocket-Key: dGhlIHNhbXBsZSBub25jZQ==\r\n"


def asked(note, *texts):
    """A fresh lane that is fed these texts, with a look for a request after each, and twice at the end."""
    yield f"note {note}"
    yield "lanes"
    for text in texts:
        yield f"feed {text}"
        yield "next"
    yield "next"


def with_fields(note, *fields, method="GET", target="/hub", version="1.1", body="", host=HOST):
    lines = host + "".join(field + r"\r\n" for field in fields)
    return asked(note, rf"{method} {target} HTTP/{version}\r\n" + lines + r"\r\n" + body)


def heads():
    whole = r"POST /a/b?c=d HTTP/1.1\r\nHost: h\r\nContent-Length: 5\r\n\r\nhello"
    for size in (1, 2, 3, 7, 1000):
        yield f"note a request in pieces of {size}"
        yield "lanes"
        yield f"drip {size} {whole}{whole}{GET}\\r\\nGE"
        yield "next"
        yield "rest"
    text = spelled(whole)
    for place in range(1, len(text)):
        yield "lanes"
        yield f"feed {shown(text[:place])}"
        yield "next"
        yield f"feed {shown(text[place:])}"
        yield "next"
    for count in (100, 101):
        yield from with_fields(f"{count} headers", *[f"A{n}: b" for n in range(1, count)])
    yield from with_fields("a browser", "Connection: keep-alive", *[f"X-Header-Number-{n}: {'v' * 50}" for n in range(38)])
    yield from asked("line feeds alone, and blank lines before", r"\r\n\nGET / HTTP/1.1\nHost: a\n\n")
    yield from asked("three in one piece", GET + r"\r\n" + r"DELETE /x HTTP/1.1\r\n" + HOST + r"\r\nPUT /y?z HTTP/1.1\r\n" + HOST + r"\r\n")
    yield "next"
    for note, text in (("a byte of no token", r"GE\x00"), ("no version", r"GET / HTTQ"), ("a control byte in a target", r"GET /\x01 HTTP/1.1\r\nHost: a\r\n\r\n"),
                       ("a target that is no UTF-8", r"GET /\xff HTTP/1.1\r\nHost: a\r\n\r\n"), ("a header without a colon", r"GET / HTTP/1.1\r\nHost: a\r\nAccept\r\n\r\n"),
                       ("HTTP/2.0", r"GET / HTTP/2.0\r\nHost: a\r\n\r\n"), ("a target in UTF-8", r"GET /\xc3\xa9?\xc3\xa9 HTTP/1.1\r\nHost: a\r\n\r\n")):
        yield from asked(note, text)
    for last in (r"\r\n\r\n", r"\r\n\r"):
        yield f"note a head that ends with its byte {16_384 if last.endswith('n') else 16_385}"
        yield "lanes"
        yield r"feed GET / HTTP/1.1\r\nHost: a\r\nA: "
        yield f"fill {16_384 - 28 - (4 if last.endswith('n') else 3)} x"
        yield "next"
        yield f"feed {last}"
        yield "next"
        yield "next"
    yield "note 16,385 bytes without an end"
    yield "lanes"
    yield r"feed GET / HTTP/1.1\r\nA: "
    yield "fill 16385 x"
    yield "next"
    yield "feed more"


def lengths():
    for note, values in (("1 and 2", "12"), ("twice the same", "33"), ("once with zeros", ("3", "0003")), ("20 digits", ("1" * 20,)),
                         ("twice the same 20 digits", ("1" * 20, "0" + "1" * 20)), ("two of 20 digits", ("1" * 20, "1" * 19 + "2")),
                         ("2^64", ("18446744073709551616",)), ("2^64 and 0", ("18446744073709551616", "0")), ("a list", ("3, 3",)),
                         ("a sign", ("+3",)), ("none", ("",)), ("hex", ("0x3",)), ("1,048,577", ("1048577",)), ("a word and a number", ("x", "3")),
                         ("a number and a word", ("3", "x"))):
        yield from with_fields(f"lengths: {note}", *[f"Content-Length: {value}" for value in values], method="POST", body="abcdef")
    yield "note 1,048,576 bytes"
    yield "lanes"
    yield r"feed POST /up HTTP/1.1\r\nHost: a\r\nContent-Length: 1048576\r\n\r\n"
    yield "next"
    yield "fill 600000 a"
    yield "next"
    yield "fill 600000 b"
    yield "next"
    yield "fill 20000 c"
    yield "next"
    for fields in (("Transfer-Encoding: chunked",), ("transfer-encoding:",), ("Transfer-Encoding: chunked", "Content-Length: 3"),
                   ("Transfer-Encoding: chunked", "Content-Length: x"), ("Transfer-Encoding: chunked", "Content-Length: 1048577")):
        yield from with_fields(" and ".join(fields), *fields, method="POST", body="abc")


def hosts():
    for note, host, version in (("no Host", "", "1.1"), ("two Hosts", HOST * 2, "1.1"), ("two Hosts that differ", HOST + r"host: b\r\n", "1.1"),
                                ("an empty Host", r"HOST:\r\n", "1.1"), ("three Hosts", HOST * 3, "1.1"), ("no Host in HTTP/1.0", "", "1.0"),
                                ("a Host in HTTP/1.0", HOST, "1.0"), ("two Hosts in HTTP/1.0", HOST * 2, "1.0")):
        yield from with_fields(note, version=version, host=host)
    yield from with_fields("no Host, and X-Host", "X-Host: a", host="")
    yield from with_fields("two Hosts, and a length past the limit", "Content-Length: 1048577", method="POST", host=HOST * 2)
    yield from with_fields("no Host, and a coding", "Transfer-Encoding: chunked", method="POST", host="")
    yield from with_fields("no Host, and lengths that are no number", "Content-Length: x", method="POST", host="")
    yield from with_fields("no Host, and no version", "Upgrade: websocket", "Connection: Upgrade", host="")
    yield from with_fields("a length that is no number, and no version", "Upgrade: websocket", "Connection: Upgrade", "Content-Length: x")


def continues():
    head = r"POST /hub HTTP/1.1\r\n" + HOST + r"Content-Length: 3\r\nExpect: 100-continue\r\n\r\n"
    for size in (1, 7, 1000):
        yield f"note requests that expect a 100, in pieces of {size}"
        yield "lanes"
        yield f"drip {size} {head}abc{head}def{GET}\\r\\n"
        yield "next"
    for note, fields in (("none is expected", ()), ("in any case", ("eXPECT: 100-Continue",)), ("another", ("Expect: 200-ok",)), ("more than that", ("Expect: 100-continued",)),
                         ("in a list", ("Expect: other ,100-continue",)), ("in a second field", ("Expect: other", "Expect: 100-continue"))):
        yield f"note a body that is awaited: {note}"
        yield "lanes"
        yield r"feed POST /hub HTTP/1.1\r\n" + HOST + r"Content-Length: 3\r\n" + "".join(rf"{field}\r\n" for field in fields)
        yield "next"
        yield "continue"
        yield r"feed \r\na"
        yield "next"
        yield "continue"
        yield "continue"
        yield "feed b"
        yield "next"
        yield "continue"
        yield "feed c"
        yield "next"
        yield "continue"
    for note, text in (("HTTP/1.0", head.replace("HTTP/1.1", "HTTP/1.0") + "a"), ("no body", head.replace("h: 3", "h: 0")), ("a whole body", head + "abc"),
                       ("a body that is too long", head.replace("h: 3", "h: 1048577")), ("no Host", head.replace(HOST, "")),
                       ("a socket", SOCKET + KEY + r"Sec-WebSocket-Version: 13\r\nExpect: 100-continue\r\nContent-Length: 2\r\n\r\na"),
                       ("a body that is whole before it was asked", head + "a")):
        yield f"note expected with {note}"
        yield "lanes"
        yield f"feed {text}"
        yield "next"
        if note.endswith("asked"):
            yield "feed bc"
            yield "next"
        yield "continue"
    yield "note the next request expects one too"
    yield "lanes"
    yield f"feed {head}abc{head}d"
    for _ in range(2):
        yield "next"
        yield "continue"
    yield "feed ef"
    yield "next"
    yield "continue"


def upgrades():
    yield from asked("an upgrade, and bytes after it", SOCKET + KEY + r"Sec-WebSocket-Version: 13\r\n\r\n\x81\x00")
    yield "rest"
    yield "feed more"
    yield "next"
    yield "rest"
    no_connection = SOCKET.replace(r"Connection: Upgrade\r\n", "")
    for note, head in (("version 8", SOCKET + KEY + r"Sec-WebSocket-Version: 8\r\n\r\n"), ("no version", SOCKET + KEY + r"\r\n"),
                       ("two versions", SOCKET + KEY + r"Sec-WebSocket-Version: 8\r\nSec-WebSocket-Version: 13\r\n\r\n"),
                       ("neither version nor key", SOCKET + r"\r\n"), ("version 8 with a length past the limit", SOCKET + KEY + r"Sec-WebSocket-Version: 8\r\nContent-Length: 1048577\r\n\r\n"),
                       ("no Connection", no_connection + KEY + r"Sec-WebSocket-Version: 13\r\n\r\n"), ("no Connection, version or key", no_connection + r"\r\n"),
                       ("another Connection", no_connection + r"Connection: keep-alive\r\n" + KEY + r"Sec-WebSocket-Version: 13\r\n\r\n"),
                       ("a list of Connection", no_connection + r"Connection: keep-alive, UPGRADE \r\n" + KEY + r"Sec-WebSocket-Version: 13\r\n\r\n"),
                       ("no key", SOCKET + r"Sec-WebSocket-Version: 13\r\n\r\n"),
                       ("a key of 15 bytes", SOCKET + r"Sec-WebSocket-Key: dGhlIHNhbXBsZSBub25j\r\nSec-WebSocket-Version: 13\r\n\r\n"),
                       ("a key of 17 bytes", SOCKET + r"Sec-WebSocket-Key: dGhlIHNhbXBsZSBub25jZWU=\r\nSec-WebSocket-Version: 13\r\n\r\n"),
                       ("a key that is no base64", SOCKET + r"Sec-WebSocket-Key: dGhlIHNhbXBsZSBub25jZ!==\r\nSec-WebSocket-Version: 13\r\n\r\n"),
                       ("h2c", GET + r"Connection: Upgrade\r\nUpgrade: h2c\r\n\r\n"), ("h2c and WebSocket", GET + r"Connection: upgrade\r\nUpgrade: h2c,\x09WebSocket \r\n" + KEY + r"Sec-WebSocket-Version: 13\r\n\r\n"),
                       ("two headers", GET + r"Connection: close\r\nUpgrade: h2c\r\nConnection: Upgrade\r\nUpgrade: websocket\r\n" + KEY + r"Sec-WebSocket-Version: 13\r\n\r\n"),
                       ("a post", SOCKET.replace("GET", "POST") + r"\r\n"), ("websockets", SOCKET.replace("websocket", "websockets") + r"\r\n"),
                       ("an upgrade with a length", SOCKET + KEY + r"Sec-WebSocket-Version: 13\r\nContent-Length: 2\r\n\r\nabc"),
                       ("a bad upgrade that is coded", SOCKET + r"Transfer-Encoding: chunked\r\n\r\n"),
                       ("an upgrade that is coded", SOCKET + KEY + r"Sec-WebSocket-Version: 13\r\nTransfer-Encoding: chunked\r\n\r\n")):
        yield from asked(note, head)
        yield "rest"
    yield "accept dGhlIHNhbXBsZSBub25jZQ=="
    yield "accept"
    yield r"accept \x00\xff"


def tokens():
    for fields in (("Authorization: Bearer abc",), ("authorization: BEARER abc",), ("Authorization:   bearer  a b  ",), ("Authorization: Bearer",),
                   ("Authorization: Basic abc",), ("Authorization: Basic abc", "Authorization: Bearer abc"),
                   ("Authorization: Bearer abc", "Authorization: Bearer def"), ("Authorization: Bearerabc",), ("Proxy-Authorization: Bearer abc",)):
        for target in ("/hub", "/hub?access_token=q"):
            yield from with_fields(" and ".join(fields) + " at " + target, *fields, target=target)
    for query in ("access_token=%41b", "access_token=a+b", r"access_token=%ff%fe", "access_token=%zz%4", "access_token=1&access_token=2", "access_token",
                  "access_token=a=b", "access%5ftoken=c", "x=1&&access_token=d?e", "Access_Token=f", "id=7&access_token=", "access_token=%2B%26", ""):
        yield from with_fields(f"query {query}", target=f"/hub?{query}")
    for query, name in ((r"a=1&b=2", "b"), (r"a=%e9", "a"), (r"%e9=1&%c3%a9=2", r"\xe9"), (r"%e9=1&%c3%a9=2", r"\xc3\xa9"), ("a=1", "c"), ("&&=x", "a"), ("a+b=c+d", "a b"), ("a=%", "a")):
        yield f"query {query} {name}"
    for value in ("close", "Close", "keep-alive, Close", "keep-alive", "close-not", " , close ,"):
        yield from with_fields(f"Connection: {value}", f"Connection: {value}")
    yield from with_fields("two headers", "Connection: keep-alive", "Connection: close")
    yield from with_fields("HTTP/1.0", version="1.0")
    yield from with_fields("HTTP/1.0 that is kept", "Connection: keep-alive", version="1.0")


def texts():
    for status in (200, 202, 400, 401, 404, 405, 409, 411, 413, 431, 500, 503):
        yield f"reply {status} none - open"
        yield f"reply {status} json - open {{}}"
    yield r"reply 200 octets - open \x00\x01\xff"
    yield "reply 200 octets - open"
    yield "reply 200 none - open text"
    yield "reply 204 none - open"
    yield "reply 101 none - open s3pPLMBiTxaQ9kYGzzhZRbK+xOo="
    for field in FIELDS:
        for close in ("open", "close"):
            yield f"reply 405 none {field} {close}"
            yield f"reply 401 json {field} {close} {{}}"
            yield f"reply 204 none {field} {close}"
            yield f"reply 101 none {field} {close} s3pPLMBiTxaQ9kYGzzhZRbK+xOo="
    yield "reply 200 octets - close text"
    yield "ask GET example.org /hub?id=1"
    yield "ask POST example.org:5000 /hub/negotiate?negotiateVersion=1"
    yield "ask DELETE example.org /hub?id=1"
    yield "ask GET example.org /hub the sample nonce"


def responses():
    yield "note a response in pieces, and another"
    yield "lanes"
    yield r"hear-drip 1 HTTP/1.1 200 OK\r\nContent-Length: 5\r\nContent-Type: application/json\r\n\r\nhelloHTTP/1.1 404\r\n\r\n"
    yield "answer"
    for note, text in (("a body to come", r"HTTP/1.1 200 OK\r\ncontent-length: 3\r\n\r\na"), ("a switch", r"HTTP/1.1 101 Switching Protocols\r\nSec-WebSocket-Accept: s3p\r\n\r\n\x81\x00"),
                       ("bad lengths", r"HTTP/1.1 200 OK\r\nContent-Length: 1\r\nContent-Length: 2\r\n\r\n"), ("chunked", r"HTTP/1.1 200 OK\r\nTransfer-Encoding: chunked\r\n\r\n"),
                       ("too long", r"HTTP/1.1 200 OK\r\nContent-Length: 1048577\r\n\r\n"), ("a request", r"GET / HTTP/1.1\r\n\r\n"), ("two digits", r"HTTP/1.1 20 OK\r\n\r\n"),
                       ("no phrase", r"HTTP/1.0 500 \r\n\r\n"), ("a bad upgrade", r"HTTP/1.1 200 OK\r\nUpgrade: websocket\r\nConnection: Upgrade\r\n\r\n"),
                       ("two Hosts, and one that expects", r"HTTP/1.1 200 OK\r\nHost: a\r\nHost: b\r\nExpect: 100-continue\r\nContent-Length: 1\r\n\r\n")):
        yield f"note {note}"
        yield "lanes"
        yield f"hear {text}"
        yield "answer"
        yield "answer"
        yield "after"
        yield "hear bc"
        yield "answer"
    yield "note 101 headers"
    yield "lanes"
    yield r"hear HTTP/1.1 200 OK\r\n" + "".join(rf"A{n}: b\r\n" for n in range(101)) + r"\r\n"
    yield "answer"


def cases():
    return "".join(line + "\n" for part in (heads, lengths, hosts, upgrades, continues, tokens, texts, responses) for line in part())


def made():
    script = cases()
    return script, answers(script)


if __name__ == "__main__":
    sys.exit(committed.main("ht_http", made, answers))
