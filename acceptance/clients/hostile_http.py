"""Requests that no good client sends, with what has to come of each by RFC 9112 and RFC 9110 and the limits of docs/clients.md.

A case is its name, what it has to answer, and a function of the port. `ended` is a connection that ends in order: a reset might have
destroyed the reply."""
import json
import time

from raw import Hub, Raw

MOST_BODY = 1_048_576
MOST_HEAD = 16_384
NEGOTIATE = "/hub/negotiate?negotiateVersion=1"
SILENCE = 30  # seconds until a lane without a whole request is closed
LATE = 10  # how late a close may be seen: the server is busy with the other cases


def refused(data):
    """Sends some bytes, and answers the reply's status, whether its head doesn't tell that the connection ends, and how that ends."""

    def case(port):
        lane = Raw(port)
        lane.send(data if isinstance(data, bytes) else data.encode())
        status, fields, _ = lane.reply()
        return f"{status}{'' if fields.get('connection') == 'close' else ' untold'}, {lane.end()}"

    return case


def told(data, *names):
    """What these fields of the reply are, after its status."""

    def case(port):
        lane = Raw(port)
        lane.send(data.encode())
        status, fields, _ = lane.reply()
        return "; ".join([str(status), *(fields.get(name, "none") for name in names)])

    return case


def request(*fields, first=f"POST {NEGOTIATE} HTTP/1.1", body=""):
    return "\r\n".join([first, "Host: a", *fields, "", body])


def answered(*fields, **parts):
    """The status of a request, on a connection that then serves another one."""

    def case(port):
        lane = Raw(port)
        lane.send(request(*fields, **parts).encode())
        status = lane.reply()[0]
        return f"{status}, {lane.http('GET', '/nowhere')[0]}"

    return case


def upgrade(*fields):
    return request("Connection: Upgrade", "Upgrade: websocket", *fields, first="GET /hub HTTP/1.1")


def body_in_flight(port):
    """A refused request whose body is still being sent: its client must get to read the refusal."""
    lane = Raw(port)
    lane.send(request(f"Content-Length: {MOST_BODY + 1}").encode())
    time.sleep(0.5)
    for _ in range(16):
        lane.send(bytes(65_536))
        time.sleep(0.01)
    lane.send(b".")
    return f"{lane.reply()[0]}, {lane.end()}"


def greatest_body(port):
    lane = Raw(port)
    lane.send(request(f"Content-Length: {MOST_BODY}", first="POST /nowhere HTTP/1.1").encode() + bytes(MOST_BODY))
    return f"{lane.reply()[0]}, {lane.http('GET', '/nowhere')[0]}"


def single_bytes(port):
    lane = Raw(port)
    for byte in request("Content-Length: 3", body="abc").encode():
        lane.send(bytes([byte]))
    return str(lane.reply()[0])


def pipelined(port):
    lane = Raw(port)
    asked = [request(first="GET /nowhere HTTP/1.1"), request("Content-Length: 3", body="abc"), request(first="GET /hub HTTP/1.1")]
    lane.send("".join(asked).encode())
    return ", ".join(str(lane.reply()[0]) for _ in asked)


def field(name, data):
    """A field of a refusal's head, or None."""

    def case(port):
        lane = Raw(port)
        lane.send(data.encode())
        status, fields, _ = lane.reply()
        return f"{status} {fields.get(name)}"

    return case


def last_field(*fields, **parts):
    """The last line of a reply's head."""

    def case(port):
        lane = Raw(port)
        lane.send(request(*fields, **parts).encode())
        while b"\r\n\r\n" not in lane.rest:
            lane.more()
        return lane.rest.split(b"\r\n\r\n")[0].split(b"\r\n")[-1].decode()

    return case


def body_after_continue(port):
    """A client that sends its body once it may: the server has to say so, or the client waits."""
    lane = Raw(port)
    lane.send(request("Content-Length: 3", "Expect: 100-continue", first="POST /nowhere HTTP/1.1").encode())
    told = [lane.reply()[0]]
    lane.send(b"abc")
    told.append(lane.reply()[0])
    return f"{told[0]}, {told[1]}, {lane.http('GET', '/nowhere')[0]}"


def body_at_once(port):
    """A client that doesn't wait for the 100 may get one or none (RFC 9110, section 10.1.1)."""
    lane = Raw(port)
    lane.send(request("Content-Length: 3", "Expect: 100-continue", first="POST /nowhere HTTP/1.1", body="abc").encode())
    status = lane.reply()[0]
    return f"{lane.reply()[0] if status == 100 else status}, {lane.http('GET', '/nowhere')[0]}"


def poll_with_an_upgrade(port):
    """An upgrade that `Connection` doesn't name is none: the token's first request is a poll, which is answered at once."""
    lane = Raw(port)
    _, body = lane.http("POST", NEGOTIATE)
    target = "/hub?id=" + json.loads(body)["connectionToken"]
    lane.send(socket_asked(target=target).encode())
    return f"{lane.reply()[0]}, {lane.http('GET', '/nowhere')[0]}"


def socket_asked(*fields, target="/hub"):
    return request(*fields, "Upgrade: websocket", KEY, VERSION, first=f"GET {target} HTTP/1.1")


def upgraded_among_others(port):
    lane = Raw(port)
    lane.send(socket_asked("Connection: keep-alive, Upgrade").encode())
    return str(lane.reply()[0])


def half_close(port):
    """A client that ends its own half once it has asked still gets the reply."""
    lane = Raw(port)
    lane.ask("POST", NEGOTIATE)
    lane.socket.shutdown(1)
    return f"{lane.reply()[0]}, {lane.end()}"


def silent_end(lane, began):
    """How a lane ends on which no whole request comes, and whether that is after the time it has."""
    lane.socket.settimeout(SILENCE + LATE + 10)
    end = lane.end()
    took = time.monotonic() - began
    return f"{end} on time" if SILENCE - 0.5 <= took <= SILENCE + LATE else f"{end} after {took:.1f} s"


def left_alone(data):
    def case(port):
        began = time.monotonic()
        lane = Raw(port)
        lane.send(data.encode())
        return silent_end(lane, began)

    return case


def a_byte_a_second(port):
    began = time.monotonic()
    lane = Raw(port)
    for _ in range(SILENCE - 2):
        lane.send(b"G")
        time.sleep(1)
    return silent_end(lane, began)


def many_silent(port):
    """200 connections that say nothing, while a good client calls."""
    began = time.monotonic()
    lanes = [Raw(port) for _ in range(200)]
    hub = Hub(port)
    hub.shake()
    served = hub.call("Add", 2, 3).get("result")
    ends = {silent_end(lane, began) for lane in lanes}
    return f"{served}, {', '.join(sorted(ends))}"


LONG_FIELD = "X: " + "a" * MOST_HEAD
KEY = "Sec-WebSocket-Key: dGhlIHNhbXBsZSBub25jZQ=="
SHORT_KEY = "Sec-WebSocket-Key: YWFhYWFhYWFhYWFhYWFh"
VERSION = "Sec-WebSocket-Version: 13"

HTTP_CASES = [
    ("a head of 16,385 bytes without an end", "431, ended", refused(request(LONG_FIELD)[: MOST_HEAD + 1])),
    ("a head of 101 fields", "431, ended", refused(request(*(f"X{n}: 1" for n in range(100))))),
    ("a head of 100 fields", "200, 404", answered(*(f"X{n}: 1" for n in range(99)))),
    ("a body of 1,048,577 bytes is announced", "413, ended", refused(request("Content-Length: 1048577"))),
    ("a length of thirty digits", "413, ended", refused(request(f"Content-Length: {'9' * 30}"))),
    ("a body of 1,048,576 bytes", "404, 404", greatest_body),
    ("a refused request whose body is still sent", "413, ended", body_in_flight),
    ("a chunked body", "411, ended", refused(request("Transfer-Encoding: chunked", body="3\r\nabc\r\n0\r\n\r\n"))),
    ("a chunked body with a length", "411, ended", refused(request("Transfer-Encoding: chunked", "Content-Length: 3", body="abc"))),
    ("two lengths that differ", "400, ended", refused(request("Content-Length: 3", "Content-Length: 4", body="abcd"))),
    ("two lengths that are one", "200, 404", answered("Content-Length: 3", "Content-Length: 3", body="abc")),
    ("a list of lengths", "400, ended", refused(request("Content-Length: 3, 3", body="abc"))),
    ("a length with a sign", "400, ended", refused(request("Content-Length: +3", body="abc"))),
    ("a negative length", "400, ended", refused(request("Content-Length: -3", body="abc"))),
    ("a length that is no number", "400, ended", refused(request("Content-Length: 0x3", body="abc"))),
    ("a blank before a field's colon", "400, ended", refused(request("Content-Length : 3", body="abc"))),
    ("a folded field", "400, ended", refused(request("X: a", " b"))),
    ("a zero byte in a field", "400, ended", refused(request("X: a\0b"))),
    ("a field without a name", "400, ended", refused(request(": a"))),
    ("a target with a blank", "400, ended", refused(request(first="GET /hub /x HTTP/1.1"))),
    ("the version HTTP/2.0", "400, ended", refused(request(first="GET /hub HTTP/2.0"))),
    ("HTTP/2 with prior knowledge", "400, ended", refused("PRI * HTTP/2.0\r\n\r\nSM\r\n\r\n")),
    ("the first bytes of TLS", "400, ended", refused(bytes.fromhex("1603010200010001fc0303") + bytes(100))),
    ("garbage", "400, ended", refused(bytes(range(256)))),
    ("a single line of text", "400, ended", refused("hello\r\n\r\n")),
    ("HTTP/1.0", "404, ended", refused(request(first="GET /nowhere HTTP/1.0"))),
    ("Connection: close", "404, ended", refused(request("Connection: keep-alive, close", first="GET /nowhere HTTP/1.1"))),
    ("an unknown method", "405, 404", answered(first="BREW /hub HTTP/1.1")),
    ("HEAD", "405, 404", answered(first="HEAD /hub HTTP/1.1")),
    ("OPTIONS", "405, 404", answered(first="OPTIONS /hub HTTP/1.1")),
    ("what a 405 of the base allows", "405; GET, POST, DELETE; none", told(request(first="PUT /hub HTTP/1.1"), "allow", "connection")),
    ("what a 405 of a negotiate allows", "405; POST; close", told(request("Connection: close", first="GET /hub/negotiate HTTP/1.1"), "allow", "connection")),
    ("how a caller is known", "401; Bearer; none", told(request("Authorization: Bearer abc"), "www-authenticate", "connection")),
    ("a path that nobody serves", "404; none; none", told(request(first="PUT /nowhere HTTP/1.1"), "allow", "connection")),
    ("which version an upgrade may have", "400; 13; close", told(upgrade(KEY, "Sec-WebSocket-Version: 12"), "sec-websocket-version", "connection")),
    ("an upgrade with version 12", "400, ended", refused(upgrade(KEY, "Sec-WebSocket-Version: 12"))),
    ("an upgrade without a version", "400, ended", refused(upgrade(KEY))),
    ("an upgrade without a key", "400, ended", refused(upgrade(VERSION))),
    ("an upgrade with a key of 15 bytes", "400, ended", refused(upgrade(VERSION, SHORT_KEY))),
    ("an upgrade of a POST is a POST without an id", "400, ended", refused(request("Upgrade: websocket", KEY, VERSION, first="POST /hub HTTP/1.1"))),
    ("an upgrade to something else is a poll without an id", "400, ended", refused(request("Upgrade: h2c", first="GET /hub HTTP/1.1"))),
    ("an upgrade that Connection doesn't name is a poll", "200, 404", poll_with_an_upgrade),
    ("an upgrade that Connection has no word of is a poll without an id", "400, ended", refused(socket_asked("Connection: keep-alive"))),
    ("an upgrade that Connection names among others", "101", upgraded_among_others),
    ("two Hosts", "400, ended", refused(request("Host: b"))),
    ("two Hosts that are one", "400, ended", refused(request("Host: a"))),
    ("no Host", "400, ended", refused(f"POST {NEGOTIATE} HTTP/1.1\r\n\r\n")),
    ("what a negotiate allows", "405 POST", field("allow", request(first=f"GET {NEGOTIATE} HTTP/1.1"))),
    ("what the hub allows", "405 GET, POST, DELETE", field("allow", request(first="BREW /hub HTTP/1.1"))),
    ("how to come with an access token", "401 Bearer", field("www-authenticate", request("Authorization: Bearer a"))),
    ("which version of WebSockets is spoken", "400 13", field("sec-websocket-version", upgrade(KEY, "Sec-WebSocket-Version: 12"))),
    ("the last words of a connection", "Connection: close", last_field("Connection: close")),
    ("the last words to what is refused", "Connection: close", last_field("Content-Length: x")),
    ("a body that waits until it may come", "100, 404, 404", body_after_continue),
    ("a body that doesn't wait until it may come", "404, 404", body_at_once),
    ("a request in single bytes", "200", single_bytes),
    ("three requests at once", "404, 200, 400", pipelined),
    ("a client that ends its half", "200, ended", half_close),
]

SLOW_HTTP_CASES = [
    ("half a head that is left", "ended on time", left_alone(request()[:30])),
    ("half a body that is left", "ended on time", left_alone(request("Content-Length: 100", body="half of it"))),
    ("a byte a second", "ended on time", a_byte_a_second),
    ("200 connections that say nothing", "5, ended on time", many_silent),
]
