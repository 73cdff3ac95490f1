"""Hub frames that no good client sends, and requests at the wrong time, with what has to come of each by docs/clients.md.

A case is its name, what it has to answer, and a function of the port. A plain connection has no numbers; a kept one may be resumed."""
import json
import time

from hostile_http import LATE, NEGOTIATE, SILENCE
from raw import BINARY, PING, PONG, Hub, Raw, frame, record

EARLY = 5  # seconds before the end of a half minute, of which a busy machine may need some
JSON = '{"protocol":"json","version":1}'
PACK = '{"protocol":"messagepack","version":1}'
SLOW = '{"type":1,"invocationId":"%d","target":"Slow","arguments":[1000000,0]}'
WHOLE_REPLY = (
    '200 application/json 2 True {"availableTransports":[{"transferFormats":["Text","Binary"],"transport":"WebSockets"},'
    '{"transferFormats":["Text","Binary"],"transport":"LongPolling"}],"connectionId":N,"connectionToken":TOKEN,"negotiateVersion":1,'
    '"useStatefulReconnect":true}'
)


def said(*texts, handshake=JSON):
    """Says frames in one message after a handshake, and answers all that comes until the end."""

    def case(port):
        hub = Hub(port)
        hub.say(handshake, *texts)
        return all_that_comes(hub)

    return case


def all_that_comes(hub):
    came = []
    while not came or not came[-1].startswith("closed"):
        came.append(hub.hear())
    return " ".join(came[1:] if came[0] == "{}" else came)


def packed(digits):
    """The same for a frame of MessagePack, in which a Close comes as bytes."""

    def case(port):
        hub = Hub(port)
        hub.say(PACK)
        hub.send(frame(BINARY, bytes.fromhex(digits)))
        came = b""
        while b"\x93\x07" not in came:
            came += hub.read_frame()[1]
        return f"{came[-17:].hex(' ')}, {hub.closing()[0]}"

    return case


def negotiated(port, query=""):
    """A fresh token, as the target of what is asked of it."""
    _, body = Raw(port).http("POST", NEGOTIATE + query)
    return "/hub?id=" + json.loads(body)["connectionToken"]


def statuses(port, target):
    """What GET, POST, DELETE and a socket are answered, one after the other."""
    asked = [Raw(port).http(method, target, b"" if method == "POST" else None)[0] for method in ("GET", "POST", "DELETE")]
    return [*asked, Raw(port).upgrade(target)]


def fresh_token(port):
    """A token that wasn't used takes no POST, and a DELETE ends it."""
    target = negotiated(port)
    return f"{Raw(port).http('POST', target, b'')[0]}, {Raw(port).http('DELETE', target)[0]}, {statuses(port, target)}"


def polls_of_a_socket(port):
    """Who stands on a socket can't poll; nor can a kept connection whose socket is lost. A plain one is gone then."""
    told = []
    for query, version in ("", 1), ("&useStatefulReconnect=true", 2):
        target = negotiated(port, query)
        hub = Hub(port, target)
        hub.shake(version)
        told.append(statuses(port, target)[:3])
        hub.drop()
        time.sleep(1)
        told.append(statuses(port, target))
    return str(told)


def closed_poll(port):
    """A polling connection that was closed tells the rest, and then that it is over. DELETE ends it before that."""
    told = []
    for method in "GET", "DELETE":
        target = negotiated(port)
        Raw(port).http("GET", target)
        told.append(Raw(port).upgrade(target))
        Raw(port).http("POST", target, record(JSON) + record('{"type":7}'))
        told.append(Raw(port).http("POST", target, b"")[0])
        told += [Raw(port).http(method, target)[0] for _ in range(3)]
    return str(told)


def held_poll_of_a_deleted(port):
    target = negotiated(port)
    Raw(port).http("GET", target)
    held = Raw(port)
    held.ask("GET", target)
    time.sleep(0.5)
    return f"{Raw(port).http('DELETE', target)[0]}, {held.reply()[0]}"


def kept(port, version=2):
    """A kept connection, after its handshake: its target and its first socket."""
    target = negotiated(port, "&useStatefulReconnect=true")
    hub = Hub(port, target)
    hub.shake(version)
    return target, hub


def again(*texts):
    """Says frames on a later socket of a kept connection, after one call on the first. Answers the Close that comes, and the end."""

    def case(port):
        target, hub = kept(port)
        hub.say('{"type":1,"invocationId":"1","target":"Add","arguments":[2,3]}')
        hub.hear()
        hub.drop()
        hub = Hub(port, target)
        hub.say(*texts)
        return last_words(hub)

    return case


def last_words(hub):
    """The last two things that come: a Close, and the end."""
    came = [hub.hear()]
    while not came[-1].startswith("closed"):
        came.append(hub.hear())
    return " ".join(came[-2:])


def never_acknowledges(port):
    """A member of a room that acknowledges nothing is closed once its notices have no room, and nobody else is."""
    _, deaf = kept(port)
    deaf.say('{"type":1,"target":"Join","arguments":["room"]}')
    deaf.hear()
    other = Hub(port)
    other.shake()
    answers = {json.dumps(other.call("Post", "room", "x" * 30_000)) for _ in range(5)}
    return f"{len(answers)}, {last_words(deaf)}"


def acknowledges_late(port):
    """A kept client asks for 1,500 items and acknowledges none at first: the server waits with the rest."""
    _, hub = kept(port)
    hub.say('{"type":4,"invocationId":"1","target":"Count","arguments":[1500]}')
    hub.hear()
    first = [hub.hear() for _ in range(1_024)]
    time.sleep(1)
    hub.send(frame(PING, b"more?"))
    opcode, _ = hub.read_frame()
    hub.say('{"type":8,"sequenceId":1024}')
    rest = [hub.hear() for _ in range(477)]
    items = [json.loads(text)["item"] for text in first + rest[:-1]]
    return f"{'waits' if opcode == PONG else 'goes on'}, {items == list(range(1, 1_501))}, {rest[-1]}"


def taken_over(port):
    """A second socket with the token of one that is up: the older one is closed. A plain one can't be taken over."""
    target, hub = kept(port)
    other = Hub(port, target)
    plain_target = negotiated(port)
    plain = Hub(port, plain_target)
    plain.shake()
    second = Hub(port, plain_target).status
    return f"{hub.hear()}, {other.status}, {second}, {plain.call('Add', 2, 3).get('result')}"


def never_polls(port):
    """A client that posts calls and doesn't poll for the answers gets a Close with the next poll."""
    target = negotiated(port)
    Raw(port).http("GET", target)
    Raw(port).http("POST", target, record(JSON))
    statuses, number = set(), 0
    while statuses != {200, 404} and number < 4_000:
        number += 100
        body = b"".join(record(SLOW % n) for n in range(number - 100, number))
        statuses.add(Raw(port).http("POST", target, body)[0])
    _, last = Raw(port).http("GET", target)
    over = Raw(port).http("GET", target)[0]
    return f"{sorted(statuses)}, {last.decode().split(chr(30))[-2]}, {over}"


def lost_and_late(port):
    """A kept connection whose socket is lost is gone after half a minute."""
    target, hub = kept(port)
    hub.drop()
    time.sleep(SILENCE + LATE)
    return str(Hub(port, target).status)


def lost_and_back(port):
    """A kept connection whose socket is lost can go on shortly before that."""
    target, hub = kept(port)
    hub.drop()
    time.sleep(SILENCE - EARLY)
    hub = Hub(port, target)
    return f"{hub.status} {hub.hear()}"


def only_listens(port):
    """A kept client that says nothing: it is pinged, and its socket closed for lost. It may come back."""
    began = time.monotonic()
    target, hub = kept(port)
    hub.socket.settimeout(2 * SILENCE)
    ping, pinged = hub.hear(), time.monotonic() - began
    end = hub.hear()
    took = time.monotonic() - began
    on_time = SILENCE / 2 - 0.5 <= pinged <= SILENCE / 2 + LATE and SILENCE - 0.5 <= took <= SILENCE + LATE
    hub = Hub(port, target)
    return f"{ping}, {end}, {'on time' if on_time else f'after {pinged:.1f} and {took:.1f} s'}, {hub.status} {hub.hear()}"


def polls_once(port):
    """A client that polls once, and then not for half a minute. The next poll has the Close, and the last one nothing."""
    target = negotiated(port)
    Raw(port).http("GET", target)
    Raw(port).http("POST", target, record(JSON))
    Raw(port).http("GET", target)
    time.sleep(SILENCE + LATE)
    status, last = Raw(port).http("GET", target)
    return f"{status} {last.decode().split(chr(30))[-2]}, {Raw(port).http('GET', target)[0]}, {Raw(port).http('GET', target)[0]}"


def polls_on(port):
    """A client that polls and says nothing else: its held poll ends with a Ping. A second poll ends the first."""
    target = negotiated(port)
    Raw(port).http("GET", target)
    Raw(port).http("POST", target, record(JSON))
    Raw(port).http("GET", target)
    began = time.monotonic()
    first, second = Raw(port), Raw(port)
    first.ask("GET", target)
    time.sleep(1)
    second.ask("GET", target)
    replaced = first.reply()[0]
    status, _, body = second.reply()
    took = time.monotonic() - began
    on_time = SILENCE / 2 - 0.5 <= took <= SILENCE / 2 + LATE
    return f"{replaced}, {status} {body.decode().strip(chr(30))} {'on time' if on_time else f'after {took:.1f} s'}"


def used_late(port):
    """A token that is used a second before its half minute is over."""
    target = negotiated(port, "&useStatefulReconnect=true")
    time.sleep(SILENCE - 1)
    hub = Hub(port, target)
    return f"{hub.status} {hub.shake(2)}"


def refused_upgrade(port):
    """A lane whose upgrade is refused speaks HTTP on, and the frame that comes then is no request."""
    hub = Hub(port, "/hub?id=" + "A" * 31 + "B")
    hub.say(JSON)
    return f"{hub.status}, {hub.reply()[0]}, {hub.end()}"


def whole_reply(port):
    """All bytes with which a negotiate is answered, but for its token and its number."""
    lane = Raw(port)
    lane.ask("POST", NEGOTIATE + "&useStatefulReconnect=true")
    status, fields, body = lane.reply()
    told = json.loads(body)
    number, token = told["connectionId"], told["connectionToken"]
    fits = len(body) == 272 + len(number) and number.isdigit() and len(token) == 32
    text = body.decode().replace(f'"{number}"', "N").replace(f'"{token}"', "TOKEN")
    return f"{status} {fields['content-type']} {len(fields)} {fits} {text}"


def unused(port):
    target = negotiated(port)
    time.sleep(SILENCE + LATE)
    return str(Hub(port, target).status)


def closed_for(reason):
    return '{"error":"%s","type":7} closed 1000' % reason


BROKEN = closed_for("Protocol error.")
PACK_BROKEN = "93 07 af 50 72 6f 74 6f 63 6f 6c 20 65 72 72 6f 72 2e c2"
ITEMS = ['{"type":1,"invocationId":"1","target":"Sum","arguments":[],"streamIds":["2"]}', *['{"type":2,"invocationId":"2","item":1}'] * 4_097]
STRANGE = ['{"type":5,"invocationId":"9"}', '{"type":2,"invocationId":"9","item":1}', '{"type":3,"invocationId":"9"}']

HUB_CASES = [
    ("a handshake that is no JSON", '{"error":"The handshake is not JSON."} closed 1000', said(handshake="hello")),
    ("a handshake of another protocol", '{"error":"The protocol is not known."} closed 1000', said(handshake='{"protocol":"x","version":1}')),
    ("a handshake without a version", '{"error":"The handshake lacks a field."} closed 1000', said(handshake='{"protocol":"json"}')),
    ("a handshake of 32,769 bytes", "closed 1000", said(handshake=" " * 32_769)),
    ("a frame of 32,769 bytes", BROKEN, said('{"type":6%s}' % (" " * 32_760))),
    ("a frame that is no JSON", BROKEN, said("hello")),
    ("a frame that is no object", BROKEN, said("[]")),
    ("a fraction", BROKEN, said('{"type":1,"invocationId":"1","target":"Echo","arguments":[1.5]}')),
    ("ten thousand lists in one another", BROKEN, said('{"type":1,"target":"Echo","arguments":%s}' % ("[" * 10_000 + "]" * 10_000))),
    ("an id that is live", closed_for("Id in use."), said(SLOW % 1, SLOW % 1)),
    ("a call more than 1,024", closed_for("Too many calls."), said(*(SLOW % n for n in range(1_025)))),
    ("an item more than 4,096", closed_for("Too many inputs."), said(*ITEMS)),
    ("ids that nobody has", "closed 1000", said(*STRANGE, '{"type":7}')),
    ("an unknown type", "closed 1000", said('{"type":77}', '{"type":7}')),
    ("frames after a Close", "closed 1000", said('{"type":7}', '{"type":1,"invocationId":"1","target":"Echo","arguments":[1]}')),
    ("a list of 2^32 - 1 values", f"{PACK_BROKEN[6:]}, 1000", packed("06 dd ff ff ff ff 01")),
    ("a frame of 2^35 - 1 bytes", f"{PACK_BROKEN[6:]}, 1000", packed("ff ff ff ff 7f")),
    ("an extension", f"{PACK_BROKEN[6:]}, 1000", packed("0b 96 01 80 c0 a1 78 91 d4 01 00 90")),
    ("an Ack of what wasn't sent", BROKEN, again('{"type":9,"sequenceId":2}', '{"type":8,"sequenceId":2}')),
    ("a Sequence that leaves a gap", BROKEN, again('{"type":9,"sequenceId":3}')),
    ("a fresh token", "409, 202, [404, 404, 404, 404]", fresh_token),
    ("polls of who has a socket", "[[409, 409, 409], [404, 404, 404, 404], [409, 409, 409], [409, 409, 409, 101]]", polls_of_a_socket),
    ("polls of who is closed", "[409, 404, 200, 204, 404, 409, 404, 202, 404, 404]", closed_poll),
    ("a held poll of who is deleted", "202, 204", held_poll_of_a_deleted),
    ("a socket that takes over", "closed 1000, 101, 409, 5", taken_over),
    ("a client that acknowledges late", 'waits, True, {"invocationId":"1","type":3}', acknowledges_late),
    ("a member that never acknowledges", "1, " + closed_for("Too slow."), never_acknowledges),
    ("a token that nobody has", "404, 400, ended", refused_upgrade),
    ("a negotiate's whole reply", WHOLE_REPLY, whole_reply),
    ("a client that never polls", "[200, 404], " + closed_for("Too many calls.").removesuffix(" closed 1000") + ", 204", never_polls),
]

SLOW_HUB_CASES = [
    ("a kept connection that doesn't come back", "404", lost_and_late),
    ("a kept connection that comes back after 25 s", '101 {"sequenceId":1,"type":9}', lost_and_back),
    ("a token that isn't used", "404", unused),
    ("a token that is used late", "101 {}", used_late),
    ("a client that only listens", '{"type":6}, closed 1000, on time, 101 {"sequenceId":1,"type":9}', only_listens),
    ("a client that polls once", '200 {"error":"Connection expired.","type":7}, 204, 404', polls_once),
    ("a client that only polls", '204, 200 {"type":6} on time', polls_on),
]
