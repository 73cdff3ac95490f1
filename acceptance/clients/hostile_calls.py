"""Handshakes, calls, uploads, endings and numbers that no good client says, with what has to come of each by docs/clients.md and
docs/protocol.md.

A case is its name, what it has to answer, and a function of the port. Most are talks, whose steps are frames to say and numbers of frames to
hear; what was heard is answered, and at the end of a talk a call of `Add`, before whose answer nothing else may come."""
import json

from hostile_hubs import BROKEN, JSON, PACK, closed_for, kept, said
from pack import framed, frames, packed, unpacked
from raw import BINARY, Hub, frame, record

MOST = 32_768  # bytes of a frame
LONG = 200  # bytes of a frame that is told by its size alone
LAST = "last"
FIVE = '{"invocationId":"last","result":5,"type":3}'


def compact(**message):
    return json.dumps(message, separators=(",", ":"), sort_keys=True, ensure_ascii=False)


def call(number, target, *arguments, streams=(), kind=1):
    told = {"type": kind, "target": target, "arguments": arguments}
    return compact(**told, **({} if number is None else {"invocationId": number}), **({"streamIds": streams} if streams else {}))


def item(number, value):
    return compact(type=2, invocationId=number, item=value)


def end(number, **ending):
    return compact(type=3, invocationId=number, **ending)


def cancel(number):
    return compact(type=5, invocationId=number)


def ack(number):
    return compact(type=8, sequenceId=number)


def sequence(number, **received):
    return compact(type=9, sequenceId=number, **received)


def short(text):
    return text if len(text) <= LONG else f"{len(text)} bytes"


def steps_of(hub, steps):
    """Frames between two numbers are said in one message."""
    unsaid, heard = [], []
    for step in [*steps, 0]:
        if isinstance(step, int):
            if unsaid:
                hub.say(*unsaid)
            unsaid = []
            heard += [short(hub.hear()) for _ in range(step)]
        else:
            unsaid.append(step)
    return heard


def talk(*steps):
    """On a plain connection."""

    def case(port):
        hub = Hub(port)
        hub.shake()
        return " ".join(steps_of(hub, [*steps, call(LAST, "Add", 2, 3), 1]))

    return case


def later(*steps, version=2):
    """On the second socket of a kept connection, where a call was answered on the first, and its answer wasn't acknowledged. So both sides
    have said one message."""

    def case(port):
        target, hub = kept(port, version)
        steps_of(hub, [call("1", "Echo", 1), 2])
        hub.drop()
        return " ".join(steps_of(Hub(port, target), steps))

    return case


def handshake(text):
    def case(port):
        hub = Hub(port)
        hub.say(text)
        return hub.hear()

    return case


class PackHub(Hub):
    """What it hears is MessagePack, shown as Python shows values, and texts that are long by their sizes."""

    def cut(self, payload):
        return [short(repr(unpacked(told)[0])) for told in frames(payload)]


def pack_talk(*steps):
    """Frames are bytes with their lengths, in hex, or arrays."""

    def case(port):
        hub = PackHub(port)
        hub.say(PACK)
        hub.read_frame()
        heard = []
        for step in [*steps, [1, {}, LAST, "Add", [2, 3], []], 1]:
            if isinstance(step, int):
                heard += [hub.hear() for _ in range(step)]
            else:
                hub.send(frame(BINARY, bytes.fromhex(step) if isinstance(step, str) else framed(packed(step))))
        return " ".join(heard)

    return case


def unanswerable(letters):
    """A call in MessagePack of a method that there is not, whose id has so many letters: the call has 10 bytes more, its answer 23."""
    body = b"\x96\x01\x80\xda" + letters.to_bytes(2, "big") + b"i" * letters + b"\xa1E\x90\x90"
    return framed(body).hex()


def answered(port):
    """The bytes of the answer to a call in MessagePack whose id is just so long that its answer has 32,768 bytes."""
    hub = Hub(port)
    hub.say(PACK)
    hub.read_frame()
    hub.send(frame(BINARY, bytes.fromhex(unanswerable(MOST - 23))))
    told = next(frames(hub.read_frame()[1]))
    return f"{len(told)} {told[:6].hex(' ')} {told[-15:].decode()}"


def in_single_bytes(*texts):
    """Each byte of these frames in a WebSocket message of its own."""

    def case(port):
        hub = Hub(port)
        for byte in b"".join(map(record, [JSON, *texts, call(LAST, "Add", 2, 3)])):
            hub.send(frame(BINARY, bytes([byte])))
        return f"{hub.hear()} {' '.join(hub.hear() for _ in texts)} {hub.hear()}"

    return case


def filling(number, own="s1"):
    """The client's frame has all the bytes that a frame may have; the server's answer has another id in the place of the server's call."""
    result = "r" * (MOST - len(end(own, result="")))
    return talk(call(number, "Ask", "Confirm", 1), 1, end(own, result=result), 1)


ASKED = '{"arguments":[1],"invocationId":"s%d","target":"Confirm","type":1}'
MOST_TURNS = 1_000_000
LIVE = [call(str(n), "Slow", MOST_TURNS, 0) for n in range(1_024)]
SUM = call("1", "Sum", streams=["a"])
TWO = call("1", "Sum", streams=["a", "b"])
NEARLY = [end(text, result=9) for text in ("01", "1", "S1", " s1", "s1 ", "s01", "s+1", "s", "", "ss1", "s2", "s0", "s18446744073709551617")]
IN_USE = closed_for("Id in use.")
LACKS = '{"error":"The handshake lacks a field."}'
NOT_JSON = '{"error":"The handshake is not JSON."}'
NO_PROTOCOL = '{"error":"The protocol is not known."}'
NO_VERSION = '{"error":"The version is not known."}'

HANDSHAKES = [
    ("{}", '{"protocol":"json","version":1}'),
    ("{}", '{"protocol":"messagepack","version":2}'),
    ("{}", '{"protocol":"json","version":3}'),
    # Spaces, escapes, another order.
    ("{}", '\n{ "version" : 2 ,\t"\\u0070rotocol" : "js\\u006fn" } '),
    # Other properties are ignored, and the last of a name counts.
    ("{}", '{"a":[{"version":9}],"protocol":"json","version":2,"error":1}'),
    ("{}", '{"protocol":"x","version":null,"version":2,"protocol":"json"}'),
    (NOT_JSON, ""),
    (NOT_JSON, "null"),
    (NOT_JSON, "[]"),
    (NOT_JSON, '["json",2]'),
    (NOT_JSON, '{"protocol":"json","version":2'),
    # Numbers that no value holds: a fraction, an exponent, -0 and 2^64.
    (NOT_JSON, '{"protocol":"json","version":2.5}'),
    (NOT_JSON, '{"protocol":"json","version":2e0}'),
    (NOT_JSON, '{"protocol":"json","version":-0}'),
    (NOT_JSON, '{"protocol":"json","version":18446744073709551616}'),
    (NOT_JSON, "GET / HTTP/1.1"),
    (LACKS, "{}"),
    (LACKS, '{"version":2}'),
    (LACKS, '{"Protocol":"json"}'),
    (LACKS, '{"protocol":null}'),
    (LACKS, '{"protocol":["json"],"version":9}'),
    # A protocol that isn't spoken comes after what is wrong with the version, and a version that isn't spoken last.
    (LACKS, '{"protocol":"x"}'),
    (LACKS, '{"protocol":"x","version":"2"}'),
    (LACKS, '{"protocol":"json","version":null}'),
    (LACKS, '{"protocol":"json","version":true}'),
    (NO_PROTOCOL, '{"protocol":"","version":2}'),
    (NO_PROTOCOL, '{"protocol":"JSON","version":2}'),
    (NO_PROTOCOL, '{"protocol":"jsonx","version":2}'),
    (NO_PROTOCOL, '{"protocol":"messagepac","version":2}'),
    (NO_PROTOCOL, '{"protocol":"x","version":9}'),
    (NO_VERSION, '{"protocol":"json","version":0}'),
    (NO_VERSION, '{"protocol":"json","version":4}'),
    (NO_VERSION, '{"protocol":"json","version":-1}'),
    # 2 in its low 8 bits.
    (NO_VERSION, '{"protocol":"json","version":258}'),
    (NO_VERSION, '{"protocol":"json","version":18446744073709551615}'),
    (NO_VERSION, '{"protocol":"messagepack","version":-9223372036854775808}'),
]

CALL_CASES = [
    *((f"the handshake {text!r}", wanted, handshake(text)) for wanted, text in HANDSHAKES),
    # Ids of calls and of uploads.
    ("a call's id again, after its end", f'{end("1", result=1)} {end("1", result=2)} {FIVE}', talk(call("1", "Echo", 1), 1, call("1", "Echo", 2), 1)),
    (
        "an id with a space, and one without letters",
        f'{end("x y", result=1)} {end("", result=2)} {FIVE}',
        talk(call("x y", "Echo", 1), call("", "Echo", 2), 2),
    ),
    ("a stream with a live call's id", IN_USE, said(call("1", "Slow", 9, 0), call("1", "Count", 3, kind=4))),
    ("an upload that is live", IN_USE, said(SUM, call("2", "Sum", streams=["a"]))),
    ("a notice whose upload is live", IN_USE, said(SUM, call(None, "Sum", streams=["b", "a"]))),
    ("an upload that is named twice", IN_USE, said(call("1", "Sum", streams=["a", "a"]), call("2", "Echo", 1))),
    ("an upload with the id of its call", f'{end("1", result=5)} {FIVE}', talk(call("1", "Sum", streams=["1"]), item("1", 5), end("1"), 1)),
    (
        "an upload's id again, after its end",
        f'{end("1", result=4)} {end("2", result=7)} {FIVE}',
        talk(SUM, item("a", 4), end("a"), call("2", "Sum", streams=["a"]), item("a", 7), end("a"), 2),
    ),
    (
        "an upload's id again, after its call's end",
        f'{end("1", error="Wrong arguments.")} {end("2", result=7)} {FIVE}',
        talk(call("1", "Echo", 1, streams=["a"]), 1, item("a", 4), call("2", "Sum", streams=["a"]), item("a", 7), end("a"), 1),
    ),
    ("a live id where 1,024 calls are live", IN_USE, said(*LIVE, call("7", "Echo", 1))),
    ("a notice more than 1,024 calls", closed_for("Too many calls."), said(*LIVE, call(None, "Echo", 1))),
    ("1,025 notices", closed_for("Too many calls."), said(*[call(None, "Slow", 9, 0)] * 1_025)),
    ("1,024 calls, and one in place of one that was cancelled", f"{end('7')} {FIVE}", talk(*LIVE, cancel("7"), 1)),
    # Uploads.
    (
        "4,096 items of two uploads, and one more",
        closed_for("Too many inputs."),
        said(TWO, *[item("a", 1)] * 2_048, *[item("b", 1)] * 2_048, item("a", 1)),
    ),
    ("4,096 items of two uploads, and an end", closed_for("Too many inputs."), said(TWO, *[item("a", 1)] * 2_048, *[item("b", 1)] * 2_048, end("b"))),
    ("4,096 items of two uploads", f'{end("1", error="Wrong arguments.")} {FIVE}', talk(TWO, *[item("a", 1)] * 2_048, *[item("b", 1)] * 2_048, 1)),
    ("an upload that breaks off", f'{end("1", error="It broke.")} {FIVE}', talk(SUM, item("a", 1), end("a", error="It broke."), 1)),
    ("an upload that breaks off without a word", f'{end("1", error="")} {FIVE}', talk(SUM, end("a", error=""), 1)),
    ("an upload that ends with a result", f'{end("1", result=7)} {FIVE}', talk(SUM, item("a", 7), end("a", result=100), 1)),
    (
        "what comes after an upload's end",
        f'{end("1", result=7)} {FIVE}',
        talk(SUM, item("a", 7), end("a"), item("a", 8), end("a"), end("a", error="x"), 1),
    ),
    ("an upload that is never ended", FIVE, talk(SUM, item("a", 1))),
    ("a cancelled upload", f'{end("1")} {FIVE}', talk(SUM, item("a", 1), cancel("1"), item("a", 2), end("a"), 1)),
    ("a cancel of an upload", f'{end("1", result=1)} {FIVE}', talk(SUM, cancel("a"), item("a", 1), end("a"), 1)),
    ("uploads of a notice", FIVE, talk(call(None, "Sum", streams=["a"]), item("a", 1), item("a", "x"), item("a", 2), end("a"))),
    (
        "calls with uploads too many",
        " ".join([*(end(n, error="Wrong arguments.") for n in "1234"), FIVE]),
        talk(
            call("1", "Sum", streams=["a", "b"]),
            call("2", "Echo", 1, streams=["c"]),
            call("3", "Count", 1, streams=["d"], kind=4),
            call("4", "Slow", 1, 2, streams=["e", "f"]),
            item("b", 1),
            end("a"),
            4,
        ),
    ),
    (
        "what comes for a stream of the client's own",
        f'{item("1", 1)} {item("1", 2)} {end("1")} {FIVE}',
        talk(call("1", "Count", 2, kind=4), item("1", 7), end("1"), 3),
    ),
    # Calls of the server.
    (
        "items for the server's call, and two endings",
        f'{ASKED % 1} {end("1", result=7)} {FIVE}',
        talk(call("1", "Ask", "Confirm", 1), 1, item("s1", 5), end("s1", result=7), end("s1", result=8), 1),
    ),
    (
        "endings of ids that are nearly the server's",
        f'{ASKED % 1} {end("1", error="No.")} {FIVE}',
        talk(call("1", "Ask", "Confirm", 1), 1, *NEARLY, end("s1", error="No."), 1),
    ),
    (
        "endings of the server's calls, the later one first",
        f'{ASKED % 1} {ASKED % 2} {end("2", result="two")} {end("1")} {FIVE}',
        talk(call("1", "Ask", "Confirm", 1), call("2", "Ask", "Confirm", 1), 2, end("s2", result="two"), 1, end("s1"), 1),
    ),
    (
        "an upload with the id of the server's call",
        f'{ASKED % 1} {end("1", result=6)} {end("2", result=12)} {FIVE}',
        talk(call("1", "Ask", "Confirm", 1), 1, call("2", "Sum", streams=["s1"]), item("s1", 5), end("s1", result=6), 1, item("s1", 7), end("s1"), 1),
    ),
    (
        "an ask that is cancelled, and answered then",
        f'{ASKED % 1} {end("1")} {FIVE}',
        talk(call("1", "Ask", "Confirm", 1), 1, cancel("1"), 1, end("s1", result=1)),
    ),
    (
        "an ask whose id is a later call's",
        f'{ASKED % 1} {end("1")} {ASKED % 2} {end("1", result=2)} {FIVE}',
        talk(call("1", "Ask", "Confirm", 1), 1, cancel("1"), 1, call("1", "Ask", "Confirm", 1), 1, end("s1", result=1), end("s2", result=2), 1),
    ),
    ("a notice that asks", f"{ASKED % 1} {FIVE}", talk(call(None, "Ask", "Confirm", 1), 1, end("s1", result=1))),
    (
        "a cancel of the server's call",
        f'{ASKED % 1} {end("1", result=1)} {FIVE}',
        talk(call("1", "Ask", "Confirm", 1), 1, cancel("s1"), end("s1", result=1), 1),
    ),
    # Answers that are too long: the client's frame is as long as a frame may be, and the server's has another id.
    ("an answer of 32,768 bytes", f"{ASKED % 1} {MOST} bytes {FIVE}", filling("ii")),
    ("an answer of 32,769 bytes", f'{ASKED % 1} {end("iii", error="The answer is too long.")} {FIVE}', filling("iii")),
    ("an answer of 32,768 bytes in MessagePack", "32768 95 03 80 da 7f e9 Unknown method.", answered),
    (
        "answers that are too long, with last words that are too",
        "[3, {}, 'last', 3, 5]",
        pack_talk(unanswerable(MOST - 22), unanswerable(MOST - 10), unanswerable(MOST - 10)),
    ),
    # Frames that come in other pieces than they are.
    ("frames in single bytes", f'{{}} {end("1", result="é")} {FIVE}', in_single_bytes(call("1", "Echo", "é"))),
    ("1,000 Pings in one message", FIVE, talk(*['{"type":6}'] * 1_000)),
    # Frames of MessagePack.
    (
        "calls of a stranger in MessagePack",
        "[3, {}, 'a', 1, 'x'] [3, {}, 'a', 3, 7] [3, {}, 'last', 3, 5]",
        pack_talk(
            [1, {}, "a", "Sum", [], ["b"]],
            [2, {}, "c", 5],
            [2, {}, "b", 5],
            [3, {}, "b", 1, "x"],
            [3, {}, "s1", 3, None],
            [5, {}, "s1"],
            1,
            [1, {}, "a", "Echo", [7]],
            1,
        ),
    ),
    (
        "lengths and numbers that are spelled longer than they need, and unknown types",
        "[3, {}, 'last', 3, 5]",
        pack_talk("82 00 91 06", "82 80 80 00 91 06", "05 92 08 cd 00 24", "03 91 cc 63", "03 92 06 00", "02 91 2a", "04 dc 00 01 06"),
    ),
    # Numbers.
    ("an Ack and a Sequence on a plain connection", FIVE, talk(sequence(9), ack(9), sequence(0))),
    (
        "an Ack of just what was said",
        f'{sequence(1)} {ack(1)} {end("1", result=1)} {ack(2)} {end("2", result=2)}',
        later(3, sequence(2), ack(1), call("2", "Echo", 2), 2),
    ),
    ("an Ack of more than was said", f"{sequence(1)} {ack(1)} {end('1', result=1)} {BROKEN}", later(3, sequence(2), ack(2), 2)),
    (
        "an Ack of nothing",
        f"{sequence(1)} {ack(1)} {end('1', result=1)} {ack(2)} {end('2', result=2)}",
        later(3, sequence(2), ack(0), call("2", "Echo", 2), 2),
    ),
    (
        "a message before its Sequence",
        f'{sequence(1)} {ack(1)} {end("1", result=1)} {ack(2)} {end("3", result=3)}',
        later(3, call("2", "Echo", 2), sequence(2), call("3", "Echo", 3), 2),
    ),
    (
        "a thousand messages before their Sequence, of which none counts",
        f'{sequence(1)} {ack(1)} {end("1", result=1)} {ack(2)} {end("3", result=3)}',
        later(3, *[call("2", "Echo", 2)] * 1_000, sequence(2), call("3", "Echo", 3), 2),
    ),
    (
        "messages that were said before",
        f'{sequence(1)} {ack(1)} {end("1", result=1)} {ack(2)} {end("2", result=2)}',
        later(3, sequence(0), *[call("1", "Echo", 9)] * 2, call("2", "Echo", 2), 2),
    ),
    (
        "a Sequence, and another back",
        f'{sequence(1)} {ack(1)} {end("1", result=1)} {ack(2)} {end("2", result=2)}',
        later(3, sequence(2), sequence(1), call("1", "Echo", 9), call("2", "Echo", 2), 2),
    ),
    ("a Sequence past the next message", f"{sequence(1)} {ack(1)} {end('1', result=1)} {BROKEN}", later(3, sequence(3), call("2", "Echo", 2), 2)),
    (
        "a frame that is none behind a Sequence",
        f"{sequence(1)} {ack(1)} {end('1', result=1)} {BROKEN}",
        later(3, sequence(2), "[]", call("2", "Echo", 2), 2),
    ),
    ("an empty frame", f"{sequence(1)} {ack(1)} {end('1', result=1)} {BROKEN}", later(3, call("2", "Echo", 2), "", 2)),
    ("a type that is a text", f"{sequence(1)} {ack(1)} {end('1', result=1)} {BROKEN}", later(3, '{"type":6}', '{"type":"6"}', 2)),
    (
        "a Sequence of version 3 that received more than was said",
        f"{sequence(1, received=1)} {BROKEN}",
        later(1, sequence(2, received=2), 2, version=3),
    ),
    ("a Sequence of version 3 with a gap", f"{sequence(1, received=1)} {BROKEN}", later(1, sequence(3, received=0), 2, version=3)),
    (
        "a Sequence of version 3 whose received is no number",
        f'{sequence(1, received=1)} {ack(2)} {end("1", result=1)} {end("2", result=2)}',
        later(1, sequence(2, received="1"), call("2", "Echo", 2), 3, version=3),
    ),
    (
        "a Sequence of version 3 that received all",
        f'{sequence(1, received=1)} {ack(2)} {end("2", result=2)}',
        later(1, sequence(2, received=1), call("2", "Echo", 2), 2, version=3),
    ),
]
