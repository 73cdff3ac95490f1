#!/usr/bin/env python3
"""The lines of crates/ht_sockets, and what a lane of a WebSocket has to answer.

    acceptance/sockets_script.py --check [BUILT] | --write      the lines and their answers (committed.py)

What is to be answered is worked out here from RFC 6455 (frames 5.2, masks 5.3, fragments 5.4, control frames 5.5, examples 5.7, statuses
7.4.1) and hashlib, and from no answer of the program. Three things aren't the RFC's: the words for why a lane is gone, the limit of 1,048,576
bytes, and the reason `Protocol violation` with which a close of an illegal status is answered."""
import hashlib
import sys

import committed

SHOWN = 24
MOST = 1_048_576
TEXT, BINARY, CLOSE, PING, PONG = 1, 2, 8, 9, 10
SEED = bytes(range(16))
KEY = bytes.fromhex("37fa213d")  # of the RFC's examples
HELLO = b"Hello"

lines, answers = [], []


def say(line, answer):
    lines.append(line)
    answers.append(answer)


def key(number):
    return hashlib.sha1(SEED + number.to_bytes(8, "big")).digest()[:4]


def frame(opcode, payload=b"", mask=None, fin=True, reserved=0):
    size = len(payload)
    short = size if size < 126 else 126 if size < 65536 else 127
    longer = b"" if size < 126 else size.to_bytes(2, "big") if size < 65536 else size.to_bytes(8, "big")
    head = bytes([(128 if fin else 0) + reserved + opcode, (128 if mask else 0) + short]) + longer
    if mask is None:
        return head + payload
    return head + mask + bytes(b ^ mask[i % 4] for i, b in enumerate(payload))


def case(title, side):
    say(f"# {title}", f"# {title}")
    say(side, side if " " in side else f"{side} ")


def server(title):
    case(title, "server")


def client(title):
    case(title, f"client {SEED.hex()}")


def shown(name, data):
    return f"{name} {len(data)} {data[:SHOWN].hex()}"


def feed(data, answer):
    say(f"feed {data.hex()}", answer)


def payload(data):
    return shown("payload", data)


def out(data=b""):
    say("out", shown("out", data))


def shut(data=b""):
    say("shut", shown("out", data))


def read(answer):
    say("read", answer)


def status(code, mask=None):
    return frame(CLOSE, code.to_bytes(2, "big"), mask)


def refused(title, data, why, code):
    """What a server sent breaks the rules: a client says so with its first key, and once."""
    client(title)
    feed(data, f"gone: {why}")
    feed(frame(TEXT, HELLO), f"gone: {why}")
    say("text 61", f"not sent: {why}")
    out()
    shut(status(code, key(0)))
    shut()


def examples():
    client("5.7: a single-frame unmasked text message")
    feed(bytes.fromhex("810548656c6c6f"), payload(HELLO))
    client("5.7: a fragmented unmasked text message")
    feed(bytes.fromhex("010348656c"), "not yet")
    feed(bytes.fromhex("80026c6f"), payload(HELLO))
    client("5.7: a ping, and the pong under the client's first key")
    feed(bytes.fromhex("890548656c6c6f"), "not yet")
    out(frame(PONG, HELLO, key(0)))
    client("5.7: 256 bytes of binary message in a single unmasked frame")
    feed(bytes.fromhex("827e0100"), "not yet")
    say("fill 256", payload(bytes(256)))
    client("5.7: 64 KiB of binary message in a single unmasked frame")
    feed(bytes.fromhex("827f0000000000010000"), "not yet")
    say("fill 65536", payload(bytes(65536)))
    server("5.7: a single-frame masked text message")
    feed(bytes.fromhex("818537fa213d7f9f4d5158"), payload(HELLO))
    server("5.7: a masked pong, which nothing answers")
    feed(bytes.fromhex("8a8537fa213d7f9f4d5158"), "not yet")
    out()
    server("what a server sends is the RFC's examples")
    say(f"text {HELLO.hex()}", "sent")
    out(bytes.fromhex("810548656c6c6f"))
    say("zeros 256", "sent")
    out(bytes.fromhex("827e0100") + bytes(256))
    say("zeros 65536", "sent")
    out(bytes.fromhex("827f0000000000010000") + bytes(65536))
    server("a masked ping, and the server's pong")
    feed(frame(PING, HELLO, KEY), "not yet")
    out(bytes.fromhex("8a0548656c6c6f"))


def masks():
    client("each frame of a client has the key of its number")
    for word in (HELLO, b"", b"seven bytes and more"):
        say(f"text {word.hex()}", "sent")
    out(b"".join(frame(TEXT, word, key(i)) for i, word in enumerate((HELLO, b"", b"seven bytes and more"))))
    say("zeros 130", "sent")
    out(frame(BINARY, bytes(130), key(3)))
    feed(frame(PING, b"x"), "not yet")
    say("binary ff", "sent")
    out(frame(PONG, b"x", key(4)) + frame(BINARY, b"\xff", key(5)))
    shut(status(1000, key(6)))


def pieces():
    server("a byte at a time")
    whole = frame(TEXT, HELLO, KEY)
    for byte in whole[:-1]:
        feed(bytes([byte]), "not yet")
    feed(whole[-1:], payload(HELLO))
    server("two messages and a half in one piece")
    third = frame(BINARY, b"\x00\x01", KEY)
    feed(whole + frame(BINARY, b"", KEY) + third[:3], payload(HELLO))
    read(payload(b""))
    read("not yet")
    feed(third[3:], payload(b"\x00\x01"))
    client("a ping between fragments")
    feed(frame(TEXT, b"Hel", fin=False) + frame(PING) + frame(0, b"lo"), payload(HELLO))
    out(frame(PONG, b"", key(0)))
    client("three fragments that cut a character, of which one is empty")
    feed(frame(TEXT, b"\xc3", fin=False), "not yet")
    feed(frame(0, b"", fin=False), "not yet")
    feed(frame(0, b"\xa9"), payload(b"\xc3\xa9"))


def breaches():
    for bit in (64, 32, 16):
        refused(f"the reserved bit {bit}", frame(TEXT, HELLO, reserved=bit), "breach", 1002)
    for opcode in (3, 7, 11, 15):
        refused(f"the reserved opcode {opcode}", frame(opcode), "breach", 1002)
    refused("a ping of 126 bytes", frame(PING, bytes(126)), "breach", 1002)
    refused("a ping in fragments", frame(PING, b"a", fin=False), "breach", 1002)
    refused("a masked frame to a client", frame(TEXT, HELLO, KEY), "breach", 1002)
    refused("a continuation of nothing", frame(0, b"a"), "breach", 1002)
    refused("a text within a message in fragments", frame(TEXT, b"a", fin=False) + frame(TEXT, b"b"), "breach", 1002)
    refused("a length that isn't the shortest", bytes.fromhex("817e0005") + HELLO, "breach", 1002)
    refused("a text that isn't UTF-8", frame(TEXT, b"\xff"), "not text", 1007)
    refused("a text that ends within a character", frame(TEXT, b"a\xc3"), "not text", 1007)
    refused("a first fragment that can't become UTF-8", frame(TEXT, b"\xed\xa0", fin=False), "not text", 1007)
    server("an unmasked frame to a server")
    feed(frame(TEXT, HELLO), "gone: breach")
    shut(status(1002))


def limits():
    client("a message of the limit")
    feed(frame(BINARY, bytes(MOST))[:10], "not yet")
    say(f"fill {MOST}", payload(bytes(MOST)))
    refused("a frame of one byte more", frame(BINARY, bytes(MOST + 1))[:10], "too long", 1009)
    client("a message in fragments of one byte more")
    feed(frame(BINARY, bytes(MOST), fin=False)[:10], "not yet")
    say(f"fill {MOST}", "not yet")
    feed(frame(0, b"a"), "gone: too long")
    shut(status(1009, key(0)))
    client("a message in two fragments of the limit")
    feed(frame(BINARY, bytes(MOST - 1), fin=False)[:10], "not yet")
    say(f"fill {MOST - 1}", "not yet")
    feed(frame(0, b"\x00"), payload(bytes(MOST)))


def closed(title, sent, answer):
    """A server reads this payload of a close frame, answers it, and writes no other close frame."""
    server(title)
    feed(frame(CLOSE, sent, KEY), "gone: answered")
    say("binary 61", "not sent: answered")
    feed(frame(PING, b"", KEY), "gone: answered")
    out(frame(CLOSE, answer))
    shut()


def closes():
    closed("5.5.1: a close is answered with its status", b"\x03\xe8", b"\x03\xe8")
    closed("a close with a reason", b"\x03\xe9going away", b"\x03\xe9going away")
    closed("a close with no status", b"", b"")
    closed("a close with a status of one's own", b"\x0f\xa0", b"\x0f\xa0")
    for illegal in (0, 999, 1004, 1005, 1006, 1015, 2999, 5000):
        closed(f"a close with the status {illegal}", illegal.to_bytes(2, "big"), b"\x03\xeaProtocol violation")
    client("a client answers a close under its mask")
    feed(status(1001), "gone: answered")
    out(status(1001, key(0)))
    refused("a close of one byte", frame(CLOSE, b"\x03"), "breach", 1002)
    refused("a close whose reason isn't UTF-8", frame(CLOSE, b"\x03\xe8\xff"), "not text", 1007)
    server("a lane that is shut writes its close after what waits, once, and is gone")
    say(f"text {HELLO.hex()}", "sent")
    shut(frame(TEXT, HELLO) + status(1000))
    shut()
    read("gone: shut")
    say(f"text {HELLO.hex()}", "not sent: shut")
    feed(frame(CLOSE, b"\x03\xe8", KEY), "gone: shut")
    out()
    server("a text to send that isn't UTF-8")
    say("text ff", "not sent: bad text")
    read("gone: bad text")
    say("binary ff", "not sent: bad text")
    shut(status(1000))
    server("a binary message need not be UTF-8")
    say("binary ff", "sent")
    out(frame(BINARY, b"\xff"))


def made():
    for cases in (examples, masks, pieces, breaches, limits, closes):
        cases()
    return "".join(f"{line}\n" for line in lines), "".join(f"{answer}\n" for answer in answers)


if __name__ == "__main__":
    sys.exit(committed.main("ht_sockets", made))
