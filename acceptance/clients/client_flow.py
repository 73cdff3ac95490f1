"""A client whose server reads late, says much at once, or says it byte by byte: nothing is lost, and nothing comes twice.

A case is its name, what it has to answer, and a function of the program. What one side says is cut into messages of WebSockets and into what the
system carries as it comes, which changes nothing of what is heard (RFC 6455, section 5.4; docs/protocol.md, "Framing")."""
import json
import time

from raw import TEXT
from running import Running
from stub import Stub, Wrong, body_of, spoken

ITEMS = 33
LETTERS = 30_000  # of an item: together about as many as a script may have, and twice as many as the client keeps
ROOM = ["--resend", "65536", "524288"]
LATE = 1  # seconds
MOST = 1_048_576  # bytes of a message
PING = b'{"type":6}\x1e'
END = b'{"invocationId":"1","result":1,"type":3}\x1e'
SEQUENCE = b'{"sequenceId":1,"type":9}\x1e'
DONE = 0, ["shaken", "call 1", "ended 1 result 1"]
AGAIN = 0, ["shaken", "call 1", "lost", "again", "ended 1 result 1"]


def shaken(stub):
    stub.tells()
    lane = stub.comes_up()
    lane.hear()
    lane.say(b"{}\x1e")
    return lane


def reads_late(program):
    """A server that reads nothing for a while, and then acknowledges each message. Its own calls wait meanwhile, and are answered after that."""
    item = "x" * LETTERS
    lines = ["upload Note []", *(f'item 1 "{item}"' for _ in range(ITEMS)), "done 1"]
    with Stub() as stub, Running(program, [*ROOM, stub.url()], "".join(line + "\n" for line in lines).encode()) as client:
        lane = shaken(stub)
        time.sleep(LATE)
        lane.say(b'{"arguments":[7],"invocationId":"s1","target":"Confirm","type":1}\x1e')
        kinds, answers, count = [], [], 0
        while count < ITEMS + 3:
            for text in lane.hear()[1].split(b"\x1e")[:-1]:
                message = json.loads(text)
                if message["type"] == 8:
                    continue
                count += 1
                if message["invocationId"] == "s1":
                    answers.append(message)
                    continue
                kinds.append(message["type"] if message.get("item", item) == item else "another item")
            lane.say(b'{"sequenceId":%d,"type":8}\x1e' % count)
        lane.say(END)
        lane.rest_of_it()
        in_order = kinds == [1, *[2] * ITEMS, 3]
        return in_order, answers, client.ended()


def says_much(size):
    """A message of so many bytes: Pings and spaces, and then the answer."""
    room = size - len(PING) - len(END)
    said = PING * (room // len(PING)) + b" " * (room % len(PING)) + PING + END

    def case(program):
        with Stub() as stub, Running(program, [stub.url()], b"call Echo [1]\n") as client:
            lane = shaken(stub)
            lane.hear()
            assert len(said) == size
            lane.say(said)
            if size > MOST:
                lane.rest_of_it()
                lane = stub.comes_up()
                lane.hear()
                lane.say(SEQUENCE + END)
            lane.rest_of_it()
            return client.ended()

    return case


def says_many_at_once(program):
    """Ten thousand messages in one piece, of which each has an item, and the last the end."""
    items = b"".join(spoken(TEXT, b'{"invocationId":"1","item":%d,"type":2}\x1e' % n) for n in range(10_000))
    with Stub() as stub, Running(program, [stub.url()], b"stream Count [10000]\n") as client:
        lane = shaken(stub)
        lane.hear()
        lane.send(items + spoken(TEXT, b'{"invocationId":"1","type":3}\x1e'))
        lane.rest_of_it()
        return client.ended()


def byte_by_byte(program):
    """All that a server says, from the negotiate's response on, comes one byte after the other."""
    with Stub() as stub, Running(program, [stub.url()], b"call Echo [1]\n") as client:
        lane = stub.lane()
        lane.request()
        slowly(lane, b"HTTP/1.1 200 OK\r\ncontent-length: %d\r\n\r\n%s" % (len(body_of()), body_of()))
        lane.rest_of_it()
        lane = stub.lane()
        lane.request()
        send, lane.send = lane.send, lambda data: slowly(lane, data, send)
        lane.accept()
        lane.hear()
        lane.say(b"{}\x1e")
        lane.hear()
        lane.say(END)
        lane.rest_of_it()
        return client.ended()


def slowly(lane, data, send=None):
    for at in range(len(data)):
        (send or lane.send)(data[at : at + 1])


def behind_the_101(program):
    """On a later socket the server may speak first, in the same write as its 101."""
    with Stub() as stub, Running(program, [stub.url()], b"call Echo [1]\n") as client:
        lane = shaken(stub)
        lane.hear()
        lane.finish()
        lane = stub.lane()
        lane.request()
        lane.accept(rest=spoken(TEXT, SEQUENCE) + spoken(TEXT, END))
        lane.rest_of_it()
        return client.ended()


def ends_in_between(program):
    """A server that ends the socket right behind its last words, in the same moment: they are heard before the loss."""
    with Stub() as stub, Running(program, [stub.url()], b"stream Count [2]\n") as client:
        lane = shaken(stub)
        lane.hear()
        lane.send(spoken(TEXT, b'{"invocationId":"1","item":1,"type":2}\x1e') + spoken(TEXT, b'{"invocationId":"1","it'))
        lane.finish()
        lane = stub.comes_up()
        if not (said := lane.hear()[1]).startswith(b'{"sequenceId":1,"type":9}\x1e{"sequenceId":1,"type":8}\x1e'):
            raise Wrong(f"came {said!r}")
        lane.say(b'{"sequenceId":2,"type":9}\x1e{"invocationId":"1","item":2,"type":2}\x1e{"invocationId":"1","type":3}\x1e')
        lane.rest_of_it()
        return client.ended()


MANY = ["shaken", "call 1", *(f"item 1 {n}" for n in range(10_000)), "ended 1 void"]
LAST_WORDS = ["shaken", "call 1", "item 1 1", "lost", "again", "item 1 2", "ended 1 void"]
CONFIRMED = [{"invocationId": "s1", "result": 7, "type": 3}]
CASES = [
    ("a server that reads late", (True, CONFIRMED, DONE), reads_late),
    ("a message of a mebibyte", DONE, says_much(MOST)),
    ("a message of a byte more loses the socket", AGAIN, says_much(MOST + 1)),
    ("ten thousand messages at once", (0, MANY), says_many_at_once),
    ("a server that speaks byte by byte", DONE, byte_by_byte),
    ("a server that speaks in the same write as its 101", AGAIN, behind_the_101),
    ("a server that ends right behind its words", (0, LAST_WORDS), ends_in_between),
]
