#!/usr/bin/env python3
"""Has clients read slowly, or not at all for a while, and looks what comes of it: for them, for others, and in the server.

    acceptance/slow_readers.py [PROGRAM] [--items N]      PROGRAM is bin/sr by default; N is 1,000,000 by default

Each case has a server of its own, and they run side by side: 50 s with a million items, 45 s with 100,000. What has to come is by
docs/clients.md: of a stream, which is `Count(N)`, its items, each once and in order, and its completion; and in each case

- another client, which calls again and again, is answered each time within MOST_PATIENCE;
- the server holds at most MOST_GROWN more memory than before.

The system holds some MB that a server has written and nobody has read, and the rest of a stream has to wait. So where a tenth was read, more
has to be unwritten than may wait in the server. The last line is 'N passed, N failed'; the status is 0 if none failed."""
import concurrent.futures
import contextlib
import json
import pathlib
import sys
import threading
import time

HERE = pathlib.Path(__file__).resolve().parent
sys.path.insert(0, str(HERE / "clients"))
from hostile_greed import Beside, descriptors, queued  # noqa: E402
from raw import PING_TEXT, Ended, Hub, Raw  # noqa: E402
from serving import Serving  # noqa: E402

ITEMS = 1_000_000
RATE = 1_000_000  # bytes a second
LOW_RATE = 10_000
PIECE = 16_384  # bytes that are read at once
UNREAD = 4_096  # bytes that the system may hold at the client's side, or few more
ACK_AFTER = 256  # messages
PING_AFTER = 10  # seconds
BEFORE_STOP = 1_000  # items
SHORT_STOP, LONG = 10, 45  # seconds
STILL_THERE, GONE = 25, 100  # seconds: nothing can be written for 30, but the system may take more for a while
MOST_PATIENCE = 1  # seconds
MOST_GROWN = 8_192  # KiB
ON_LANE, IN_END = 262_144, 100_000  # bytes that may wait in the server: on a lane before it is full, and in an end
DRAINED = 65_536  # bytes that wait on a full lane once it isn't full any more
TEXT = 30_000  # letters
MOST_POSTS = 600
SLOW = '{"error":"Too slow.","type":7}'
ENDED = '{"invocationId":"0","type":3}'


class Wrong(Exception):
    """What came is another thing than what had to."""


class Reader(Hub):
    """A plain connection that reads as fast as it can, or so many bytes a second, and says Pings."""

    def __init__(self, port, target="/hub"):
        self.read, self.said, self.since, self.rate = 0, time.monotonic(), 0, None
        super().__init__(port, target, unread=UNREAD)
        self.port = self.socket.getsockname()[1]
        self.begin()

    def begin(self):
        self.shake()

    def slow_down(self, rate):
        self.read, self.since, self.rate = 0, time.monotonic(), rate

    def more(self):
        if self.rate:
            time.sleep(max(0, self.since + self.read / self.rate - time.monotonic()))
        before = len(self.rest)
        super().more()
        self.read += len(self.rest) - before
        self.ping()

    def ping(self):
        if time.monotonic() > self.said + PING_AFTER:
            self.say(PING_TEXT)

    def say(self, *texts):
        self.said = time.monotonic()
        super().say(*texts)

    def stop(self, seconds):
        """Reads nothing for so long, but says that it is there."""
        until = time.monotonic() + seconds
        while time.monotonic() < until:
            time.sleep(0.1)
            with contextlib.suppress(OSError):
                self.ping()

    def hear_message(self):
        """The next frame that is no Ping."""
        while (text := self.hear()) == PING_TEXT:
            pass
        return text


class Resumable(Reader):
    """One that can be resumed, and acknowledges what it takes."""

    def __init__(self, port):
        _, body = Raw(port).http("POST", "/hub/negotiate?negotiateVersion=1&useStatefulReconnect=true")
        self.taken = 0
        super().__init__(port, "/hub?id=" + json.loads(body)["connectionToken"])

    def begin(self):
        self.shake(2)

    def hear_message(self):
        while (text := super().hear_message()).startswith('{"sequenceId"'):
            pass
        self.taken += 1
        if self.taken % ACK_AFTER == 0:
            self.say('{"type":8,"sequenceId":%d}' % self.taken)
        return text


def item(number):
    return '{"invocationId":"0","item":%d,"type":2}' % number


def stream(reader, count):
    """The messages of a stream of so many items, as they come. Another than the next one is `Wrong`."""
    reader.say('{"type":4,"invocationId":"0","target":"Count","arguments":[%d]}' % count)
    for number in range(1, count + 2):
        wanted = item(number) if number <= count else ENDED
        if (text := reader.hear_message()) != wanted:
            raise Wrong(f"{text} in place of {wanted}")
        yield text


def rest_of(messages):
    """What comes of a stream: `all`, or `a first part` if the connection ends."""
    try:
        for text in messages:
            pass
    except (Ended, OSError):
        return "a first part"
    return "all" if text == ENDED else f"up to {text}"


def held(server, reader):
    """How many bytes the system holds for a client."""
    return queued(server.port).get(reader.port, 0)


def reads_slowly(make):
    def case(server, count):
        reader = make(server.port)
        size = sum(len(item(number)) + 1 for number in range(1, count + 1))
        reader.slow_down(RATE)
        messages, began = stream(reader, count), time.monotonic()
        for _ in range(count // 10):
            next(messages)
        waiting = size - reader.read - held(server, reader)
        came, seconds = rest_of(messages), time.monotonic() - began
        if seconds < 0.9 * size / RATE:
            return f"{came}, in {seconds:.1f} s"
        return f"{came}, {'and it waits' if waiting > ON_LANE + IN_END else f'of which {waiting} bytes were unwritten'}"

    return case


def stops_shortly(server, count):
    reader = Reader(server.port)
    messages = stream(reader, count)
    for _ in range(BEFORE_STOP):
        next(messages)
    reader.stop(SHORT_STOP)
    return rest_of(messages)


def goes_on(reader, count, ends):
    """What comes of the stream of a client that stays until its end is told."""
    came = rest_of(stream(reader, count))
    while not ends.is_set():
        reader.stop(1)
    return came


def stops_for_long(server, count):
    """A client that stops reading until it is lost, though it says Pings, and another that goes on."""
    reader, other = Reader(server.port), Reader(server.port)
    had, messages = descriptors(server), stream(reader, count)
    for _ in range(BEFORE_STOP):
        next(messages)
    other.slow_down(RATE)
    with concurrent.futures.ThreadPoolExecutor(1) as beside:
        ends = threading.Event()
        other_came = beside.submit(goes_on, other, count, ends)
        reader.stop(STILL_THERE)
        there = had - descriptors(server)
        until = time.monotonic() + GONE - STILL_THERE
        while (gone := had - descriptors(server)) == 0 and time.monotonic() < until:
            reader.stop(1)
        ends.set()
        return f"{there} lost, then {gone}: {rest_of(messages)}, the other {other_came.result()}"


def reads_little(server, count):
    """A client that reads little, and then as fast as it can."""
    reader = Reader(server.port)
    messages = stream(reader, count)
    reader.slow_down(LOW_RATE)
    until = time.monotonic() + LONG
    while time.monotonic() < until:
        next(messages)
    reader.rate = None
    return rest_of(messages)


def is_member(server, _count):
    """A member of a room that stops reading, and reads again once it was closed."""
    member, poster = Reader(server.port), Hub(server.port)
    poster.shake()
    member.call("Join", "a")
    came, in_system = member.read, [held(server, member)]  # by how many texts were posted
    while (posts := len(in_system) - 1) * TEXT < in_system[-1] + 2 * (ON_LANE + IN_END):
        if posts == MOST_POSTS or "error" in poster.call("Post", "a", f"{posts + 1:06}" + "x" * (TEXT - 6)):
            raise Wrong(f"post {posts + 1}")
        in_system.append(held(server, member))
    texts = 0
    while (text := member.hear_message()) != SLOW:
        texts += 1
        if json.loads(text)["arguments"][2] != f"{texts:06}" + "x" * (TEXT - 6):
            raise Wrong(f"{text[:80]} in place of text {texts}")
    status, end = member.closing()
    # It was closed at the text after the last that came, for which its end had no room. Its lane was full then, and stays so while the system takes more of
    # what waits there, until no more than `DRAINED` bytes do.
    least, most = (member.read - came - in_system[posted] for posted in (texts + 1, texts))
    is_slow = DRAINED + IN_END - 2 * TEXT < most and least <= ON_LANE + IN_END + 2 * TEXT
    return f"{'too slow' if is_slow else f'closed when {most} bytes waited'}, after a first part, {status}, {end}"


FINE = "others are answered, memory is bounded"
CASES = [
    ("a stream is read slowly", "all, and it waits", reads_slowly(Reader)),
    ("a stream is read slowly on a connection that can be resumed", "all, and it waits", reads_slowly(Resumable)),
    (f"nothing of a stream is read for {SHORT_STOP} s", "all", stops_shortly),
    ("nothing of a stream is read", "0 lost, then 1: a first part, the other all", stops_for_long),
    (f"a stream is read at {LOW_RATE} bytes a second for {LONG} s", "all", reads_little),
    ("a member of a room reads nothing", "too slow, after a first part, 1000, ended", is_member),
]


def done(case, program, count):
    """What came of a case, on a server of its own."""
    with Serving(program) as server:
        beside = Beside(server)
        before = beside.most
        beside.start()
        try:
            came = case(server, count)
        except (Wrong, Ended, OSError, ValueError, LookupError) as wrong:
            came = str(wrong) or repr(wrong)
        others = beside.told() if beside.longest <= MOST_PATIENCE else f"others waited {beside.longest:.1f} s"
        grown = beside.most - before
        bounded = "memory is bounded" if grown <= MOST_GROWN else f"memory grew by {grown} KiB"
        return ", ".join([came, others, bounded, *server.complaints()])


def words():
    """The program, and how many items the streams have."""
    given, count = sys.argv[1:], ITEMS
    if "--items" in given:
        at = given.index("--items")
        count = int(given[at + 1])
        del given[at : at + 2]
    return given[0] if given else str(HERE.parent / "bin" / "sr"), count


def main():
    program, count = words()
    tally, lock = [0, 0], threading.Lock()

    def tell(name, wanted, case):
        got = done(case, program, count)
        wanted = f"{wanted}, {FINE}"
        with lock:
            tally[got != wanted] += 1
            print(f"passed {name}: {got}" if got == wanted else f"FAILED {name}\n    want {wanted}\n    got  {got}", flush=True)

    with concurrent.futures.ThreadPoolExecutor(len(CASES)) as lanes:
        for told in [lanes.submit(tell, *case) for case in CASES]:
            told.result()
    print(f"{tally[0]} passed, {tally[1]} failed")
    return 1 if tally[1] else 0


if __name__ == "__main__":
    sys.exit(main())
