"""What the kinds of fuzz.py share: how bytes are mutated, how the program is run, and how what differs is made small."""
import contextlib
import os
import re
import signal
from typing import Callable, NamedTuple

SECONDS = 60  # for one run or one answer, on a busy machine
MOST_RUNS = 300  # while one input is made small
NUMBERS = re.compile(rb"-?\d+")
# Bytes that mean something in a frame, a head, a script, a length or a mark of MessagePack.
SIGNS = b'\x00\x01\x0a\x0d\x09\x1e\x7f\x80\xff\xc0\xc1\xc2\xed\xf4 "\\{}[]:,.+-/0129eEu#%&=?*'
ALIKE = [b"0123456789", b"abcdefghijklmnopqrstuvwxyz", b"ABCDEFGHIJKLMNOPQRSTUVWXYZ"]
BOUNDS = [
    *(b"0", b"-0", b"-1", b"01", b"+1", b"1.5", b"1e3", b"127", b"128", b"255", b"256", b"32768", b"32769", b"65535", b"65536", b"1e400"),
    *(b"2147483648", b"4294967295", b"4294967296", b"9223372036854775807", b"9223372036854775808", b"-9223372036854775808"),
    *(b"-9223372036854775809", b"18446744073709551615", b"18446744073709551616", b"9" * 40, b"9" * 320),
]
# Lengths and counts at their bounds, as frames, MessagePack and WebSockets spell them.
LENGTHS = [
    *(b"\x7f", b"\x80\x00", b"\x80\x01", b"\xff\x7f", b"\x80\x80\x02", b"\x81\x80\x02", b"\xff\xff\xff\xff\x7f", b"\xff\xff\xff\xff\xff"),
    *(b"\xd9\xff", b"\xda\xff\xff", b"\xdb\xff\xff\xff\xff", b"\xdb\x00\x00\x00\x00", b"\xc4\x00", b"\xc6\xff\xff\xff\xff"),
    *(b"\xdc\xff\xff", b"\xdd\xff\xff\xff\xff", b"\xde\xff\xff", b"\xdf\xff\xff\xff\xff", b"\xde\x00\x00", b"\xdc\x00\x00"),
    *(b"\xfe\x00\x7d", b"\xfe\x00\x7e", b"\xfe\xff\xff", b"\xff" + bytes(8), b"\xff\x00\x00\x00\x00\x00\x10\x00\x01", b"\xff" * 9),
]


# ---- mutations: each of these gives the bytes with one place changed


def flip(draw, data, _):
    at = draw.randrange(len(data))
    return data[:at] + bytes([data[at] ^ 1 << draw.randrange(8)]) + data[at + 1 :]


def alike(draw, data, _):
    """A digit in place of a digit, a letter in place of a letter."""
    at = draw.randrange(len(data))
    kind = next((kind for kind in ALIKE if data[at] in kind), None)
    return data[:at] + bytes([draw.choice(kind) if kind else data[at] ^ 1]) + data[at + 1 :]


def put(draw, data, _):
    at = draw.randrange(len(data))
    return data[:at] + a_sign(draw) + data[at + 1 :]


def insert(draw, data, _):
    at = draw.randrange(len(data) + 1)
    return data[:at] + b"".join(a_sign(draw) for _ in range(draw.choice([1, 1, 1, 2, 4]))) + data[at:]


def delete(draw, data, _):
    at = draw.randrange(len(data))
    return data[:at] + data[at + draw.choice([1, 1, 1, 2, 4, 8]) :]


def cut(draw, data, _):
    return data[: draw.randrange(len(data))]


def repeat(draw, data, _):
    begin = draw.randrange(len(data))
    end = begin + draw.choice([1, 2, 5, 20, 100])
    return data[:end] + data[begin:end] * draw.choice([1, 1, 2, 9]) + data[end:]


def splice(draw, data, other):
    return data[: draw.randrange(len(data) + 1)] + other[draw.randrange(len(other) + 1) :]


def number(draw, data, _):
    found = [*NUMBERS.finditer(data)]
    if not found:
        return flip(draw, data, _)
    begin, end = draw.choice(found).span()
    return data[:begin] + draw.choice(BOUNDS) + data[end:]


def length(draw, data, _):
    at = draw.randrange(len(data))
    return data[:at] + draw.choice(LENGTHS) + data[at + draw.choice([0, 1, 1, 2, 3, 5]) :]


def a_sign(draw):
    return bytes([draw.choice(SIGNS) if draw.random() < 0.6 else draw.randrange(256)])


CHANGES = [*[alike] * 6, flip, flip, put, put, insert, insert, delete, delete, cut, repeat, splice, number, number, length]


def mutated(draw, data, pool):
    """The bytes with one change, two or three. What is spliced in is of the pool."""
    for _ in range(draw.choice([1, 1, 1, 1, 2, 3])):
        data = draw.choice(CHANGES)(draw, data or b"\0", draw.choice(pool))
    return data


# ---- runs


class Runs:
    """Runs the program, each time over a file in memory and into another, which is what a run costs least."""

    def __init__(self, program):
        self.program = program
        self.given, self.put, self.nowhere = os.memfd_create("given"), os.memfd_create("put"), os.open("/dev/null", os.O_WRONLY)
        self.files = [(os.POSIX_SPAWN_DUP2, self.given, 0), (os.POSIX_SPAWN_DUP2, self.put, 1), (os.POSIX_SPAWN_DUP2, self.nowhere, 2)]

    def begun(self, words, data):
        """The process, once it runs."""
        for file in self.given, self.put:
            os.ftruncate(file, 0)
            os.lseek(file, 0, os.SEEK_SET)
        os.pwrite(self.given, data, 0)
        return os.posix_spawn(self.program, [self.program, *words], os.environ, file_actions=self.files)

    def output(self):
        return os.pread(self.put, os.fstat(self.put).st_size, 0)

    def __call__(self, words, data=b""):
        """The exit status and the output. A status below 0 is a signal; one that isn't there is told as a text."""
        return waited(self.begun(words, data)), self.output()


def waited(process):
    try:
        with at_most(SECONDS):
            return exit_status(os.waitpid(process, 0)[1])
    except TimeoutError:
        os.kill(process, signal.SIGKILL)
        os.waitpid(process, 0)
        return f"none in {SECONDS} s"


def exit_status(status):
    return os.WEXITSTATUS(status) if os.WIFEXITED(status) else -os.WTERMSIG(status)


def too_late(*_):
    raise TimeoutError


@contextlib.contextmanager
def at_most(seconds):
    signal.signal(signal.SIGALRM, too_late)
    signal.setitimer(signal.ITIMER_REAL, seconds)
    try:
        yield
    finally:
        signal.setitimer(signal.ITIMER_REAL, 0)


# ---- what differs


class Difference(NamedTuple):
    """An input for which something else came than was wanted. `again` tries any input: what is wanted and what comes, or None if they agree."""

    title: str
    data: bytes
    again: Callable


def compared(want, got):
    return None if want == got else (want, got)


def smaller(difference):
    """The input without whatever can be left out so that they still differ (delta debugging), with what is wanted of it and what comes."""
    data, told = difference.data, difference.again(difference.data)
    if told is None:
        return data, ("the same each time", "another thing at first")
    size, runs = max(1, len(data) // 2), 0
    while size and runs < MOST_RUNS:
        at = 0
        while at < len(data) and runs < MOST_RUNS:
            without, runs = data[:at] + data[at + size :], runs + 1
            found = difference.again(without)
            if found:
                data, told = without, found
            else:
                at += size
        size //= 2
    return data, told
