#!/usr/bin/env python3
"""Runs the program where what is outside of it fails or is held by another: its input, its output, its port, its memory.

    acceptance/outside.py [PROGRAM]      PROGRAM is bin/sr by default, and so the release if nothing newer was built

What has to come is by the table of exit statuses in docs/protocol.md, and, of sessions and soaks, what replay.toml and soak.toml have.
The last line is 'N passed, N failed'; the status is 0 if none failed."""
import contextlib
import os
import pathlib
import re
import resource
import select
import signal
import socket
import subprocess
import sys
import tempfile
import time
import tty

HERE = pathlib.Path(__file__).resolve().parent
sys.path.insert(0, str(HERE / "clients"))
from raw import Ended, Raw  # noqa: E402
from serving import MOST_LIVE, OTHER_DESCRIPTORS, Serving, few_descriptors  # noqa: E402

SECONDS = 120
USUAL_PORT = 8080
LITTLE_MEMORY = 1 << 20  # bytes; a script may have as many
FEW_DESCRIPTORS = 40
MOST_WRITTEN = 65_536  # bytes that a call of a case writes
# Two messages, of which the server reads the first alone and then the rest.
SCRIPT = b"""open
accept 0
c write *
s read *
s write *
c read *
c send {"arguments":[],"target":"a","type":1}
c send {"arguments":[],"target":"zz","type":1}
c write *
s read 40
s read *
"""
REPORT = b"""s shaken
c shaken
c sent 1
c sent 2
s got 1 {"arguments":[],"target":"a","type":1}
s got 2 {"arguments":[],"target":"zz","type":1}
client Ready sent 2 processed 0 held 2
server Ready sent 0 processed 2 held 0
"""
LONG_SCRIPT = SCRIPT[: SCRIPT.index(b"c send")] + b'c send {"arguments":[],"target":"a","type":1}\n' * 20_000
# Pings as HubProtocol.md has them ("Ping Message Encoding").
PINGS = b'{"type":6}\x1e{"type":6}\x1e'
LINES = b'0 message {"type":6}\n11 message {"type":6}\n'
# An unknown type between two pings.
MIXED = b'{"type":6}\x1e{"type":10}\x1e{"type":6}\x1e'
MIXED_LINES = b'0 message {"type":6}\n11 unknown 10\n23 message {"type":6}\n'
PACKED_PINGS = b"\x02\x91\x06\x02\x91\x06"
SOAKED = b"seed 1 actions 1 calls 1 endings 1 live 0 links 2\n"
LONGEST_SOAK = rb"seed 18446744073709551615 actions 100000 calls (\d+) endings \1 live 0 links (\d+)\n"
SERVES = b"serving 0\n"
BASE_SAID = "/chat/hub"
TRACE = b"trace json 2 on 1024 100000 32768\nc detach\n"
USAGE = b"usage: sr replay, soak, serve, client, check, convert, user, record or audit\n"
NOTHING = b""


def run(program, words, **options):
    """The exit status, and what was written on standard output, if it is caught, and on standard error."""
    options = {"stdin": subprocess.DEVNULL, "stdout": subprocess.PIPE, "timeout": SECONDS, **options}
    if "input" in options:
        del options["stdin"]
    words = words.split() if isinstance(words, str) else words
    done = subprocess.run([program, *words], stderr=subprocess.PIPE, **options)
    return done.returncode, done.stdout, done.stderr


@contextlib.contextmanager
def folder():
    """An input of which each read fails."""
    opened = os.open("/", os.O_RDONLY)
    try:
        yield opened
    finally:
        os.close(opened)


@contextlib.contextmanager
def broken_off(data):
    """An input that gives these bytes, and of which the next read fails: a terminal whose other side is closed."""
    ours, theirs = os.openpty()
    tty.setraw(theirs)
    os.write(theirs, data)
    os.close(theirs)
    try:
        yield ours
    finally:
        os.close(ours)


@contextlib.contextmanager
def full():
    """An output that takes nothing."""
    with open("/dev/full", "wb") as opened:
        yield opened


@contextlib.contextmanager
def held(address, port=0):
    """The number of a port of this address at which another listens already."""
    with contextlib.ExitStack() as stack:
        # If this machine lacks the address, or another program has the port, it can't be had either.
        with contextlib.suppress(OSError):
            holder = stack.enter_context(socket.socket(socket.AF_INET6 if ":" in address else socket.AF_INET))
            holder.bind((address, port))
            holder.listen()
            port = holder.getsockname()[1]
        yield port or 1


def of_input(words, given, wanted):
    """A case of a command over an input that fails."""
    def case(program):
        with given() as opened:
            return run(program, words, stdin=opened)[:2]
    return case, wanted


def of_output(words, given, status):
    """A case of a command whose output takes nothing."""
    def case(program):
        with full() as out:
            return run(program, words, input=given, stdout=out)[0]
    return case, status


def both_fail(program):
    """What is written of a piece is written before the next is read."""
    with broken_off(PINGS) as opened, full() as out:
        return run(program, "check json", stdin=opened, stdout=out)[0]


def takes_ten_bytes(program):
    """An output that takes ten bytes and no more. That the kernel kills whoever writes on is switched off by Python."""
    with tempfile.TemporaryFile() as out:
        limit = lambda: resource.setrlimit(resource.RLIMIT_FSIZE, (10, 10))  # noqa: E731
        signal.signal(signal.SIGXFSZ, signal.SIG_IGN)
        status, _, _ = run(program, "check json", input=PINGS, stdout=out, preexec_fn=limit, restore_signals=False)
        out.seek(0)
        return status, out.read()


def at_once(words, given, wanted):
    """A case of a command whose output keeps apart what each call puts there: what a piece of the input makes whole is put by one."""
    def case(program):
        ours, theirs = socket.socketpair(socket.AF_UNIX, socket.SOCK_DGRAM)
        with ours, theirs:
            status = run(program, words, input=given, stdout=theirs)[0]
            ours.setblocking(False)
            return status, [*datagrams(ours)]
    return case, wanted


def datagrams(ours):
    with contextlib.suppress(BlockingIOError):
        while True:
            yield ours.recv(MOST_WRITTEN)


def little_memory(words):
    limit = lambda: resource.setrlimit(resource.RLIMIT_DATA, (LITTLE_MEMORY, LITTLE_MEMORY))  # noqa: E731
    return lambda program: run(program, words, input=LONG_SCRIPT, preexec_fn=limit)[:2]


def of_port(address, words, wanted, port=0):
    """A case of `serve` at a port that another has. Standard error has to begin with the address and the port."""
    def case(program):
        with held(address, port) as number:
            status, written, error = run(program, words.replace("PORT", str(number)))
        shown = f"[{address}]" if ":" in address else address
        return status, written, error.startswith(f"sr: {shown}:{number}: ".encode())
    return case, wanted


def full_at_port(program):
    """Where its line can't be written, nothing is heard."""
    with held("127.0.0.1") as number, full() as out:
        return run(program, f"serve --turns 3 --port {number}", stdout=out)[::2]


def longest_soak(program):
    status, written, _ = run(program, "soak 18446744073709551615 100000")
    return status, bool(re.fullmatch(LONGEST_SOAK, written))


def are_shut(connections, count):
    """Whether so many of these are shut by their peer, within some seconds."""
    until = time.monotonic() + 5
    while time.monotonic() < until:
        ready, _, _ = select.select(connections, [], [], 0.1)
        if len([it for it in ready if it.recv(1, socket.MSG_PEEK) == NOTHING]) >= count:
            return True
    return False


def answer_at_last(port):
    """The status of a negotiate, which may be turned away until the server has seen that others are gone."""
    until = time.monotonic() + 5
    while True:
        try:
            return Raw(port).http("POST", "/hub/negotiate?negotiateVersion=1")[0]
        except (Ended, OSError):
            if time.monotonic() > until:
                raise
            time.sleep(0.1)


def crowded(program):
    """Whether of twice as many connections as a server has descriptors the half is shut at once, and how it answers when all are gone."""
    with Serving(program) as server, contextlib.ExitStack() as opened:
        resource.prlimit(server.process.pid, resource.RLIMIT_NOFILE, (FEW_DESCRIPTORS, FEW_DESCRIPTORS))
        there = [socket.create_connection(("127.0.0.1", server.port)) for _ in range(2 * FEW_DESCRIPTORS)]
        for connection in there:
            opened.enter_context(connection)
        half = are_shut(there, FEW_DESCRIPTORS)
        opened.close()
        return half, answer_at_last(server.port)


def said_at_start(program, words, limit):
    """The exit status of a server with this limit of descriptors, its output and what it says on standard error. A port that the system
    chose is PORT."""
    limits = lambda: resource.setrlimit(resource.RLIMIT_NOFILE, (limit, limit))  # noqa: E731
    status, output, error = run(program, f"serve --port 0 --turns 0 {words}", preexec_fn=limits)
    return status, output, re.sub(r":[1-9]\d*(?=/)", ":PORT", error.decode()).splitlines()


def says_where(words, address):
    """A server of these words says on standard error where it listens, and that is all, unless this machine lets it have few descriptors."""
    limit = min(MOST_LIVE + OTHER_DESCRIPTORS, resource.getrlimit(resource.RLIMIT_NOFILE)[1])
    wanted = [f"sr: listening on http://{address}:PORT{BASE_SAID}", *few_descriptors(limit)]
    return lambda program: said_at_start(program, words, limit), (0, SERVES, wanted)


def says_few(limit, live, words=""):
    """A server that may have so many descriptors says so if they are few for its connections."""
    wanted = ["sr: listening on http://127.0.0.1:PORT/hub", *few_descriptors(limit, live)]
    return lambda program: said_at_start(program, words, limit), (0, SERVES, wanted)


def another_base(program):
    """The path of the hub is that of `--base`, and no other."""
    with Serving(program, "--base", "/calc/v1") as server:
        paths = "/calc/v1/negotiate", "/calc/negotiate", "/hub/negotiate"
        return [Raw(server.port).http("POST", path + "?negotiateVersion=1")[0] for path in paths]


CASES = {
    "replay, and the input fails at once": of_input("replay", folder, (3, NOTHING)),
    "replay, and the input fails behind a script": of_input("replay", lambda: broken_off(SCRIPT), (3, NOTHING)),
    "replay, and the output is full": of_output("replay", SCRIPT, 4),
    "record, and the input fails at once": of_input("record", folder, (3, NOTHING)),
    "record, and the input fails behind a script": of_input("record", lambda: broken_off(SCRIPT), (3, NOTHING)),
    "record, and the output is full": of_output("record", SCRIPT, 4),
    "record of no script, and the output is full": of_output("record", b"frob\n", 4),
    "audit, and the input fails at once": of_input("audit", folder, (3, NOTHING)),
    "audit, and the input fails behind a trace": of_input("audit --side client", lambda: broken_off(TRACE), (3, NOTHING)),
    "audit, and the output is full": of_output("audit", TRACE, 4),
    "audit of no trace, and the output is full": of_output("audit --side server", b"frob\n", 4),
    "replay with a script to its end": (lambda program: run(program, "replay", input=SCRIPT)[:2], (0, REPORT)),
    "check, and the input fails at once": of_input("check json", folder, (3, NOTHING)),
    "check, and the input fails behind two frames": of_input("check json", lambda: broken_off(PINGS), (3, LINES)),
    "check, and the output is full": of_output("check json", PINGS, 4),
    "check, and input and output fail": (both_fail, 4),
    "check, and the output takes ten bytes": (takes_ten_bytes, (4, LINES[:10])),
    "check, and the input fails behind an unknown type too": of_input("check json", lambda: broken_off(MIXED), (3, MIXED_LINES)),
    "check of one piece": at_once("check json", MIXED, (0, [MIXED_LINES])),
    "check of one piece with a refusal": at_once("check json", b"{}\x1e" + MIXED, (2, [b"0 refused Missing type\n"])),
    "convert, and the input fails behind two frames": of_input("convert json pack", lambda: broken_off(PINGS), (3, PACKED_PINGS)),
    "convert of one piece": at_once("convert json pack", MIXED, (0, [PACKED_PINGS])),
    "convert of an unknown type alone": at_once("convert json pack", b'{"type":10}\x1e', (0, [])),
    "convert, and the output is full": of_output("convert json pack", PINGS, 4),
    "soak doesn't read its input": of_input("soak 1 1", folder, (0, SOAKED)),
    "soak, and the output is full": of_output("soak 1 1", NOTHING, 4),
    "no command, and the output is full": of_output("frob", NOTHING, 4),
    "a word that isn't UTF-8": (lambda program: run(program, [b"check", b"json", b"\xff"])[:2], (1, USAGE)),
    "little memory": (little_memory("replay"), (7, NOTHING)),
    "record, and little memory": (little_memory("record"), (7, NOTHING)),
    "audit, and little memory": (little_memory("audit"), (7, NOTHING)),
    "the longest soak of the greatest seed": (longest_soak, (0, True)),
    "three turns of serve": (lambda program: run(program, "serve --port 0 --turns 3")[:2], (0, SERVES)),
    "serve doesn't read its input": of_input("serve --port 0 --turns 1", folder, (0, SERVES)),
    "serve, and the output is full": of_output("serve --port 0 --turns 3", NOTHING, 4),
    "serve, and neither its output nor its port can be had": (full_at_port, (4, NOTHING)),
    "the usual port is taken": of_port("127.0.0.1", "serve", (5, SERVES, True), USUAL_PORT),
    "the usual port is taken, with two dashes": of_port("127.0.0.1", "serve --", (5, SERVES, True), USUAL_PORT),
    "a port that is taken": of_port("127.0.0.1", "serve --listen 127.0.0.1 --port PORT", (5, SERVES, True)),
    "a port that is taken, at all addresses": of_port("0.0.0.0", "serve --listen 0.0.0.0 --port PORT", (5, SERVES, True)),
    "a port that is taken, in IPv6": of_port("::1", "serve --listen ::1 --port PORT", (5, SERVES, True)),
    "a port that is taken, and no turn": of_port("127.0.0.1", "serve --port PORT --turns 0", (0, SERVES, False)),
    "where it listens": says_where("--base /chat/hub", "127.0.0.1"),
    "where it listens, at all addresses": says_where("--base /chat/hub --listen 0.0.0.0", "0.0.0.0"),
    "where it listens, in IPv6": says_where("--base /chat/hub --listen ::1", "[::1]"),
    "few descriptors": says_few(1_024, MOST_LIVE),
    "few descriptors for some more connections": says_few(1_024, 961, "--live 961"),
    "descriptors enough for some connections": says_few(1_024, 960, "--live 960"),
    "more connections than descriptors": (crowded, (True, 200)),
    "another base": (another_base, [200, 404, 404]),
}


def main():
    program = sys.argv[1] if len(sys.argv) > 1 else str(HERE.parent / "bin" / "sr")
    failed = 0
    for name, (case, wanted) in CASES.items():
        try:
            got = case(program)
        except Exception as wrong:
            got = repr(wrong)
        failed += got != wanted
        print(f"passed {name}" if got == wanted else f"FAILED {name}\n    want {wanted}\n    got  {got}", flush=True)
    print(f"{len(CASES) - failed} passed, {failed} failed")
    return 1 if failed else 0


if __name__ == "__main__":
    sys.exit(main())
