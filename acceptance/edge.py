#!/usr/bin/env python3
"""Looks at what no proof says of the system's side: where a server listens, what of its descriptors it gives back, what its draws are, and whether its
clock goes with the system's.

    acceptance/edge.py [PROGRAM]      PROGRAM is bin/sr by default, and so the release if nothing newer was built

A draw is the first 16 bytes of a token. What is asked of draws follows from the binomial distribution: of BITS fair bits 4,000 more or
fewer than the half is more than seven standard deviations. The last line is 'N passed, N failed', with ', N skipped' after it if any were; the status is 0 if none failed."""
import base64
import concurrent.futures
import json
import os
import pathlib
import socket
import sys
import time

HERE = pathlib.Path(__file__).resolve().parent
sys.path.insert(0, str(HERE / "clients"))
from raw import HOST, Raw  # noqa: E402
from serving import Serving  # noqa: E402

RUNS = 8
DRAWS = 10_000  # as many connections may live at once
BITS = DRAWS * 128
MOST_OFF = 4_000
AT_ONCE = 100
CONNECTIONS = 10_000
SECONDS = 10  # until the server has seen that a connection is gone
NEGOTIATE = "/hub/negotiate?negotiateVersion=1"
TOKEN = b'"connectionToken":"'
TOKEN_LETTERS = 32
LIFE = 30  # seconds for which a token lives that nobody uses
TOLERANCE = 0.05  # seconds that the server's clock may be off after those
TRIES = 8


def draws(port):
    """The draws of so many negotiates on one connection."""
    lane = Raw(port)
    request = f"POST {NEGOTIATE} HTTP/1.1\r\nHost: {HOST}:{port}\r\nContent-Length: 0\r\n\r\n".encode()
    drawn = []
    for _ in range(DRAWS // AT_ONCE):
        lane.send(request * AT_ONCE)
        for _ in range(AT_ONCE):
            status, _, body = lane.reply()
            at = body.index(TOKEN) + len(TOKEN) if status == 200 else None
            drawn.append(base64.urlsafe_b64decode(body[at : at + TOKEN_LETTERS])[:16] if at else status)
    lane.close()
    return drawn


def fair_draws(program):
    """How many runs have as many bits as fair ones, and how many of all draws differ."""
    all_drawn = []
    fair = 0
    for _ in range(RUNS):
        with Serving(program) as server:
            drawn = draws(server.port)
        fair += abs(bin(int.from_bytes(b"".join(drawn), "big")).count("1") - BITS // 2) <= MOST_OFF
        all_drawn += drawn
    return fair, len(set(all_drawn))


def descriptors(server):
    return len(os.listdir(f"/proc/{server.process.pid}/fd"))


def given_back(program):
    """How many descriptors more the server has after so many connections came and went, half of them in order and half by a reset, and how it
    answers one that stayed."""
    with Serving(program) as server:
        stays = Raw(server.port)
        stays.http("POST", NEGOTIATE)
        before = descriptors(server)
        for number in range(CONNECTIONS):
            lane = Raw(server.port)
            lane.close() if number % 2 else lane.drop()
        until = time.monotonic() + SECONDS
        while descriptors(server) > before and time.monotonic() < until:
            time.sleep(0.05)
        return descriptors(server) - before, stays.http("POST", NEGOTIATE)[0]


def connects(address, port):
    try:
        socket.create_connection((address, port), timeout=SECONDS).close()
    except ConnectionRefusedError:
        return False
    return True


def one_address(program):
    """Whether it hears at its own address, and at another of this machine."""
    with Serving(program) as server:
        return connects(HOST, server.port), connects("127.0.0.2", server.port)


def all_addresses(program):
    with Serving(program, "--listen", "0.0.0.0") as server:
        return connects(HOST, server.port), connects("127.0.0.2", server.port)


class Token:
    """A token, with the moments between which it was made."""

    def __init__(self, server):
        self.port, self.before = server.port, time.monotonic()
        status, body = Raw(server.port).http("POST", NEGOTIATE)
        self.after = time.monotonic()
        self.id = json.loads(body)["connectionToken"] if status == 200 else None

    def polled(self, age):
        """How a poll is answered about so many seconds after it was made, with the least and the greatest that it may be."""
        time.sleep(max(0, self.after + age - time.monotonic()))
        lane, least = Raw(self.port), time.monotonic() - self.after
        status, _ = lane.http("GET", f"/hub?id={self.id}")
        return status, least, time.monotonic() - self.before


def a_life(program):
    """How a token is answered before it is LIFE seconds old, and after that. Asked too late for the one or too early for the other, as may be on a
    machine that does other things too, it says nothing. None: nothing was said of the one or of the other."""
    young, old = set(), set()
    with Serving(program) as server, concurrent.futures.ThreadPoolExecutor(TRIES) as pool:
        tokens = [Token(server) for _ in range(TRIES)]
        ages = [LIFE - 2 * TOLERANCE, LIFE + 2 * TOLERANCE] * (TRIES // 2)
        for status, least, most in pool.map(Token.polled, tokens, ages):
            if most < LIFE - TOLERANCE:
                young.add(status)
            elif least > LIFE + TOLERANCE:
                old.add(status)
    return (young, old) if young and old else None


CASES = {
    "draws are fair, and no two are equal": (fair_draws, (RUNS, RUNS * DRAWS)),
    "connections that went leave no descriptor": (given_back, (0, 200)),
    "a port is bound to its address alone": (one_address, (True, False)),
    "a port is bound to all addresses": (all_addresses, (True, True)),
    "a token lives as long by the system's clock": (a_life, ({200}, {404})),
}


def main():
    program = sys.argv[1] if len(sys.argv) > 1 else str(HERE.parent / "bin" / "sr")
    failed = skipped = 0
    for name, (case, wanted) in CASES.items():
        try:
            got = case(program)
        except Exception as wrong:
            got = repr(wrong)
        if got is None:
            skipped += 1
            print(f"skipped {name}: this machine was too busy to tell", flush=True)
            continue
        failed += got != wanted
        print(f"passed {name}: {got}" if got == wanted else f"FAILED {name}\n    want {wanted}\n    got  {got}", flush=True)
    print(f"{len(CASES) - failed - skipped} passed, {failed} failed" + f", {skipped} skipped" * (skipped > 0))
    return 1 if failed else 0


if __name__ == "__main__":
    sys.exit(main())
