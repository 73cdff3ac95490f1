#!/usr/bin/env python3
"""Has bad clients talk to the program's server over real sockets, and looks how it answers each.

    acceptance/hostile.py [PROGRAM] [WORD]      PROGRAM is bin/sr by default. With WORD only cases whose name has it.

What has to come is by RFC 9112 and RFC 9110 (requests), RFC 6455 (WebSockets) and the limits of docs/clients.md. The cases meet one
server, one after the other; those that wait for half a minute run beside the others. At the end it must still serve a good client, have
written on standard error where it listens alone, and hold at most MOST_GROWTH more memory than at its start. Those who are greedy meet a
server each, with little memory, of which clients/hostile_greed.py tells. (A build with a sanitizer keeps what it freed:
ASAN_OPTIONS=quarantine_size_mb=1.) The last line is 'N passed, N failed'; the status is 0 if none failed."""
import json
import pathlib
import sys
import threading

HERE = pathlib.Path(__file__).resolve().parent
sys.path.insert(0, str(HERE / "clients"))
from hostile_calls import CALL_CASES  # noqa: E402
from hostile_greed import GREEDY_CASES, SLOW_GREEDY_CASES, under_attack  # noqa: E402
from hostile_http import HTTP_CASES, SLOW_HTTP_CASES  # noqa: E402
from hostile_hubs import HUB_CASES, SLOW_HUB_CASES  # noqa: E402
from hostile_sockets import SOCKET_CASES, SLOW_SOCKET_CASES  # noqa: E402
from raw import Ended, Hub, Raw  # noqa: E402
from serving import Serving  # noqa: E402

CASES = HTTP_CASES + SOCKET_CASES + HUB_CASES + CALL_CASES
SLOW_CASES = SLOW_HTTP_CASES + SLOW_SOCKET_CASES + SLOW_HUB_CASES
MOST_GROWTH = 65_536  # KiB


def outcome(case, *words):
    """What a case sees, in words."""
    try:
        return case(*words)
    except Ended as ended:
        return f"{ended} too early"
    except Exception as wrong:
        return repr(wrong)


def good_client(port):
    """What every client may count on: a token, a socket, a call; and that polls work."""
    _, body = Raw(port).http("POST", "/hub/negotiate?negotiateVersion=1")
    hub = Hub(port, "/hub?id=" + json.loads(body)["connectionToken"])
    hub.shake()
    answer = hub.call("Add", 2, 3)
    hub.say('{"type":7}')
    return f"{answer.get('result')}, {hub.hear()}, {hub.end()}"


class Tally:
    def __init__(self):
        self.passed = self.failed = 0
        self.lock = threading.Lock()

    def tell(self, name, wanted, got):
        right = got == wanted
        with self.lock:
            self.passed, self.failed = self.passed + right, self.failed + (not right)
            print(f"passed {name}: {got}" if right else f"FAILED {name}\n    want {wanted}\n    got  {got}", flush=True)

    def one(self, server, name, wanted, case):
        self.tell(name, wanted, outcome(case, server.port))

    def greedy(self, program, name, wanted, *attack):
        self.tell(name, wanted, outcome(under_attack, program, *attack))


def begun(tell, *words):
    thread = threading.Thread(target=tell, args=words)
    thread.start()
    return thread


def begin_slow(tally, server, word):
    """The cases that wait, each in a thread, so that they wait together."""
    threads = [begun(tally.one, server, *case) for case in SLOW_CASES if word in case[0]]
    return threads + [begun(tally.greedy, server.program, *case) for case in SLOW_GREEDY_CASES if word in case[0]]


def all_cases(server, word):
    tally = Tally()
    before = server.memory()
    slow = begin_slow(tally, server, word)
    for case in CASES:
        if word in case[0]:
            tally.one(server, *case)
    for case in GREEDY_CASES:
        if word in case[0]:
            tally.greedy(server.program, *case)
    for thread in slow:
        thread.join()
    tally.one(server, "a good client, at the end", "5, closed 1000, ended", good_client)
    tally.tell("the server runs, and wrote on standard error where it listens alone", [], server.complaints())
    growth = (server.memory() or 0) - (before or 0)
    tally.tell(f"at most {MOST_GROWTH} KiB more memory ({growth} KiB)", True, growth <= MOST_GROWTH)
    print(f"{tally.passed} passed, {tally.failed} failed")
    return 1 if tally.failed else 0


def main():
    program = sys.argv[1] if len(sys.argv) > 1 else str(HERE.parent / "bin" / "sr")
    with Serving(program) as server:
        return all_cases(server, sys.argv[2] if len(sys.argv) > 2 else "")


if __name__ == "__main__":
    sys.exit(main())
