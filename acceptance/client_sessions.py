#!/usr/bin/env python3
"""Has the program's client meet its server, over ways that are cut, and servers by hand, and looks what it says, prints and answers.

    acceptance/client_sessions.py [PROGRAM] [WORD]      PROGRAM is bin/sr by default. With WORD only cases whose name has it

Each case has a server of its own. Those with servers by hand are in clients/dialed.py, client_words.py, client_flow.py and client_exchanges.txt, and
those with `PROGRAM serve`, so that both ends are under test, in clients/client_calls.py, client_sessions.txt and client_cuts.py. What has to come is
by hand, after docs/protocol.md, RFC 9110, 9112 and 6455, HubProtocol.md and TransportProtocols.md, and by the model of clients/scripted.py. Some wait for half a minute, in which the others run. The last line is 'N passed, N failed', with ', N skipped' after it if any
were; the status is 0 if none failed."""
import concurrent.futures
import os
import pathlib
import subprocess
import sys
import threading

HERE = pathlib.Path(__file__).resolve().parent
sys.path.insert(0, str(HERE / "clients"))
import client_calls  # noqa: E402
import client_cuts  # noqa: E402
import client_flow  # noqa: E402
import client_words  # noqa: E402
import dialed  # noqa: E402
import exchanged  # noqa: E402

AT_ONCE = 8
SHOWN = 2_000  # letters of what is wrong


def exchanges():
    for exchange in exchanged.exchanges(HERE / "clients" / "client_exchanges.txt"):
        yield exchange.title, exchange.wanted(), exchange.run


def without_faults(cases):
    for name, case in cases:
        yield name, [], case


SLOW_CASES = [*dialed.SLOW_CASES, *dialed.DIAL_CASES]
CASES = [*without_faults([*client_cuts.CASES, *client_calls.CASES]), *exchanges(), *dialed.CASES, *client_flow.CASES, *client_words.CASES]
LAST_CASES = [*without_faults(client_cuts.LAST_CASES)]


def outcome(case, program):
    try:
        return case(program)
    except Exception as wrong:
        return f"{type(wrong).__name__}: {wrong}"


def short(told):
    text = str(told)
    return text if len(text) < SHOWN else f"{text[:SHOWN]} .."


class Tally:
    def __init__(self, program):
        self.program, self.lock = program, threading.Lock()
        self.passed = self.failed = self.skipped = 0

    def one(self, name, wanted, case):
        got = outcome(case, self.program)
        with self.lock:
            if got is None:
                self.skipped += 1
                print(f"skipped {name}: this machine has no IPv6", flush=True)
            elif got == wanted:
                self.passed += 1
                print(f"passed {name}", flush=True)
            else:
                self.failed += 1
                print(f"FAILED {name}\n    want {short(wanted)}\n    got  {short(got)}", flush=True)

    def told(self):
        return f"{self.passed} passed, {self.failed} failed" + f", {self.skipped} skipped" * (self.skipped > 0)


def program_of(words):
    """The program itself, since some cases limit what it may have: what bin/sr would run has to be asked for."""
    if words:
        return os.path.abspath(words[0])
    return subprocess.run([HERE.parent / "bin" / "sr", "--which"], stdout=subprocess.PIPE, text=True, check=True).stdout.rstrip("\n")


def main():
    words = sys.argv[1:]
    tally = Tally(program_of(words))
    asked = lambda cases: [case for case in cases if words[1:] == [] or words[1] in case[0]]  # noqa: E731
    slow, others = asked(SLOW_CASES), asked(CASES)
    with concurrent.futures.ThreadPoolExecutor(len(SLOW_CASES)) as waiting, concurrent.futures.ThreadPoolExecutor(AT_ONCE) as lanes:
        running = [waiting.submit(tally.one, *case) for case in slow] + [lanes.submit(tally.one, *case) for case in others]
        for told in running:
            told.result()
    for case in LAST_CASES if words[1:] == [] else []:
        tally.one(*case)
    print(tally.told())
    return 1 if tally.failed or not tally.passed else 0


if __name__ == "__main__":
    sys.exit(main())
