#!/usr/bin/env python3
"""Refuses the built program each of its requests for memory, and lets each of its calls of the system fail. The gate doesn't run it.

    bench/faults.py memory|system|all [--step K] [--most N] [--only TEXT] [PROGRAM]

A session is tried once for each request for memory, or each call, that it makes: in the nth trial the nth is refused, or that and all after it
(faults/refuse.c, which gcc compiles and the system's linker loads before PROGRAM, by default bin/sr). The sessions are the rows of acceptance/*.toml,
a server with three clients (faults/served.py), a client with a server by hand (faults/calling.py), and the program's client with its server
(faults/both.py). What has to come is in faults/rules.py: an exit status, and of what was written and told a first part; or all of it, where
the call wasn't needed. A signal, a hang and any other status are wrong.

Of each session and call every Kth is tried; by default so many that at most N (200) are, which takes some minutes. With `--only` only sessions whose
name has TEXT: a row's is `FILE: NAME`, and the others' begin with `served:`, `calling:` and `both:`. What was tried comes as a table. The status is 0
if all came as it has to."""
import argparse
import collections
import dataclasses
import errno
import pathlib
import shlex
import signal
import subprocess
import sys
import tempfile
import time

HERE = pathlib.Path(__file__).resolve().parent
sys.path[:0] = [str(HERE / "faults"), str(HERE.parent / "acceptance"), str(HERE.parent / "acceptance" / "clients")]
import both  # noqa: E402
import calling  # noqa: E402
import rows  # noqa: E402
import run  # noqa: E402
import served  # noqa: E402
from preload import KINDS, Fault, compiled  # noqa: E402
from rules import CLIENT_LANE_RULES, CLIENT_RULES, ROW_RULES, SAME, SERVER_LANE_RULES, SERVER_RULES, answer_of, first_parts  # noqa: E402

SHOWN = 12  # trials that went wrong
PROGRESS = 30  # seconds
SECONDS = 60
WHOLE_RUNS = 3  # of a session over sockets, whose calls differ by some from run to run


# ---- sessions


@dataclasses.dataclass
class Session:
    """A session by this name, of a group in the table. `carry_out` has it with a fault, and answers a status, what was told to whom, and what
    was turned away; `expected` is what it comes to without one, and `may_be_told` what may have been told at another status."""

    group: str
    name: str
    rules: list
    carry_out: object
    expected: tuple
    may_be_told: object = first_parts
    runs: int = WHOLE_RUNS


def of_row(path, row, named):
    words, given = shlex.split(row["words"]), run.bytes_of(row["input"], named)

    def carry_out(program, fault):
        done = subprocess.run([program, *words], input=given, capture_output=True, timeout=SECONDS, env=fault.environment())
        return done.returncode, {"": done.stdout}, []

    frame_end = {"check": b"\n", "convert": b"" if words[-1:] == ["pack"] else b"\x1e"}.get(words[0] if words else "", b"")

    def may_be_told(status, told, whole):
        """Of a report, a soak or a verdict nothing, of a trace nothing before its script was read, of frames what is written of some. An output that fails may
        have taken any first part, and where memory runs out a first part of a trace may have been written."""
        if status == 4 or (words[:1] == ["record"] and status == 7):
            return first_parts(status, told, whole)
        if words[:1] in (["replay"], ["soak"], ["record"], ["audit"]):
            return told[""] == b""
        return first_parts(status, told, whole) and (not told[""] or told[""].endswith(frame_end))

    name = f"{path.stem}: {row['name']}"
    return Session(f"rows of {path.name}", name, ROW_RULES, carry_out, (row["status"], {"": run.bytes_of(row["output"], named)}), may_be_told, 1)


def of_sockets(name, rules, carry_out, expected):
    return Session(name.partition(": ")[2], name, rules, carry_out, expected)


def sessions():
    for path in sorted((HERE.parent / "acceptance").glob("*.toml")):
        table = rows.read(path)
        yield from (of_row(path, row, table.get("pieces", {})) for row in table["row"])
    line = {"its output": [served.LINE.decode()]}
    yield of_sockets("served: a server with three clients", SERVER_RULES, served.serve, (served.SERVES, {**line, **served.EXPECTED}))
    yield of_sockets("calling: a client with a server by hand", CLIENT_RULES, calling.call, (0, calling.EXPECTED))
    for side, rules in (True, SERVER_LANE_RULES), (False, CLIENT_LANE_RULES):
        name = f"both: a client with a server, a fault of the {'server' if side else 'client'}"
        yield of_sockets(name, rules, lambda program, fault, side=side: both.meet(program, fault, side), (0, both.PRINTED))


# ---- trials


class Tally:
    """What was tried, and what came, by group, kind and error."""

    def __init__(self):
        self.lines, self.wrong = {}, []
        self.began = self.told = time.monotonic()

    def tell_progress(self, group):
        """Says where it is, each half minute."""
        now = time.monotonic()
        if now > self.told + PROGRESS:
            self.told = now
            print(f"after {now - self.began:.0f} s: {group}, {self.tried()} tried, {len(self.wrong)} wrong", flush=True)

    def tried(self):
        return sum(line["tried"] for line in self.lines.values())

    def line(self, session, rule):
        new = {"sessions": set(), "calls": 0, "tried": 0, "answers": collections.Counter()}
        return self.lines.setdefault((session.group, rule.kind, rule.error, rule.goes_on), new)

    def add(self, session, rule, calls):
        line = self.line(session, rule)
        line["sessions"].add(session.name)
        line["calls"] += calls

    def tell(self, session, rule, at, answer):
        line = self.line(session, rule)
        line["tried"] += 1
        line["answers"][answer] += 1

    def fail(self, session, rule, at, got):
        self.tell(session, rule, at, "WRONG")
        self.wrong.append(f"{session.name}: {KINDS[rule.kind]} number {at}, {errno.errorcode[rule.error]}: {got!r}"[:1_000])
        if len(self.wrong) <= SHOWN:
            print("WRONG", self.wrong[-1], flush=True)


def whole_counts(session, program, library):
    """How many calls of each kind the session makes: the most of some runs, each of which must come to what it has to."""
    counts = collections.Counter()
    for _ in range(session.runs):
        with Fault(library) as fault:
            outcome = session.carry_out(program, fault)
            counts |= collections.Counter(fault.counts())
        if outcome[:2] != session.expected:
            raise SystemExit(f"{session.name}: without a fault it comes to {outcome!r}, and not to {session.expected!r}")
    return counts


def try_one(session, rule, at, program, library, tally):
    """The trial counts if that call came: over sockets some runs make fewer than others, and come to all as without a fault."""
    with Fault(library, rule.kind, at, rule.error, rule.goes_on, rule.ends()) as fault:
        try:
            outcome = session.carry_out(program, fault)
        except Exception as wrong:
            outcome = repr(wrong), {}, []
        came = fault.has_come()
    answer = answer_of(rule, outcome, session.expected, session.may_be_told) if came else SAME if outcome[:2] == session.expected else None
    if answer is None:
        tally.fail(session, rule, at, outcome)
    elif came:
        tally.tell(session, rule, at, answer)


def try_all(session, words, library, tally):
    counts = whole_counts(session, words.program, library)
    for rule in session.rules:
        count = counts[rule.kind]
        if count and (rule.kind == "memory") in words.memory:
            tally.add(session, rule, count)
            for at in range(0, count, words.step or -(-count // words.most)):
                try_one(session, rule, at, words.program, library, tally)
                tally.tell_progress(session.group)


# ---- the table


def table(tally):
    yield "| session | calls that fail | with | calls | tried | answers |"
    yield "|---|---|---|---|---|---|"
    for (group, kind, error, goes_on), line in tally.lines.items():
        count = len(line["sessions"])
        answers = ", ".join(f"{answer}: {number}" for answer, number in sorted(line["answers"].items(), key=str))
        name = group if count == 1 else f"{count} {group}"
        yield f"| {name} | {KINDS[kind]} | {errno.errorcode[error]}{', and all after' * goes_on} | {line['calls']} | {line['tried']} | {answers} |"


def asked():
    parser = argparse.ArgumentParser(description=__doc__.split("\n")[0])
    parser.add_argument("what", choices=["memory", "system", "all"])
    parser.add_argument("--step", type=int)
    parser.add_argument("--most", type=int, default=200)
    parser.add_argument("--only", default="")
    parser.add_argument("program", nargs="?", default=str(HERE.parent / "bin" / "sr"))
    words = parser.parse_intermixed_args()
    words.memory = {"memory": [True], "system": [False], "all": [True, False]}[words.what]
    return words


def all_tried(words, tally):
    with tempfile.TemporaryDirectory() as folder:
        library = compiled(folder)
        for session in sessions():
            if words.only in session.name:
                try_all(session, words, library, tally)


def main():
    words, tally, is_whole = asked(), Tally(), True
    if pathlib.Path(words.program).parent.name == "bin":
        # bin/sr is a shell, whose calls would be counted.
        words.program = subprocess.run([words.program, "--which"], stdout=subprocess.PIPE, text=True, check=True).stdout.strip()
    # Told to end, it tells what was tried until then.
    signal.signal(signal.SIGTERM, signal.default_int_handler)
    try:
        all_tried(words, tally)
    except KeyboardInterrupt:
        is_whole = False
    print(*table(tally), sep="\n")
    ending = "" if is_whole else ", broken off"
    print(f"{tally.tried()} tried in {time.monotonic() - tally.began:.0f} s, {len(tally.wrong)} wrong{ending}")
    return 1 if tally.wrong or not tally.tried() or not is_whole else 0


if __name__ == "__main__":
    sys.exit(main())
