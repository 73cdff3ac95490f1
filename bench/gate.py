#!/usr/bin/env python3
"""Runs the gate (rt ci) and tells how many processor minutes it took, crate by crate, as a table in Markdown. It is no test.

    bench/gate.py [--anew] [--write] [LOG]      what rt ci says goes to LOG, or to gate.log beside the repository

With `--anew` nothing is taken from earlier runs. With `--write` the table goes into docs/architecture.md, between its two comments
that name this program, if the gate passes. Run it with nothing beside it.

Each second it looks at the provers that the gate started, with their workers, and adds up their processor time by crate and by what
they do: the proof, the proof of the tests, or the must-fail edits. What a prover does in its last second is lost, and what rt, the
compilers and the programs do is in no row, so the rows sum to a little less than the whole. Ends with the status of rt ci."""
import collections
import os
import pathlib
import resource
import subprocess
import sys
import time

TOP = pathlib.Path(__file__).resolve().parent.parent
PAGE = TOP / "docs" / "architecture.md"
BEGIN, END = "<!-- bench/gate.py --write: from here -->\n", "<!-- bench/gate.py --write: to here -->\n"
TICK = os.sysconf("SC_CLK_TCK")
KINDS = ("proof", "tests", "edits")

Process = collections.namedtuple("Process", "parent start seconds words folder")


def processes():
    """All processes, by number."""
    found = {}
    for folder in pathlib.Path("/proc").iterdir():
        if not folder.name.isdigit():
            continue
        try:
            fields = (folder / "stat").read_text().rpartition(")")[2].split()
            words = (folder / "cmdline").read_bytes().decode(errors="replace").split("\0")
            where = os.readlink(folder / "cwd")
        except OSError:
            continue
        # The time of children that ended is their parent's.
        found[int(folder.name)] = Process(int(fields[1]), fields[19], sum(map(int, fields[11:15])) / TICK, words, where)
    return found


def is_prover(process):
    return process.words[0].endswith("/rattle") and "--crate-name" in process.words


def run_of(number, found, gate):
    """The prover that was started first above a process of this gate, or none."""
    first = None
    while number in found and number != gate:
        if is_prover(found[number]):
            first = number
        number = found[number].parent
    return first if number == gate else None


def prover_runs(gate):
    """Each run of the prover: its number and start, its crate, what it does, and its processor time so far in seconds, its workers' among it."""
    found, spent = processes(), collections.Counter()
    for number, process in found.items():
        if is_prover(process) and (first := run_of(number, found, gate)):
            spent[first] += process.seconds
    for number, seconds in spent.items():
        process = found[number]
        kind = "edits" if "/rt-edit" in process.folder else "tests" if "--test" in process.words else "proof"
        yield (number, process.start), process.words[process.words.index("--crate-name") + 1], kind, seconds


def crates():
    names = (line.partition("#")[0].partition(":")[0].strip() for line in (TOP / "crates.txt").read_text().splitlines())
    return [name for name in names if name]


def table(minutes):
    yield "| crate | proof | tests | edits | in all |"
    yield "|---|---|---|---|---|"
    for crate in crates():
        row = [minutes[crate, kind] for kind in KINDS]
        yield f"| `{crate}` | " + " | ".join(f"{it:.1f}" for it in [*row, sum(row)]) + " |"
    row = [sum(minutes[crate, kind] for crate in crates()) for kind in KINDS]
    yield "| in all | " + " | ".join(f"{it:.1f}" for it in [*row, sum(row)]) + " |"


def write(lines):
    """Puts lines between the two comments of the page."""
    before, _, rest = PAGE.read_text().partition(BEGIN)
    _, there, after = rest.partition(END)
    if not there:
        sys.exit(f"{PAGE.relative_to(TOP)} lacks the comments {BEGIN.strip()} and {END.strip()}")
    PAGE.write_text(before + BEGIN + "\n" + "\n".join(lines) + "\n\n" + END + after)


def main():
    options, logs = ({it for it in sys.argv[1:] if it.startswith("--")}, [it for it in sys.argv[1:] if not it.startswith("--")])
    if options - {"--anew", "--write"} or len(logs) > 1:
        print(__doc__)
        return 2
    log = pathlib.Path(logs[0] if logs else TOP.parent / "gate.log")
    begun, seen = time.monotonic(), {}
    with open(log, "w") as out:
        gate = subprocess.Popen(["rt", "ci", *options & {"--anew"}], cwd=TOP, stdout=out, stderr=subprocess.STDOUT)
        while gate.poll() is None:
            for run, crate, kind, seconds in prover_runs(gate.pid):
                seen[run, crate, kind] = max(seconds, seen.get((run, crate, kind), 0))
            time.sleep(1)
    minutes = collections.Counter()
    for (_, crate, kind), seconds in seen.items():
        minutes[crate, kind] += seconds / 60
    spent, lasted = resource.getrusage(resource.RUSAGE_CHILDREN), (time.monotonic() - begun) / 60
    whole = (f"With what a prover did in its last second, `rt` itself, the compilers and the programs that is {(spent.ru_utime + spent.ru_stime) / 60:.0f} "
             f"processor minutes, in {lasted:.0f} minutes on {os.cpu_count()} processors.")
    lines = [*table(minutes), "", whole]
    print("\n".join(lines), log.read_text().rstrip().rpartition("\n")[2], sep="\n")
    if "--write" in options and gate.returncode == 0:
        write(lines)
    return gate.returncode


if __name__ == "__main__":
    sys.exit(main())
