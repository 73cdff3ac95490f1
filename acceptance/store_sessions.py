#!/usr/bin/env python3
"""Has the program keep posts and users in a database of SQLite, and looks into that with SQLite's own sqlite3, and the other way round.

    acceptance/store_sessions.py [--kills N] [--seed N] [PROGRAM] [WORD]      PROGRAM is bin/sr by default. With WORD only cases whose name has it

Each case has files and a server of its own: clients/store_records.py what stands in the tables, clients/store_files.py files that can't be had or
have no room, clients/store_kills.py servers that are killed as they are posted to, N times, 3 by default. What has to come is by hand, after
docs/operating.md. It needs Python's module sqlite3 with SQLite 3.37 or later, and skips with a word what else isn't there. The last line is
'N passed, N failed', with ', N skipped' after it if any were; the status is 0 if none failed."""
import argparse
import concurrent.futures
import os
import pathlib
import subprocess
import sys

HERE = pathlib.Path(__file__).resolve().parent
sys.path.insert(0, str(HERE / "clients"))
try:
    import sqlite3
except ImportError:
    sqlite3 = None

AT_ONCE = 6
OLDEST = 3, 37  # of SQLite, which knows STRICT tables from then on
SHOWN = 2_000  # letters of what is wrong


def cases(asked):
    import store_files
    import store_kills
    import store_records

    kills = store_kills.cases(asked.kills, asked.seed)
    return [case for case in [*kills, *store_files.CASES, *store_records.CASES] if asked.word in case[0]]


def outcome(case, program):
    from stored import Skipped

    try:
        return case(program), None
    except Skipped as why:
        return None, str(why)
    except (Exception, SystemExit) as wrong:
        return f"{type(wrong).__name__}: {wrong}", None


def short(told):
    text = str(told)
    return text if len(text) < SHOWN else f"{text[:SHOWN]} .."


def told(name, wanted, got, why):
    """What is said of a case, and whether it is counted as passed, failed or skipped."""
    if why:
        return f"skipped {name}: {why}", 2
    if got == wanted:
        return f"passed {name}", 0
    return f"FAILED {name}\n    want {short(wanted)}\n    got  {short(got)}", 1


def all_cases(listed, program):
    """Does the cases, some side by side, and gives the counts of those that passed, failed and were skipped."""
    counts = [0, 0, 0]
    with concurrent.futures.ThreadPoolExecutor(AT_ONCE) as lanes:
        for (name, wanted, _), answer in zip(listed, lanes.map(lambda each: outcome(each[2], program), listed)):
            line, which = told(name, wanted, *answer)
            counts[which] += 1
            print(line, flush=True)
    return counts


def program_of(given):
    """The program itself, since some cases limit what it may have: what bin/sr would run has to be asked for."""
    if given:
        return os.path.abspath(given)
    return subprocess.run([HERE.parent / "bin" / "sr", "--which"], stdout=subprocess.PIPE, text=True, check=True).stdout.rstrip("\n")


def main():
    parser = argparse.ArgumentParser(description=__doc__, formatter_class=argparse.RawDescriptionHelpFormatter)
    parser.add_argument("--kills", type=int, default=3)
    parser.add_argument("--seed", type=int, default=1)
    parser.add_argument("program", nargs="?")
    parser.add_argument("word", nargs="?", default="")
    asked = parser.parse_args()
    if sqlite3 is None or sqlite3.sqlite_version_info < OLDEST:
        print("skipped all: this Python has no module sqlite3 with SQLite 3.37 or later\n0 passed, 0 failed, 1 skipped")
        return 0
    passed, failed, skipped = all_cases(cases(asked), program_of(asked.program))
    print(f"{passed} passed, {failed} failed" + f", {skipped} skipped" * (skipped > 0))
    return 1 if failed or not passed else 0


if __name__ == "__main__":
    sys.exit(main())
