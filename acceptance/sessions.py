#!/usr/bin/env python3
"""Has the program replay the sessions of acceptance/sessions/, each beside the model of replay_model.py, which has to report the same.

    acceptance/sessions.py [PROGRAM] [WORD]     PROGRAM is bin/sr by default. With WORD only sessions whose title has it

The last line is 'N passed, N failed', with scripts counted; the status is 0 if none failed.

In a file of sessions an empty line stands between two of them, and a line that begins with `#` is a remark. The first line of a session is
its title. The others are lines of a script of `sr replay` (docs/protocol.md), or one of these:

    each, kept              it is played in both codecs at each version, or at those at which an end can outlive its link
    any WORD A B ..         it is played with each of these in place of WORD; quotes are as in a shell
    losses                  it is played many times, with a link that is lost at each place behind this line, in each of the WAYS to lose one
    shake, swap, turn       the lines of SHAKE, of SWAP, of TURN
    repeat N LINE           this line N times, with the numbers from 1 on in place of `#`
    < LINE                  this line of the report, by hand: a session that has some has its whole report so, and the model is held to it too.
                            A script that is refused must have it
    unmodelled              .. but here, where the model would take too long

In all of them `<x*9>` stands for nine letters x, and so for any signs and number."""
import concurrent.futures
import itertools
import os
import pathlib
import re
import shlex
import subprocess
import sys

import replay_model

HERE = pathlib.Path(__file__).resolve().parent
SHAKE = replay_model.OPENING
SWAP = ["c write *", "s read *", "s write *", "c read *"]
TURN = replay_model.TURN
MACROS = {"shake": SHAKE, "swap": SWAP, "turn": TURN}
EACH = [[f"codec {codec}", f"version {version}"] for codec in ("json", "pack") for version in (1, 2, 3)]
OPTIONS = {"each": EACH, "kept": [options for options in EACH if "version 1" not in options]}
MANY_SIGNS = re.compile(r"<([^<>*]+)\*([0-9]+)>")

# A later link that the ends take one after the other, one after a loss that both have seen, and two in the middle of frames.
WAYS = [
    ["open", "accept 1"],
    ["c lose", "s lose", "open", "accept 1"],
    ["c read 30", "open", "c write *", "accept 1", "s read 20", "open", "accept 2"],
]


class Script:
    """One script of a session, or many that differ in where a link is lost."""

    def __init__(self, options, lines):
        self.options, self.lines, self.report = options, [], []
        self.lost_from, self.unmodelled = None, False
        for line in lines:
            self.take(line)

    def take(self, line):
        if line == "losses":
            self.lost_from = len(self.lines)
        elif line == "unmodelled":
            self.unmodelled = True
        elif line.startswith("< "):
            self.report += spelled_out(line[2:])
        else:
            self.lines += spelled_out(line)

    def texts(self):
        for lines in [self.lines] if self.lost_from is None else self.with_losses():
            yield "".join(line + "\n" for line in self.options + lines)

    def with_losses(self):
        last = TURN if "peers on" in self.lines else SWAP
        for way, place in itertools.product(WAYS, range(self.lost_from, len(self.lines) + 1)):
            yield [*self.lines[:place], *way, *SWAP, *self.lines[place:], *last, *SWAP]

    def wrong(self, text, program):
        """What is wrong with the model's report, or with the program's, in lines."""
        report = "".join(line + "\n" for line in self.report)
        wanted, status = (report, 0) if self.unmodelled else replay_model.report_of(text)
        if report != wanted and (report or status):
            return replay_model.differences(report, wanted, "by hand", "the model")
        return replay_model.compare_with(wanted, status, text, program)


def spelled_out(line):
    if line.startswith("repeat "):
        _, times, one = line.split(" ", 2)
        return [one.replace("#", str(n)) for n in range(1, int(times) + 1)]
    return MACROS.get(line, [line])


def scripts(title, lines):
    """The scripts of a session, each with its title."""
    many = [shlex.split(line)[1:] for line in lines if line.startswith("any ")]
    lines = [line for line in lines if not line.startswith("any ")]
    for words in itertools.product(*(words for _, *words in many)):
        text = "\n".join([title, *(line for line in lines if line not in OPTIONS)])
        for (name, *_), word in zip(many, words):
            text = re.sub(rf"\b{name}\b", lambda _, word=word: word, text)
        named, *rest = MANY_SIGNS.sub(lambda found: found[1] * int(found[2]), text).split("\n")
        for options in next((OPTIONS[line] for line in lines if line in OPTIONS), [[]]):
            yield " ".join([named, *options]), Script(options, rest)


def sessions(text):
    """The title of each session, and its lines."""
    lines = "".join(line + "\n" for line in text.splitlines() if not line.startswith("#"))
    for part in re.split("\n\n+", lines.strip("\n")):
        title, *rest = part.split("\n")
        yield title, rest


def listed(word):
    """The scripts of sessions whose title has this word, each with its file and its title."""
    for path in sorted((HERE / "sessions").glob("*.txt")):
        for title, lines in sessions(path.read_text(encoding="utf-8")):
            if word in title:
                yield from ((f"{path.stem}: {named}", script) for named, script in scripts(title, lines))


def wrong_of(program, title, script):
    """How many texts of a script are played, and of each that isn't played as it has to be what is wrong, in lines."""
    faults = [script.wrong(text, program) for text in script.texts()]
    return len(faults), [[f"FAILED {title}", *wrong] for wrong in faults if wrong]


def main():
    program = sys.argv[1] if len(sys.argv) > 1 else str(HERE.parent / "bin" / "sr")
    # The first call of bin/sr may prove and build, and has no time limit for that.
    subprocess.run([program, "replay"], stdin=subprocess.DEVNULL, stdout=subprocess.DEVNULL)
    played = failed = 0
    with concurrent.futures.ProcessPoolExecutor(os.cpu_count()) as lanes:
        for future in [lanes.submit(wrong_of, program, *found) for found in listed(sys.argv[2] if len(sys.argv) > 2 else "")]:
            count, faults = future.result()
            played, failed = played + count, failed + len(faults)
            for lines in faults:
                print(*lines, sep="\n    ", flush=True)
    print(f"{played - failed} passed, {failed} failed")
    return 1 if failed or not played else 0


if __name__ == "__main__":
    sys.exit(main())
