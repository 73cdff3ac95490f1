#!/usr/bin/env python3
"""Holds the program against what frames say, in JSON and in MessagePack, and how they are written: values, the nine messages, and each refusal.

    acceptance/frames.py [PROGRAM]      PROGRAM is bin/sr by default, and so the release if nothing newer was built

What is wanted comes from no run of the program: frames_values.py and frames_messages.py have the tables, and say where these are from. `sr check`
lists what is read, many frames of a codec in one stream. A frame that is refused ends a stream, so each has one of its own, between two pings.
`sr convert` writes the same in the other codec, and what it wrote of JSON is converted back. Which messages are counted, and values that are too long for
a frame of these two, `sr replay` shows; how bytes are packed, of which JSON has none, a call of `sr serve`.

Each line or frame that is wanted is a case, and so is each exit status. The last line is 'N passed, N failed'; the status is 0 if none failed."""
import concurrent.futures
import itertools
import json
import os
import pathlib
import subprocess
import sys
from typing import NamedTuple

import frames_messages
import frames_values
from run import shown

HERE = pathlib.Path(__file__).resolve().parent
sys.path.insert(0, str(HERE / "clients"))
import pack  # noqa: E402
import raw  # noqa: E402
from serving import Serving  # noqa: E402

SECONDS = 120
SHOWN = 60  # bytes of what is given
SHOWN_CASES = 3  # of one run: where a stream breaks off, all behind it is missing
RECORD = b"\x1e"
OTHER = {"json": "pack", "pack": "json"}
PINGS = {"json": b'{"type":6}', "pack": b"\x91\x06"}
MESSAGE = "message "
PING = MESSAGE + '{"type":6}'
REFUSED = 2  # the exit status


class Run(NamedTuple):
    """A run of the program, and what is to come of it: lines, or frames of the codec into which it converts."""

    title: str
    words: str
    given: bytes
    wanted: list
    status: int


def framed(codec, frame):
    return frame + RECORD if codec == "json" else pack.framed(frame)


def stream(codec, frames):
    return b"".join(framed(codec, frame) for frame in frames)


def listed(codec, frames, lines):
    """What `check` has to write of these frames, each told by its line."""
    places = itertools.accumulate((len(framed(codec, frame)) for frame in frames), initial=0)
    return [f"{place} {line}\n".encode() for place, line in zip(places, lines)]


def texts(lines):
    """The frames in JSON of the messages of these lines."""
    return [framed("json", line[len(MESSAGE) :].encode()) for line in lines if line.startswith(MESSAGE)]


def are_read(cases, codec):
    """The frames of this codec that aren't refused, and their lines."""
    read = [(frame, line) for of, frame, line in cases if of == codec and not line.startswith("refused")]
    return [frame for frame, _ in read], [line for _, line in read]


# ---- the runs of tables


def of_read(title, codec, frames, lines):
    """Frames that are read, in one stream. What is converted from JSON is converted back."""
    given = stream(codec, frames)
    yield faults, Run(title, f"check {codec}", given, listed(codec, frames, lines), 0)
    yield (faults_there_and_back if codec == "json" else faults), Run(title, "convert pack json", given, texts(lines), 0)


def of_refused(title, codec, frame, line):
    """A frame that is refused, between two others."""
    frames, lines = [PINGS[codec], frame, PINGS[codec]], [PING, line]
    other = OTHER[codec]
    yield faults, Run(title, f"check {codec}", stream(codec, frames), listed(codec, frames, lines), REFUSED)
    yield faults, Run(title, f"convert {codec} {other}", stream(codec, frames), [framed(other, PINGS[other])], REFUSED)


def of_table(title, cases):
    """The runs of a title of FRAMES."""
    for codec in OTHER:
        frames, lines = are_read(cases, codec)
        if frames:
            yield from of_read(title, codec, frames, lines)
    for codec, frame, line in cases:
        if line.startswith("refused"):
            yield from of_refused(title, codec, frame, line)


def of_packed(title, cases):
    """The run of a title of PACKED."""
    given = stream("json", [text.encode() for text, _ in cases])
    yield faults, Run(title, "convert json pack", given, [framed("pack", frame) for _, frame in cases], 0)


def of_broken(codec, given, lines):
    """The runs of a stream that has pings and then something else."""
    title, other = "streams that end in no frame", OTHER[codec]
    yield faults, Run(title, f"check {codec}", given, [line.encode() + b"\n" for line in lines], REFUSED)
    pings = [framed(other, PINGS[other]) for line in lines if line.endswith(PING)]
    yield faults, Run(title, f"convert {codec} {other}", given, pings, REFUSED)


# ---- messages over a link

OPENING = "open\naccept 0\nc write *\ns read *\ns write *\nc read *\n"
SHAKEN = ["s shaken", "c shaken"]
MOST_COUNTED = 5  # the types from 1 on that Ack and Sequence count


def of_link(title, options, messages):
    """A client sends these messages, each as it is spelled there, and the server reads them."""
    sends = [f"c send {spelled}\n" for spelled, _ in messages]
    sent = [f"c sent {number}" for number, _ in enumerate(messages, 1)]
    got = [f"s got {number} {text}" for number, (_, text) in enumerate(messages, 1)]
    return replayed(title, options, [*sends, "c write *\ns read *\n"], [*SHAKEN, *sent, *got, *ends(len(messages))])


def of_examples():
    """Those that count are sent, in either codec. A script that has another isn't replayed."""
    for codec in OTHER:
        counted = [(spelled, text) for spelled, text, _ in frames_messages.EXAMPLES if json.loads(text)["type"] <= MOST_COUNTED]
        yield of_link("messages that are counted", f"codec {codec}\n", counted)
    for spelled, text, _ in frames_messages.EXAMPLES:
        if json.loads(text)["type"] > MOST_COUNTED:
            given = f"{OPENING}c send {spelled}\n".encode()
            yield faults, Run("messages that aren't counted", "replay", given, [b"line 7 refused\n"], REFUSED)


def of_long(messages):
    """Messages that are too long for a frame of `check`. A client whose frames may have 256 bytes only is told how many each has in MessagePack."""
    title, sends = "long values in MessagePack", [f"c send {text}\n" for text, _ in messages]
    refused = [f"c refused TooLong {size}" for _, size in messages]
    yield replayed(title, "codec pack\nbuffer 1024 100000 256\n", sends, [*SHAKEN, *refused, *ends(0)])
    yield of_link(title, "codec pack\nbuffer 1024 16777216 1048576\n", [(text, text) for text, _ in messages])


def ends(count):
    """How the two ends stand at last."""
    return [f"client Ready sent {count} processed 0 held {count}", f"server Ready sent 0 processed {count} held 0"]


def replayed(title, options, actions, lines):
    given = "".join([options, OPENING, *actions])
    return faults, Run(title, "replay", given.encode(), [line.encode() + b"\n" for line in lines], 0)


# ---- the program


def cut(words, data):
    """What was written, in lines or in frames."""
    if not words.startswith("convert"):
        return data.splitlines(keepends=True)
    if words.endswith("json"):
        return [frame + RECORD for frame in data.split(RECORD)[:-1]] + [rest for rest in data.split(RECORD)[-1:] if rest]
    return [*cut_by_length(data)]


def cut_by_length(data):
    """Frames with their lengths, and what is left at the end."""
    while data:
        spelled = 1 + next((at for at, byte in enumerate(data) if byte < 128), len(data) - 1)
        size = sum((byte & 127) << 7 * at for at, byte in enumerate(data[:spelled]))
        yield data[: spelled + size]
        data = data[spelled + size :]


def faults(program, run):
    """What is wrong with what the program does, in pairs of what is wanted and what came."""
    done = started(program, run.words, run.given)
    pairs = [*itertools.zip_longest(run.wanted, cut(run.words, done.stdout), fillvalue=b"")]
    wrong = [(shown(want, got), shown(got, want)) for want, got in pairs if want != got]
    if done.returncode != run.status:
        wrong.append((f"status {run.status}", f"status {done.returncode}, and on standard error {shown(done.stderr, b'')}"))
    return wrong


def faults_there_and_back(program, run):
    """The same of a stream in JSON that is converted into MessagePack first."""
    return faults(program, run._replace(given=started(program, "convert json pack", run.given).stdout))


def started(program, words, given):
    return subprocess.run([program, *words.split()], input=given, capture_output=True, timeout=SECONDS)


def judged(program, judge, run):
    try:
        return judge(program, run)
    except subprocess.TimeoutExpired:
        return [("an end", f"none in {SECONDS} s")]


def runs():
    """Each run, after what tells its faults."""
    for tables in frames_values, frames_messages:
        for title, cases in tables.FRAMES.items():
            yield from of_table(title, cases)
        for title, cases in tables.PACKED.items():
            yield from of_packed(title, cases)
    for broken in frames_messages.BROKEN:
        yield from of_broken(*broken)
    yield from of_examples()
    yield from of_long(frames_values.LONG)


# ---- bytes, through a server

HANDSHAKE = '{"protocol":"messagepack","version":1}'
ANSWERED = b"\x95\x03\x80\xa11\x03"  # a Completion with a result


def echoed(program):
    """What is wrong with what `Echo` answers of bytes, in pairs of what is wanted and what came."""
    with Serving(program) as server:
        try:
            yield from of_echo(raw.Hub(server.port))
        except (raw.Ended, OSError) as wrong:
            yield "an answer", repr(wrong)
        yield from (("no complaint", line) for line in server.complaints())


def of_echo(hub):
    hub.say(HANDSHAKE)
    hub.read_frame()
    for spelled, packed in frames_values.ECHOED:
        hub.send(raw.frame(raw.BINARY, pack.framed(b"\x96\x01\x80\xa11\xa4Echo\x91" + spelled + b"\x90")))
        got, want = next_answer(hub), ANSWERED + packed
        if got != want:
            yield shown(want, got), shown(got, want)


def next_answer(hub):
    """The next frame, but for Pings."""
    while True:
        for frame in pack.frames(hub.read_frame()[1]):
            if frame != PINGS["pack"]:
                return frame


# ---- the report


def told(what, count, wrong):
    """Tells what is wrong, and gives how many cases passed and failed."""
    for want, got in wrong[:SHOWN_CASES]:
        print(f"FAILED {what}\n    want {want}\n    got  {got}", flush=True)
    if len(wrong) > SHOWN_CASES:
        print(f"    and {len(wrong) - SHOWN_CASES} more")
    failed = min(len(wrong), count)
    return count - failed, failed


def what(run):
    """What a run is about. A short input is shown whole."""
    return f"{run.title}: sr {run.words}" + (f" of {run.given!r}" if len(run.given) <= SHOWN else "")


def main():
    program = sys.argv[1] if len(sys.argv) > 1 else str(HERE.parent / "bin" / "sr")
    # The first call of bin/sr may prove and build, and has no time limit for that.
    subprocess.run([program, "check", "json"], stdin=subprocess.DEVNULL, stdout=subprocess.DEVNULL)
    counts, all_runs = [], [*runs()]
    with concurrent.futures.ThreadPoolExecutor(os.cpu_count()) as lanes:
        for (_, run), wrong in zip(all_runs, lanes.map(lambda it: judged(program, *it), all_runs)):
            counts.append(told(what(run), len(run.wanted) + 1, wrong))
    counts.append(told("bytes are echoed: sr serve", len(frames_values.ECHOED) + 1, [*echoed(program)]))
    passed, failed = map(sum, zip(*counts))
    print(f"{passed} passed, {failed} failed")
    return 1 if failed else 0


if __name__ == "__main__":
    sys.exit(main())
