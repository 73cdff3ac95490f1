"""Traces of random scripts, and what becomes of them if a line is changed, dropped, doubled, swapped with another or put in.

`check` has them audited by trace_model.py, by whole lists, and by trace_marks.py, and compares."""
import collections
import random

import replay_model
import trace_marks
import trace_model
from trace_model import SIDES

SPOILED = 8  # of each trace
SHOWN = 60  # lines
WORDS = ["shaken", "ping", "acked 1", "acked 2", "sequence 1", "sequence 2", "resumed 1 0", "closed -", "skipped duplicate 1", "skipped not-used", "x"]
MOMENTS = [0, 5, 14_999, 15_000, 29_999, 30_000, 40_000, 60_000]


def scripts(seed, count):
    """Random scripts of two ends without peers."""
    number = 0
    while count:
        drawn = replay_model.RandomScript(random.Random(f"traces {seed} {number}"))
        number += 1
        if not drawn.peers:
            count -= 1
            yield drawn.text()


def foreign_line(draw):
    """A line that may stand anywhere."""
    side = draw.choice("cs")
    kind = draw.randrange(6)
    if kind == 0: return f"{side} attach {draw.randrange(6)}"
    if kind == 1: return f"{side} {draw.choice(['detach', 'close'])}"
    if kind == 2: return f"{side} tick {draw.choice(MOMENTS)}"
    if kind == 3: return f"{side} took {draw.choice(WORDS)}"
    if kind == 4: return f'{side} sent {{"arguments":[],"target":"{draw.choice("abc") * draw.choice([1, 1, 200])}","type":1}}'
    return f"{side} {draw.choice(['fed -', 'fed 7b7d1e', 'lent 7b7d1e', 'lent 029106', 'fed 1e', 'fed ff'])}"


def other_number(draw, word):
    return str(max(0, int(word) + draw.choice([-1, 1, 2])))


def other_bytes(draw, word):
    """Some of the bytes, or with another bit, or with more behind them."""
    data = bytearray(b"" if word == "-" else bytes.fromhex(word))
    kind = draw.randrange(4)
    if kind == 0 and data: data[draw.randrange(len(data))] ^= 1 << draw.randrange(8)
    elif kind == 1: data = data[: draw.randrange(len(data) + 1)]
    elif kind == 2: data += draw.choice([b"\x1e", b"{}\x1e", b"\x02\x91\x06", bytes(300)])
    else: data = data[draw.randrange(len(data) + 1) :]
    return data.hex() or "-"


def changed(draw, line):
    """A line of a step with other words, or of the other end."""
    side, kind, *told = line.split(" ", 2)
    if not told or draw.random() < 0.2: return f"{'s' if side == 'c' else 'c'}{line[1:]}"
    if kind in ("attach", "tick"): return f"{side} {kind} {other_number(draw, told[0])}"
    if kind in ("fed", "lent"): return f"{side} {kind} {other_bytes(draw, told[0])}"
    if kind == "took": return f"{side} took {draw.choice([told[0] + '1', told[0].replace('1', '2'), draw.choice(WORDS)])}"
    return line.replace(":[", ":[9,", 1) if draw.random() < 0.5 else line[:-1]


def spoiled(draw, lines):
    """The lines of a trace, of which one after the first was changed, dropped, doubled or swapped, or another was put in."""
    lines = list(lines)
    if len(lines) == 1: return [*lines, foreign_line(draw)]
    at = draw.randrange(1, len(lines))
    kind = draw.randrange(8)
    if kind == 0: del lines[at]
    elif kind == 1: lines.insert(at, lines[at])
    elif kind == 2 and at > 1: lines[at - 1 : at + 1] = lines[at], lines[at - 1]
    elif kind == 3: lines.insert(at, draw.choice(lines[1:]))
    elif kind == 4: lines.insert(at, foreign_line(draw))
    elif kind == 5: lines[0] = draw.choice([lines[0].replace(" on ", " off "), lines[0].replace(" 2 ", " 3 ", 1), lines[0].replace("json", "pack")])
    else: lines[at] = changed(draw, lines[at])
    return lines


def text_of(lines):
    return "".join(line + "\n" for line in lines).encode()


def of_one_end(lines, side):
    return [lines[0], *(line for line in lines[1:] if line[0] == side)]


def counts_of(script, side):
    """How a verdict on the trace of a script begins, by the script's report: of each end how many messages it sent and processed."""
    ends = replay_model.report_of(script)[0].splitlines()[-2:]
    client, server = (" ".join(end.split(" ")[2:6]) for end in ends)
    if side: return f"history {side} {client if side == 'c' else server}\n"
    return f"world client {client} server {server}"


def traces(seed, count):
    """The lines of traces of random scripts, of each of their ends alone, and spoiled ones, each with the end that is alone, and how the verdict
    has to begin, if that is known. If an end's moments are those of the other's ticks too, it isn't."""
    for number, script in enumerate(scripts(seed, count)):
        lines = trace_model.record(script)[0].splitlines()
        draw = random.Random(f"spoiled {seed} {number}")
        for side in None, *SIDES.values():
            own = lines if side is None else of_one_end(lines, side)
            yield own, side, counts_of(script, side) if side is None or "tick" not in script else ""
            yield from ((spoiled(draw, own), side, "") for _ in range(SPOILED))


def check(seed, count):
    """Compares both audits, and tells how often each verdict came."""
    passed, came = 0, collections.Counter()
    for lines, side, begin in traces(seed, count):
        wanted, got = (model.audit(text_of(lines), side) for model in (trace_model, trace_marks))
        if wanted != got or not wanted[0].startswith(begin):
            print(f"FAILED of {side or 'both ends'}: {begin!r}, by lists {wanted}, by marks {got}", *lines[:SHOWN], sep="\n    ")
            print(f"{passed} passed, 1 failed")
            return 1
        passed += 1
        words = wanted[0].split()
        came[f"{words[0]} still" if words[-1] == "still" else words[-1] if words[0] == "line" else words[0]] += 1
    print(", ".join(f"{count} {verdict}" for verdict, count in sorted(came.items())))
    print(f"{passed} passed, 0 failed")
    return 0
