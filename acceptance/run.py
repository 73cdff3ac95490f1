#!/usr/bin/env python3
"""Runs the rows of acceptance/*.toml against the built program, byte for byte, some side by side.

    acceptance/run.py [PROGRAM]      PROGRAM is bin/sr by default, and so the release if nothing newer was built

A row has a name, the words of the command line (with quotes as in a shell), the input, the output that is wanted and the
exit status, and it may have an error, with which standard error is to begin. An input or an output is one piece or a list of
them, one after the other. A piece is a text, in which the sign ␞ stands for the record separator (the byte 1E), or one of
these:

    { named = "opening" }                         a text of the file's table `pieces`
    { text = "s read 1\\n", times = 117 }          a text, so many times
    { text = "c sent #\\n", numbers = [1, 1024] }  a text, with each number from the first to the last in place of #
    { hex = "02 91 06" }                          bytes

The last line is 'N passed, N failed'; the status is 0 if none failed."""
import concurrent.futures
import os
import pathlib
import shlex
import subprocess
import sys

import rows

HERE = pathlib.Path(__file__).resolve().parent
SECONDS = 120
SHOWN = 160  # bytes


def bytes_of(piece, named):
    if isinstance(piece, str):
        return piece.replace("␞", "\x1e").encode()
    if isinstance(piece, list):
        return b"".join(bytes_of(part, named) for part in piece)
    if piece.keys() == {"named"}:
        return named[piece["named"]].encode()
    if piece.keys() == {"hex"}:
        return bytes.fromhex(piece["hex"])
    if piece.keys() == {"text", "times"}:
        return bytes_of(piece["text"], named) * piece["times"]
    if piece.keys() == {"text", "numbers"}:
        first, last = piece["numbers"]
        return b"".join(bytes_of(piece["text"].replace("#", str(n)), named) for n in range(first, last + 1))
    raise ValueError(f"no piece: {piece}")


def shown(data, other):
    """Some bytes around the first that isn't as in the other bytes."""
    differs = next((at for at, (ours, theirs) in enumerate(zip(data, other)) if ours != theirs), min(len(data), len(other)))
    begin = max(0, differs - SHOWN // 4)
    part = data[begin : begin + SHOWN]
    return repr(part) if part == data else f"{part!r}, bytes {begin} to {begin + len(part)} of {len(data)}"


def faults(program, row, named):
    """What is wrong with what the program does at a row, in lines."""
    want, error = bytes_of(row["output"], named), row.get("error", "").encode()
    try:
        run = subprocess.run([program, *shlex.split(row["words"])], input=bytes_of(row["input"], named), capture_output=True, timeout=SECONDS)
    except subprocess.TimeoutExpired:
        return [f"it didn't end in {SECONDS} s"]
    lines = []
    if (run.stdout, run.returncode) != (want, row["status"]):
        lines += [f"want {row['status']} {shown(want, run.stdout)}", f"got  {run.returncode} {shown(run.stdout, want)}"]
    if lines or not run.stderr.startswith(error):
        lines += [f"want standard error {error!r}", f"got  standard error {run.stderr[:SHOWN]!r}"]
    return lines


def main():
    program = sys.argv[1] if len(sys.argv) > 1 else str(HERE.parent / "bin" / "sr")
    # The first call of bin/sr may prove and build, and has no time limit for that.
    subprocess.run([program, "check", "json"], stdin=subprocess.DEVNULL, stdout=subprocess.DEVNULL)
    tables = [rows.read(path) for path in sorted(HERE.glob("*.toml"))]
    listed = [(row, table.get("pieces", {})) for table in tables for row in table["row"]]
    failed = 0
    with concurrent.futures.ThreadPoolExecutor(os.cpu_count()) as lanes:
        for (row, _), wrong in zip(listed, lanes.map(lambda it: faults(program, *it), listed)):
            if wrong:
                failed += 1
                print(f"FAILED {row['name']}: sr {row['words']}", *wrong, sep="\n    ", flush=True)
    print(f"{len(listed) - failed} passed, {failed} failed")
    return 1 if failed or not listed else 0


if __name__ == "__main__":
    sys.exit(main())
