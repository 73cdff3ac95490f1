#!/usr/bin/env python3
"""Does again what a page of docs/ shows, against the program: each line that begins with `>` is sent, each with `<` has to come.

    page.py PROGRAM PAGE

Blocks are marked behind their three ticks:

    requests             HTTP: a request, and its reply. Header fields stand in lines of their own below either. `TOKEN` stands for the token
                         that the block's negotiate told, and `..` for any body. Of a reply each field of `Access-Control` has to be shown
    exchange             a socket after a negotiate with reconnect
    exchange negotiated  a socket after a negotiate without
    exchange plain       a socket without a negotiate
    exchange calls       the same, after a handshake in JSON, version 1
    exchange .. pack     the same in MessagePack: each frame behind the handshake is shown by its bytes, as is such a body of a request
    refused              frames, each of which is said on a connection of its own and ends it with `Protocol error.`
    messages             by twos, a message in JSON and in MessagePack, which `sr convert` has to make of each other
    fields CLIENT        the header fields of a client, and with the word `socket` those of its upgrades, for all blocks `by CLIENT`
    nginx, proxy         the text of a front, for all blocks `behind nginx` or `behind proxy` (fronts.py)
    closed               what stands before nginx's `proxy_pass` for all blocks `behind closed`

In an exchange `--` begins what is done or seen beside frames (`Exchange.ACTS`). A line with `# N from A to B` stands for as many, each with
one number for N; LONG is 30,000 letters. What is sent in lines that stand together goes out in one message, but `by` a client, which sends
each frame in one of its own. Each block has a server of its own.

Each block is told in a line. The last line is 'N passed, N failed, N skipped'; the status is 0 if none failed."""
import pathlib
import subprocess
import sys

from exchanges import exchange, refused
from fronts import FRONTS, put_once
from raw import Ended, record
from requested import Client, requests
from serving import Serving
from shown import Wrong, compare

PASSES = "proxy_pass"


class Block:
    """A block of a page: the words of its mark, and its lines by their numbers."""

    def __init__(self, words, lines):
        self.kind, *rest = words
        self.lines = lines
        self.client = self.front = None
        self.words = []
        while rest:
            word = rest.pop(0)
            if word == "by":
                self.client = rest.pop(0)
            elif word == "behind":
                self.front = rest.pop(0)
            else:
                self.words.append(word)
        self.name = f"line {lines[0][0] if lines else 0}, {' '.join(words)}"

    def text(self):
        return "\n".join(line for _, line in self.lines)


def blocks(path):
    words, lines = None, []
    for number, line in enumerate(path.read_text().splitlines(), 1):
        if line.startswith("```") and words is None:
            words = line[3:].split() or ["text"]
        elif line.startswith("```"):
            yield Block(words, lines)
            words, lines = None, []
        elif words is not None:
            lines.append((number, line))


class Page:
    def __init__(self, path):
        self.path = path
        self.blocks = list(blocks(path))

    def fields(self, *words):
        """The header fields of a client's requests, or of its upgrades."""
        found = [block for block in self.blocks if block.kind == "fields" and block.words == list(words)]
        return found[0].text().splitlines() if found else []

    def text(self, kind):
        (found,) = [block for block in self.blocks if block.kind == kind]
        return found.text()

    def front(self, kind):
        """The text of a front."""
        if kind == "closed":
            return put_once(self.text("nginx"), PASSES, f"{self.text('closed')}\n{PASSES}")
        return self.text(kind)


def converted(program, source, target, data):
    return subprocess.run([program, "convert", source, target], input=data, capture_output=True).stdout


def messages(_, block, program):
    for (number, text), (_, digits) in zip(block.lines[::2], block.lines[1::2]):
        json_frame, pack_frame = record(text), bytes.fromhex(digits)
        compare(number, pack_frame.hex(" "), converted(program, "json", "pack", json_frame).hex(" "))
        compare(number, text, converted(program, "pack", "json", pack_frame).decode().rstrip("\x1e"))


KINDS = {"exchange": exchange, "requests": requests, "refused": refused, "messages": messages}


def tried(program, page, block):
    """What is wrong with a block, in lines."""
    with Serving(program) as server:
        try:
            if block.front:
                with FRONTS[block.front](page.front(block.front), server.port) as front:
                    KINDS[block.kind](Client(page, block, front.port), block, program)
            else:
                KINDS[block.kind](Client(page, block, server.port), block, program)
        except (Wrong, Ended, OSError, ValueError, LookupError) as wrong:
            return [str(wrong) or repr(wrong), *server.complaints()]
        return server.complaints()


def results(program, path):
    """Each block that is carried out: its name, what is wrong with it, and why it is skipped if it is."""
    page = Page(path)
    for block in page.blocks:
        if block.kind in KINDS:
            missing = block.front and FRONTS[block.front].missing()
            yield f"{path.name}, {block.name}", [] if missing else tried(program, page, block), missing


def main():
    passed = failed = skipped = 0
    for name, wrong, missing in results(sys.argv[1], pathlib.Path(sys.argv[2])):
        skipped, failed, passed = skipped + bool(missing), failed + bool(wrong), passed + (not wrong and not missing)
        print(f"skipped {name}: {missing}" if missing else f"FAILED {name}" if wrong else f"passed {name}", *wrong, sep="\n    ")
    print(f"{passed} passed, {failed} failed, {skipped} skipped")
    return 1 if failed or not passed else 0


if __name__ == "__main__":
    sys.exit(main())
