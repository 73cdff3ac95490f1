#!/usr/bin/env python3
"""The script of the program crates/ht_loopback, and what is to be printed of it.

    acceptance/loopback_script.py --check [BUILT] | --write      the lines and their answers (committed.py)

What a client prints of its session is written down by hand, from the tables of docs/protocol.md and docs/lanes.md: each call is answered once, over
whatever links. What a door and a dialer count is worked out here from the numbers that are drawn of each conversation, since each message is echoed
once and in order, whatever pieces the sockets give. crates/ht_loopback/src has the words of a line, and in plan.rt what is drawn."""
import sys

import committed

# The client's script, and the lines that it prints. All lines of a script up to a `wait` are done in the turn in which the handshake is complete.
SESSIONS = [
    ("a call whose link is lost before it is sent",
     ["call Add [2,3]", "lose"],
     ["shaken", "call 1", "lost", "again", "ended 1 result 5"]),
    ("an empty script", [], ["shaken"]),
    ("a loss between two calls, and one without a call",
     ["call Echo [\"a\"]", "wait", "lose", "call Add [-1,1]", "wait", "lose"],
     ["shaken", "call 1", "ended 1 result \"a\"", "lost", "call 2", "again", "ended 2 result 0", "lost"]),
    ("a stream and an upload whose link is lost",
     ["stream Count [3]", "lose", "wait", "upload Sum []", "item 2 40", "item 2 2", "done 2", "lose"],
     ["shaken", "call 1", "lost", "again", "item 1 1", "item 1 2", "item 1 3", "ended 1 void", "call 2", "lost", "again", "ended 2 result 42"]),
    ("what the server calls, and errors",
     ["call Ask [\"Confirm\",7]", "wait", "call Ask [\"Tell\",[1]]", "wait", "call Fail [\"no\"]", "wait", "call Nope []"],
     ["shaken", "call 1", "ended 1 result 7", "call 2", "got Tell [[1]]", "ended 2 void", "call 3", "ended 3 error \"no\"", "call 4",
      "ended 4 error \"Unknown method.\""]),
]

# Seeds, how many conversations, and how many at once.
EXCHANGES = [(1, 1000, 4), (2, 100, 1), (3, 300, 16)]
TURNS = 10000


def draws(seed):
    """The numbers of docs/protocol.md's soaks."""
    x = seed
    while True:
        x = (x * 6364136223846793005 + 1442695040888963407) % 2**64
        yield x >> 33


def size(s, n):
    """How long the message of this number is, its front of 16 bytes and the rest."""
    x, kind = divmod((s + 7919 * n) % 2**64, 4)
    return 16 + [x % 126, x % 1000, 3900 + x % 300, x % 70000][kind]


def counted(seed, total):
    count = dict.fromkeys(["asks", "responses", "declined", "upgrades", "losses", "echoes", "bytes", "wrong"], 0)
    drawn = draws(seed)
    for _ in range(total):
        kind, messages, cut, s = next(drawn) % 8, 1 + next(drawn) % 8, next(drawn), next(drawn)
        count["asks"] += 1
        if kind < 3:
            # The third kind is ended as soon as it was asked, and nothing is heard of it.
            count[("responses", "declined", "asks")[kind]] += kind < 2
            continue
        echoes = cut % (messages + 1) if kind > 4 else messages
        count["upgrades"] += 1
        count["losses"] += kind <= 4
        count["echoes"] += echoes
        count["bytes"] += sum(size(s, n) for n in range(echoes))
    return " ".join(f"{word} {number}" for word, number in count.items())


def lines():
    """Each line of the script, with the lines that it is answered by."""
    for codec in ("json", "pack"):
        for note, orders, printed in SESSIONS:
            yield f"note {note}, as {codec}", [f"note {note}, as {codec}"]
            for order in orders:
                yield f"order {order}", ["to be done"]
            yield f"session {codec} {TURNS}", [*printed, "end done"]
    for seed, total, live in EXCHANGES:
        yield f"cuts {seed} {total} {live}", [counted(seed, total)]
    yield "note a script that is none, and lines that ask nothing", ["note a script that is none, and lines that ask nothing"]
    yield "order call", ["to be done"]
    for line in ("session json 10", "session text 10", "cuts 1 2", "orders"):
        yield line, [f"no action: {line}"]


def made():
    pairs = list(lines())
    return "".join(line + "\n" for line, _ in pairs), "".join(answer + "\n" for _, answers in pairs for answer in answers)


if __name__ == "__main__":
    sys.exit(committed.main("ht_loopback", made))
