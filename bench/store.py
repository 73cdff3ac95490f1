#!/usr/bin/env python3
"""Measures a server over a database beside Python's sqlite3, in one run and on one disk. It is no test.

    bench/store.py [--posts N] [--rows N] [--runs N] [--folder DIR] [PROGRAM]

Three things are told:

- How many posts a second `sr serve --store` keeps, from one client that has 64 under way, and how many rows a second sqlite3 inserts into the same
  table, each by itself, with `journal_mode=WAL` and `synchronous=FULL`. Both sync each row. They take turns; medians of the runs, and of each pair
  of runs the ratio. Beside them what one post takes from call to answer, and `Add` on another connection meanwhile; and what `Add` takes at most while
  one client posts as many texts at once as it may.
- What a call of `History` takes for a room's last 100 posts, of which there are 1,000 among 1,000 and among N rows, for those of a room without posts
  among N, and for the same list by `Echo`.
- How long it takes from the start of a server over a file of 1,000, N / 10 and N rows until it says that it serves, the first time, when it makes
  the index, and the second; and how much memory it had at its peak.

The files are written in DIR, by default in this folder, since that for temporary files may be no disk. PROGRAM is bin/sr by default."""
import argparse
import contextlib
import json
import os
import pathlib
import random
import sqlite3
import statistics
import subprocess
import sys
import tempfile
import threading
import time

TOP = pathlib.Path(__file__).resolve().parent.parent
sys.path.insert(0, str(TOP / "acceptance" / "clients"))
from stored import POSTED, TABLES, Caller, Store, serving  # noqa: E402

UNDER_WAY = 64
MOST_LIVE = 1_024  # calls of a client
TEXT = "hello, this is a line that was said in the room"
PAGE, OF_ROOM = 100, 1_000
CALLS = 300
PATIENCE = 600  # seconds: who posts as many as he may lets others wait
MEMORY = "VmHWM"


def median(times):
    return statistics.median(times)


def shown(times):
    """Half of these times, in microseconds, and those that few were longer than."""
    ordered = sorted(times)
    return f"p50 {median(ordered) * 1e6:,.0f} us, p99 {ordered[len(ordered) * 99 // 100] * 1e6:,.0f}, longest {ordered[-1] * 1e6:,.0f}"


def seconds(call):
    began = time.perf_counter()
    call()
    return time.perf_counter() - began


@contextlib.contextmanager
def stores(folder):
    """A store in a folder of its own below this one."""
    with tempfile.TemporaryDirectory(prefix="store-", dir=folder) as each:
        yield Store(each)


def checked(answers):
    wrong = {answer for answer in answers if isinstance(answer, str)}
    if wrong:
        sys.exit(f"bench/store.py: {wrong}")


# Posts


def post_all(caller, count):
    """Posts so often, with so many under way."""
    posts = [["r", TEXT]] * UNDER_WAY
    caller.call_all("Post", posts)
    for done in range(count):
        checked([caller.ending()])
        if done + UNDER_WAY < count:
            caller.call_all("Post", posts[:1], UNDER_WAY + done + 1)


def kept_by_sr(asked):
    """Posts a second."""
    with stores(asked.folder) as store, serving(asked.program, store) as server:
        caller = Caller(server)
        return asked.posts / seconds(lambda: post_all(caller, asked.posts))


def kept_by_sqlite(asked):
    """Rows a second."""
    with stores(asked.folder) as store, contextlib.closing(store.connect()) as ours:
        ours.executescript("PRAGMA journal_mode=WAL; PRAGMA synchronous=FULL;" + TABLES + "CREATE INDEX posts_by_room ON posts(room, n);")

        def insert():
            for _ in range(asked.posts):
                ours.execute(POSTED, ("r", "1", TEXT))

        return asked.posts / seconds(insert)


def add(caller):
    return seconds(lambda: caller.told("Add", 2, 3))


def adds_beside(caller, others):
    """How long each `Add` takes while the others do this."""
    is_over, adds = threading.Event(), []

    def go_on():
        while not is_over.is_set():
            adds.append(add(caller))

    beside = threading.Thread(target=go_on)
    beside.start()
    others()
    is_over.set()
    beside.join()
    return adds


def beside_posts(asked):
    """How long a post takes from call to answer, one at a time, and an `Add` on another connection: alone, beside these posts, and beside as many at
    once as a client may have."""
    with stores(asked.folder) as store, serving(asked.program, store) as server:
        one, other, posts = Caller(server, timeout=PATIENCE), Caller(server, timeout=PATIENCE), []
        alone = [add(other) for _ in range(CALLS)]

        def post_by_one():
            posts.extend(seconds(lambda: checked([one.told("Post", "r", TEXT)])) for _ in range(asked.posts // 10))

        def post_at_once():
            one.call_all("Post", [["r", TEXT]] * MOST_LIVE)
            checked(one.ending() for _ in range(MOST_LIVE))

        return posts, alone, adds_beside(other, post_by_one), adds_beside(other, post_at_once)


def tell_posts(asked):
    pairs = [(kept_by_sr(asked), kept_by_sqlite(asked)) for _ in range(asked.runs)]
    ours, theirs, ratio = (median(each) for each in zip(*((ours, theirs, ours / theirs) for ours, theirs in pairs)))
    print(f"posts a second {ours:,.0f}, sqlite3 {theirs:,.0f}: ratio {ratio:.2f} (of each run: {', '.join(f'{a / b:.2f}' for a, b in pairs)})")
    for name, times in zip(("a post", "an Add alone", "an Add beside posts", f"an Add beside {MOST_LIVE:,} posts at once"), beside_posts(asked)):
        print(f"{name}: {shown(times)}", flush=True)


# Pages


def fill(store, count):
    """So many posts, of which OF_ROOM are of the room `r` and the rest of a thousand others, in a random order."""
    draw = random.Random(count)
    rooms = ["r"] * OF_ROOM + [f"other {draw.randrange(1_000)}" for _ in range(count - OF_ROOM)]
    draw.shuffle(rooms)
    with contextlib.closing(store.connect()) as ours:
        ours.executescript("PRAGMA journal_mode=WAL; PRAGMA synchronous=OFF;" + TABLES)
        ours.execute("BEGIN")
        ours.executemany(POSTED, ((room, "ann", f"{TEXT} {n}") for n, room in enumerate(rooms)))
        ours.execute("COMMIT")


def page(caller, room):
    return median([seconds(lambda: caller.told("History", room, PAGE)) for _ in range(CALLS)])


def pages(program, store, rows):
    """What a page of the room and of none takes, and the same list by `Echo`."""
    with serving(program, store, rows=rows) as server:
        caller = Caller(server)
        texts = caller.told("History", "r", PAGE)
        assert len(texts) == PAGE
        echo = median([seconds(lambda: caller.told("Echo", texts)) for _ in range(CALLS)])
        return page(caller, "r"), page(caller, "nobody"), echo


# Opening


def peak(process):
    text = pathlib.Path(f"/proc/{process.pid}/status").read_text()
    return int(text.split(f"{MEMORY}:")[1].split()[0]) / 1_024


def opened(program, store):
    """How long a server takes until it serves, and its greatest memory by then, in MiB."""
    words = [program, "serve", "--port", "0", "--live", "10", "--store", store.path]
    began = time.perf_counter()
    with subprocess.Popen(words, stdout=subprocess.PIPE, stderr=subprocess.DEVNULL) as process:
        line = process.stdout.readline()
        took = time.perf_counter() - began
        most = peak(process)
        process.kill()
    assert line.startswith(b"serving "), line
    return took, most


def tell_rows(asked, count):
    with stores(asked.folder) as store:
        fill(store, count)
        first, again = opened(asked.program, store), opened(asked.program, store)
        added = seconds(lambda: subprocess.run([asked.program, "user", "t", "n", "--store", store.path], stdout=subprocess.DEVNULL, check=True))
        size = os.path.getsize(store.path) / 1_048_576
        print(
            f"{count:,} rows, {size:.1f} MiB: serves after {first[0] * 1e3:,.0f} ms, the second time after {again[0] * 1e3:,.0f}, "
            f"with {first[1]:.0f} MiB and {again[1]:.0f} at its peak; `user` takes {added * 1e3:,.0f} ms",
            flush=True,
        )
        return pages(asked.program, store, count)


def tell_pages(asked):
    counts = (OF_ROOM, asked.rows // 10, asked.rows)
    told = [tell_rows(asked, count) for count in counts]
    for count, (room, none, echo) in zip(counts, told):
        print(f"among {count:,} rows a page of {PAGE} takes {room * 1e6:,.0f} us, of a room without posts {none * 1e6:,.0f}, by Echo {echo * 1e6:,.0f}")
    print(f"a page among {counts[-1]:,} rows by one among {counts[0]:,}: {told[-1][0] / told[0][0]:.2f}")


def main():
    parser = argparse.ArgumentParser(description=__doc__, formatter_class=argparse.RawDescriptionHelpFormatter)
    for name, default in (("posts", 2_000), ("rows", 1_000_000), ("runs", 5)):
        parser.add_argument(f"--{name}", type=int, default=default)
    parser.add_argument("--folder", default=".")
    parser.add_argument("program", nargs="?", default=str(TOP / "bin" / "sr"))
    asked = parser.parse_args()
    asked.program = os.path.abspath(asked.program)
    print(json.dumps({"SQLite beside it": sqlite3.sqlite_version, "folder": os.path.abspath(asked.folder)}))
    tell_posts(asked)
    tell_pages(asked)
    return 0


if __name__ == "__main__":
    sys.exit(main())
