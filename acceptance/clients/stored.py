"""A database that the program keeps what is posted in, for tests: its file, what SQLite's own sqlite3 says of it, and clients of a server over it."""
import contextlib
import json
import os
import shutil
import signal
import sqlite3
import subprocess
import sys
import tempfile

from raw import PING_TEXT, TIMEOUT, Hub, Raw, record
from serving import BEGINNING, Serving

SECONDS = 90  # until a command has ended, on a busy machine
OLDEST = 3, 37  # of SQLite, which knows STRICT tables from then on
LOCKED = "database is locked"  # in SQLite's words
# The two tables, as docs/operating.md has them.
TABLES = """
CREATE TABLE users(token TEXT PRIMARY KEY NOT NULL, name TEXT NOT NULL) STRICT;
CREATE TABLE posts(n INTEGER PRIMARY KEY AUTOINCREMENT, room TEXT NOT NULL, who TEXT NOT NULL, body TEXT NOT NULL) STRICT;
"""
ALL_POSTS = "SELECT n, room, who, body FROM posts ORDER BY n"
ALL_USERS = "SELECT token, name FROM users ORDER BY rowid"
POSTED = "INSERT INTO posts(room, who, body) VALUES (?, ?, ?)"
ADDED = "INSERT INTO users(token, name) VALUES (?, ?)"
# Another process that writes through the log and is killed, so that the log stays beside the file.
WRITER = """
import os, signal, sqlite3, sys
ours = sqlite3.connect(sys.argv[1], isolation_level=None)
ours.execute("PRAGMA journal_mode=WAL")
ours.executemany(sys.argv[2], [words.split(",") for words in sys.argv[3:]])
os.kill(os.getpid(), signal.SIGKILL)
"""


class Skipped(Exception):
    """This machine hasn't what the case needs."""


class Store:
    """A database that isn't there yet, in a folder of its own or in this one. It is read and written by sqlite3."""

    def __init__(self, folder=None):
        self.folder = folder or tempfile.mkdtemp(prefix="sr-store-")
        self.path = os.path.join(self.folder, "chat.db")

    def __enter__(self):
        return self

    def __exit__(self, *_):
        shutil.rmtree(self.folder, ignore_errors=True)

    def connect(self, timeout=SECONDS):
        return sqlite3.connect(self.path, timeout=timeout, isolation_level=None)

    def sql(self, text, *values, timeout=SECONDS):
        """The rows that a statement answers."""
        with contextlib.closing(self.connect(timeout)) as ours:
            return ours.execute(text, values).fetchall()

    def make(self, posts=(), users=(), more=""):
        """The two tables, with these rows in them, as somebody writes them who has sqlite3 alone."""
        with contextlib.closing(self.connect()) as ours:
            ours.executescript(TABLES + more)
            ours.execute("BEGIN")
            ours.executemany(POSTED, posts)
            ours.executemany(ADDED, users)
            ours.execute("COMMIT")

    def write_and_die(self, statement, *rows):
        """Has another process do so, and die with its log beside the file."""
        words = [sys.executable, "-c", WRITER, self.path, statement, *(",".join(row) for row in rows)]
        assert subprocess.run(words).returncode == -signal.SIGKILL and os.path.getsize(self.path + "-wal")

    def posts(self):
        return self.sql(ALL_POSTS)

    def users(self):
        return self.sql(ALL_USERS)

    def is_sound(self):
        return self.sql("PRAGMA integrity_check") == [("ok",)]

    def beside(self):
        """The files in its folder, with the permissions of each."""
        return {name: oct(os.stat(os.path.join(self.folder, name)).st_mode & 0o7777) for name in sorted(os.listdir(self.folder))}

    def read(self):
        with open(self.path, "rb") as opened:
            return opened.read()

    def write(self, data):
        with open(self.path, "wb") as opened:
            opened.write(data)


def run(program, *words, **options):
    """The exit status of a command, and what it writes on standard output and standard error."""
    options = {"stdin": subprocess.DEVNULL, "stdout": subprocess.PIPE, **options}
    with BEGINNING:
        process = subprocess.Popen([program, *words], stderr=subprocess.PIPE, **options)
    with process:
        try:
            out, error = process.communicate(timeout=SECONDS)
        except subprocess.TimeoutExpired:
            process.kill()
            raise
    return process.returncode, (out or b"").decode(), error.decode()


def add_user(program, store, token, name, **options):
    return run(program, "user", token, name, "--store", store.path, **options)


def serve_briefly(program, store, **options):
    """A server that hears nothing, and ends."""
    status, out, error = run(program, "serve", "--port", "0", "--turns", "0", "--live", "10", "--store", store.path, **options)
    return status, out, [line for line in error.splitlines() if not line.startswith("sr: listening on ")]


def serving(program, store, rows=0, **begun):
    return Serving(program, "--store", store.path, rows=rows, begun=begun)


class Caller(Hub):
    """A plain connection that calls the hub's methods, of a user if it has a token."""

    def __init__(self, server, token=None, timeout=TIMEOUT):
        super().__init__(server.port, "/hub", timeout, [f"Authorization: Bearer {token}"] if token is not None else [])
        self.heard = []
        if self.status == 101:
            self.shake()

    def call_all(self, target, lists, first=1):
        """Calls a method with each list of arguments, all in one message, by ids from the first on."""
        calls = enumerate(lists, first)
        self.say(*(json.dumps({"type": 1, "invocationId": str(n), "target": target, "arguments": arguments}) for n, arguments in calls))

    def ending(self):
        """What the next call that ends comes to: its result, or `error` and the text. Notices that come before are in `heard`."""
        while True:
            if (text := self.hear()) == PING_TEXT:
                continue
            message = json.loads(text)
            if message["type"] == 7:
                raise ValueError(text)
            if message["type"] == 3:
                return f"error {message['error']}" if "error" in message else message.get("result")
            self.heard.append((message["target"], *message["arguments"]))

    def told(self, target, *arguments):
        self.call_all(target, [arguments])
        return self.ending()


class Poller(Caller):
    """The same by long polling, with the token in the query."""

    def __init__(self, server, token):
        self.lane, self.heard = Raw(server.port), []
        status, body = self.lane.http("POST", f"/hub/negotiate?negotiateVersion=1&access_token={token}")
        self.target, self.waiting = "/hub?id=" + json.loads(body)["connectionToken"], []
        self.lane.http("GET", self.target)
        self.shake()

    def say(self, *texts):
        self.lane.http("POST", self.target, b"".join(map(record, texts)))

    def hear(self):
        while not self.waiting:
            self.waiting = self.cut(self.lane.http("GET", self.target)[1])
        return self.waiting.pop(0)


def refusal(server, token):
    """How a negotiate with this token is answered."""
    return Raw(server.port).http("POST", "/hub/negotiate?negotiateVersion=1", fields=[f"Authorization: Bearer {token}"])[0]
