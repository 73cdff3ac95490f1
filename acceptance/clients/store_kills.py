"""A server is killed in the middle of posts: each post whose call was answered is in the database afterwards, and none is there twice.

A kill leaves to the system what was written, so that it shows that a post is written before it is answered, and not that it outlives the machine's end."""
import json
import random

from raw import PING_TEXT, Ended
from stored import Caller, Store, serve_briefly, serving

UNDER_WAY = 64  # posts at once
MOST = 10_000  # posts until the kill


class Posting(Caller):
    """Posts numbers, UNDER_WAY at once, until so many were answered; then does what it is told to, and hears what comes until the end."""

    def __init__(self, server, first):
        super().__init__(server)
        self.next, self.answered = first, []

    def post(self):
        self.say(json.dumps({"type": 1, "invocationId": str(self.next), "target": "Post", "arguments": ["r", str(self.next)]}))
        self.next += 1

    def hear_ending(self):
        if (text := self.hear()) == PING_TEXT:
            return
        message = json.loads(text)
        if "error" in message:
            raise ValueError(text)
        self.answered.append(int(message["invocationId"]))

    def go_on(self, count, kill):
        for _ in range(UNDER_WAY):
            self.post()
        while len(self.answered) < count:
            self.hear_ending()
            self.post()
        kill()
        try:
            while True:
                self.hear_ending()
        except (Ended, OSError):
            return self.answered


def rows_of(program, store):
    """How many rows a server finds, which hears nothing and ends."""
    status, out, _ = serve_briefly(program, store)
    return int(out.split()[1]) if status == 0 else f"status {status}"


def kills(count, seed):
    """A case of so many kills, one after the other, over one file. Every second time sqlite3 reads it first, and else the next server does."""

    def case(program):
        draw, answered, said, rows = random.Random(seed), set(), 0, 0
        with Store() as store:
            for number in range(count):
                with serving(program, store, rows=rows) as server:
                    posting = Posting(server, said + 1)
                    answered.update(posting.go_on(int(MOST ** draw.random()), server.process.kill))
                    said = posting.next - 1
                    server.process.wait()
                if number % 2:
                    rows = len(store.posts())
                else:
                    rows = rows_of(program, store)
            bodies = [int(body) for _, _, _, body in store.posts()]
            lost, foreign = answered - set(bodies), set(bodies) - set(range(1, said + 1))
            return sorted(lost), sorted(foreign), bodies == sorted(set(bodies)), rows == len(bodies), store.is_sound()

    return case


KEPT = [], [], True, True, True


def cases(count, seed):
    return [(f"{count} kills in the middle of posts", KEPT, kills(count, seed))]
