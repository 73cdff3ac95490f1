#!/usr/bin/env python3
"""What `crates/ht_machine` is to print: each line of its script stands beside what it wants.

    acceptance/machine_script.py --check [BUILT] | --write      the lines and their answers (committed.py)

The answers of rooms in memory, and those of a machine's rows, are written by hand. Those of its random sessions are a model's: plain lists, JSON
alone, and connections that don't come back. A Notify `Post` of `r`, `1` and `hi` is in JSON the text below with its separator 1E, and in MessagePack an
array of six behind its length: type 1, no headers, no id, the target, the arguments and no streams."""
import json
import random
import sys

import committed


JSON = b'{"arguments":["r","1","hi"],"target":"Post","type":1}\x1e'.hex()
PACK = "12" + "96" + "01" + "80" + "c0" + "a4506f7374" + "93" + "a172" + "a131" + "a26869" + "90"
BARE_JSON = b'{"arguments":[],"target":"Go","type":1}\x1e'.hex()
BARE_PACK = "09" + "96" + "01" + "80" + "c0" + "a2476f" + "90" + "90"


def got(codec, room, *frames): return f"{codec} room {room} bytes {''.join(frames)}"


def script():
    """Lines beside their answers; a note is answered by itself."""
    post = "Post r 1 hi"
    return f"""
note no member
got 1 => no member
spread - {post} => steps 0
spread 1 {post} => steps 0
got 1 => no member
note two codecs are two spellings
room => a room
member 1 json 5 => a member
member 2 pack 5 => a member
member 3 json 5 => a member
member 4 none 5 => a member
spread 1,2,3 {post} => steps 2
got 1 => {got("Json", 4, JSON)}
got 2 => {got("Pack", 4, PACK)}
got 3 => {got("Json", 4, JSON)}
got 4 => {got("none", 5)}
note one that has no codec is passed over, and so is one that is no member
spread 4,9 {post} => steps 0
spread 4,9,2 {post} => steps 1
got 2 => {got("Pack", 3, PACK, PACK)}
got 4 => {got("none", 5)}
got 9 => no member
note a second message goes on from there
spread 3,1 Go => steps 1
got 1 => {got("Json", 3, JSON, BARE_JSON)}
got 2 => {got("Pack", 3, PACK, PACK)}
got 3 => {got("Json", 3, JSON, BARE_JSON)}
spread 2 Go => steps 1
got 2 => {got("Pack", 2, PACK, PACK, BARE_PACK)}
note three of one codec are one spelling
room => a room
member 1 json 1 => a member
member 2 json 2 => a member
member 3 json 0 => a member
spread 1,2,3 {post} => steps 1
got 1 => {got("Json", 0, JSON)}
got 2 => {got("Json", 1, JSON)}
note one that had no room was closed, and those behind it get the message all the same
got 3 => {got("none", 0)}
spread 3,1,2 {post} => steps 1
got 1 => {got("none", 0, JSON)}
got 2 => {got("Json", 0, JSON, JSON)}
got 3 => {got("none", 0)}
spread 1,3 {post} => steps 0
spread - {post} => steps 0
got 2 => {got("Json", 0, JSON, JSON)}
note nobody is sent it who isn't named
room => a room
got 2 => no member
member 7 pack 18446744073709551615 => a member
member 18446744073709551615 json 1 => a member
spread 7 Go => steps 1
got 7 => {got("Pack", (1 << 64) - 2, BARE_PACK)}
got 18446744073709551615 => {got("Json", 1)}
spread 18446744073709551615,7 {post} => steps 2
got 7 => {got("Pack", (1 << 64) - 3, BARE_PACK, PACK)}
got 18446744073709551615 => {got("Json", 0, JSON)}
note words that are no action
{refused("member 7 json 1", "member 8 xml 1", "member x json 1", "member 8 json", "member 8 json -1", "spread 7,7 Go", "spread 7,18446744073709551615,7 Go",
         "spread 7, Go", "spread , Go", "spread", "got", "got x", "got 18446744073709551616", "send 7 Go", "")}
got 7 => {got("Pack", (1 << 64) - 3, BARE_PACK, PACK)}
got 8 => no member
"""


# ---- a machine

SHAKE = '{"protocol":"json","version":1}'
SESSIONS = 120
MOST_GROUPS, MOST_NAME = 256, 256
STEPS = 60


def compact(message): return json.dumps(message, sort_keys=True, separators=(",", ":"))


def call(number, target, *arguments):
    return compact({"type": 1, "invocationId": str(number), "target": target, "arguments": list(arguments)})


def notify(target, *arguments): return compact({"type": 1, "target": target, "arguments": list(arguments)})


def ended(number, **ending): return compact({"type": 3, "invocationId": str(number), **ending})


def rows():
    """Two rooms, one whose keeper fails; a broadcast to a member that joined twice, one that has no room, and a user's two connections."""
    slow = compact({"type": 7, "error": "Too slow."})
    join, post = call(1, "Join", "r"), call(2, "Post", "r", "hi")
    posted = notify("Posted", "r", "1", "hi")
    pack_shake = '{"protocol":"messagepack","version":1}'
    return f"""
note a room
machine 1024 - => a machine
connect 1 1 1 - => a connection
attach 1 0 => a link
hear 1 0 {SHAKE} => fed {len(SHAKE) + 1} other
said 1 => said {{}}|
state 1 => ready
hear 1 0 {join} => fed {len(join) + 1} began
round 0 => a round
said 1 => said 
round 0 => a round
said 1 => said {ended(1)}|
hear 1 0 {post} => fed {len(post) + 1} began
round 0 => a round
said 1 => said 
asked => asked 1
round 0 => a round
said 1 => said {posted}|
round 0 => a round
said 1 => said {ended(2)}|
round 0 => a round
said 1 => said 
asked => asked 1
note a keeper whose first call fails
machine 1024 0 => a machine
connect 1 1 1 - => a connection
attach 1 0 => a link
hear 1 0 {SHAKE} => fed {len(SHAKE) + 1} other
hear 1 0 {join} => fed {len(join) + 1} began
round 0 => a round
round 0 => a round
said 1 => said {{}}|{ended(1)}|
hear 1 0 {post} => fed {len(post) + 1} began
round 0 => a round
said 1 => said 
round 0 => a round
said 1 => said {ended(2, error="The store failed.")}|
round 0 => a round
said 1 => said 
asked => asked 1
note a broadcast in both codecs
machine 1024 - => a machine
connect 2 1 2 - => a connection
connect 1 1 1 - => a connection
{shaken(1)}
attach 2 0 => a link
hear 2 0 {pack_shake} => fed {len(pack_shake) + 1} other
said 2 => said {{}}|
hear-bytes 2 0 0e 96 => no action: hear-bytes 2 0 0e 96
hear-bytes 2 0 0d960180c0a44a6f696e91a17290 => fed 14 began
hear 1 0 {notify("Join", "r")} => fed {len(notify("Join", "r")) + 1} began
round 0 => a round
hear 1 0 {notify("Post", "r", "hi")} => fed {len(notify("Post", "r", "hi")) + 1} began
round 0 => a round
round 0 => a round
said 1 => said {posted}|
said-bytes 2 => said 14960180c0a6506f7374656493a172a131a2686990
said-bytes 2 => said 
note a broadcast
machine 2 - => a machine
connect 1 1 1 - => a connection
connect 3 1 3 - => a connection
connect 2 1 2 - => a connection
{shaken(1, 3, 2)}
hear 1 0 {notify("Join", "r")} => fed {len(notify("Join", "r")) + 1} began
hear 1 0 {notify("Join", "r")} => fed {len(notify("Join", "r")) + 1} began
hear 3 0 {notify("Join", "r")} => fed {len(notify("Join", "r")) + 1} began
hear 2 0 {notify("Join", "r")} => fed {len(notify("Join", "r")) + 1} began
round 0 => a round
round 0 => a round
hear 2 0 {notify("Post", "r", "a")} => fed {len(notify("Post", "r", "a")) + 1} began
round 0 => a round
round 0 => a round
round 0 => a round
said 1 => said {notify("Posted", "r", "2", "a")}|
hear 1 0 {notify("Post", "r", "hi")} => fed {len(notify("Post", "r", "hi")) + 1} began
round 0 => a round
round 0 => a round
said 2 => said {notify("Posted", "r", "2", "a")}|{posted}|
said 1 => said {posted}|
state 3 => ready
hear 2 0 {notify("Post", "r", "b")} => fed {len(notify("Post", "r", "b")) + 1} began
round 0 => a round
round 0 => a round
state 3 => closed
said 3 => said {notify("Posted", "r", "2", "a")}|{posted}|{slow}|
said 3 => said 
said 1 => said {notify("Posted", "r", "2", "b")}|
hear 1 0 {call(7, "History", "r", 2)} => fed {len(call(7, "History", "r", 2)) + 1} began
round 0 => a round
round 0 => a round
said 1 => said {ended(7, result=["hi", "b"])}|
hear 3 0 {notify("Post", "r", "c")} => fed 0
drop 3 => dropped
state 3 => none
said 3 => said 
note a user's connections
machine 1024 - => a machine
connect 4 1 Ann Ann => a connection
connect 9 1 Ann Ann => a connection
connect 5 1 Bob Bob => a connection
{shaken(4, 9, 5)}
hear 5 0 {call(1, "Tell", "Ann", "hi")} => fed {len(call(1, "Tell", "Ann", "hi")) + 1} began
round 0 => a round
said 4 => said {notify("Told", "Bob", "hi")}|
said 9 => said {notify("Told", "Bob", "hi")}|
said 5 => said 
round 0 => a round
said 5 => said {ended(1)}|
detach 4 1 => lost
state 4 => closed
hear 5 1 {call(2, "Tell", "Ann", "you")} => fed {len(call(2, "Tell", "Ann", "you")) + 1} began
round 1 => a round
said 9 => said {notify("Told", "Bob", "you")}|
said 4 => said 
attach 4 2 => refused Closed
note a silence
tick 9 0 => ticked
tick 9 29999 => ticked
tick 9 30000 => silent
state 9 => closed
note nobody
tick 77 30000 => ticked
detach 77 0 => lost
close 77 => closed
attach 77 0 => refused Closed
hear 77 0 {SHAKE} => fed 0
said 77 => said 
state 77 => none
"""


def heard(text): return f"hear 1 0 {text} => fed {len(text) + 1} began"


def many_groups():
    """A connection joins as many groups as it may, and then one more, one in which it is, and one in place of another; names that are too long."""
    joins = [heard(notify("Join", f"g{k}")) for k in range(MOST_GROUPS)]
    joined = [line for k in range(0, MOST_GROUPS, 32) for line in [*joins[k:k + 32], "round 0 => a round", "round 0 => a round"]]
    lines = ["note a connection is in 256 groups at most", "machine 1024 - => a machine", "connect 1 1 1 - => a connection", shaken(1), *joined]
    longest = "r" * MOST_NAME
    full, wrong = {"error": "Too many groups."}, {"error": "Wrong arguments."}
    for number, (target, arguments, ending) in enumerate([
        ("Join", ["x"], full), ("Join", ["g7"], {}), ("Leave", ["x"], {}), ("Join", ["x"], full), ("Leave", ["g7"], {}), ("Join", ["x"], {}),
        ("Join", ["g7"], full), ("Leave", ["g8"], {}), ("Join", [longest], {}), ("Leave", [longest], {}), ("Join", ["g7"], {}),
        ("Join", [longest], full), ("Join", [longest + "r"], wrong), ("Leave", [longest + "r"], wrong), ("Post", [longest + "r", "hi"], wrong),
        ("History", [longest + "r", 1], wrong), ("History", [longest, 1], {"result": []}), ("Tell", [longest + "r", "hi"], {}),
    ]):
        lines += [heard(call(number, target, *arguments)), "round 0 => a round", "round 0 => a round", f"said 1 => said {ended(number, **ending)}|"]
    post = heard(notify("Post", "x", "hi"))
    posted = f"said 1 => said {notify('Posted', 'x', '1', 'hi')}|"
    lines += [post, "round 0 => a round", "round 0 => a round", posted, heard(notify("Post", "g8", "hi")), "round 0 => a round", "round 0 => a round",
              "said 1 => said ", "asked => asked 3"]
    return "\n".join(lines)


def shaken(*conns):
    return "\n".join(f"attach {c} 0 => a link\nhear {c} 0 {SHAKE} => fed {len(SHAKE) + 1} other\nsaid {c} => said {{}}|" for c in conns)


class Conn:
    """A connection of JSON that doesn't come back."""

    def __init__(self, who, user):
        self.who, self.user, self.state, self.on_link = who, user, "opening", False
        self.out, self.held, self.jobs = [], 0, []


class Rooms:
    """A machine over plain lists. A job is the deeds that it has left, what it answers, and its call's id, if any."""

    def __init__(self, frames, failing):
        self.frames, self.failing, self.asked = frames, failing, 0
        self.conns, self.joined, self.kept = {}, [], []

    def send(self, conn, text):
        conn.out.append(text)
        conn.held += 1

    def close(self, c, error=None):
        conn = self.conns[c]
        if conn.state == "ready" and error is not None:
            conn.out.append(compact({"type": 7, **({"error": error} if error else {})}))
        conn.state = "closed"
        self.joined = [(room, k) for room, k in self.joined if k != c]

    def has_failed(self):
        self.asked += 1
        return self.asked - 1 in self.failing

    def tell(self, members, text):
        for c in members:
            conn = self.conns[c]
            if conn.state != "ready":
                continue
            if conn.held >= self.frames:
                self.close(c, "Too slow.")
            else:
                self.send(conn, text)

    def carry(self, c, job):
        """The next deed of a job. What the keeper fails at ends it, at its next turn."""
        conn, deed = self.conns[c], job["deeds"].pop(0)
        if deed[0] == "join" and (deed[1], c) not in self.joined:
            if sum(k == c for _, k in self.joined) < MOST_GROUPS:
                self.joined.append((deed[1], c))
            else:
                job["ending"] = {"error": "Too many groups."}
        elif deed[0] == "leave":
            self.joined = [pair for pair in self.joined if pair != (deed[1], c)]
        elif deed[0] == "log":
            if self.has_failed():
                job.update(deeds=[], ending={"error": "The store failed."})
            else:
                self.kept.append((deed[1], deed[2]))
        elif deed[0] == "history":
            if self.has_failed():
                job["ending"] = {"error": "The store failed."}
            else:
                texts = [text for room, text in self.kept if room == deed[1]]
                job["ending"] = {"result": texts[max(0, len(texts) - deed[2]):]}
        elif deed[0] == "post":
            self.tell([k for room, k in self.joined if room == deed[1]], notify("Posted", deed[1], conn.who, deed[2]))
        elif deed[0] == "tell":
            up = [k for k in self.order if self.conns[k].user == deed[1] and self.conns[k].state != "closed"]
            self.tell(up, notify("Told", conn.who, deed[2]))

    @property
    def order(self): return list(self.conns)

    def round(self):
        for c in sorted(self.conns):
            conn = self.conns[c]
            for job in list(conn.jobs):
                if conn.state == "closed" or conn.held >= self.frames:
                    break
                if job["deeds"]:
                    self.carry(c, job)
                    continue
                conn.jobs.remove(job)
                if job["id"] is not None:
                    self.send(conn, ended(job["id"], **job["ending"]))


DEEDS = {
    "Join": lambda r: [("join", r)],
    "Leave": lambda r: [("leave", r)],
    "Post": lambda r, t: [("log", r, t), ("post", r, t)],
    "Tell": lambda u, t: [("tell", u, t)],
    "History": lambda r, n: [("history", r, n)],
}


def called(draw):
    """A target and its arguments."""
    room, text = draw.choice("rst"), draw.choice(["hi", "there", "x"])
    target = draw.choice(["Join", "Join", "Leave", "Post", "Post", "Post", "Tell", "History", "Away"])
    return target, {"Join": [room], "Leave": [room], "Post": [room, text], "Tell": [draw.choice(["Ann", "Bob"]), text],
                    "History": [room, draw.randrange(4)], "Away": []}[target]


def hear(draw, model, c, lines):
    conn = model.conns[c]
    if conn.state == "opening" and conn.on_link:
        lines.append(f"hear {c} 0 {SHAKE} => fed {len(SHAKE) + 1} other")
        conn.state = "ready"
        conn.out.append("{}")
        return
    target, arguments = called(draw)
    number = draw.randrange(1000) if draw.randrange(3) else None
    if number is not None and any(job["id"] == number for job in conn.jobs):
        return
    text = notify(target, *arguments) if number is None else call(number, target, *arguments)
    if not conn.on_link or conn.state == "closed":
        lines.append(f"hear {c} 0 {text} => fed 0")
        return
    lines.append(f"hear {c} 0 {text} => fed {len(text) + 1} began")
    job = {"id": number, "deeds": [], "ending": {"error": "Unknown method."}}
    if target in DEEDS:
        job.update(deeds=DEEDS[target](*arguments), ending={})
    conn.jobs.append(job)


def said(model, c):
    """A connection without a link says nothing, and one whose handshake is open neither."""
    conn = model.conns[c]
    texts = conn.out if conn.on_link else []
    line = f"said {c} => said {''.join(text + '|' for text in texts)}"
    if conn.on_link:
        conn.out, conn.held = [], 0
    return line


def one_action(draw, model, lines):
    c = draw.choice(list(model.conns))
    conn = model.conns[c]
    what = draw.randrange(20)
    if what < 8:
        hear(draw, model, c, lines)
    elif what < 13:
        lines.append("round 0 => a round")
        model.round()
    elif what < 17:
        lines.append(said(model, c))
    elif what < 18:
        lines.append(f"state {c} => {conn.state}")
    elif what < 19 and draw.randrange(4) == 0:
        lines.append(f"close {c} => closed")
        model.close(c, "" if conn.state != "closed" else None)
    elif draw.randrange(4) == 0 and conn.on_link:
        lines.append(f"detach {c} 0 => lost")
        conn.on_link = False
        model.close(c)


def session(seed):
    draw = random.Random(seed)
    frames = draw.choice([1, 2, 3, 1024])
    failing = sorted(draw.sample(range(12), draw.randrange(3)))
    lines = [f"note session {seed}", f"machine {frames} {','.join(map(str, failing)) or '-'} => a machine"]
    model = Rooms(frames, failing)
    for c in draw.sample(range(1, 40), 5):
        user = draw.choice(["Ann", "Bob", None])
        who = user or str(c)
        lines.append(f"connect {c} 1 {who} {user or '-'} => a connection")
        model.conns[c] = Conn(who, user)
        if draw.randrange(8):
            lines.append(f"attach {c} 0 => a link")
            model.conns[c].on_link = True
            if draw.randrange(8):
                hear(draw, model, c, lines)
    for _step in range(STEPS):
        one_action(draw, model, lines)
    lines += [said(model, c) for c in model.conns] + [f"state {c} => {conn.state}" for c, conn in model.conns.items()]
    lines.append(f"asked => asked {model.asked}")
    return "\n".join(lines)


def sessions(): return "\n".join(session(seed) for seed in range(SESSIONS))


def refused(*lines): return "\n".join(f"{line} => no action: {line}" for line in lines)


def made():
    return committed.pairs(script().strip() + "\n" + rows().strip() + "\n" + many_groups() + "\n" + sessions())


if __name__ == "__main__":
    sys.exit(committed.main("ht_machine", made))
