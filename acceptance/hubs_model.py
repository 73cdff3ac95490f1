#!/usr/bin/env python3
"""A plain model of hubs, groups and keepers: what `crates/ht_hubs` is to print of a script.

    acceptance/hubs_model.py --check [BUILT] | --write      the script of hubs_script.py and what the model says of it (committed.py)
    acceptance/hubs_model.py                                prints what the model says of a script on its standard input

A job is a generator that is given inputs and yields acts, by the tables of docs/protocol.md and docs/hubs.md and the head of
crates/hub_rooms. A registry is two lists of pairs and a keeper two lists, which each question scans. It shares no code with the program,
whose main.rt has the words of a script."""
import re
import sys

import committed
import hubs_script

MOST_TURNS = 1_000_000
MOST_RECALLED = 100
MOST_NAME = 256
MOST_GROUPS = 256
CALLER = "ann"


class Refused(Exception):
    """The line is no action."""


class Failed(Exception):
    """The call of a keeper fails."""


# ---- words

def number(word, bits=64):
    if not (word.isascii() and word.isdigit() and int(word) < 1 << bits):
        raise Refused
    return int(word)


def numbers(word):
    return [] if word == "-" else [number(part) for part in word.split(",")]


def name(word):
    if not word.startswith("'"):
        raise Refused
    return word[1:]


def is_whole(n):
    return -(2**63) <= n < 2**64


def value(word):
    """A number, a text, or None for null."""
    if word == "null":
        return None
    if re.fullmatch("-?[0-9]+", word, re.ASCII) and is_whole(int(word)):
        return int(word)
    return name(word)


def shown(v):
    return "null" if v is None else str(v) if isinstance(v, int) else "'" + v


def joined(*parts):
    return " ".join(parts)


def ending(words):
    """As it is printed."""
    word, _, rest = words.partition(" ")
    if word == "void":
        return "void"
    if word == "result":
        return "result " + shown(value(rest))
    if word == "error":
        return "error " + rest
    raise Refused


def given(words):
    word, _, rest = words.partition(" ")
    if word in ("go", "uploaded", "failed"):
        return (word, None)
    if word in ("item", "done"):
        return (word, value(rest))
    if word == "broken":
        return (word, rest)
    if word == "asked":
        return (word, ending(rest))
    raise Refused


class Call:
    def __init__(self, words):
        kind, target, uploads, *arguments = words.split(" ")
        if kind not in ("notify", "call", "stream"):
            raise Refused
        self.kind, self.target, self.uploads, self.arguments = kind, target, number(uploads, 32), [value(word) for word in arguments]


# ---- methods: each takes the arguments of a call, and is a generator of its acts, which is sent the next input for each act. A method
# without an answer for its arguments is None

def is_number(v):
    return isinstance(v, int)


def is_text(v):
    return isinstance(v, str)


def is_room(v):
    return is_text(v) and len(v.encode()) <= MOST_NAME


def is_anything(v):
    return True


def is_turns(v):
    return is_number(v) and 0 <= v <= MOST_TURNS


def is_recalled(v):
    return is_number(v) and 0 <= v <= MOST_RECALLED


def sum_text(n):
    return f"result {n}" if is_whole(n) else "error Out of range."


def echo(v):
    yield "result " + shown(v)


def add(a, b):
    yield sum_text(a + b)


def count(n):
    for i in range(n):
        yield f"item {i + 1}"
    yield "void"


def sum_up():
    total = 0
    while True:
        word, v = yield "wait"
        if word == "uploaded":
            yield f"result {total}"
        elif word == "broken":
            yield f"error {v}"
        elif not is_number(v):
            yield "error Wrong arguments."
        elif not is_whole(total + v):
            yield "error Out of range."
        else:
            total += v


def slow(n, v):
    for _ in range(n):
        yield "more"
    yield "result " + shown(v)


def fail(text):
    yield "error " + text


def ask(target, v):
    _, ended = yield joined("ask", target, shown(v))
    yield ended


def next_number():
    return count(MOST_TURNS)


def deeds(*each, brings=False, error="The store failed."):
    """The deeds one after the other, and an ending, which is what the last brought if it brings anything, or the error if one failed."""
    brought = None
    for deed in each:
        word, brought = yield deed
        if word == "failed":
            yield "error " + error
    yield "result " + shown(brought) if brings else "void"


def join(room):
    return deeds(joined("join", shown(room)), error="Too many groups.")


def leave(room):
    return deeds(joined("leave", shown(room)))


def post(room, text):
    return deeds(joined("log", shown(room), shown(text)), joined("post", shown(room), "Posted", shown(room), shown(CALLER), shown(text)))


def tell(user, text):
    return deeds(joined("tell", shown(user), "Told", shown(CALLER), shown(text)))


def history(room, most):
    return deeds(joined("history", shown(room), str(most)), brings=True)


# The method of a target: whether it is a stream, how many uploads it has, what its arguments are, and what it does. None is any arguments.
HUBS = {
    "calc": {
        "Echo": (False, 0, [is_anything], echo),
        "Add": (False, 0, [is_number, is_number], add),
        "Count": (True, 0, [is_turns], count),
        "Sum": (False, 1, [], sum_up),
        "Slow": (False, 0, [is_turns, is_anything], slow),
        "Fail": (False, 0, [is_text], fail),
        "Ask": (False, 0, [is_text, is_anything], ask),
    },
    "client": {"Confirm": (False, 0, [is_anything], echo)},
    "counter": {"Next": (True, None, None, next_number)},
    "rooms": {
        "Join": (False, 0, [is_room], join),
        "Leave": (False, 0, [is_room], leave),
        "Post": (False, 0, [is_room, is_text], post),
        "Tell": (False, 0, [is_text, is_text], tell),
        "History": (False, 0, [is_room, is_recalled], history),
    },
}


def ends(act):
    yield act


def job(hub, call):
    """The acts of a call's job. What is wrong with it ends it at its first turn: first the target, then the kind, then all else."""
    if call.target not in HUBS[hub]:
        return ends("void" if hub == "client" else "error Unknown method.")
    is_stream, uploads, kinds, method = HUBS[hub][call.target]
    if is_stream != (call.kind == "stream"):
        return ends("error A stream." if is_stream else "error Not a stream.")
    if kinds is None:
        return method()
    right = len(call.arguments) == len(kinds) and all(fits(v) for fits, v in zip(kinds, call.arguments))
    if call.uploads != uploads or not right:
        return ends("error Wrong arguments.")
    return method(*call.arguments)


def play(hub, words):
    called, bar, turns = words.partition(" : ")
    if not bar:
        raise Refused
    acts = job(hub, Call(called))
    # The first input, which is always `go`, begins the generator.
    first, *more = [given(turn) for turn in turns.split(" / ")]
    return " / ".join([next(acts)] + [acts.send(turn) for turn in more])


def count_numbers(hub, words):
    most, _, called = words.partition(" ")
    acts = job(hub, Call(called))
    for n in range(number(most)):
        act = next(acts)
        if act != f"item {n + 1}":
            return f"{n} numbers, then {act}"
    return f"{most} numbers"


# ---- groups

class Groups:
    """Pairs of a name and a connection, in order of joining. Of those that joined, a connection has MOST_GROUPS at most."""

    def __init__(self, watched):
        self.watched, self.members, self.users = watched, [], []

    def of(self, called):
        return joined(*(",".join(str(conn) for known, conn in pairs if known == called) or "-" for pairs in (self.members, self.users)))

    def ask(self, word, rest):
        first, _, more = rest.partition(" ")
        if word == "members":
            return self.of(name(rest))
        if word == "fill":
            return self.fill(*map(number, rest.split(" ")))
        if word == "sizes":
            names = {str(n or "") for n in range(number(rest))}
            return f"{self.size(self.members, names)} members, {self.size(self.users, names)} connections of users"
        if word == "empty":
            self.lose(range(number(rest)))
            return "gone"
        return " | ".join([self.change(word, first, more)] + [self.of(called) for called in self.watched])

    def change(self, word, first, more):
        if word == "gone":
            self.lose([number(first)])
            return "gone"
        if word not in ("join", "remove", "name"):
            raise Refused
        pairs, pair = self.users if word == "name" else self.members, (name(first), number(more))
        was_there = pair in pairs
        if word == "remove":
            if was_there:
                pairs.remove(pair)
            return "left" if was_there else "not there"
        if word == "join" and not was_there and sum(conn == pair[1] for _, conn in pairs) >= MOST_GROUPS:
            return "too many"
        if not was_there:
            pairs.append(pair)
        return "named" if word == "name" else "joined"

    def lose(self, conns):
        self.members, self.users = ([pair for pair in pairs if pair[1] not in conns] for pairs in (self.members, self.users))

    @staticmethod
    def size(pairs, names):
        return sum(known in names for known, _ in pairs)

    def fill(self, conns, each, groups, users):
        """Connection c joins the groups 17 c + 31 k for each k, and is of the user c, both modulo how many there are. The name 0 is empty."""
        carried_out, of_each = 0, {}
        for known, conn in self.members:
            of_each.setdefault(conn, set()).add(known)
        for conn in range(conns):
            own = of_each.setdefault(conn, set())
            for k in range(each):
                called = str((17 * conn + 31 * k) % groups or "")
                if called not in own and len(own) >= MOST_GROUPS:
                    continue
                carried_out += 1
                if called not in own:
                    own.add(called)
                    self.members.append((called, conn))
        self.users = list(dict.fromkeys(self.users + [(str(conn % users or ""), conn) for conn in range(conns)]))
        return f"{carried_out} joined"


# ---- keepers

class Keeper:
    def __init__(self, users, failing):
        self.users = [] if users == "-" else [tuple(user.split(":")) for user in users.split(",")]
        self.failing, self.kept, self.calls = numbers(failing), [], 0

    def ask(self, word, rest):
        first, _, more = rest.partition(" ")
        if word == "copy":
            return f"{self.calls} calls, and the same of a copy"
        if word == "each":
            token, who, room, text = rest.split(" ", 3)
            asks = [("add", f"{token} {who}"), ("user", token), ("log", f"{room} {who} {text}"), ("rows", ""), ("history", f"{room} 1")]
            return [self.ask(*one) for one in asks][-1]
        if word not in ("log", "history", "user", "add", "rows"):
            raise Refused
        self.calls += 1
        if self.calls - 1 in self.failing:
            raise Failed
        return getattr(self, word)(first, more)

    def log(self, room, more):
        who, _, text = more.partition(" ")
        self.kept.append((room, text))
        return "kept"

    def history(self, room, most):
        texts = [text for place, text in self.kept if place == room]
        return joined("texts", *texts[max(0, len(texts) - number(most, 32)):])

    def user(self, token, _more):
        return next((f"user {who}" for known, who in self.users if known == token), "nobody")

    def add(self, token, who):
        if self.user(token, "") != "nobody":
            return "known"
        self.users.append((token, who))
        return "new"

    def rows(self, _word, _more):
        return f"{len(self.kept)} rows"


# ---- scripts

class Bench:
    def __init__(self):
        self.groups, self.keeper, self.database = Groups([]), Keeper("-", "-"), None

    def line(self, line):
        try:
            return self.act(line)
        except Failed:
            return "failed"
        except (Refused, ValueError):
            return f"no action: {line}"

    def act(self, line):
        form, _, words = line.partition(" ")
        word, _, rest = words.partition(" ")
        if form == "note":
            return line
        if form == "count" and word in ("calc", "counter"):
            return count_numbers(word, rest)
        if form == "groups" and word == "new":
            self.groups = Groups([name(part) for part in rest.split(" ")] if rest else [])
            return "a registry"
        if form == "keeper" and word == "new":
            users, _, failing = rest.partition(" ")
            self.keeper = Keeper(users, failing)
            return "a keeper"
        if form == "database" and words == "new":
            self.database = Keeper("-", "-")
            return "a database"
        if form == "database" and (self.database is None or word == "copy"):
            raise Refused
        if form in ("groups", "keeper", "database"):
            return getattr(self, form).ask(word, rest)
        if form in HUBS:
            return play(form, words)
        raise Refused


def answers(script):
    bench = Bench()
    return "".join(bench.line(line) + "\n" for line in script.splitlines())


def made():
    script = hubs_script.script()
    return script, answers(script)


if __name__ == "__main__":
    sys.exit(committed.main("ht_hubs", made, answers))
