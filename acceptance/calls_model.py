"""A model of the table of own calls, of the table of jobs and of the calculator's methods, for the model of peers (peers_model.py).

A table here is the list of what happened to it, the latest last. Each question scans that list anew: nothing is kept beside it. The rules
are those of docs/calls.md and docs/hubs.md, and the methods those of docs/protocol.md."""

MOST_LIVE = 1024
MOST_INPUTS = 4096
MOST_WEIGHT = 2**24
BASE_WEIGHT = 48
REFUSED = "The ask was refused."
MOST_NUMBERS = 2**62
MOST_TURNS = 1_000_000


# ---- numbers


def is_whole(n):
    return -(2**63) <= n < 2**64


def is_int(v):
    """Python takes a truth value for a number too."""
    return isinstance(v, int) and not isinstance(v, bool)


def is_count(v):
    return is_int(v) and 0 <= v <= MOST_TURNS


# ---- own calls


class OwnCalls:
    """What happened: ("called", number, kind, uploads), ("over", number), ("ended", number, upload), ("undone",)."""

    def __init__(self, prefix):
        self.prefix = prefix
        self.log = []

    def called(self):
        return [h[1:] for h in self.log if h[0] == "called"]

    def over(self):
        return {h[1] for h in self.log if h[0] == "over"}

    def live_calls(self):
        over = self.over()
        return [(n, kind) for n, kind, _ in self.called() if kind != "notify" and n not in over]

    def live_uploads(self):
        over = self.over()
        ended = {h[1:] for h in self.log if h[0] == "ended"}
        return [(n, w) for n, _, uploads in self.called() if n not in over for w in range(uploads) if (n, w) not in ended]

    def drawn(self):
        return max([n + uploads for n, _, uploads in self.called()], default=0)

    def id(self, n):
        return self.prefix + str(n)

    def enter(self, kind, uploads):
        """The call's number, or why it isn't made."""
        new = uploads + (kind != "notify")
        if len(self.live_calls()) + len(self.live_uploads()) + new > MOST_LIVE:
            return "too many"
        n = self.drawn() + 1 if new else 0
        if n + uploads > MOST_NUMBERS:
            return "spent"
        self.log.append(("called", n, kind, uploads))
        return n

    def undo(self):
        if self.log and self.log[-1][0] == "called":
            self.log[-1] = ("undone",)

    def settle(self, text):
        for n, _ in self.live_calls():
            if self.id(n) == text:
                self.log.append(("over", n))
                return f"settled {n}"
        return "unknown"

    def upload_ended(self, n, w):
        if (n, w) in self.live_uploads():
            self.log.append(("ended", n, w))

    def lose(self):
        live = [n for n, _ in self.live_calls()]
        if not live:
            return "none lost"
        self.log.append(("over", min(live)))
        return f"lost {min(live)}"


# ---- the calculator


def calculator(kind, target, arguments, streams, inputs):
    """What a job of the call does at its last turn, if these were given to it at its turns, the last one too."""
    turn = len(inputs) - 1
    if target not in ("Echo", "Add", "Count", "Sum", "Slow", "Fail", "Ask"):
        return ("end", ("error", "Unknown method."))
    if target != "Count" and kind == "stream":
        return ("end", ("error", "Not a stream."))
    if target == "Count" and kind != "stream":
        return ("end", ("error", "A stream."))
    wrong = ("end", ("error", "Wrong arguments."))
    if len(streams) != (1 if target == "Sum" else 0):
        return wrong
    asked = target, len(arguments)
    if asked == ("Echo", 1):
        return ("end", ("result", arguments[0]))
    if asked == ("Add", 2) and all(map(is_int, arguments)):
        total = sum(arguments)
        return ("end", ("result", total) if is_whole(total) else ("error", "Out of range."))
    if asked == ("Count", 1) and is_count(arguments[0]):
        return ("item", turn + 1) if turn < arguments[0] else ("end", ("void",))
    if asked == ("Sum", 0):
        return sum_of(inputs)
    if asked == ("Slow", 2) and is_count(arguments[0]):
        return ("more",) if turn < arguments[0] else ("end", ("result", arguments[1]))
    if asked == ("Fail", 1) and isinstance(arguments[0], str):
        return ("end", ("error", arguments[0]))
    if asked == ("Ask", 2) and isinstance(arguments[0], str):
        return ("ask", arguments[0], arguments[1:]) if turn == 0 else ("end", inputs[-1][1])
    return wrong


def sum_of(inputs):
    """The first turn was given nothing. No item before the last ended the sum."""
    total = sum(i[1] for i in inputs[1:-1])
    word, *given = inputs[-1]
    if word == "go":
        return ("wait",)
    if word == "stream end":
        (error,) = given
        return ("end", ("result", total) if error is None else ("error", error))
    (item,) = given
    if not is_int(item):
        return ("end", ("error", "Wrong arguments."))
    return ("wait",) if is_whole(total + item) else ("end", ("error", "Out of range."))


# ---- jobs


def text_weight(text):
    return BASE_WEIGHT + len(text.encode())


def value_weight(v):
    if isinstance(v, str):
        return text_weight(v)
    if isinstance(v, list):
        return BASE_WEIGHT + sum(map(value_weight, v))
    if isinstance(v, dict):
        return BASE_WEIGHT + sum(len(key.encode()) + value_weight(value) for key, value in v.items())
    return BASE_WEIGHT


def call_weight(id, streams, target, arguments):
    return sum(map(text_weight, [target, *streams] + [id] * (id is not None))) + value_weight(arguments)


def input_weight(given):
    """Of an item, of the end of a stream with its error or none, or of how an ask was answered."""
    kind, part = given
    if kind == "item":
        return value_weight(part)
    if kind == "stream end":
        return text_weight(part or "")
    if part[0] == "error":
        return 0 if part[1] == REFUSED else text_weight(part[1])
    return BASE_WEIGHT + (value_weight(part[1]) if part[0] == "result" else 0)


class Jobs:
    """What happened: ("accepted", kind, id, streams, target, arguments), ("came", job, stream's place, input), ("marked", job),
    ("turned", job, input, act), ("over", job), ("replied", job, input), ("round",). Jobs are numbered from 1."""

    def __init__(self, hub=calculator):
        self.hub = hub
        self.log = []
        self.came = 0  # the weight of all that came, which what is kept doesn't pass

    def calls(self):
        return [h[1:] for h in self.log if h[0] == "accepted"]

    def job_weight(self, job, call):
        _, id, streams, target, arguments = call
        kept = self.waiting(job) + [self.reply(job)] * (self.reply(job) is not None)
        return call_weight(id, streams, target, arguments) + sum(map(input_weight, kept))

    def is_heavy(self, more=0):
        """Whether its live jobs would keep more than they may with this weight more."""
        return self.came + more > MOST_WEIGHT and sum(self.job_weight(*live) for live in self.live_jobs()) + more > MOST_WEIGHT

    def live_jobs(self):
        over = {h[1] for h in self.log if h[0] == "over" or h[0] == "turned" and h[3][0] == "end"}
        return [(job, call) for job, call in enumerate(self.calls(), 1) if job not in over]

    def given(self, job):
        """The inputs of its turns."""
        return [h[2] for h in self.log if h[0] == "turned" and h[1] == job]

    def waiting(self, job):
        used = [i for i in self.given(job) if i and i[0] in ("item", "stream end")]
        return [h[3] for h in self.log if h[0] == "came" and h[1] == job][len(used):]

    def open_streams(self):
        """Their ids, with the job and the place there."""
        ended = {h[1:3] for h in self.log if h[0] == "came" and h[3][0] == "stream end"}
        for job, (_, _, streams, _, _) in self.live_jobs():
            yield from ((text, job, w) for w, text in enumerate(streams) if (job, w) not in ended)

    def accept(self, kind, text, streams, target, arguments):
        if kind != "notify" and text in [call[1] for _, call in self.live_jobs() if call[0] != "notify"]:
            return "in use " + text
        open_now = [stream for stream, _, _ in self.open_streams()]
        for w, stream in enumerate(streams):
            if stream in open_now or stream in streams[:w]:
                return "in use " + stream
        if len(self.live_jobs()) >= MOST_LIVE:
            return "too many"
        self.log.append(("accepted", kind, text, streams, target, arguments))
        self.came += call_weight(text, streams, target, arguments)
        return f"job {len(self.calls())}"

    def feed(self, stream, given):
        for text, job, w in self.open_streams():
            if text == stream:
                if len(self.waiting(job)) >= MOST_INPUTS or self.is_heavy(input_weight(given)):
                    return "flood"
                self.log.append(("came", job, w, given))
                self.came += input_weight(given)
                return f"fed {job}"
        return "unknown"

    def cancel(self, text):
        for job, call in self.live_jobs():
            if call[0] != "notify" and call[1] == text and ("marked", job) not in self.log:
                self.log.append(("marked", job))
                return f"marked {job}"
        return "unknown"

    def end(self, job):
        if job in [live for live, _ in self.live_jobs()]:
            self.log.append(("over", job))

    def reply(self, job):
        """What has answered its last ask."""
        for h in reversed(self.log):
            if h[0] == "replied" and h[1] == job:
                return h[2]
            if h[0] == "turned" and h[1] == job:
                return None
        return None

    def last_act(self, job):
        return next((h[3] for h in reversed(self.log) if h[0] == "turned" and h[1] == job), None)

    def answer(self, job, ending):
        if job not in [live for live, _ in self.live_jobs()]:
            return "unknown"
        act = self.last_act(job)
        if act is None or act[0] != "ask" or self.reply(job):
            return "unknown"
        self.log.append(("replied", job, ("asked", ending)))
        self.came += input_weight(("asked", ending))
        return "answered"

    def next_input(self, job):
        word = (self.last_act(job) or ("none",))[0]
        if word == "wait":
            return (self.waiting(job) or [None])[0]
        return self.reply(job) if word == "ask" else ("go",)

    def is_due(self, job):
        return ("marked", job) in self.log or self.next_input(job) is not None

    def passed(self):
        for h in reversed(self.log):
            if h[0] == "round":
                return 0
            if h[0] == "turned":
                return h[1]
        return 0

    def round(self):
        self.log.append(("round",))

    def next_turn(self):
        """The job that has the next turn of this round, with its call."""
        passed = self.passed()
        for job, call in self.live_jobs():
            if job > passed and self.is_due(job):
                return job, call

    def turn(self, job, call):
        """The act of the job's turn."""
        kind, _, streams, target, arguments = call
        if ("marked", job) in self.log:
            given, act = None, ("end", ("void",))
        else:
            given = self.next_input(job)
            act = self.hub(kind, target, arguments, streams, self.given(job) + [given])
        self.log.append(("turned", job, given, act))
        return act
