"""A model of two peers, for replay_model.py and soak_model.py: two ends as replay_model.py has them, with the tables of calls_model.py.

Each end, each table of own calls and each table of jobs is the list of what happened to it, and each question scans that list anew. The
rules are those of docs/delivery.md, docs/calls.md and docs/hubs.md, and the methods those of docs/protocol.md."""
import json

import frames_model
import replay_model
from calls_model import REFUSED, Jobs, OwnCalls, calculator
from replay_model import Refused, json_text, number_of

TOO_LONG = {"error": "The answer is too long."}


# ---- values and messages


def values_in(value):
    """The values in a list or a map. None if it is neither."""
    if isinstance(value, list):
        return value
    return value.values() if isinstance(value, dict) else None


def depth(value):
    inner = values_in(value)
    return 0 if inner is None else 1 + max(map(depth, inner), default=0)


def value_of(text):
    """The value of a JSON text in a script."""
    try:
        return frames_model.value_of(text.encode())
    except frames_model.Refused:
        raise Refused


def values_of(text):
    values = value_of(text)
    if not isinstance(values, list):
        raise Refused
    return values


def fits(tree):
    """In its frame, which is one level, a message nests at most 64 deep."""
    return max(depth(tree.get(name)) for name in ("arguments", "item", "result")) <= 63


def invocation(kind, id, target, arguments, streams):
    tree = {"type": 4 if kind == "stream" else 1, "target": target, "arguments": arguments}
    if kind != "notify":
        tree["invocationId"] = id
    return tree | ({"streamIds": streams} if streams else {})


def ending_tree(ending):
    """An ending is ("void",), ("result", value) or ("error", text)."""
    return {} if ending == ("void",) else {ending[0]: ending[1]}


def ending_of(tree):
    if tree.get("error") is not None:
        return ("error", tree["error"])
    return ("result", tree["result"]) if "result" in tree else ("void",)


def shown_ending(ending):
    return " ".join([ending[0], *map(json_text, ending[1:])])


def confirm(kind, target, arguments, streams, _inputs):
    """What a job of the client's hub does at its only turn."""
    if target != "Confirm":
        return ("end", ("void",))
    if kind == "stream":
        return ("end", ("error", "Not a stream."))
    if streams or len(arguments) != 1:
        return ("end", ("error", "Wrong arguments."))
    return ("end", ("result", arguments[0]))


# ---- two peers


class Replay(replay_model.Script):
    """A script in which the line `peers on` stands."""

    def __init__(self):
        super().__init__()
        self.calls = {"c": OwnCalls(""), "s": OwnCalls("s")}
        self.jobs = {"c": Jobs(confirm), "s": Jobs(calculator)}
        # the calls that jobs made: the number of each, and the job
        self.asked = {"c": [], "s": []}

    # ---- lines

    def option(self, word, rest):
        if word != "peers":
            return super().option(word, rest)
        if self.begun or word in self.options or rest != "on":
            raise Refused
        self.options[word] = True

    def action(self, text):
        side, _, words = text.partition(" ")
        act = self.action_of_peer(side, words) if side in ("c", "s") and "peers" in self.options else None
        act = act or super().action(text)

        def do():
            act()
            self.tell_gone("c")
            self.tell_gone("s")

        return do

    def action_of_peer(self, side, words):
        verb, _, rest = words.partition(" ")
        word, _, more = rest.partition(" ")
        if words == "round":
            return lambda: self.round(side)
        if verb in ("call", "stream", "notify", "upload") and word:
            kind, uploads = ("call", 1) if verb == "upload" else (verb, 0)
            arguments = values_of(more)
            return lambda: self.call(side, kind, uploads, word, arguments)
        if verb == "item":
            call, tree = number_of(word), {"type": 2, "item": value_of(more)}
            return lambda: self.upload(side, "item-sent", call, tree)
        if verb == "done":
            call = number_of(rest)
            return lambda: self.upload(side, "done", call, {"type": 3})
        if verb == "cancel":
            call = number_of(rest)
            return lambda: self.cancel(side, call)
        if verb == "send":
            raise Refused
        return None

    # ---- what is sent

    def send(self, side, tree):
        """Sends a message, or tells why not."""
        if not fits(tree):
            return "TooDeep"
        refusal = self.ends[side].refusal(json_text(tree))
        if refusal is None:
            self.ends[side].steps.append(("sent", json_text(tree)))
        return refusal

    def make_call(self, side, kind, uploads, target, arguments):
        """The number of a new call, or why it isn't made."""
        calls = self.calls[side]
        made = calls.enter(kind, uploads)
        if isinstance(made, str):
            return {"too many": "TooMany", "spent": "Spent"}[made]
        streams = [calls.id(made + 1 + w) for w in range(uploads)]
        refusal = self.send(side, invocation(kind, calls.id(made), target, arguments, streams))
        if refusal is None:
            return made
        calls.undo()
        return refusal

    def call(self, side, kind, uploads, target, arguments):
        made = self.make_call(side, kind, uploads, target, arguments)
        self.say(side, f"refused {made}" if isinstance(made, str) else f"call {made}")

    def cancel(self, side, call):
        calls = self.calls[side]
        live = call in [n for n, _ in calls.live_calls()]
        refusal = self.send(side, {"type": 5, "invocationId": calls.id(call)}) if live else "UnknownId"
        self.say(side, f"refused {refusal}" if refusal else f"cancel {call}")

    def upload(self, side, what, call, tree):
        """Says this for the one upload that a call has."""
        calls = self.calls[side]
        live = (call, 0) in calls.live_uploads()
        refusal = self.send(side, tree | {"invocationId": calls.id(call + 1)}) if live else "UnknownId"
        if refusal is None and tree["type"] == 3:
            calls.upload_ended(call, 0)
        self.say(side, f"refused {refusal}" if refusal else f"{what} {call}")

    def tell_gone(self, side):
        if self.ends[side].closed():
            while (lost := self.calls[side].lose()) != "none lost":
                self.say(side, f"ended {lost.removeprefix('lost ')} gone")

    def tick_end(self, side):
        super().tick_end(side)
        self.tell_gone(side)

    # ---- what comes

    def take(self, side, frame):
        e = self.ends[side]
        kind, *parts = frame
        if kind == "message" and e.makes(frame)[0] == "message":
            e.steps.append(("took", frame, frame))
            self.handle(side, json.loads(parts[0]))
        else:
            super().take(side, frame)

    def handle(self, side, tree):
        kind, id = tree["type"], tree.get("invocationId")
        if kind == 1:
            self.accept(side, "notify" if id is None else "call", tree)
        elif kind == 4:
            self.accept(side, "stream", tree)
        elif kind == 2:
            self.take_item(side, id, tree["item"])
        elif kind == 3:
            self.take_ending(side, id, ending_of(tree))
        elif kind == 5:
            found = self.jobs[side].cancel(id) != "unknown"
            self.say(side, f"cancelled {id}" if found else f"skipped unknown-id {id}")

    def accept(self, side, kind, tree):
        id = tree.get("invocationId")
        answer = self.jobs[side].accept(kind, id, tree.get("streamIds") or [], tree["target"], tree["arguments"])
        if answer.startswith("in use "):
            self.break_off(side, "Id in use.", "in-use " + answer.removeprefix("in use "))
        elif answer == "too many":
            self.break_off(side, "Too many calls.", "too-many")
        else:
            self.say(side, f"began {'-' if id is None else id} {tree['target']}")
            self.weigh(side)

    def break_off(self, side, reason, fault):
        """Closes the end, if it is open, and tells by what."""
        self.close_for(side, reason)
        self.say(side, f"fault {fault}")

    def close_for(self, side, reason):
        if not self.ends[side].closed():
            self.ends[side].steps.append(("closed", reason, False))

    def weigh(self, side):
        """Closes the end if its jobs keep more than they may."""
        if self.jobs[side].is_heavy():
            self.close_for(side, "Too many inputs.")

    def feed(self, side, id, given):
        answer = self.jobs[side].feed(id, given)
        if answer == "unknown":
            self.say(side, f"skipped unknown-id {id}")
        elif answer == "flood":
            self.break_off(side, "Too many inputs.", "flood")
        else:
            self.say(side, f"fed {id}")

    def take_item(self, side, id, item):
        calls = self.calls[side]
        streams = [n for n, kind in calls.live_calls() if calls.id(n) == id and kind == "stream"]
        if streams:
            self.say(side, f"item {streams[0]} {json_text(item)}")
        else:
            self.feed(side, id, ("item", item))

    def take_ending(self, side, id, ending):
        calls = self.calls[side]
        settled = calls.settle(id)
        if settled == "unknown":
            return self.feed(side, id, ("stream end", ending[1] if ending[0] == "error" else None))
        call = int(settled.removeprefix("settled "))
        for made, job in self.asked[side]:
            if made == call:
                self.jobs[side].answer(job, ending)
        self.say(side, f"ended {call} {shown_ending(ending)}")
        self.weigh(side)

    # ---- turns

    def round(self, side):
        """Begins a round, and has the turns of it."""
        jobs = self.jobs[side]
        jobs.round()
        while self.may_turn(side) and (found := jobs.next_turn()):
            job, call = found
            self.carry_out(side, job, call, jobs.turn(job, call))

    def may_turn(self, side):
        e = self.ends[side]
        count, most, frame = e.limits
        held = e.held()
        framed = sum(len(replay_model.spell(("message", text), e.codec)) for text in held)
        return not e.closed() and len(held) < count and framed + frame + 5 <= most

    def carry_out(self, side, job, call, act):
        kind, id, *_ = call
        word, *parts = act
        if word == "item" and kind == "stream":
            if not self.say_answer(side, id, {"type": 2, "invocationId": id, "item": parts[0]}):
                self.jobs[side].end(job)
        elif word == "end" and kind != "notify":
            self.say_answer(side, id, {"type": 3, "invocationId": id} | ending_tree(parts[0]))
        elif word == "ask":
            made = self.make_call(side, "call", 0, *parts)
            if isinstance(made, str):
                self.jobs[side].answer(job, ("error", REFUSED))
            else:
                self.asked[side].append((made, job))

    def say_answer(self, side, id, tree):
        """Sends an answer or, if that is too long or too deep, the last word: whether it was the answer."""
        if self.send(side, tree) is None:
            return True
        self.send(side, {"type": 3, "invocationId": id} | TOO_LONG)
        return False
