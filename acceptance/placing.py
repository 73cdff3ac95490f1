#!/usr/bin/env python3
"""Puts into a recording of what a proxy saw of an end the steps that it couldn't see, so that `sr audit` can judge it.

    acceptance/placing.py < RECORDING > TRACE
    acceptance/placing.py --check SEED N      N traces of random scripts, less what no proxy sees: something has to be put into each, so that
                                              trace_model.py audits it as a world

A proxy sees when a link came up and was lost, what was on its way to an end, and what that said, and the moments (examples/tap). It doesn't see
which bytes were read, so what an end took; nor what it was handed to send, that it was closed, and when it looked at its clock. Here `took`,
`sent`, `close` and further `tick` lines are placed where some history of this end has them that says those bytes in that order, as late as can
be; so that it was this history isn't known. If there is none, that is told with the line that can't be said, and the status is 1: the end
broke a rule, or it closed for a cause that no trace tells.

How often each came is searched for at the loss of a link alone: there the end may have taken all that came or less, of which what it says
first on its next link tells a part. The rules are those of trace_marks.py."""
import copy
import sys

import spoiled_traces
import trace_model
from replay_model import spell
from trace_marks import PING_AFTER, Marks
from trace_model import SILENCE, BadLine, cut, frame_of, words_of


BYE = "close", None, False
# Of an end that tells the number of its next message by a Sequence, and never says that message, nobody knows which it is.
UNSEEN = '{"arguments":[],"target":"unseen","type":1}'


class Cannot(Exception):
    """No history says what was seen there: its arguments are the place among what was seen, and the lines before it."""


class End:
    """What an end did so far, what it was fed and hasn't taken, and what is on its way to it."""

    def __init__(self, side, head):
        self.marks, self.unread, self.coming, self.saw_moment = Marks(side, *head), b"", b"", False

    def copy(self):
        other = copy.copy(self)
        other.marks = self.marks.copy()
        return other

    def next_frame(self):
        """The next frame and its size, if it is whole, can be read, and is no fault."""
        marks = self.marks
        if marks.link is None or marks.is_closed: return None
        found = cut(marks, self.unread, marks.link == marks.first and marks.read == 0, 1)
        return found[0] if found and marks.gives(found[0][0]) else None

    def read(self, data):
        """What this end says with these bytes, or None for a handshake."""
        marks = self.marks
        if marks.link == marks.first and not marks.is_opened: return None
        body = data[:-1] if marks.codec == "json" else data[next(at for at, byte in enumerate(data, 1) if byte < 128) :]
        return frame_of(marks.codec, body)


class Placed:
    """The lines of a trace as they are placed, and what its ends have come to."""

    def __init__(self, head, sides, seen):
        self.lines, self.clock, self.now = [], 0, 0
        self.seen, self.at = seen, 0  # what was seen, and the place of what has to be said next
        self.ends = {side: End(side, head) for side in sides}

    def copy(self):
        other = copy.copy(self)
        other.lines, other.ends = list(self.lines), {side: end.copy() for side, end in self.ends.items()}
        return other

    def tell(self, side, words):
        self.lines.append(f"{side} {words}")

    # what may be put in

    def tick(self, side, now):
        """Whether it is a silence."""
        self.clock = now
        self.tell(side, f"tick {now}")
        return self.ends[side].marks.tick(now)

    def take(self, side):
        """Takes the next frame, if there is one."""
        end = self.ends[side]
        found = end.next_frame()
        if not found: return False
        self.tell(side, f"took {words_of(end.marks.gives(found[0]), end.marks.processed + 1)}")
        end.marks.take(*found)
        end.unread = end.unread[found[1] :]
        self.feed(side)
        return True

    def feed(self, side):
        """Feeds what came, as far as there is room, and takes what changes nothing of what may be said."""
        end = self.ends[side]
        piece = end.coming[: end.marks.room_for_bytes()]
        if end.marks.link is not None and not end.marks.is_closed and piece:
            self.tell(side, f"fed {piece.hex()}")
            end.marks.feed(piece)
            end.unread, end.coming = end.unread + piece, end.coming[len(piece) :]
        if (found := end.next_frame()) and is_unseen(end.marks, found[0]): self.take(side)

    def could(self, side, step, wanted):
        """Whether this frame is due after a step."""
        marks = self.ends[side].marks.copy()
        step(marks)
        return marks.due() == wanted

    def put_in(self, side, frame):
        """Puts in one more step, so that this frame may become due."""
        marks = self.ends[side].marks
        may_send = marks.is_shaken and not marks.is_closed
        text = self.message_before(side, frame) if may_send else None
        if text and marks.has_room(text) and self.could(side, lambda it: it.send(text), frame):
            marks.send(text)
            return self.tell(side, f"sent {text}")
        later = max(self.now, self.clock, marks.wrote + PING_AFTER)
        if frame == ("ping",) and self.could(side, lambda it: it.tick(later), frame): return self.tick(side, later)
        if self.may_close(side, frame): return self.close(side, frame)
        if not self.take(side): raise Cannot(self.at, self.lines)

    def message_before(self, side, frame):
        """What has to be sent before this frame is due, if that may be: it, or what comes after it if that is a Sequence."""
        if frame and frame[0] == "sequence": return next(iter(self.later_messages(side)), UNSEEN)
        return frame[1] if frame and frame[0] == "message" else None

    def may_close(self, side, frame):
        """Whether this frame is due by a close alone: it is a Close, or comes where an end that isn't closed has to say an Ack."""
        marks = self.ends[side].marks
        comes_before_ack = (marks.due() or [None])[0] == "ack" and frame and frame[0] != "ack"
        if marks.is_closed or frame != BYE and not comes_before_ack: return False
        return self.could(side, lambda it: [*map(it.send, self.later_messages(side)), it.close()], frame)

    def close(self, side, frame):
        """Closes the end, once it has taken what came, as far as this frame is due then, and has sent all that it still says."""
        end = self.ends[side]
        while end.next_frame() and self.copy().takes_and_may_close(side, frame): self.take(side)
        marks = end.marks
        for text in self.later_messages(side):
            marks.send(text)
            self.tell(side, f"sent {text}")
        marks.close()
        self.tell(side, "close")

    def takes_and_may_close(self, side, frame):
        return self.take(side) and self.may_close(side, frame)

    def later_messages(self, side):
        """The messages that the end says from here on, but for those that it was told to be sent."""
        end = self.ends[side]
        if not end.marks.is_shaken: return []
        frames = [end.read(told) for other, kind, told in self.seen[self.at :] if other == side and kind == "lent"]
        return [frame[1] for frame in frames if frame and frame[0] == "message"][len(end.marks.sent) - end.marks.place() + 1 :]

    # what was seen

    def see(self):
        side, kind, told = self.seen[self.at]
        if kind == "tick": self.pass_to(side, told)
        if kind == "fed":
            self.ends[side].coming += told
            self.feed(side)
        if kind == "lent": self.lend(side, told)
        if kind == "detach": self.leave(side)
        if kind == "attach": self.attach(side, told)
        self.at += 1

    def pass_to(self, side, moment):
        """A moment came. A silence is told as late as can be, as the end may have been given something by then that it hadn't room for here."""
        marks = self.ends[side].marks
        self.now = max(self.now, moment)
        is_silence = marks.link is not None and marks.heard is not None and self.now >= marks.heard + SILENCE
        if self.now > self.clock and not is_silence: self.tick(side, self.now)

    def lend(self, side, data):
        marks = self.ends[side].marks
        if marks.link is None: raise Cannot(self.at, self.lines)
        frame = self.ends[side].read(data)
        while marks.bytes_due() != data: self.put_in(side, frame)
        self.tell(side, f"lent {data.hex()}")
        marks.lend()

    def leave(self, side):
        """The end's link is lost now, if it wasn't by a silence."""
        marks = self.ends[side].marks
        silent = self.now > self.clock and self.tick(side, self.now)
        if marks.link is not None and not silent:
            self.tell(side, "detach")
            marks.leave()

    def attach(self, side, link):
        end = self.ends[side]
        if self.now > self.clock: self.tick(side, self.now)
        if not end.marks.may_attach(link): raise Cannot(self.at, self.lines)
        self.tell(side, f"attach {link}")
        end.marks.attach(link, self.clock)
        end.unread = end.coming = b""

    def finish(self):
        """Takes all that came."""
        for side in self.ends:
            while self.take(side): pass
        return self.lines


def is_unseen(marks, frame):
    """Whether the next frame may as well be taken at once: a Ping or one that is passed over, and on a connection that isn't resumable each but
    a handshake and a Close."""
    return marks.gives(frame)[0] in ("ping", "skipped") or marks.is_shaken and not marks.is_kept and frame[0] != "close"


# ---- the search


def opening_of(placed, side):
    """What this end says first on a later link: the count of which it knows by then that it was acknowledged, and how much it has processed, if it
    tells that."""
    has_moved, codec = False, placed.ends[side].marks.codec
    for other, kind, told in placed.seen[placed.at :]:
        if other == side and kind == "attach": has_moved = True
        if other == side and kind == "lent" and has_moved:
            frame = frame_of(codec, told[:-1] if codec == "json" else told[1:])
            return (frame[1] - 1, frame[2]) if frame and frame[0] == "sequence" else None
    return None


def before_loss(placed, side):
    """What an end may have come to as it leaves its link: it has taken all that came, or less."""
    found = [placed.copy()]
    while found[-1].ends[side].next_frame():
        found.append(found[-1].copy())
        found[-1].take(side)
    opening = opening_of(placed, side)
    for one in reversed(found):
        marks = one.ends[side].marks
        if not opening or marks.acked <= opening[0] and (opening[1] is None or marks.processed <= opening[1]): yield one


def searched(placed, side):
    """The lines of a history in which this end leaves its link now."""
    furthest = Cannot(placed.at, placed.lines)
    for one in before_loss(placed, side):
        try:
            one.see()
            return placed_from(one)
        except Cannot as why:
            furthest = max(furthest, why, key=lambda it: it.args[0])
    raise furthest


def placed_from(placed):
    """The lines of a history that goes on so."""
    while placed.at < len(placed.seen):
        side, kind, _ = placed.seen[placed.at]
        if kind in ("attach", "detach") and placed.ends[side].next_frame(): return searched(placed, side)
        placed.see()
    return placed.finish()


def place(head, seen, sides):
    """The lines of a history that two ends, or one, can have had if this was seen of them: each a side, a kind of line and what it tells, as in a trace."""
    return placed_from(Placed(head, sides, seen))


def whole(recording, side=None):
    """The trace that this recording becomes, a text."""
    head, *seen = trace_model.parse(recording, side)
    lines = place(head, seen, side or "cs")
    return "".join(line + "\n" for line in [recording.decode().splitlines()[0], *lines])


# ---- what a proxy sees of a trace


def seen_of(data):
    """What a proxy would have seen of the two ends of a trace: nothing but what moves, and the moments of that."""
    head, *lines = trace_model.parse(data)
    ends, seen, told, now = {side: Marks(side, *head) for side in "cs"}, [], 0, 0
    world = trace_model.Pair(head)
    for side, kind, words in lines:
        link = world.ends[side].link()
        world.step(side, kind, words)
        now = world.clock
        is_silent = kind == "tick" and link is not None and world.ends[side].link() is None
        if kind in ("attach", "detach", "fed", "lent") or is_silent:
            if now > told: seen.append((side, "tick", now))
            seen.append((side, "detach", None) if is_silent else (side, kind, words))
            told = now
    return head, seen


def moves(lines):
    """The links and the frames said of the lines of a trace."""
    return [line for line in lines if line.split(" ")[1] in ("attach", "lent")]


def fault_of(lines):
    """What is wrong with what is placed into what a proxy sees of a trace, if anything is."""
    head, seen = seen_of(spoiled_traces.text_of(lines))
    try: placed = place(head, seen, "cs")
    except Cannot as why: return f"nothing can be placed at {seen[why.args[0]]}"
    told, status = trace_model.audit(spoiled_traces.text_of([lines[0], *placed]))
    if status: return told
    return None if moves(lines[1:]) == moves(placed) else "it doesn't say the same"


def check(seed, count):
    for number, script in enumerate(spoiled_traces.scripts(seed, count)):
        lines = trace_model.record(script)[0].splitlines()
        if fault := fault_of(lines):
            print(f"FAILED trace {number} of seed {seed}: {fault}", *lines, sep="\n    ")
            print(f"{number} passed, 1 failed")
            return 1
    print(f"{count} passed, 0 failed")
    return 0


def main(words):
    if words[:1] == ["--check"]: return check(int(words[1]), int(words[2]))
    recording = sys.stdin.buffer.read()
    sides = {line[:1] for line in recording.decode(errors="replace").split("\n")[1:-1]}
    try: sys.stdout.write(whole(recording, sides.pop() if len(sides) == 1 else None))
    except BadLine as bad: sys.exit(f"placing: line {bad.args[0]} refused")
    except Cannot as why: sys.exit("\n".join([f"placing: nothing was found that says line {why.args[0] + 2} of the recording, after", *why.args[1][-20:]]))
    return 0


if __name__ == "__main__":
    sys.exit(main(sys.argv[1:]))
