"""A quick model of `sr audit`: of each end it keeps numbers, the messages that were sent, and the bytes that aren't taken, and no steps.

It follows docs/traces.md, as trace_model.py does by whole lists, and shares no code with the program. spoiled_traces.py compares the two."""
import copy

import trace_model
from replay_model import bare, spell
from trace_model import BREAKS, FRAMING, OTHER, SILENCE, cut, words_of

PING_AFTER = 15_000  # ms


class Marks:
    """What has to be known of an end to judge its next line."""

    def __init__(self, side, codec, version, reconnect, limits):
        self.side, self.codec, self.version, self.reconnect, self.limits = side, codec, version, reconnect, limits
        self.link = self.first = self.bye = self.latest = None
        self.is_shaken = self.is_kept = self.is_closed = False
        self.sent, self.sizes = [], [0]  # the messages, and the sums of their sizes up to each
        self.processed = self.acked = self.furthest = self.moment = 0
        self.begin_link()

    def begin_link(self):
        """Nothing was said or taken there yet."""
        self.written = self.told = self.fed = self.read = 0  # the place of the last message said, the most that was told, and bytes
        self.is_opened = self.has_parted = self.is_resumed = self.is_quiet = False
        self.counted = self.counts = None  # the number of the next message, as the other end counts, and as this one does
        self.heard = self.wrote = self.moment

    def copy(self):
        other = copy.copy(self)
        other.sent, other.sizes = list(self.sent), list(self.sizes)
        return other

    def is_three(self):
        return self.is_shaken and self.version == 3

    def place(self):
        """Of the next message to be said on this link."""
        return max(self.acked, self.written) + 1

    # what is due

    def due(self):
        if self.link is None: return None
        if not self.is_opened: return self.opening()
        waits = self.place() <= len(self.sent)
        if waits and not self.is_three() and self.counted != self.place(): return ("sequence", self.place(), None)
        if self.is_kept and not self.is_closed and self.told < self.processed: return ("ack", self.processed)
        if waits and (not self.is_three() or self.link == self.first or self.is_resumed): return ("message", self.sent[self.place() - 1])
        if self.is_shaken and not self.is_closed and self.is_quiet: return ("ping",)
        return ("close", *self.bye) if self.is_shaken and self.bye and not self.has_parted else None

    def opening(self):
        if self.link != self.first: return ("sequence", self.acked + 1, self.processed if self.is_three() else None)
        if self.side == "s": return ("response",) if self.is_shaken else None
        return None if self.is_closed else ("request", self.codec, self.version)

    def bytes_due(self):
        due = self.due()
        return None if due is None else spell(due, self.codec)

    # what a frame gives

    def gives(self, frame):
        """What the next frame gives, or None if it is a fault."""
        kind, *parts = frame
        if kind in ("request", "response"): return ("shaken",)
        if kind == "foreign": return ("skipped", f"unknown {parts[0]}")
        if kind == "close": return ("closed", parts[0])
        if kind == "ping": return ("ping",)
        if kind == "message": return self.gives_message(parts[0])
        if not self.is_kept: return ("skipped", "not-used")
        if kind == "ack": return ("acked", parts[0]) if parts[0] <= self.furthest else None
        first, received = parts[0], parts[1] or 0
        if first > self.processed + 1: return None
        if not self.is_three(): return ("sequenced", first)
        return ("resumed", first, received) if received <= self.furthest else None

    def gives_message(self, text):
        number = self.counts
        if number is not None and (self.is_three() or not self.is_kept):
            number = self.processed + 1 if self.link == self.first or self.is_opened else None
        if number is None: return ("skipped", "before-sequence")
        return ("message", text) if number == self.processed + 1 else ("skipped", f"duplicate {number}")

    # what may come

    def may_attach(self, link):
        return not self.is_closed and (self.first is None or self.is_kept) and (self.side == "s" or self.latest is None or self.latest < link)

    def has_room(self, text):
        count, most, frame = self.limits
        message = ("message", text)
        gone = self.acked if self.is_kept else self.furthest
        held = self.sizes[-1] - self.sizes[gone]
        return len(bare(message, self.codec)) <= frame and len(self.sent) - gone < count and held + len(spell(message, self.codec)) <= most

    def room_for_bytes(self):
        return self.limits[2] + FRAMING - (self.fed - self.read)

    # the steps

    def attach(self, link, now):
        self.moment = now
        self.link, self.latest = link, link
        self.first = link if self.first is None else self.first
        self.begin_link()
        self.is_quiet = False

    def leave(self):
        self.link, self.is_closed = None, self.is_closed or not self.is_kept

    def tick(self, now):
        """Whether it is a silence."""
        self.moment = now
        if self.link is None: return False
        if not self.is_closed and self.heard is not None and now >= self.heard + SILENCE:
            self.leave()
            return True
        self.heard = now if self.heard is None else self.heard
        self.is_quiet |= now >= self.wrote + PING_AFTER
        return False

    def close(self):
        self.is_closed, self.bye = True, (None, False)

    def send(self, text):
        self.sent.append(text)
        self.sizes.append(self.sizes[-1] + len(spell(("message", text), self.codec)))

    def feed(self, piece):
        self.fed, self.heard = self.fed + len(piece), None

    def lend(self):
        kind, *parts = self.due()
        self.is_opened, self.is_quiet, self.wrote = True, False, self.moment
        if kind in ("request", "response"): self.counted = 1
        if kind == "sequence": self.counted, self.told = parts[0], max(self.told, parts[1] or 0)
        if kind == "ack": self.told = max(self.told, parts[0])
        if kind == "close": self.has_parted = True
        if kind == "message":
            self.written = self.place()
            self.furthest = max(self.furthest, self.written)
            self.counted = None if self.counted is None else self.counted + 1

    def take(self, frame, size):
        got, (kind, *parts) = self.gives(frame), frame
        self.read += size
        if kind in ("request", "response"): self.shake(frame)
        if kind == "sequence": self.counts = parts[0]
        if kind == "message" and self.counts is not None: self.counts += 1
        if got[0] == "message": self.processed += 1
        if got[0] == "acked": self.acked = max(self.acked, got[1])
        if got[0] == "resumed": self.acked, self.is_resumed = max(self.acked, got[2]), True
        if got[0] == "closed": self.is_closed = True

    def shake(self, frame):
        self.is_shaken, self.counts = True, 1
        if frame[0] == "request": _, self.codec, self.version = frame
        self.is_kept = self.reconnect and self.version in (2, 3)


# ---- two ends


class Pair:
    """The marks of two ends, their clock, and what was said on each link."""

    def __init__(self, head):
        self.head, self.clock = head, 0
        self.ends = {side: Marks(side, *head) for side in "cs"}
        self.taken = set()  # the links that the server stood on
        self.bytes, self.frames = {}, {}  # what an end said on a link: all of it, and its frames with their sizes
        self.place = {"c": 0, "s": 0}  # how many frames of the present link an end has taken

    def there(self, side):
        """What the other end said on the present link of this one."""
        key = OTHER[side], self.ends[side].link
        return self.bytes.setdefault(key, bytearray()), self.frames.setdefault(key, [])

    def may_name(self, side, link):
        return side == "c" or link not in self.taken and ("c", link) in self.bytes

    def is_next(self, side, piece):
        at = self.ends[side].fed
        return self.there(side)[0][at : at + len(piece)] == piece

    def next_frame(self, side):
        end, (_, frames), place = self.ends[side], self.there(side), self.place[side]
        return frames[place] if place < len(frames) and end.read + frames[place][1] <= end.fed else None

    def broken(self, side, kind, told):
        """The first rule that a line breaks, or None."""
        end = self.ends[side]
        if kind == "attach": return None if end.may_attach(told) and self.may_name(side, told) else "link"
        if kind in ("detach", "fed", "lent", "took") and end.link is None: return "link"
        if kind in ("fed", "took", "close", "sent") and end.is_closed or kind == "sent" and not end.is_shaken: return "state"
        if kind == "tick" and told < self.clock: return "state"
        if kind == "fed" and not (self.is_next(side, told) and len(told) <= end.room_for_bytes()): return "bytes"
        if kind == "lent" and end.bytes_due() != told: return "due"
        if kind == "took" and self.words(side) != told: return "took"
        return "room" if kind == "sent" and not end.has_room(told) else None

    def words(self, side):
        """Of what the next frame gives, if there is one and it is no fault."""
        end, found = self.ends[side], self.next_frame(side)
        got = end.gives(found[0]) if found else None
        return words_of(got, end.processed + 1) if got else None

    def step(self, side, kind, told):
        end = self.ends[side]
        if kind == "attach": self.attach(side, told)
        if kind == "detach": end.leave()
        if kind == "fed": self.feed(side, told)
        if kind == "lent": self.lend(side, told)
        if kind == "took": self.take(side)
        if kind == "sent": end.send(told)
        if kind == "close": end.close()
        if kind == "tick":
            self.clock = told
            end.tick(told)

    def attach(self, side, link):
        self.ends[side].attach(link, self.clock)
        self.place[side] = 0
        self.bytes.setdefault((side, link), bytearray())
        if side == "s": self.taken.add(link)

    def feed(self, side, piece):
        self.ends[side].feed(piece)

    def lend(self, side, piece):
        end = self.ends[side]
        self.bytes[side, end.link] += piece
        self.frames.setdefault((side, end.link), []).append((end.due(), len(piece)))
        end.lend()

    def take(self, side):
        self.ends[side].take(*self.next_frame(side))
        self.place[side] += 1

    def told(self):
        client, server = self.ends["c"], self.ends["s"]
        counts = len(client.sent), client.processed, len(server.sent), server.processed
        return "world client sent {} processed {} server sent {} processed {}".format(*counts) + " still" * self.is_still()

    def is_still(self):
        client, server = self.ends["c"], self.ends["s"]
        return client.link is not None and client.link == server.link and all(self.has_done(side) for side in "cs")

    def has_done(self, side):
        end = self.ends[side]
        return end.is_shaken and not end.is_closed and end.due() is None and end.fed == end.read == len(self.there(side)[0])


# ---- one end alone


class Alone(Pair):
    """The marks of one end, the links on which it stood, and the bytes that it hasn't taken."""

    def __init__(self, head, side):
        super().__init__(head)
        self.side, self.unread = side, b""

    def may_name(self, side, link):
        return side == "c" or link not in self.taken

    def is_next(self, side, piece):
        return True

    def next_frame(self, side):
        end = self.ends[side]
        found = cut(end, self.unread, end.link == end.first and end.read == 0, 1)
        return found[0] if found else None

    def attach(self, side, link):
        super().attach(side, link)
        self.unread = b""

    def feed(self, side, piece):
        super().feed(side, piece)
        self.unread += piece

    def take(self, side):
        frame, size = self.next_frame(side)
        self.ends[side].take(frame, size)
        self.unread = self.unread[size:]

    def told(self):
        end = self.ends[self.side]
        return f"history {self.side} sent {len(end.sent)} processed {end.processed}"


# ---- the audit


def verdict(world, lines):
    for number, line in enumerate(lines, 2):
        if broken := world.broken(*line): return f"line {number} breaks {broken}\n", BREAKS
        world.step(*line)
    return f"{world.told()}\n", 0


def audit(data, side=None):
    """What `audit` writes of a trace and its exit status, as trace_model.audit."""
    return trace_model.judge(data, side, lambda head, lines: verdict(Pair(head), lines), lambda head, side, lines: verdict(Alone(head, side), lines))
