"""What has to come of a call that fails, by its kind: the exit statuses are those of docs/protocol.md, with what is written at each."""
import dataclasses
from errno import EBADF, ECONNABORTED, ECONNRESET, EINTR, EINVAL, EIO, EMFILE, ENOMEM, ENOSPC

from served import CLOSED

SAME = "the same"  # all is as without the fault: the call wasn't needed, was made again, or another was made in its place
EARLY = "8 before the handshake"
NOBODY, ONE_BY_500, ONE_AT_MOST = "nobody", "one, with 500", "one at most, whose connection was shut"


@dataclasses.dataclass
class Rule:
    """What may come of a call of this kind that fails with this error, and, if it `goes_on`, of all that follow it: exit statuses or `SAME`. Whose
    request was `turned` away made it once more."""

    kind: str
    error: int
    answers: tuple
    turned: str = NOBODY
    goes_on: bool = False

    def ends(self):
        """Whether the program has to end of it."""
        return SAME not in self.answers


def rules(kinds, error, *answers, **options):
    return [Rule(kind, error, answers, **options) for kind in kinds.split()]


MEMORY = [*rules("memory", ENOMEM, 7, SAME), *rules("memory", ENOMEM, 7, SAME, goes_on=True)]
INPUT = [*rules("read", EIO, 3), *rules("read", EINTR, 3)]
OUTPUT = [*rules("write", EIO, 4), *rules("write", ENOSPC, 4), *rules("complain", EIO, SAME)]
INTERRUPTED = rules("wait recv send", EINTR, SAME)
# Of a row, whose words may be any command.
ROW_RULES = [*MEMORY, *INPUT, *OUTPUT]
# What a server lacks before the first client comes ends it. A connection that the system doesn't give later is turned away, and nobody else hears it.
SERVER_RULES = [
    *MEMORY,
    *OUTPUT,
    *rules("wait accept", EBADF, 5),
    *rules("clock", EINVAL, 5),
    *rules("epoll socket bind listen", ENOMEM, 5),
    *rules("option control", EIO, 5, SAME),
    *rules("watch", ENOMEM, 5, SAME, turned=ONE_AT_MOST),
    *rules("accept", EMFILE, SAME, turned=ONE_AT_MOST),
    *rules("accept", ECONNABORTED, SAME),
    *rules("accept", EINTR, SAME),
    *rules("draw", EIO, SAME, turned=ONE_BY_500),
    *rules("name limit shut close", EIO, SAME),
    *INTERRUPTED,
]
# A dial that the system doesn't give is lost, and made again. Once a client has ended it waits until all is written, and passes over what fails then.
CLIENT_RULES = [
    *MEMORY,
    *INPUT,
    *OUTPUT,
    *rules("wait", EBADF, 5, SAME),
    *rules("clock", EINVAL, 5, SAME),
    *rules("draw", EIO, 9),
    *rules("epoll", EMFILE, 5),
    *rules("socket connect watch control", ENOMEM, SAME, turned=ONE_AT_MOST),
    *rules("option shut close", EIO, SAME),
    *INTERRUPTED,
]
# A lane that is lost is followed by another, on which is said again what may be missing.
LANES = [*rules("recv send", ECONNRESET, SAME, EARLY), *INTERRUPTED]
SERVER_LANE_RULES = [*LANES, *rules("accept", EMFILE, SAME), *rules("draw", EIO, 8)]
CLIENT_LANE_RULES = [*LANES, *rules("socket connect watch control lookup", ENOMEM, SAME)]


def first_part(told, whole):
    """Whether what was told is a first part of the whole. A socket on which memory was lacking is shut by a close frame, as each that is shut is."""
    part = told[:-1] if told[-1:] == [CLOSED] else told
    return whole[: len(part)] == part


def first_parts(_status, told, whole):
    return all(first_part(part, whole[name]) for name, part in told.items())


def is_turned(rule, turned):
    """Whether just those were turned away whom the rule lets."""
    if rule.turned == ONE_AT_MOST:
        return len(turned) <= 1 and "500" not in turned
    return turned == (["500"] if rule.turned == ONE_BY_500 else [])


def answer_of(rule, outcome, expected, may_be_told=first_parts):
    """Which of the rule's answers this outcome is, or None. `expected` is what comes without the fault: a status, and what is told."""
    status, told, turned = outcome
    whole = expected[1]
    if (status, told) == expected:
        answer = SAME if is_turned(rule, turned) else None
    elif status == 8 and EARLY in rule.answers:
        answer = EARLY if "shaken" not in told.get("", []) and first_parts(status, told, whole) else None
    else:
        answer = status if may_be_told(status, told, whole) else None
    return answer if answer in rule.answers else None
