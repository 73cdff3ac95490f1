#!/usr/bin/env python3
"""Lines for the program crates/ht_mio, each beside the line that it wants: `LINE => ANSWER`, or `note TEXT`, which is answered by itself.

    acceptance/mio_script.py --check [BUILT] | --write      the lines and their answers (committed.py)

The answers come from no run of the program, but from what TCP promises (RFC 9293: bytes come in order, and after them the end) and from the traits of
docs/lanes.md. Each case begins with wires that listen anew. crates/ht_mio/src has the words of a line."""
import sys

import committed

CASES = """
note what is written is read by the peer
listen => listens
peer connect => peer 0
far accept => wire 0
far write 0 hello => wrote 5
peer read 0 => read hello

note what the peer wrote is read, and then its end
listen => listens
peer connect => peer 0
far accept => wire 0
far read-now 0 => not yet
peer write 0 hello => written
far read 0 => read hello
far read-now 0 => not yet
peer end 0 => ended
far read 0 => ended

note a port that is taken is told
listen => listens
taken => start, poll and accept fail

note a wire that is shut says all that was written, though the peer wrote what nobody read
listen => listens
peer connect => peer 0
far accept => wire 0
peer fill 0 => written
far write 0 no => wrote 2
far shut 0 => shut
far write 0 more => failed
peer fill 0 => written
far poll 100 => polled
peer read 0 => read no
peer read 0 => ended

note a slot is used again under another number
listen => listens
peer connect => peer 0
far accept => wire 0
peer end 0 => ended
far read 0 => ended
far shut 0 => shut
peer connect => peer 1
far accept => wire 1
far numbers 0 1 => later, the same slot
far read-now 0 => failed

note what is dialed is accepted
listen => listens
near dial => wire 0
far accept => wire 0
near poll 100 => polled
near accept-now => none
near write 0 hello => wrote 5
far read 0 => read hello
far write 0 hi => wrote 2
near read 0 => read hi

note why a connection couldn't be made is told until one is made
listen => listens
near why => none
near dial-all => failed
near why => unreachable
near dial => wire 0
near why => unreachable
far accept => wire 0
far write 0 hi => wrote 2
near read 0 => read hi
near why => none
leave => left
near dial => wire 1
near read 1 => failed
near why => refused
near write 1 hello => failed
near why => refused
near read 0 => ended
near why => refused
return => listens
near dial => wire 2
near why => refused
far accept => wire 0
far write 0 hi => wrote 2
near read 2 => read hi
near why => none

note wires are named in turn until a read gives nothing
listen => listens
peer connect => peer 0
far accept => wire 0
far named 0 => wire 0
peer connect => peer 1
far accept => wire 1
peer connect => peer 2
far accept => wire 2
far numbers 0 1 => later, another slot
far read-now 0 => not yet
far read-now 1 => not yet
far read-now 2 => not yet
far named 0 => none
peer write 2 hello => written
far awaited 2 0 => named
peer write 1 hello => written
far awaited 1 0 => named
far named 1 => wire 2
far named 2 => wire 1
far read-now 1 => read hello
far named 0 => wire 1
far read-now 1 => not yet
far named 0 => wire 2
far shut 2 => shut
far named 0 => none

note what came is read to its end after one event
listen => listens
peer connect => peer 0
far accept => wire 0
far read-now 0 => not yet
peer write 0 hello, world => written
peer end 0 => ended
far read 0 => read hello, w
far read-now 0 => read orld
far read-now 0 => ended

note lines that ask nothing
listen on => no action: listen on
far => no action: far
far read 1 => no action: far read 1
far say 0 => no action: far say 0
near numbers 0 0 => no action: near numbers 0 0
peer read 1 => no action: peer read 1
peer say 0 => no action: peer say 0
"""


def made():
    return committed.pairs(CASES)


if __name__ == "__main__":
    sys.exit(committed.main("ht_mio", made))
