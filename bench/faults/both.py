"""A session of `sr client` with `sr serve`, of which one has a fault of its sockets. A socket that is lost is followed by another, on which is said
again what may be missing, so each call is carried out all the same, and once. Only a client that lost its socket before the end of the handshake ends
with status 8."""
import collections
import contextlib
import re
import subprocess
import sys
import tempfile

from preload import HERE, Fault, ended_at_last
from served import HANGS, LINE, SECONDS, begun_server, first_line

sys.path.insert(0, str(HERE.parent.parent / "acceptance" / "clients"))
from serving import free_port  # noqa: E402

ITEMS = 40
SCRIPT = b"""call Add [2,3]
wait
stream Count [40]
upload Sum []
item 3 4
item 3 5
done 3
wait
call Ask ["Confirm","yes"]
call Join ["one"]
wait
call Post ["one","text"]
wait
call History ["one",5]
call Slow [5,7]
wait
"""
# By hand: what is printed of each call, and of what the server calls.
PRINTED = {
    "": ["shaken", 'got Posted ["one",WHO,"text"]'],
    "1": ["call 1", "ended 1 result 5"],
    "2": ["call 2", *(f"item 2 {number}" for number in range(1, ITEMS + 1)), "ended 2 void"],
    "3": ["call 3", "ended 3 result 9"],
    "5": ["call 5", 'ended 5 result "yes"'],
    "6": ["call 6", "ended 6 void"],
    "7": ["call 7", "ended 7 void"],
    "8": ["call 8", 'ended 8 result ["text"]'],
    "9": ["call 9", "ended 9 result 7"],
}
MOVES = "lost", "again"
WHO = re.compile(r'"\d+"')  # its number is another one if it asked for a token more than once
NUMBERED = re.compile(r"(?:call|item|ended) (\d+)")
HOST = "localhost"  # a name, which is looked up


def by_call(lines):
    found = collections.defaultdict(list)
    for line in lines:
        if line not in MOVES:
            number = NUMBERED.match(line)
            found[number[1] if number else ""].append(line if number else WHO.sub("WHO", line))
    return dict(found)


def meet(program, fault, of_server):
    """The session, with this fault of the server or of the client: the client's exit status, unless the server has ended, and what was printed of
    each call, but for the sockets that were lost and followed by others."""
    port = free_port()
    with Fault(fault.library) as none:
        of_the_server, of_the_client = (fault, none) if of_server else (none, fault)
        with begun_server(program, port, of_the_server) as server:
            if first_line(server) != LINE:
                return HANGS, {}, []
            status, lines = dialing(program, port, of_the_client.environment())
            ended = server.poll()
    return status if ended is None else f"the server ended with {ended}", by_call(lines), []


def dialing(program, port, environment):
    with tempfile.TemporaryFile() as given, tempfile.TemporaryFile() as out:
        given.write(SCRIPT)
        given.seek(0)
        words = [program, "client", f"http://{HOST}:{port}/hub"]
        with ended_at_last(subprocess.Popen(words, stdin=given, stdout=out, stderr=subprocess.DEVNULL, env=environment)) as process:
            with contextlib.suppress(subprocess.TimeoutExpired):
                process.wait(SECONDS)
            status = HANGS if process.poll() is None else process.returncode
        out.seek(0)
        return status, out.read().decode().splitlines()
