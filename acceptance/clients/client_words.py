"""The words and the script of a client: those that it takes, and those that it refuses before it dials; and what is outside of it.

A case is its name, what it has to answer, and a function of the program. By docs/protocol.md, "Calling a server" and "Exit status": words that are no
command end with 1 and the usage line, and a script that is none with 2 and the number of its first line that is refused. Nobody is dialed then, nor
where the input can't be read or no turn is allowed."""
import os
import time

from running import Running
from stub import Stub

USAGE = 1, ["usage: sr replay, soak, serve, client, check, convert, user, record or audit"]
NO_TURN = 10, []
MOST_SCRIPT = 1_048_576  # bytes
LITTLE_MEMORY = "ulimit -d 2048"  # KiB of which a script may take half
NESTED = "[" * 63 + "]" * 63
TOO_NESTED = "[" * 64 + "]" * 64


def undialed(words, script=b"", **options):
    """How it ends with these words, of which URL is that of a server: its status, its lines, and how many connections came there."""

    def case(program):
        with Stub() as stub, Running(program, [stub.url() if word == "URL" else word for word in words], script, **options) as client:
            return client.ended(), stub.others()

    return case


# ---- words


def taken(*words):
    """Words that are a command, shown by one without turns."""
    return f"words: {' '.join(words)}", (NO_TURN, 0), undialed(words)


def no_command(*words):
    name = " ".join(word if isinstance(word, str) else repr(word) for word in words)
    return f"no command: {name}", (USAGE, 0), undialed(words)


def address(url):
    return f"an address: {url}", (NO_TURN, 0), undialed(["--turns", "0", url])


def no_address(url):
    return f"no address: {url}", (USAGE, 0), undialed(["--turns", "0", url])


WORD_CASES = [
    taken("URL", "--turns", "0"),
    taken("--turns=0", "URL"),
    taken("--turns", "+00", "URL"),
    taken("--turns", "0", "--", "URL"),
    taken("--codec", "json", "--token", "a b", "--resend", "1", "32773", "--turns", "0", "URL"),
    taken("URL", "--turns", "0", "--codec=pack", "--resend", "65536", "524288"),
    taken("URL", "--turns", "0", "--resend", "+1", "032773"),
    taken("URL", "--turns", "0", "--token", "ü"),
    no_command(),
    no_command("URL", "URL"),
    no_command("URL", "now"),
    no_command("URL", "--codec"),
    no_command("URL", "--codec", "xml"),
    no_command("URL", "--codec", "JSON"),
    no_command("URL", "--codec", "messagepack"),
    no_command("URL", "--codec", "json", "--codec", "json"),
    no_command("URL", "--token"),
    no_command("URL", "--token", "a", "--token", "b"),
    no_command("URL", "--token", b"\xff"),
    no_command("URL", "--turns"),
    no_command("URL", "--turns", "-1"),
    no_command("URL", "--turns", "1.0"),
    no_command("URL", "--turns", "18446744073709551616"),
    no_command("URL", "--resend", "1"),
    no_command("URL", "--resend", "0", "32773"),
    no_command("URL", "--resend", "65537", "32773"),
    no_command("URL", "--resend", "1", "32772"),
    no_command("URL", "--resend", "1", "524289"),
    no_command("URL", "--port", "8080"),
    no_command("URL", "--live", "1"),
    no_command("URL", "-t", "0"),
    no_command("URL", "--turn", "0"),
    no_command("--help"),
    no_command("URL", "--version"),
    *map(address, ["http://localhost", "http://localhost:80/hub", "http://[::1]:8080/", "http://192.0.2.1/a@b", "HTTP://h/%20/../x"]),
    *map(no_address, ["https://localhost/hub", "ws://localhost/hub", "file:///hub", "localhost:8080/hub", "/hub", "", "http://"]),
    *map(no_address, ["http://h/hub?", "http://h/hub?a=b", "http://h/hub#", "http://h/hub#x", "http://u@h/hub", "http://u:p@h/hub"]),
    *map(no_address, ["http://@h/hub", "http://[::1/hub", "http://h h/hub", "http://:8080/hub", "http://h:x/hub", "http://h:65536/hub"]),
]


# ---- scripts


def shown(line):
    return line if len(line) < 40 else f"{line[:30]}.. ({len(line)} signs)"


def refused_line(line):
    """A line that no script has, behind four that are some."""
    script = f'notify Echo [1]\n\n# a remark\nwait\n{line}\nfrob\n'.encode() if isinstance(line, str) else b"wait\nwait\nwait\nwait\n" + line
    return f"no line: {shown(line)!r}", ((2, ["line 5 refused"]), 0), undialed(["URL"], script)


def fine_lines(name, *lines):
    return f"lines: {name}", (NO_TURN, 0), undialed(["URL", "--turns", "0"], "\n".join(lines).encode())


def sized(name, text, line=None):
    return f"a script {name}", ((2, [f"line {line} refused"]) if line else NO_TURN, 0), undialed(["URL", "--turns", "0"], text)


REFUSED_LINES = [
    *("frob", "Call Echo []", "call", "call Echo", "call  []", "call Echo[]", "call Echo ", "call Echo {}", "call Echo 1", "call Echo [1] 2"),
    *("call Echo [", "call Echo\t[1]", " call Echo []", "call Echo ['a']", 'call Echo ["\\ud800"]', "call Echo [01]", "call Echo [1,]"),
    *("call Echo [nul]", "call Echo [1e400]", "call Echo [1.5]", "call Echo [1.0]", "call Echo [1e3]", "call Echo [-0]"),
    *("call Echo [18446744073709551616]", "call Echo [-9223372036854775809]", f"call Echo [{TOO_NESTED}]", f"item 1 [{TOO_NESTED}]"),
    *("stream Count", "notify Echo", "upload Sum", "upload Sum 1"),
    *("item 1", "item 1 ", "item 01 5", "item -1 5", "item +1 5", "item * 5", "item x 5", "item 1 5 5", "item  1 5", "item 5"),
    *("item 18446744073709551616 5", "done", "done ", "done 1 ", "done 01", "done *", "done 1 2"),
    *("cancel", "cancel x", "cancel -1", "cancel 1 ", "cancel 00"),
    *("wait ", " wait", "wait 1", "wait\r", "Wait", "lose ", "lose 1", " ", "\t", " # no remark", "\ufeffwait"),
    *("c call Echo []", "c lose", "round", "tick 5", "open", "close", "codec json", "peers on", 'send {"type":6}', "read 1"),
    *(b"wait\xff\n", b"# \xff\n", b'call Echo ["\xc3"]\n'),
]
REMARKS = b"#" * 63 + b"\n"
SCRIPT_CASES = [
    *map(refused_line, REFUSED_LINES),
    ("no line is done of a script whose last one is refused", ((2, ["line 2 refused"]), 0), undialed(["URL"], b"call Echo [1]\nloose\n")),
    ("a script that is refused, and no turn", ((2, ["line 1 refused"]), 0), undialed(["URL", "--turns", "0"], b"loose")),
    fine_lines("white space of JSON", "call Echo [1]\r", "call Echo  [ 1 ,\t2 ] ", "item 1   5", "upload Sum\t []"),
    fine_lines("targets", "call É [\"é\"]", "call \t [1]", "notify [] []", "stream # [1]"),
    fine_lines("numbers", "item 0 null", "item 18446744073709551615 1", "done 18446744073709551615", "cancel 0", "done 0"),
    fine_lines("values", f"call Echo [{NESTED}]", 'call Echo [{"a":1.5,"a":1}]', "call Echo [18446744073709551615]", 'item 1 "\\u0000"'),
    fine_lines("remarks and empty ones, and a last one without its end", "#", "#frob", "", "", "wait", "lose", "wait"),
    sized("of a mebibyte", REMARKS * (MOST_SCRIPT // 64)),
    sized("of a byte more", REMARKS * (MOST_SCRIPT // 64) + b"#", MOST_SCRIPT // 64 + 1),
    sized("of a mebibyte in one line", b"#" * MOST_SCRIPT),
    sized("of a line whose end is a byte too far", b"wait\n" + b"#" * (MOST_SCRIPT - 5) + b"\n", 2),
    sized("of many mebibytes, with a line that is refused before", b"wait\nfrob\n" + REMARKS * (MOST_SCRIPT // 8), 2),
]


# ---- outside


def folder(program):
    """A folder as the input, which can't be read."""
    there = os.open("/", os.O_RDONLY)
    try:
        return undialed(["URL"], stdin=there)(program)
    finally:
        os.close(there)


def full_output(program):
    """What the first line is of is done, and what it says is said before it is printed: the handshake and the call."""
    with open("/dev/full", "wb") as full, Stub() as stub, Running(program, [stub.url()], b"call Echo [1]\n", stdout=full) as client:
        stub.tells()
        lane = stub.comes_up()
        lane.hear()
        lane.say(b"{}\x1e")
        said = lane.hear()[1]
        return client.ended(), said, stub.others()


def closed_output(program):
    """An output whose reader is gone."""
    ours, theirs = os.pipe()
    os.close(ours)
    with Stub() as stub, Running(program, [stub.url()], b"", stdout=theirs, restore_signals=False) as client:
        os.close(theirs)
        stub.tells()
        lane = stub.comes_up()
        lane.hear()
        lane.say(b"{}\x1e")
        return client.ended(), stub.others()


def full_and_refused(program):
    with open("/dev/full", "wb") as full:
        return undialed(["URL"], b"frob", stdout=full)(program)


def few_turns(program):
    """The first turn asks for a token, which is written before it ends; the next two hear nothing."""
    told = []
    for turns in "1", "3":
        with Stub() as stub, Running(program, [stub.url(), "--turns", turns], b"call Echo [1]\n") as client:
            lane = stub.lane()
            target = lane.request().decode().split(" ")[1]
            told.append((target, lane.rest_of_it(), client.ended(), stub.others()))
    return told


def turns_enough(program):
    """A turn ends with what was heard, or after a tenth of a second; so a hundred last for a while."""
    with Stub() as stub, Running(program, [stub.url(), "--turns", "100"], b"call Echo [1]\n") as client:
        stub.tells()
        lane = stub.comes_up()
        lane.hear()
        lane.say(b"{}\x1e")
        lane.hear()
        lane.say(b'{"invocationId":"1","result":1,"type":3}\x1e')
        lane.rest_of_it()
        return client.ended()


def late_script(program):
    """The script comes in three pieces; nobody is dialed before it has ended."""
    ours, theirs = os.pipe()
    with Stub() as stub, Running(program, [stub.url()], stdin=ours) as client:
        os.close(ours)
        for piece in b"call Echo [1]\n", b"wa", b"it\n":
            os.write(theirs, piece)
            time.sleep(0.1)
        early = stub.others()
        os.close(theirs)
        stub.socket.settimeout(20)
        stub.tells(status=404)
        return early, client.ended()


ASKED = "/hub/negotiate?negotiateVersion=1&useStatefulReconnect=true"
SAID = b'{"arguments":[1],"invocationId":"1","target":"Echo","type":1}\x1e'
LONG = b'call Echo ["' + b"x" * 30_000 + b'"]\n'
OUTSIDE_CASES = [
    ("an input that can't be read", ((3, []), 0), folder),
    ("an output that takes nothing", ((4, []), SAID, 0), full_output),
    ("an output whose reader is gone", ((4, []), 0), closed_output),
    ("a script that is refused, and an output that takes nothing", ((4, []), 0), full_and_refused),
    ("little memory, and a short script", (NO_TURN, 0), undialed(["URL", "--turns", "0"], limit=LITTLE_MEMORY)),
    ("little memory, and a long script", ((7, []), 0), undialed(["URL", "--turns", "0"], LONG * 30, limit=LITTLE_MEMORY)),
    ("few turns", [(ASKED, b"", (10, []), 0)] * 2, few_turns),
    ("turns enough", (0, ["shaken", "call 1", "ended 1 result 1"]), turns_enough),
    ("a script that comes in pieces, as one that is typed", (0, (8, [])), late_script),
]


CASES = WORD_CASES + SCRIPT_CASES + OUTSIDE_CASES
