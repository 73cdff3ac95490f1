#!/usr/bin/env python3
"""Tries examples/viewer in a real browser: what it draws of sessions, and what it says of texts that it can't read.

    acceptance/viewer.py [PROGRAM] [--picture FILE] [--random SEED N]

PROGRAM, which makes the reports, is bin/sr by default, and so the release if nothing newer was built. Needs chromium (a Debian package);
where it isn't installed it says so and ends with status 0. `--picture` keeps a picture of a lost link, `--random` has N random scripts
drawn, 100 of the seed 1 if it isn't given. It isn't part of the gate.

What has to be drawn follows from the script of a session: it is written here by hand, or read off the ends of replay_model.py, which play
the script and share no code with the page. The sessions are the scripts of examples/, those of acceptance/sessions/ and random ones; a
session of two ends is also drawn from its trace, which is that of trace_model.py. The last line is 'N passed, N failed'; the
status is 0 if none failed."""
import base64
import collections
import contextlib
import itertools
import json
import pathlib
import random
import shutil
import subprocess
import sys
import tempfile

import replay_model
import sessions
import trace_model
from chat import Browser, Page, Trial

TOP = pathlib.Path(__file__).resolve().parent.parent
VIEWER = TOP / "examples" / "viewer" / "index.html"
OTHER = {"c": "s", "s": "c"}
NAMES = {"c": "client", "s": "server"}
WIDTH, HEIGHT = 1360, 900
LINES, LETTERS = 60, 400  # that are shown of a session whose picture is wrong
SHARE = 8  # of the places at which a session loses links, one of so many is drawn
MOST_LINES = 400  # of a script that is drawn, since the model scans its lists again and again


# ---- what a script comes to, by the ends of the model


def play(text):
    """The script as the model has played it."""
    lines = text.removesuffix("\n").split("\n") if text else []
    played = replay_model.new_script(lines)
    if type(played) is replay_model.Script:
        played = trace_model.Recorder()
    for line in lines:
        played.line(line)
    if not played.begun:
        played.begin()
    return played


def fate(reader, link, place):
    """What became of a frame of a link, the place-th of those that were said to the reader there."""
    taken = [step[1] for step in reader.on_link("took", link)]
    if place < len(taken):
        is_duplicate = taken[place][0] == "skipped" and taken[place][1].startswith("duplicate")
        return "twice" if is_duplicate else "taken"
    left = link in reader.links() and reader.link() != link
    return "lost" if left or reader.closed() else "waiting"


def wanted(played):
    """How many of what the picture of a session has to have."""
    found = collections.Counter()
    for (side, link), frames in played.frames.items():
        for place, (frame, _) in enumerate(frames):
            kind = "message" if frame[0] == "message" else "control"
            found[f"arrow {kind} {fate(played.ends[OTHER[side]], link, place)} of-{NAMES[side]}"] += 1
    for end in played.ends.values():
        found["link"] += end.link() is not None
        found["link torn"] += len(end.links()) - (end.link() is not None)
    return {what: count for what, count in found.items() if count}


def report_of(program, text):
    return subprocess.run([program, "replay"], input=text, capture_output=True, text=True, timeout=60).stdout


# ---- what the page shows

COUNTED = """(() => {
  const counts = {};
  for (const it of document.querySelectorAll("#picture .arrow, #picture .link")) {
    const name = it.getAttribute("class");
    counts[name] = (counts[name] ?? 0) + 1;
  }
  return counts;
})()"""


class Viewer(Page):
    def __init__(self, browser):
        super().__init__(browser, "viewer", VIEWER.as_uri())
        self.ask("Emulation.setDeviceMetricsOverride", width=WIDTH, height=HEIGHT, deviceScaleFactor=1, mobile=False)

    def draw(self, report, script=""):
        """Types both texts into the page."""
        for name, text in ("report", report), ("script", script):
            field = f"document.getElementById('{name}')"
            self.value(f"{field}.value = {json.dumps(text)}; {field}.dispatchEvent(new Event('input'))")

    def fault(self):
        return self.value("document.getElementById('fault').textContent")

    def counts(self):
        return self.value(COUNTED)

    def texts(self, what):
        """The texts of the parts of the picture that a selector names, from above to below."""
        parts = f"[...document.querySelectorAll('#picture {what}')]"
        return self.value(f"{parts}.sort((a, b) => a.getBoundingClientRect().top - b.getBoundingClientRect().top).map(it => it.textContent)")

    def arrows(self):
        """Of each arrow what it says, and whose it is."""
        return self.value("[...document.querySelectorAll('#picture .arrow')].map(it => [it.querySelector('text').textContent, it.getAttribute('class').slice(6)])")

    def count(self, what):
        return self.value(f"document.querySelectorAll('#picture {what}').length")

    def is_drawn(self):
        return self.count("svg") == 1

    def drop(self, *files):
        """Drops files with these names and texts onto the page."""
        self.value(
            f"""(() => {{
              const dropped = new DataTransfer();
              for (const [name, text] of {json.dumps(files)}) dropped.items.add(new File([text], name));
              document.body.dispatchEvent(new DragEvent("drop", {{ dataTransfer: dropped, bubbles: true, cancelable: true }}));
            }})()"""
        )

    def press(self, key):
        for kind in "rawKeyDown", "keyUp":
            self.ask("Input.dispatchKeyEvent", type=kind, key=key, code=key, windowsVirtualKeyCode={"Tab": 9, "ArrowDown": 40}[key])

    def has_focus(self):
        return self.value("document.activeElement.id")

    def picture_of_svg(self, path):
        rectangle = self.value("(({ x, y, width, height }) => ({ x, y, width, height, scale: 1 }))(document.querySelector('#picture svg').getBoundingClientRect())")
        data = self.ask("Page.captureScreenshot", format="png", clip=rectangle, captureBeyondViewport=True)["data"]
        pathlib.Path(path).write_bytes(base64.b64decode(data))


# ---- by hand

LOST_LINK = (TOP / "examples" / "lost-link.script").read_text()
LOST_LINK_ARROWS = [
    ["handshake json 2", "control taken of-client"],
    ["handshake accepted", "control taken of-server"],
    ["1 a", "message taken of-client"],
    ["2 b", "message lost of-client"],
    ["Ack 1", "control taken of-server"],
    ["Sequence 2", "control taken of-client"],
    ["2 b", "message taken of-client"],
]
ACROSS = (TOP / "examples" / "a-call-across-links.script").read_text()
ACROSS_ARROWS = [
    ["handshake json 2", "control taken of-client"],
    ["handshake accepted", "control taken of-server"],
    ["1 Sum #1", "message taken of-client"],
    ["2 item #2 20", "message taken of-client"],
    ["3 item #2 22", "message taken of-client"],
    ["Sequence 1", "control taken of-client"],
    ["1 Sum #1", "message twice of-client"],
    ["2 item #2 20", "message twice of-client"],
    ["3 item #2 22", "message twice of-client"],
    ["4 end #2 ", "message taken of-client"],
    ["Sequence 1", "control taken of-server"],
    ["Ack 4", "control taken of-server"],
    ["1 end #1 42", "message taken of-server"],
]
# After 15 s without a word the client says a Ping, which the server reads; after 30 s without a word of the server it gives up the link. So
# nobody reads the server's Ping.
SILENCE = """open
accept 0
c write *
s read *
s write *
c read *
tick 1000
tick 16000
c write *
s read *
tick 31000
s write *
"""
SILENCE_ARROWS = [
    ["handshake json 2", "control taken of-client"],
    ["handshake accepted", "control taken of-server"],
    ["Ping", "control taken of-client"],
    ["Ping", "control lost of-server"],
]
# The server has read both messages, and its Ack comes on the next link before they are said again there: the client goes on with a third.
AGAIN = """open
accept 0
c write *
s read *
s write *
c read *
c send {"arguments":[],"target":"a","type":1}
c send {"arguments":[],"target":"b","type":1}
c write *
s read *
open
accept 1
c write 1
s write *
c read *
c send {"arguments":[],"target":"c","type":1}
c write *
s read *
"""
AGAIN_ARROWS = [
    ["handshake json 2", "control taken of-client"],
    ["handshake accepted", "control taken of-server"],
    ["1 a", "message taken of-client"],
    ["2 b", "message taken of-client"],
    ["Sequence 1", "control taken of-client"],
    ["Sequence 1", "control taken of-server"],
    ["Ack 2", "control taken of-server"],
    ["Sequence 3", "control taken of-client"],
    ["3 c", "message taken of-client"],
]
# In MessagePack the first message has 8 bytes after a length of one, the second, with a target of 130 letters, 138 after a length of two.
PACKED = """codec pack
open
accept 0
c write *
s read *
s write *
c read *
c send {"arguments":[],"target":"a","type":1}
c send {"arguments":[],"target":"LONG","type":1}
c write *
s read 9
s write *
s read SIZE
s write *
s lose
"""
PACKED_ARROWS = [
    ["handshake messagepack 2", "control taken of-client"],
    ["handshake accepted", "control taken of-server"],
    ["1 a", "message taken of-client"],
]
HANDSHAKE = b'{"protocol":"json","version":2}\x1e'.hex()
ECHO = '{"arguments":[5],"invocationId":"7","target":"Echo","type":1}'
FIVE = '{"invocationId":"7","result":5,"type":3}'
ONE_SIDE = f"""trace json 2 on 1024 100000 32768
s tick 5
s attach 0
s fed {HANDSHAKE}
s took shaken
s lent 7b7d1e
s fed {ECHO.encode().hex()}1e
s took got 1 {ECHO}
s sent {FIVE}
s lent {FIVE.encode().hex()}1e
"""
ONE_SIDE_ARROWS = [
    ["handshake json 2", "control taken of-client"],
    ["handshake accepted", "control taken of-server"],
    ["1 Echo #7", "message taken of-client"],
    ["1 end #7 5", "message taken of-server"],
]
# What a proxy sees, without steps that nobody sees: the server's answer is lost with a socket, and the client says its call again on the next.
BARE = f"""trace json 2 on 1024 100000 32768
s tick 5
s attach 0
s fed {HANDSHAKE}
s lent 7b7d1e
s fed {ECHO.encode().hex()}1e
s lent {FIVE.encode().hex()}1e
s tick 9
s detach
s attach 1
s lent {b'{"sequenceId":1,"type":9}'.hex()}1e
s fed {b'{"sequenceId":1,"type":9}'.hex()}1e{ECHO.encode().hex()}1e
s lent {FIVE.encode().hex()}1e
"""
BARE_ARROWS = [
    ["handshake json 2", "control taken of-client"],
    ["handshake accepted", "control taken of-server"],
    ["1 Echo #7", "message taken of-client"],
    ["1 end #7 5", "message taken of-server"],
    ["Sequence 1", "control taken of-server"],
    ["Sequence 1", "control taken of-client"],
    ["1 Echo #7", "message twice of-client"],
    ["1 end #7 5", "message taken of-server"],
]


def try_lost_link(trial, page, program):
    page.draw(report_of(program, LOST_LINK), LOST_LINK)
    trial.check("a lost link: each frame is drawn, and what was lost is lost", page.arrows() == LOST_LINK_ARROWS, f"{page.arrows()} {page.fault()}")
    trial.check("a lost link: both ends stand on two links, of which the first is torn", page.counts().get("link torn") == 2 == page.counts().get("link"), page.counts())
    trial.check("a lost link: the client holds one, two, and one once one is acknowledged", page.texts(".hold text") == ["1", "2", "1"], page.texts(".hold text"))
    ends = ["Ready sent 2 processed 0 held 1", "Ready sent 0 processed 2 held 0"]
    trial.check("a lost link: below stands how the ends stand", sorted(page.texts(".stand")) == sorted(ends), page.texts(".stand"))
    colours = page.value("['.lost .line', '.taken.message .line'].map(it => getComputedStyle(document.querySelector('#picture ' + it)).stroke)")
    red, green, blue = map(int, colours[0].removeprefix("rgb(").removesuffix(")").split(", "))
    trial.check("a lost link: what was lost is red", red > 150 > 2 * max(green, blue) - 50 and colours[0] != colours[1], colours)


def try_call(trial, page, program):
    page.draw(report_of(program, ACROSS), ACROSS)
    trial.check("a call across links: what the server had before is drawn as such", page.arrows() == ACROSS_ARROWS, f"{page.arrows()} {page.fault()}")
    trial.check("a call across links: one bracket, which ends", (page.count(".bracket"), page.count(".bracket.open")) == (1, 0), page.count(".bracket"))
    open_call = "\n".join(ACROSS.splitlines()[:-1]) + "\n"  # without the last read
    page.draw(report_of(program, open_call), open_call)
    found = page.count(".bracket"), page.count(".bracket.open"), page.count(".arrow.waiting")
    trial.check("a call whose end isn't read yet: its bracket is open, and three frames are on their way", found == (1, 1, 3), found)


def try_silence(trial, page, program):
    page.draw(report_of(program, SILENCE), SILENCE)
    trial.check("a silence: the client gives up its link, and the last Ping is lost", page.arrows() == SILENCE_ARROWS, f"{page.arrows()} {page.fault()}")
    trial.check("a silence: the client's link is torn alone", (page.count(".link.torn"), page.count(".link")) == (1, 2), page.counts())
    moments = ["1,000 ms", "16,000 ms", "31,000 ms"]
    trial.check("a silence: its moments are drawn", page.texts(".moment") == moments, page.texts(".moment"))
    trial.check("a silence: it is told at the client", "silent" in " ".join(page.texts(".label")), page.texts(".label"))


def try_sizes(trial, page, program):
    """Which frames are whole in so many bytes."""
    for size, ends in (139, [["lost", "1"]]), (140, [["taken", "1"], ["taken", "2"]]):
        text = PACKED.replace("LONG", "x" * 130).replace("SIZE", str(size))
        page.draw(report_of(program, text), text)
        long = [f"2 {'x' * 33}…", f"message {ends[-1][0]} of-client"]
        wanted_arrows = [*PACKED_ARROWS, long, *([f"Ack {count}", "control waiting of-server"] for _, count in ends)]
        trial.check(f"of a message of 140 bytes {size} are read", page.arrows() == wanted_arrows, f"{page.arrows()} {page.fault()}\n  {wanted_arrows}")


def try_again(trial, page, program):
    page.draw(report_of(program, AGAIN), AGAIN)
    trial.check("an Ack before what it acknowledges is said again: the client goes on past it", page.arrows() == AGAIN_ARROWS, f"{page.arrows()} {page.fault()}")


def try_one_side(trial, page):
    page.draw(ONE_SIDE)
    trial.check("a trace of one end: what it was given came from the other", page.arrows() == ONE_SIDE_ARROWS, f"{page.arrows()} {page.fault()}")
    trial.check("a trace of one end: it has one link", (page.count(".link"), page.count(".link.torn")) == (1, 0), page.counts())
    page.draw(f"{ONE_SIDE.splitlines()[0]}\nc attach 0\nc lent {HANDSHAKE}\n")
    waits = [["handshake json 2", "control waiting of-client"]]
    trial.check("a trace in which nobody was given anything: what was said isn't read yet", page.arrows() == waits, page.arrows())
    page.draw(BARE)
    trial.check("a recording without what was taken: a message that is said again is told from one that is new", page.arrows() == BARE_ARROWS, f"{page.arrows()} {page.fault()}")
    trial.check("a recording without what was taken: the server holds its answer", page.texts(".hold text") == ["1"], page.texts(".hold text"))


def try_verdict(trial, page):
    """Of a trace that breaks a rule, the line that does is marked, and what came before is drawn, and after it as far as it can be followed."""
    lines = "trace json 2 on 1024 100000 32768\nc attach 0\nc lent 7b7d1e\ns lent 7b7d1e\nc took shaken\n"
    page.draw(lines, "line 3 breaks due\n")
    found = page.texts(".mark text"), page.arrows(), page.fault()
    trial.check("a trace that breaks a rule: its line is marked", found == (["line 3 breaks due"], [["handshake accepted", "control waiting of-client"]], ""), found)
    page.draw(lines, "line 5 breaks link\n")
    said = "Line 4 of the trace: this end stands on no link: s lent 7b7d1e"
    trial.check("a trace that breaks a rule before the line that is named: that is said", page.fault() == said and not page.is_drawn(), page.fault())


def try_report_alone(trial, page, program):
    page.draw(report_of(program, LOST_LINK))
    got = [["1 a", "message taken of-client"], ["2 b", "message taken of-client"]]
    messages = [arrow for arrow in page.arrows() if arrow[1].startswith("message")]
    trial.check("a report alone: both messages arrive", messages == got, page.arrows())
    trial.check("a report alone: no link is drawn", page.count(".link") == 0, page.count(".link"))


FAULTS = [
    # what the case is, the report, the script, what is said, the line that is shown as wrong
    ("a line that no report has", "c shaken\nc shakes\nX\n", "", "Line 2 of the report: it isn't understood: c shakes", ("report", "c shakes")),
    ("a report without its end", "s shaken\nc shaken\n", "", "Line 2 of the report: the last two lines should tell how the client and the server stand", ("report", "c shaken")),
    ("a script that was refused", "line 2 refused\n", "open\nacept 0\n", "Line 2 of the script: it was refused, so nothing was played", ("script", "acept 0")),
    ("a line that no script has", "REPORT", "open\nc reads *\n", "Line 2 of the script: it isn't understood: c reads *", ("script", "c reads *")),
    ("a trace with another line", "trace json 2 on 1024 100000 32768\nc attach 0\nx\n", "", "Line 3 of the trace: it isn't understood: x", ("report", "x")),
    ("a trace whose end stands on no link", "trace json 2 on 1024 100000 32768\nc lent 7b7d1e\n", "", "Line 2 of the trace: this end stands on no link: c lent 7b7d1e", ("report", "c lent 7b7d1e")),
    ("a script alone", "", "open\n", "A script doesn't tell what came of it: its report is wanted too.", None),
]


def try_faults(trial, page, program):
    for name, report, script, said, place in FAULTS:
        page.draw(report_of(program, LOST_LINK) if report == "REPORT" else report, script)
        trial.check(f"{name}: it is said", page.fault() == said, page.fault())
        trial.check(f"{name}: nothing is drawn", not page.is_drawn())
        if place:
            field = f"document.getElementById('{place[0]}')"
            shown = page.value(f"{field}.value.slice({field}.selectionStart, {field}.selectionEnd)")
            trial.check(f"{name}: the line is shown", shown == place[1], shown)
    page.draw(report_of(program, LOST_LINK).replace("s sequence 2", "s sequence 1"), LOST_LINK)
    trial.check("a report of another script: the first line that differs is named", page.fault().startswith("Line 7 of the report: "), page.fault())
    page.draw(report_of(program, LOST_LINK).replace("held 1", "held 2"), LOST_LINK)
    trial.check("a report whose end is another: that line is named", page.fault().startswith("Line 9 of the report: "), page.fault())


def try_page(trial, page, program):
    """Files, the keyboard, the example that is shown first, light and dark."""
    report = report_of(program, LOST_LINK)
    page.draw("")
    page.drop(("a.script", LOST_LINK), ("a.report", report))
    page.wait("document.querySelector('#picture svg') !== null")
    trial.check("files that are dropped are told apart", page.arrows() == LOST_LINK_ARROWS, page.arrows())
    page.value("document.getElementById('example').focus()")
    places = [page.has_focus()]
    for _ in range(4):
        page.press("Tab")
        places.append(page.has_focus())
    trial.check("the keyboard comes to each field and to the picture", places == ["example", "report", "script", "files", "picture"], places)
    for place, text in enumerate((LOST_LINK, ACROSS)):
        page.value(f"(it => {{ it.value = '{place}'; it.dispatchEvent(new Event('change')); }})(document.getElementById('example'))")
        shown = page.value("['script', 'report'].map(it => document.getElementById(it).value)")
        trial.check(f"example {place} is that of examples/, with its report", shown == [text, report_of(program, text)], shown)
    page.draw(report, LOST_LINK)
    trial.check("texts of one's own are no example", page.value("document.getElementById('example').selectedIndex") == -1)
    grounds = []
    for scheme in "light", "dark":
        page.ask("Emulation.setEmulatedMedia", features=[{"name": "prefers-color-scheme", "value": scheme}])
        colour = page.value("getComputedStyle(document.body).backgroundColor")
        grounds.append(sum(map(int, colour.removeprefix("rgb(").removesuffix(")").split(", "))))
    page.ask("Emulation.setEmulatedMedia", features=[])
    trial.check("the page is light or dark, as the reader's system is", grounds[0] > 600 and grounds[1] < 150, grounds)
    outside = page.value("document.documentElement.outerHTML.match(/(src|href)=\"(?!data:)[^\"]*\"/g)")
    trial.check("the page asks for nothing outside of itself", outside is None, outside)


# ---- by the model


def committed():
    """The scripts of the sessions that are committed, with their titles: of one that loses links at each place, some."""
    for path in sorted((TOP / "examples").glob("*.script")):
        yield path.name, path.read_text()
    for title, script in sessions.listed(""):
        texts = [] if script.unmodelled else [*script.texts()]
        yield from ((title, text) for text in texts[::SHARE])


def drawn_at_random(seed, count):
    for number in range(count):
        yield f"random script {number} of seed {seed}", replay_model.random_script(random.Random(f"viewer {seed} {number}"))


def try_session(page, program, text):
    """What is wrong with the picture of a session, if anything is."""
    report = report_of(program, text)
    if report.endswith("refused\n"):
        page.draw(report, text)
        return None if page.fault().startswith("Line ") and not page.is_drawn() else "a script that was refused is drawn"
    played = play(text)
    page.draw(report, text)
    if page.fault() or page.counts() != wanted(played):
        return f"{page.fault()}\n  drawn {page.counts()}\n  wanted {wanted(played)}"
    page.draw(report)
    if page.fault() or not page.is_drawn():
        return f"its report alone: {page.fault()}"
    if isinstance(played, trace_model.Recorder):
        page.draw(played.text_of_trace())
        if page.fault() or page.counts() != wanted(played):
            return f"its trace: {page.fault()}\n  drawn {page.counts()}\n  wanted {wanted(played)}\n{played.text_of_trace()}"
    return None


def try_sessions(trial, page, program, listed):
    for title, text in listed:
        if text.count("\n") <= MOST_LINES:
            wrong = try_session(page, program, text)
            shown = [line[:LETTERS] for line in f"{wrong}\n{text}".splitlines()]
            trial.check(f"the picture of {title}", wrong is None, "\n  ".join(shown[:LINES]))


def try_all(trial, program, browser, picture, seed, count):
    page = Viewer(browser)
    trial.check("an example is drawn as the page is opened", page.arrows() == LOST_LINK_ARROWS, f"{page.arrows()} {page.fault()}")
    if picture:
        page.picture_of_svg(picture)
    try_lost_link(trial, page, program)
    try_call(trial, page, program)
    try_again(trial, page, program)
    try_sizes(trial, page, program)
    try_silence(trial, page, program)
    try_one_side(trial, page)
    try_verdict(trial, page)
    try_report_alone(trial, page, program)
    try_faults(trial, page, program)
    try_page(trial, page, program)
    try_sessions(trial, page, program, itertools.chain(committed(), drawn_at_random(seed, count)))
    trial.check("no script of the page failed", not page.faults, page.faults)


def main():
    words = sys.argv[1:]
    picture, seed, count = None, 1, 100
    if "--picture" in words:
        at = words.index("--picture")
        _, picture = words.pop(at), words.pop(at)
    if "--random" in words:
        at = words.index("--random")
        _, seed, count = words.pop(at), int(words.pop(at)), int(words.pop(at))
    browser = next(filter(None, map(shutil.which, ("chromium", "chromium-headless-shell", "google-chrome"))), None)
    if not browser:
        print("skipped: chromium isn't installed")
        return 0
    program = words[0] if words else str(TOP / "bin" / "sr")
    # The first call of bin/sr may prove and build, and has no time limit for that.
    subprocess.run([program, "replay"], stdin=subprocess.DEVNULL, stdout=subprocess.DEVNULL)
    trial = Trial()
    with tempfile.TemporaryDirectory(prefix="viewer-") as folder, contextlib.ExitStack() as stack:
        chromium = Browser(browser, folder)
        stack.callback(chromium.stop)
        try:
            try_all(trial, program, chromium, picture, seed, count)
        except (OSError, RuntimeError, TimeoutError, subprocess.TimeoutExpired) as why:
            trial.check("the trial comes to its end", False, why)
    print(f"{trial.passed} passed, {trial.failed} failed")
    return 1 if trial.failed or not trial.passed else 0


if __name__ == "__main__":
    sys.exit(main())
