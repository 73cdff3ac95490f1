#!/usr/bin/env python3
"""Tries examples/chat in a real browser: two pages in one room, behind nginx, over connections that are cut.

    acceptance/chat.py [PROGRAM] [--frames] [--picture FILE] [--random SEED]

PROGRAM is bin/sr by default, and so the release if nothing newer was built. Needs chromium and nginx (both are Debian packages);
where one of them isn't installed it says so and ends with status 0. `--frames` prints each frame that went over the WebSockets,
`--picture` keeps a picture of the page, `--random` cuts at random while both pages make calls. It isn't part of the gate.

    pages --- a forwarder --- nginx --- a forwarder --- sr

A forwarder is a process that passes bytes on, and kills itself in the middle of a stream, after a number of bytes for the pages. It
is started again a second later, and then the pages have to go on by themselves. The browser is driven by its DevTools protocol over
a pipe, which needs no WebSocket here. The last line is 'N passed, N failed'; the status is 0 if none failed."""
import base64
import contextlib
import fcntl
import json
import os
import pathlib
import random
import shutil
import signal
import socket
import subprocess
import sys
import tempfile
import threading
import time
import urllib.error
import urllib.request

TOP = pathlib.Path(__file__).resolve().parent.parent
sys.path.insert(0, str(TOP / "acceptance" / "clients"))
from raw import Hub  # noqa: E402

CHAT = TOP / "examples" / "chat"
PATIENCE = 30  # seconds
STREAM = 15_000  # bytes for the pages until a cut: about a third of a stream of 1,000 items
OUTAGE = 1  # seconds


# The forwarder, which runs as a process of its own


def pass_on(source, sink, budget):
    with contextlib.suppress(OSError):
        while data := source.recv(4096):
            if budget:
                budget.spend(len(data))
            sink.sendall(data)
    for end in (source, sink):
        with contextlib.suppress(OSError):
            end.shutdown(socket.SHUT_RDWR)


class Budget:
    """How many bytes may still go to the pages: without a bound until a line on the standard input tells one."""

    def __init__(self):
        self.left = None
        threading.Thread(target=self.read, daemon=True).start()

    def read(self):
        for line in sys.stdin:
            self.left = int(line)
            print("counts", flush=True)

    def spend(self, size):
        if self.left is not None:
            self.left -= size
            if self.left <= 0:
                os.kill(os.getpid(), signal.SIGKILL)


def forward(port, to):
    budget = Budget()
    listener = socket.create_server(("127.0.0.1", port), backlog=64)
    print("ready", flush=True)
    while True:
        near, _ = listener.accept()
        try:
            far = socket.create_connection(("127.0.0.1", to))
        except OSError:
            near.close()
            continue
        threading.Thread(target=pass_on, args=(near, far, None), daemon=True).start()
        threading.Thread(target=pass_on, args=(far, near, budget), daemon=True).start()


class Forwarder:
    def __init__(self, port, to):
        self.words = [sys.executable, __file__, "--forward", str(port), str(to)]
        self.start()

    def start(self):
        self.process = subprocess.Popen(self.words, stdin=subprocess.PIPE, stdout=subprocess.PIPE, text=True)
        self.process.stdout.readline()

    def cut_after(self, size):
        """From now on so many bytes may pass. It has to be known there before the page may do anything."""
        print(size, file=self.process.stdin, flush=True)
        self.process.stdout.readline()

    def wait_for_cut(self):
        """Whether it was cut, in time."""
        with contextlib.suppress(subprocess.TimeoutExpired):
            self.process.wait(PATIENCE)
        return self.process.poll() is not None

    def stop(self):
        self.process.kill()
        self.process.wait()


# The browser


class Browser:
    """Chromium without a window. Commands and events are JSON texts, each ended by a zero byte."""

    def __init__(self, program, folder, *options):
        inward, self.commands = (high(end) for end in os.pipe())
        self.events, outward = (high(end) for end in os.pipe())
        words = [program, "--headless", "--remote-debugging-pipe", "--disable-gpu", "--no-first-run", "--hide-scrollbars"]
        words += [*options, f"--user-data-dir={folder}", "about:blank"]
        if os.geteuid() == 0:
            words.insert(1, "--no-sandbox")  # which Chromium wants of root
        # The browser reads commands at 3 and writes events at 4.
        call = ["bash", "-c", f'exec "$0" "$@" 3<&{inward} 4>&{outward}', *words]
        self.process = subprocess.Popen(
            call, pass_fds=(inward, outward), stdin=subprocess.DEVNULL, stdout=subprocess.DEVNULL, stderr=subprocess.DEVNULL
        )
        os.close(inward)
        os.close(outward)
        self.rest = b""
        self.number = 0
        self.pages = {}

    def read(self):
        while b"\0" not in self.rest:
            data = os.read(self.events, 65536)
            if not data:
                raise RuntimeError("the browser has ended")
            self.rest += data
        text, _, self.rest = self.rest.partition(b"\0")
        return json.loads(text)

    def ask(self, method, session=None, **parameters):
        self.number += 1
        command = {"id": self.number, "method": method, "params": parameters}
        if session:
            command["sessionId"] = session
        os.write(self.commands, json.dumps(command).encode() + b"\0")
        while True:
            message = self.read()
            if message.get("id") == self.number:
                if "error" in message:
                    raise RuntimeError(f"{method}: {message['error']}")
                return message["result"]
            if page := self.pages.get(message.get("sessionId")):
                page.note(message["method"], message["params"])

    def stop(self):
        with contextlib.suppress(OSError, RuntimeError):
            self.ask("Browser.close")
        self.process.wait(PATIENCE)


def high(end):
    """The same end of a pipe with a number that a shell can name and the browser doesn't want for itself."""
    moved = fcntl.fcntl(end, fcntl.F_DUPFD_CLOEXEC, 20)
    os.close(end)
    return moved


class Page:
    def __init__(self, browser, name, url):
        self.browser, self.name = browser, name
        self.frames = []  # (socket, sent or received; text)
        self.tokens = []  # of the sockets
        self.faults = []
        target = browser.ask("Target.createTarget", url="about:blank")["targetId"]
        self.session = browser.ask("Target.attachToTarget", targetId=target, flatten=True)["sessionId"]
        browser.pages[self.session] = self
        for domain in ("Network", "Runtime", "Page"):
            self.ask(f"{domain}.enable")
        self.ask("Emulation.setDeviceMetricsOverride", width=720, height=560, deviceScaleFactor=1, mobile=False)
        self.ask("Page.navigate", url=url)
        self.wait("location.href !== 'about:blank' && document.readyState === 'complete'")

    def ask(self, method, **parameters):
        return self.browser.ask(method, self.session, **parameters)

    def note(self, method, told):
        if method == "Network.webSocketCreated":
            path, _, query = told["url"].partition("?")
            self.frames.append(("socket", path))
            self.tokens.append(query.removeprefix("id="))
        elif method == "Network.webSocketFrameSent":
            self.frames.append(("sent", told["response"]["payloadData"]))
        elif method == "Network.webSocketFrameReceived":
            self.frames.append(("received", told["response"]["payloadData"]))
        elif method == "Runtime.exceptionThrown":
            self.faults.append(told["exceptionDetails"].get("exception", told["exceptionDetails"]))

    def value(self, expression):
        answer = self.ask("Runtime.evaluate", expression=expression, returnByValue=True, awaitPromise=True)
        if "exceptionDetails" in answer:
            raise RuntimeError(f"{expression}: {answer['exceptionDetails']}")
        return answer["result"].get("value")

    def wait(self, expression, patience=PATIENCE):
        end = time.monotonic() + patience
        while not self.value(expression):
            if time.monotonic() > end:
                raise TimeoutError(f"page {self.name} waits for {expression}\n  state {self.state()}, {self.items()}, log {self.log()}")
            time.sleep(0.05)

    def fill(self, form, field, text):
        self.value(f"document.getElementById({json.dumps(field)}).value = {json.dumps(text)}")
        self.value(f"document.getElementById({json.dumps(form)}).requestSubmit()")

    def join(self, room):
        self.value(f"document.getElementById('name').value = {json.dumps(self.name)}")
        self.fill("join", "room", room)
        self.wait(f"document.querySelector('#log .note')?.textContent.endsWith('in the room {room}.')")

    def post(self, text):
        self.fill("post", "text", text)

    def log(self):
        """For each line its class and the texts of its parts."""
        line = "[it.className, ...[...it.childNodes].map(part => part.textContent)]"
        return self.value(f"[...document.querySelectorAll('#log li')].map(it => {line})")

    def wait_for_post(self, text):
        self.wait(f"[...document.querySelectorAll('#log li')].some(it => it.lastChild.textContent === {json.dumps(text)})")

    def state(self):
        return self.value("document.getElementById('state').textContent")

    def wait_for_state(self, state, patience=PATIENCE):
        self.wait(f"document.getElementById('state').textContent === {json.dumps(state)}", patience)

    def counts(self):
        return self.value("document.getElementById('counts').textContent")

    def click(self, button):
        self.value(f"document.getElementById({json.dumps(button)}).click()")

    def here(self):
        return self.value("document.getElementById('here').textContent")

    def wait_for_here(self, names):
        self.wait(f"document.getElementById('here').textContent === {json.dumps(names)}")

    def begin_stream(self):
        self.value("document.getElementById('items').textContent = ''")
        self.click("stream")

    def items(self):
        return self.value("document.getElementById('items').textContent")

    def picture(self, path):
        data = self.ask("Page.captureScreenshot", format="png")["data"]
        pathlib.Path(path).write_bytes(base64.b64decode(data))


# The trial


class Trial:
    def __init__(self):
        self.passed = self.failed = 0

    def check(self, what, holds, otherwise=""):
        if holds:
            self.passed += 1
            print(f"passed: {what}", flush=True)
        else:
            self.failed += 1
            print(f"FAILED: {what}\n  {otherwise}", flush=True)


def free_port():
    with socket.create_server(("127.0.0.1", 0)) as it:
        return it.getsockname()[1]


def serve(program, port):
    process = subprocess.Popen([program, "serve", "--port", str(port)], stdout=subprocess.PIPE, text=True)
    line = process.stdout.readline()
    if not line.startswith("serving"):
        raise RuntimeError(f"sr serve says {line!r}")
    return process


def serve_pages(folder, port, hub_port):
    """An nginx with the example's own nginx.conf, in which only the ports and the places of files are other ones."""
    text = (CHAT / "nginx.conf").read_text()
    for ours, other in [
        ("127.0.0.1:8000", f"127.0.0.1:{port}"),
        ("127.0.0.1:8080", f"127.0.0.1:{hub_port}"),
        ("/tmp/chat-nginx", f"{folder}/nginx"),
        ("/dev/stdout", f"{folder}/access.log"),
    ]:
        if ours not in text:
            raise RuntimeError(f"nginx.conf has no {ours}")
        text = text.replace(ours, other)
    conf = folder / "nginx.conf"
    conf.write_text(text)
    process = subprocess.Popen(["nginx", "-e", "stderr", "-p", str(CHAT), "-c", str(conf)], stderr=subprocess.DEVNULL)
    wait_for_port(port)
    return process


def wait_for_port(port):
    end = time.monotonic() + PATIENCE
    while True:
        try:
            return socket.create_connection(("127.0.0.1", port)).close()
        except OSError:
            if time.monotonic() > end:
                raise
            time.sleep(0.05)


def posts_of(page):
    """The names and the texts of what other pages and this one posted since it joined."""
    return [line[2:] for line in page.log() if line[0] in ("mine", "theirs") and len(line) == 4]


def texts_of(page):
    return [line[-1] for line in page.log() if line[0] in ("earlier", "mine", "theirs")]


def try_names(trial, pages):
    """Names and times of posts, and who is in the room."""
    now = "new Date(Date.now() - %d).toLocaleTimeString([], { timeStyle: 'short' })"
    for page in pages:
        wanted = [["Ann", "Good morning, this is Ann."], ["Bob", "Good morning, Ann. Bob here."]]
        trial.check(f"page of {page.name} sees both posts with names", posts_of(page) == wanted, posts_of(page))
        times = {line[1] for line in page.log() if line[0] in ("mine", "theirs")}
        minutes = {page.value(now % (60_000 * minutes)) for minutes in range(3)}
        trial.check(f"page of {page.name} sees when they were posted", times <= minutes, f"{times}, {minutes}")
        page.wait_for_here("Ann, Bob")
        trial.check(f"page of {page.name} sees who is in the room", True)


def try_another_program(trial, hub_port, page):
    """A program that posts a text alone, and says that it is here, but not that it leaves."""
    hub = Hub(hub_port)
    hub.shake()
    hub.call("Post", "lobby", "No JSON, no name.")
    hub.call("Post", "lobby (who is here)", '{"name":"Dan"}')
    page.wait_for_post("No JSON, no name.")
    page.wait_for_here("Ann, Bob, Dan")
    hub.close()
    page.click("ask")
    page.wait_for_here("Ann, Bob")
    line = next(line for line in page.log() if line[-1] == "No JSON, no name.")
    trial.check("a text of another program is shown with the number of its connection", len(line) == 3 and line[1].isdigit(), line)
    trial.check("who left without a word is gone once somebody asks", True)


def try_button(trial, one, other):
    """A connection that its page cuts comes back and loses nothing."""
    before = one.counts()
    one.begin_stream()
    one.wait("/^[1-9]/.test(document.getElementById('items').textContent)")
    one.click("cut")
    trial.check("a page that cuts its connection resumes it", one.state() == "resuming", one.state())
    other.post("Posted while the other is cut.")
    one.post("Posted by who is cut.")
    one.wait_for_state("connected")
    one.wait("/gap|order|then/.test(document.getElementById('items').textContent)")
    trial.check("1,000 items come in order after the button", one.items() == "1000 items in order, no gap", one.items())
    for page in (one, other):
        for text in ("Posted while the other is cut.", "Posted by who is cut."):
            page.wait_for_post(text)
            trial.check(f"page of {page.name} has once: {text}", texts_of(page).count(text) == 1, texts_of(page))
    one.wait("/ resumptions 3 /.test(document.getElementById('counts').textContent)")
    trial.check("it is the same connection", before.split(" · ")[0] == one.counts().split(" · ")[0], f"{before}, {one.counts()}")


class Poster(threading.Thread):
    """A program that posts long texts, numbered from 0, until it is stopped: slowly enough for a page to acknowledge them."""

    def __init__(self, hub_port, room):
        super().__init__(daemon=True)
        self.hub, self.room, self.count, self.stopped = Hub(hub_port), room, 0, threading.Event()
        self.hub.shake()

    def post(self):
        self.hub.call("Post", self.room, f"{self.count} " + "x" * 900)
        self.count += 1

    def run(self):
        while not self.stopped.wait(0.02):
            self.post()

    def stop(self):
        self.stopped.set()
        self.join()
        self.hub.close()


def try_long_history(trial, hub_port, page):
    """A room whose last 50 texts are too long for one answer, and in which texts come while the page asks."""
    poster = Poster(hub_port, "long")
    for _ in range(60):
        poster.post()
    poster.start()
    page.join("long")
    time.sleep(0.5)
    poster.stop()
    page.wait(f"document.querySelector('#log li:last-child').textContent.includes('{poster.count - 1} x')")
    numbers = [int(text.split()[0]) for text in texts_of(page)]
    earlier = [line for line in page.log() if line[0] == "earlier"]
    trial.check(f"a room with long texts shows {len(earlier)} that came earlier", 10 <= len(earlier) <= 36, len(earlier))
    trial.check("and those that came meanwhile, each once", numbers == list(range(numbers[0], poster.count)), numbers)


def try_cut(trial, what, forwarder, one, other):
    """A stream of `one` goes on over a cut, and so do what both post while there is no connection."""
    before = len(one.frames)
    forwarder.cut_after(STREAM)
    one.begin_stream()
    if not forwarder.wait_for_cut():
        raise RuntimeError(f"{what} isn't cut: {one.items()!r}, {one.state()}, {one.counts()}, {one.frames[-6:]}, {one.faults}")
    time.sleep(OUTAGE)
    items = one.items()
    count = int(items.split()[0]) if items else 0
    trial.check(f"{what} is cut in mid-stream", 0 < count < 1000 and one.state() == "resuming", f"{items}, {one.state()}")
    texts = [f"{page.name} writes this while {what} is cut." for page in (one, other)]
    one.post(texts[0])
    other.post(texts[1])
    forwarder.start()
    one.wait("/gap|order|then/.test(document.getElementById('items').textContent)")
    trial.check(f"1,000 items come in order after {what} was cut", one.items() == "1000 items in order, no gap", one.items())
    for page in (one, other):
        for text in texts:
            page.wait_for_post(text)
        page.wait_for_state("connected")
        posts = [text for _, text in posts_of(page)]
        trial.check(f"page of {page.name} has each post once after {what} was cut", len(posts) == len(set(posts)), posts)
    sockets = [text for kind, text in one.frames[before:] if kind == "socket"]
    trial.check(f"page of {one.name} opened another socket after {what} was cut", len(sockets) >= 1, sockets)


def try_silence(trial, forwarder, one, other):
    """A network that takes bytes and passes none on is noticed by the silence."""
    os.kill(forwarder.process.pid, signal.SIGSTOP)
    began = time.monotonic()
    one.wait_for_state("resuming", 2 * PATIENCE)
    seconds = time.monotonic() - began
    os.kill(forwarder.process.pid, signal.SIGCONT)
    one.post(f"{one.name} writes this after a silence.")
    other.wait_for_post(f"{one.name} writes this after a silence.")
    trial.check("a page goes on after a silence of 30 seconds", 14 < seconds < 35, f"{seconds} s")
    trial.check(f"an idle page says pings", ("sent", '{"type":6}\x1e') in one.frames)


CLASS = """(async () => {
  const { Connection } = await import("./connection.js");
  const fault = (promise) => promise.then(() => "none", (why) => why.message);
  const told = [];
  const connection = new Connection(new URL("hub", document.baseURI));
  connection.onstate = (state) => told.push(state);
  connection.on("Double", (number) => 2 * number);
  connection.on("Break", () => { throw new Error("It is broken."); });
  await new Promise((done) => { connection.onstart = done; connection.start(); });
  told.push(await connection.call("Add", 2, 3));
  told.push(await connection.call("Echo", { "a": [null, true, "ä"] }));
  told.push(await connection.call("Ask", "Double", 21));
  told.push(await fault(connection.call("Ask", "Break", 1)));
  told.push(await fault(connection.call("Ask", "Nothing", 1)));
  told.push(await fault(connection.call("Fail", "It failed.")));
  told.push(await fault(connection.call("Nothing")));
  connection.notify("Fail", "Nobody hears this.");
  let count = 0;
  const stream = connection.stream("Count", [1000000], (item) => {
    if (item === ++count && count === 20) stream.cancel();
  });
  await stream.ended;
  told.push(20 <= count && count < 1000000);
  connection.stop();
  told.push(await fault(connection.call("Add", 1, 1)));
  return told;
})()"""
ANSWERS = ["connecting", "connected", 5, {"a": [None, True, "ä"]}, 42, "It is broken.", "This client has no method Nothing.", "It failed."]
ANSWERS += ["Unknown method.", True, "stopped", "There is no connection."]


def try_class(trial, page, page_port):
    """The class without the page over it."""
    answers = page.value(CLASS)
    trial.check("the class calls, is called, cancels and stops", answers == ANSWERS, answers)
    time.sleep(1)  # until the Close has come to sr
    address = f"http://127.0.0.1:{page_port}/hub?id={page.tokens[-1]}"
    try:
        status = urllib.request.urlopen(urllib.request.Request(address, method="POST")).status
    except urllib.error.HTTPError as why:
        status = why.code
    trial.check("sr keeps no connection that was stopped", status == 404, status)


WORK = """(async () => {
  const { Connection } = await import("./connection.js");
  const connection = new Connection(new URL("hub", document.baseURI));
  const work = window.work = { posted: [], faults: [], starts: 0, connection };
  const fault = (why) => work.faults.push(why.message);
  connection.on("Posted", (room, who, text) => work.posted.push([who, text]));
  connection.onstate = (state, why) => why && fault(why);
  connection.onstart = () => { work.starts++; work.joined = connection.call("Join", "random").catch(fault); };
  connection.start();
  while (!work.joined) await new Promise((done) => setTimeout(done, 20));
  await work.joined;
  const echo = async (value) => { if (await connection.call("Echo", value) !== value) work.faults.push(`no echo of ${value}`); };
  const count = async () => {
    let last = 0;
    await connection.stream("Count", [50], (item) => { if (item !== ++last) work.faults.push(`${item} in place of ${last}`); }).ended;
    if (last !== 50) work.faults.push(`a stream ends at ${last}`);
  };
  work.run = async () => {
    const calls = [];
    for (let number = 0; number < 40; number++) {
      calls.push(connection.call("Post", "random", String(number)), echo(number), count());
      await new Promise((done) => setTimeout(done, 120));
    }
    for (const call of calls) await call.catch(fault);
    work.done = true;
  };
  return connection.id;
})()"""


def try_random(trial, seed, forwarders, pages):
    """Each page makes 120 calls, of which 40 are streams and 40 posts, while one of the two ways is cut again and again."""
    draw = random.Random(seed)
    numbers = [page.value(WORK) for page in pages]
    for page in pages:
        page.value("void work.run()")
    end = time.monotonic() + 6 * PATIENCE
    while not all(page.value("work.done === true") for page in pages) and time.monotonic() < end:
        time.sleep(draw.uniform(0.1, 1.5))
        forwarder = draw.choice(forwarders)
        if draw.random() < 0.5:
            forwarder.cut_after(draw.randint(1, 6000))
            time.sleep(draw.uniform(0, 0.5))
        forwarder.stop()
        time.sleep(draw.choice([0, 0.05, 0.3, 1]))
        forwarder.start()
    time.sleep(2)  # until what was said last is there
    for page in pages:
        posted = page.value("work.posted")
        wanted = [[number, str(count)] for number in numbers for count in range(40)]
        # Of each member in order, however those of two members are mixed.
        trial.check(f"page of {page.name} hears all posts once and in order", sorted(posted, key=lambda it: it[0]) == wanted, posted)
        what = page.value("({ done: work.done, starts: work.starts, faults: work.faults, resumed: work.connection.resumed })")
        holds = what["done"] and what["starts"] == 1 and not what["faults"] and what["resumed"] > 0
        trial.check(f"page of {page.name} makes each call once on one connection, resumed {what['resumed']} times", holds, what)
        page.value("work.connection.stop()")


def try_all(trial, program, browser, folder, picture, seed, wire):
    hub_port, near_hub, page_port, near_page = (free_port() for _ in range(4))
    with contextlib.ExitStack() as stack:
        server = serve(program, hub_port)
        stack.callback(lambda: server.kill())
        rear = Forwarder(near_hub, hub_port)
        stack.callback(rear.stop)
        nginx = serve_pages(folder, page_port, near_hub)
        stack.callback(nginx.terminate)
        front = Forwarder(near_page, page_port)
        stack.callback(front.stop)

        ann, bob = (Page(browser, name, f"http://127.0.0.1:{near_page}/") for name in ("Ann", "Bob"))
        wire += [ann, bob]
        ann.join("lobby")
        bob.join("lobby")
        ann.post("Good morning, this is Ann.")
        bob.wait_for_post("Good morning, this is Ann.")
        bob.post("Good morning, Ann. Bob here.")
        for page in (ann, bob):
            page.wait_for_post("Good morning, Ann. Bob here.")
        try_names(trial, [ann, bob])
        try_another_program(trial, hub_port, ann)

        ann.begin_stream()
        ann.wait("/gap|order|then/.test(document.getElementById('items').textContent)")
        trial.check("1,000 items come in order", ann.items() == "1000 items in order, no gap", ann.items())

        try_cut(trial, "the way to nginx", front, ann, bob)
        try_cut(trial, "the way to sr", rear, bob, ann)
        for page in (ann, bob):
            time.sleep(1)  # until the last Acks are there
            trial.check(f"page of {page.name} resumed one connection", "resumptions 2 " in page.counts(), page.counts())
            trial.check(f"page of {page.name} keeps no message", page.counts().endswith("unacknowledged 0"), page.counts())
        try_button(trial, ann, bob)
        if picture:
            bob.picture(picture)
        try_silence(trial, front, ann, bob)
        try_class(trial, bob, page_port)
        if seed is not None:
            try_random(trial, seed, [front, rear], [ann, bob])

        late = Page(browser, "Cid", f"http://127.0.0.1:{near_page}/")
        try_long_history(trial, hub_port, late)
        ann.wait_for_here("Ann, Bob")
        late.join("lobby")
        earlier = [line[-1] for line in late.log() if line[0] == "earlier"]
        trial.check("one who joins later sees the history", earlier == texts_of(ann), earlier)
        for page in (ann, bob, late):
            page.wait_for_here("Ann, Bob, Cid")
        gone = Page(browser, "Eve", f"http://127.0.0.1:{near_page}/")
        gone.join("lobby")
        ann.wait_for_here("Ann, Bob, Cid, Eve")
        gone.ask("Page.navigate", url="about:blank")
        ann.wait_for_here("Ann, Bob, Cid")
        trial.check("who leaves says so", True)

        # A server that starts again knows no token: the pages begin new connections and enter the room again.
        server.kill()
        server.wait()
        ann.wait_for_state("resuming")
        ann.post("Is anybody there?")
        server = serve(program, hub_port)
        for page in (ann, bob, late):
            page.wait("/^connection/.test(document.getElementById('counts').textContent)")
            page.wait_for_state("connected")
            page.wait("document.querySelectorAll('#log .note').length === 1")
        bob.post("The server is back.")
        for page in (ann, bob, late):
            page.wait_for_post("The server is back.")
        trial.check("all pages enter the room of a server that was started again", True)
        faults = [line[1] for line in ann.log() if line[0] == "fault"]
        wanted = ["It isn't known whether this was posted: Is anybody there?"]
        trial.check("a page tells what may be lost with the server", faults == wanted, faults)

        log = (folder / "access.log").read_text()
        trial.check("the log of nginx tells no token", "id=" not in log and "POST /hub/negotiate 200" in log, log)
        for page in (ann, bob, late):
            trial.check(f"no script of the page of {page.name} failed", not page.faults, page.faults)


def main():
    words = sys.argv[1:]
    if words[:1] == ["--forward"]:
        return forward(int(words[1]), int(words[2]))
    picture, seed = (words.pop(words.index(name) + 1) if name in words else None for name in ("--picture", "--random"))
    options = [word for word in words if word.startswith("--")]
    programs = [word for word in words if not word.startswith("--")]
    browser = next(filter(None, map(shutil.which, ("chromium", "chromium-headless-shell", "google-chrome"))), None)
    if not browser or not shutil.which("nginx"):
        print(f"skipped: {'nginx' if browser else 'chromium'} isn't installed")
        return 0
    program = programs[0] if programs else str(TOP / "bin" / "sr")
    # The first call of bin/sr may prove and build, and has no time limit for that.
    subprocess.run([program, "check", "json"], stdin=subprocess.DEVNULL, stdout=subprocess.DEVNULL)
    trial = Trial()
    wire = []
    with tempfile.TemporaryDirectory(prefix="chat-") as name, contextlib.ExitStack() as stack:
        folder = pathlib.Path(name)
        chromium = Browser(browser, folder / "browser")
        stack.callback(chromium.stop)
        try:
            try_all(trial, program, chromium, folder, picture, seed, wire)
        except (OSError, RuntimeError, subprocess.TimeoutExpired) as why:
            trial.check("the trial comes to its end", False, why)
    if "--frames" in options:
        for page in wire:
            for kind, text in page.frames:
                print(page.name, kind, text.replace("\x1e", "␞"))
    print(f"{trial.passed} passed, {trial.failed} failed")
    return 1 if trial.failed or not trial.passed else 0


if __name__ == "__main__":
    sys.exit(main())
