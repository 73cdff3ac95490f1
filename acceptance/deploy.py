#!/usr/bin/env python3
"""Tries examples/deploy: the page and the hub over TLS, behind Debian's nginx as that folder's README.md sets it up.

    acceptance/deploy.py [PROGRAM] [--as-debian-has-it]

PROGRAM is bin/sr by default. Needs nginx and openssl, and for the page in a browser chromium (Debian packages); where one of the two
isn't installed it says so and ends with status 0. nginx gets one process and systemd's 1,024 files to begin with, so that 600 clients
are more than Debian's settings take: `--as-debian-has-it` leaves them, and then that case has to fail. It isn't part of the gate.

Clients come from addresses of their own, 127.0.N.N, where the limit for each address is to be kept. Statuses are those of RFC 9110,
6585 and 6455. The last line is 'N passed, N failed'; the status is 0 if none failed."""
import base64
import contextlib
import pathlib
import re
import resource
import shutil
import socket
import ssl
import subprocess
import sys
import tempfile
import time
from collections import deque

HERE = pathlib.Path(__file__).resolve().parent
sys.path.insert(0, str(HERE / "clients"))
from chat import Browser, Page, Trial, free_port, posts_of, wait_for_port  # noqa: E402
from raw import HOST, KEY, TIMEOUT, Ended, Hub  # noqa: E402
from serving import Serving  # noqa: E402

EXAMPLES = HERE.parent / "examples"
NAME = "chat.example.org"
FILES = 1024  # which systemd gives a service that doesn't ask
CLIENTS, OF_ONE_ADDRESS = 600, 5
MOST_OPEN = 50  # requests of one address
NEGOTIATE = "/hub/negotiate?negotiateVersion=1"


class Nginx:
    """Debian's nginx.conf, changed as README.md says, with sr.conf as its one site, in which only ports and places of files are other ones."""

    def __init__(self, folder, hub_port, is_changed):
        self.folder, self.process = folder, None
        self.port, self.plain_port = free_port(), free_port()
        self.conf = folder / "nginx.conf"
        self.conf.write_text(replaced(pathlib.Path("/etc/nginx/nginx.conf").read_text(), {
            "worker_processes auto;": "worker_processes 1;",
            "/run/nginx.pid": f"{folder}/pid",
            "/var/log/nginx/error.log": f"{folder}/error.log",
            "/var/log/nginx/access.log": f"{folder}/access.log",
            "include /etc/nginx/conf.d/*.conf;": "",
            "/etc/nginx/sites-enabled/*": f"{folder}/sr.conf",
        }))
        if is_changed:
            self.change_as_told()
        (folder / "sr.conf").write_text(replaced((EXAMPLES / "deploy" / "sr.conf").read_text(), {
            "listen 80;": f"listen {HOST}:{self.plain_port};",
            "listen [::]:80;": "",
            "listen 443 ssl;": f"listen {HOST}:{self.port} ssl;",
            "listen [::]:443 ssl;": "",
            f"/etc/letsencrypt/live/{NAME}": str(folder),
            "/var/log/nginx/sr.log": f"{folder}/sr.log",
            "/var/www/chat": str(EXAMPLES / "chat"),
            "/etc/nginx/sr.users": f"{folder}/users",
            "127.0.0.1:8080": f"{HOST}:{hub_port}",
        }))

    def change_as_told(self):
        """Runs the line of README.md that changes nginx.conf."""
        page = (EXAMPLES / "deploy" / "README.md").read_text()
        (line,) = re.findall(r"^ +# (sed -i .*) /etc/nginx/nginx\.conf$", page, re.M)
        subprocess.run(["bash", "-c", f"{line} {self.conf}"], check=True)
        # Where this very trial may not have so many files, nginx may have as many as it.
        hard = resource.getrlimit(resource.RLIMIT_NOFILE)[1]
        self.conf.write_text(re.sub(r"(worker_rlimit_nofile) (\d+)", lambda it: f"{it[1]} {min(int(it[2]), hard)}", self.conf.read_text()))

    def ask_for_passwords(self, password):
        """Takes the remark off the guard that sr.conf has as an example."""
        hashed = subprocess.run(["openssl", "passwd", "-apr1", password], capture_output=True, text=True, check=True).stdout
        (self.folder / "users").write_text(f"ann:{hashed}")
        site = self.folder / "sr.conf"
        text, count = re.subn(r"^( +)#(auth_basic|auth_basic_user_file|proxy_set_header)\b", r"\1\2", site.read_text(), flags=re.M)
        if count != 3:
            raise RuntimeError("sr.conf has no three lines of a guard")
        site.write_text(text)

    def start(self):
        hard = resource.getrlimit(resource.RLIMIT_NOFILE)[1]
        limited = lambda: resource.setrlimit(resource.RLIMIT_NOFILE, (FILES, hard))
        words = ["nginx", "-e", "stderr", "-c", str(self.conf), "-g", "daemon off;"]
        self.process = subprocess.Popen(words, preexec_fn=limited, stderr=subprocess.DEVNULL)
        wait_for_port(self.port)

    def stop(self):
        if self.process:
            self.process.terminate()
            self.process.wait()


def replaced(text, places):
    for ours, other in places.items():
        if ours not in text:
            raise RuntimeError(f"there is no {ours}")
        text = text.replace(ours, other)
    return text


def certify(folder):
    """A certificate for the name, whose file says for itself that it is to be trusted."""
    words = ["openssl", "req", "-x509", "-newkey", "rsa:2048", "-nodes", "-days", "2", "-subj", f"/CN={NAME}"]
    words += ["-addext", f"subjectAltName=DNS:{NAME}", "-keyout", f"{folder}/privkey.pem", "-out", f"{folder}/fullchain.pem"]
    subprocess.run(words, check=True, capture_output=True)
    return ssl.create_default_context(cafile=f"{folder}/fullchain.pem")


class Client(Hub):
    """A client over TLS, from an address of its own, which says further fields in each request."""

    def __init__(self, door, address=HOST, fields=()):
        port, context = door
        plain = socket.create_connection((HOST, port), timeout=TIMEOUT, source_address=(address, 0))
        self.socket = context.wrap_socket(plain, server_hostname=NAME)
        self.rest, self.frames, self.fields = b"", deque(), list(fields)

    def ask(self, method, target, body=None, fields=()):
        lines = [f"{method} {target} HTTP/1.1", f"Host: {NAME}", *self.fields, *fields]
        if body is not None:
            lines.append(f"Content-Length: {len(body)}")
        self.send("\r\n".join([*lines, "", ""]).encode() + (body or b""))

    def negotiate(self):
        """The status of a negotiate."""
        return self.http("POST", NEGOTIATE)[0]

    def token(self):
        return re.search(rb'"connectionToken":"([^"]+)"', self.http("POST", NEGOTIATE)[1])[1].decode()


def socket_status(door, address, target="/hub", fields=()):
    with contextlib.closing(Client(door, address, fields)) as it:
        return it.upgrade(target)


def statuses(door, address, count, ask):
    """What so many clients of one address are answered that ask at once, and how many seconds that took."""
    clients = [Client(door, address) for _ in range(count)]
    began = time.monotonic()
    for client in clients:
        ask(client)
    got = sorted(client.reply()[0] for client in clients)
    for client in clients:
        client.close()
    return got, time.monotonic() - began


def is_limited(got, seconds, good):
    """Five in a moment and five a second are let in, all others answered 429."""
    let_in = got.count(good)
    return 5 <= let_in <= 5 + 5 * seconds and let_in < len(got) and got == [good] * let_in + [429] * (len(got) - let_in)


def ask_for_socket(target):
    fields = ["Connection: Upgrade", "Upgrade: websocket", "Sec-WebSocket-Version: 13", f"Sec-WebSocket-Key: {KEY}"]
    return lambda client: client.ask("GET", target, fields=fields)


def try_limit(trial, door):
    for address, target in ("127.0.2.1", NEGOTIATE), ("127.0.2.8", f"{NEGOTIATE}&id=nobody"):
        got, seconds = statuses(door, address, 20, lambda client: client.ask("POST", target))
        trial.check(f"of 20 negotiates at {target} 5 are let in at once, others answered 429", is_limited(got, seconds, 200), (got, seconds))
    trial.check("another address isn't held up", Client(door, "127.0.2.2").negotiate() == 200)
    time.sleep(1.2)
    trial.check("nor is the first one a second later", Client(door, "127.0.2.1").negotiate() == 200)
    for address, target in ("127.0.2.3", "/hub"), ("127.0.2.4", "/hub?ID=1"), ("127.0.2.5", "/hub?other=1"):
        got, seconds = statuses(door, address, 20, ask_for_socket(target))
        trial.check(f"sockets at {target} without a negotiate are counted too", is_limited(got, seconds, 101), (got, seconds))
    got, _ = statuses(door, "127.0.2.6", 20, ask_for_socket("/hub?id=nobody"))
    trial.check("what names a connection isn't counted", got == [404] * 20, got)
    client = Client(door, "127.0.2.7")
    token = client.token()
    shake = b'{"protocol":"json","version":1}\x1e'
    got = [client.http("GET", f"/hub?id={token}")[0], client.http("POST", f"/hub?id={token}", shake)[0]]
    got += [client.http("POST", f"/hub?id={token}", b'{"type":6}\x1e')[0] for _ in range(40)]
    trial.check("a client that polls may post 40 times in a row", got == [200] * 42, got)


def try_open_requests(trial, door):
    """Requests whose body is on its way, of one address: no more than MOST_OPEN may be."""
    there = [Client(door, "127.0.5.1") for _ in range(MOST_OPEN + 1)]
    for client in there:
        client.send(f"POST /hub?id=none HTTP/1.1\r\nHost: {NAME}\r\nContent-Length: 3\r\n\r\n".encode())
        time.sleep(0.01)
    last = there[-1].reply()[0]
    there[0].send(b"abc")
    trial.check(f"of {MOST_OPEN + 1} requests at once one is answered 429", (last, there[0].reply()[0]) == (429, 404), last)
    for client in there:
        client.close()


def try_guard(trial, door, name, address, bad, good, refused):
    """A guard stands before each request of the base, and lets good clients in."""
    client = Client(door, address, good)
    token = client.token()
    time.sleep(1.2)  # the limit lets in a few of an address
    got = [Client(door, address, bad).negotiate(), socket_status(door, address, fields=bad), socket_status(door, address, f"/hub?id={token}", bad)]
    got += [Client(door, address, bad).http("GET", f"/hub?id={token}")[0]]
    trial.check(f"{name}: negotiates, sockets and polls are refused", got == [refused] * 4, got)
    client = Client(door, address, good)
    got = client.upgrade(f"/hub?id={token}"), client.shake(), client.call("Add", 2, 3).get("result")
    trial.check(f"{name}: a good client is served", got == (101, "{}", 5), got)


def try_many(trial, door):
    """More clients than Debian's nginx takes by its own settings, all at once."""
    addresses = [f"127.0.3.{1 + number // OF_ONE_ADDRESS}" for number in range(CLIENTS)]
    clients, why = [], None
    try:
        for address in addresses:
            client = Client(door, address)
            clients.append((client.upgrade("/hub"), client.shake(), client))
    except Exception as wrong:
        why = repr(wrong)
    good = [client for status, shaken, client in clients if (status, shaken) == (101, "{}")]
    trial.check(f"{CLIENTS} clients have their sockets", len(good) == CLIENTS, f"{len(good)} have, {why}")
    answers = [client.call("Add", number, 1).get("result") for number, client in enumerate(good)]
    trial.check("each is answered while all are there", answers == [number + 1 for number in range(len(good))], answers)
    for client in good:
        client.close()


def try_page(trial, browser, folder, port):
    options = ["--ignore-certificate-errors", f"--host-resolver-rules=MAP {NAME}:443 {HOST}:{port}"]
    chromium = Browser(browser, folder / "browser", *options)
    try:
        ann, bob = (Page(chromium, name, f"https://{NAME}/") for name in ("Ann", "Bob"))
        for page in ann, bob:
            page.join("lobby")
        ann.post("Good morning, this is Ann.")
        bob.wait_for_post("Good morning, this is Ann.")
        wanted = [["Ann", "Good morning, this is Ann."]]
        trial.check("a page sees what another posts", posts_of(bob) == wanted == posts_of(ann), posts_of(bob))
        ann.begin_stream()
        ann.wait("/gap|order|then/.test(document.getElementById('items').textContent)")
        trial.check("1,000 items come in order", ann.items() == "1000 items in order, no gap", ann.items())
        for page in ann, bob:
            sockets = [text for kind, text in page.frames if kind == "socket"]
            trial.check(f"the page of {page.name} has one socket, over TLS", sockets == [f"wss://{NAME}/hub"], sockets)
            trial.check(f"no script of the page of {page.name} failed", not page.faults, page.faults)
    finally:
        chromium.stop()


def try_plain(trial, port):
    with contextlib.closing(socket.create_connection((HOST, port), timeout=TIMEOUT)) as it:
        it.sendall(f"GET /a?b HTTP/1.1\r\nHost: {NAME}\r\nConnection: close\r\n\r\n".encode())
        got = b"".join(iter(lambda: it.recv(4096), b""))
    trial.check("without TLS there is only the way to it", b" 301 " in got and f"Location: https://{NAME}/a?b\r".encode() in got, got)


def try_all(trial, folder, program, browser, is_changed):
    context = certify(folder)
    with Serving(program) as server, contextlib.ExitStack() as stack:
        nginx = Nginx(folder, server.port, is_changed)
        nginx.start()
        stack.callback(nginx.stop)
        door = nginx.port, context
        if browser:
            try_page(trial, browser, folder, nginx.port)
        try_plain(trial, nginx.plain_port)
        try_limit(trial, door)
        try_open_requests(trial, door)
        try_guard(trial, door, "a page of another site", "127.0.4.1", ["Origin: https://other.example.org"], [f"Origin: https://{NAME}"], 403)
        try_many(trial, door)
        nginx.stop()
        nginx.ask_for_passwords("open")
        nginx.start()
        known = "Authorization: Basic " + base64.b64encode(b"ann:open").decode()
        wrong = "Authorization: Basic " + base64.b64encode(b"ann:shut").decode()
        try_guard(trial, door, "without a password", "127.0.4.2", [], [known], 401)
        try_guard(trial, door, "with a wrong password", "127.0.4.3", [wrong], [known], 401)
        log = (folder / "sr.log").read_text()
        trial.check("the log tells no token", "id=" not in log and "POST /hub/negotiate 200" in log, log[-2000:])
        trial.check("sr complains of nothing", not server.complaints(), server.complaints())


def main():
    words = [word for word in sys.argv[1:] if word != "--as-debian-has-it"]
    program = words[0] if words else str(HERE.parent / "bin" / "sr")
    lacking = [name for name in ("nginx", "openssl") if not shutil.which(name)]
    if lacking or not pathlib.Path("/etc/nginx/nginx.conf").exists():
        print(f"skipped: {lacking[0] if lacking else 'an nginx.conf of Debian'} isn't installed")
        return 0
    browser = next(filter(None, map(shutil.which, ("chromium", "chromium-headless-shell", "google-chrome"))), None)
    if not browser:
        print("skipped: the page in a browser, since chromium isn't installed")
    soft, hard = resource.getrlimit(resource.RLIMIT_NOFILE)
    resource.setrlimit(resource.RLIMIT_NOFILE, (max(soft, min(hard, 4 * CLIENTS)), hard))
    trial = Trial()
    with tempfile.TemporaryDirectory(prefix="deploy-") as name:
        folder = pathlib.Path(name)
        folder.chmod(0o755)  # nginx's processes are another user
        try:
            try_all(trial, folder, program, browser, len(words) == len(sys.argv) - 1)
        except (OSError, RuntimeError, ValueError, Ended, subprocess.SubprocessError) as why:
            trial.check("the trial comes to its end", False, why)
    print(f"{trial.passed} passed, {trial.failed} failed")
    return 1 if trial.failed or not trial.passed else 0


if __name__ == "__main__":
    sys.exit(main())
