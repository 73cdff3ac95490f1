#!/usr/bin/env python3
"""Tries in a real browser how pages of another origin come to the hub: the ways of docs/microsoft-clients.md, and those that don't work.

    acceptance/origins.py [PROGRAM]

PROGRAM is bin/sr by default, and so the release if nothing newer was built. Needs chromium, nginx, and node with http-proxy (all are
Debian packages); where one of them isn't installed it says so and ends with status 0. It isn't part of the gate.

A page asks as Microsoft's client for JavaScript does: by `fetch` with that client's options and headers, and by a WebSocket. It comes from
the origin that the page's nginx knows, or from a stranger's. What has to come follows from the rules of browsers (the Fetch standard): a
reply is for a page of another origin only if its headers say so, and a WebSocket is for any page. The last line is 'N passed, N failed';
the status is 0 if none failed."""
import http.server
import json
import pathlib
import shutil
import sys
import tempfile
import threading

HERE = pathlib.Path(__file__).resolve().parent
sys.path.insert(0, str(HERE / "clients"))
import chat  # noqa: E402
from fronts import FRONTS, put_once  # noqa: E402
from page import Page  # noqa: E402
from serving import HOST, Serving  # noqa: E402

SHOWN = Page(HERE.parent / "docs" / "microsoft-clients.md")
SHOWN_ORIGIN = "http://localhost:5173"
# What the page calls: each answers the sum of 2 and 3 that the hub tells it, or "refused".
SCRIPT = r"""
const USER_AGENT = "Microsoft SignalR/8.0 (8.0.7; Unknown OS; Browser; Unknown Runtime Version)";
const HANDSHAKE = '{"protocol":"json","version":1}\x1e';
const ADD = '{"arguments":[2,3],"invocationId":"0","target":"Add","type":1}\x1e';

function ask(method, url, body) {
  const headers = { "X-Requested-With": "XMLHttpRequest", "X-SignalR-User-Agent": USER_AGENT };
  if (body) headers["Content-Type"] = "text/plain;charset=UTF-8";
  return fetch(url, { method, body, headers, cache: "no-cache", credentials: "include", mode: "cors", redirect: "follow" });
}

const sumOf = (frames) => frames.match(/"result":(\d+)/)?.[1];

async function negotiated(hub) {
  const { connectionToken } = await (await ask("POST", `${hub}/negotiate?negotiateVersion=1`)).json();
  return `${hub}?id=${encodeURIComponent(connectionToken)}`;
}

function overSocket(url) {
  const socket = new WebSocket(url.replace(/^http/, "ws"));
  return new Promise((done, fail) => {
    socket.onopen = () => { socket.send(HANDSHAKE); socket.send(ADD); };
    socket.onmessage = ({ data }) => sumOf(data) && done(sumOf(data));
    socket.onerror = fail;
  }).finally(() => socket.close());
}

async function overPolls(url) {
  await ask("GET", `${url}&_=${Date.now()}`);
  await ask("POST", url, HANDSHAKE + ADD);
  const frames = await (await ask("GET", `${url}&_=${Date.now()}`)).text();
  await ask("DELETE", url);
  return sumOf(frames);
}

const WAYS = {
  socket: async (hub) => overSocket(await negotiated(hub)),
  polls: async (hub) => overPolls(await negotiated(hub)),
  skipping: overSocket,
};

const tried = (way, hub) => WAYS[way](hub).catch(() => "refused");
"""
ALL = {"socket": "5", "polls": "5", "skipping": "5"}
NONE = dict.fromkeys(ALL, "refused")
ONLY_SKIPPING = {**NONE, "skipping": "5"}


class Site(http.server.BaseHTTPRequestHandler):
    """An empty page."""

    def do_GET(self):
        self.send_response(200)
        self.send_header("Content-Type", "text/html")
        self.end_headers()

    def log_message(self, *_):
        pass


def begin_site():
    """The origin of a site of its own."""
    server = http.server.ThreadingHTTPServer((HOST, 0), Site)
    threading.Thread(target=server.serve_forever, daemon=True).start()
    return f"http://{HOST}:{server.server_address[1]}"


def missing():
    """What isn't installed."""
    told = [FRONTS["nginx"].missing(), FRONTS["proxy"].missing(), None if shutil.which("chromium") else "chromium isn't installed"]
    return [one for one in told if one]


def front(kind, server, origin):
    """One of the page's fronts, to which the site is known."""
    text = SHOWN.front(kind)
    return FRONTS[kind](text if kind == "proxy" else put_once(text, SHOWN_ORIGIN, origin), server)


class Visits:
    """What pages are told, and whether that is what it has to be."""

    def __init__(self, browser):
        self.browser = browser
        self.trial = chat.Trial()

    def visit(self, name, origin, port, wanted):
        """A page of an origin tries each way to the hub that is at a port."""
        page = chat.Page(self.browser, name, f"{origin}/")
        page.value(f"{SCRIPT}; globalThis.tried = tried; null")
        hub = f"http://{HOST}:{port}/hub"
        for way, answer in wanted.items():
            came = page.value(f"tried({json.dumps(way)}, {json.dumps(hub)})")
            self.trial.check(f"{name}, {way}: {answer}", came == answer, f"came {came}")


def all_visits(visits, server):
    known, stranger = begin_site(), begin_site()
    visits.visit("a page of another origin", known, server.port, ONLY_SKIPPING)
    with front("nginx", server.port, known) as nginx:
        visits.visit("a page that nginx knows", known, nginx.port, ALL)
        visits.visit("a page that nginx doesn't know", stranger, nginx.port, ONLY_SKIPPING)
    with front("closed", server.port, known) as closed:
        visits.visit("a page that a closed nginx knows", known, closed.port, ALL)
        visits.visit("a page that a closed nginx doesn't know", stranger, closed.port, NONE)
    with front("proxy", server.port, known) as proxy:
        visits.visit("a page of a development server", f"http://{HOST}:{proxy.port}", proxy.port, ALL)


def main():
    if lacking := missing():
        print(f"skipped: {', '.join(lacking)}")
        return 0
    program = sys.argv[1] if len(sys.argv) > 1 else str(HERE.parent / "bin" / "sr")
    folder = tempfile.mkdtemp(prefix="origins")
    with Serving(program) as server:
        browser = chat.Browser(shutil.which("chromium"), folder)
        visits = Visits(browser)
        try:
            all_visits(visits, server)
        finally:
            browser.stop()
            shutil.rmtree(folder, ignore_errors=True)
        visits.trial.check("the server runs, and wrote on standard error where it listens alone", not server.complaints(), server.complaints())
    print(f"{visits.trial.passed} passed, {visits.trial.failed} failed")
    return 1 if visits.trial.failed else 0


if __name__ == "__main__":
    sys.exit(main())
