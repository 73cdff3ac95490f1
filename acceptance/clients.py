#!/usr/bin/env python3
"""Has clients in other languages hold a session with the program's server.

    acceptance/clients.py [PROGRAM]      PROGRAM is bin/sr by default, and so the release if nothing newer was built

Each client of acceptance/clients/ that can run here gets a server of its own on a free port, and has to print what stands in
clients/session.txt, which was written by hand. Beside that each exchange that docs/clients.md and docs/microsoft-clients.md show is done
again, byte for byte (clients/page.py). What needs a library or a program that isn't installed is skipped with a word.

The last line is 'N passed, N failed, N skipped'; the status is 0 if none failed."""
import concurrent.futures
import difflib
import pathlib
import subprocess
import sys

HERE = pathlib.Path(__file__).resolve().parent
sys.path.insert(0, str(HERE / "clients"))
from fronts import NODE  # noqa: E402
from page import results  # noqa: E402
from serving import Serving  # noqa: E402

CLIENTS = HERE / "clients"
PAGES = [HERE.parent / "docs" / name for name in ("clients.md", "microsoft-clients.md")]
SECONDS = 120


def runs(command, **options):
    """Whether a command can be run and ends well."""
    try:
        return subprocess.run(command, capture_output=True, **options).returncode == 0
    except OSError:
        return False


def python_client():
    """The client in Python, under the first interpreter that has its library. Debian's own has Debian's packages."""
    for python in sys.executable, "/usr/bin/python3":
        if runs([python, "-c", "import websockets.legacy.client"]):
            return [python, CLIENTS / "session.py"]
    return None


def node_client():
    """The client in JavaScript, if Node is here and has its library."""
    return ["node", CLIENTS / "session.mjs"] if runs(["node", "-e", 'require("ws")'], env=NODE) else None


def wanted():
    lines = (CLIENTS / "session.txt").read_text().splitlines()
    return [line for line in lines if line and not line.startswith("#")]


def session(program, name, client):
    """Runs a client against a fresh server: its name, what is wrong with what it prints, line by line, and why it is skipped if it is."""
    if not client:
        return [(name, [], "it isn't installed")]
    with Serving(program) as server:
        try:
            done = subprocess.run([*client, server.base], env=NODE, capture_output=True, text=True, timeout=SECONDS)
        except subprocess.TimeoutExpired as late:
            return [(name, [f"it didn't end in {SECONDS} s", *(late.stdout or b"").decode().splitlines()[-3:]], None)]
        got = [line.rstrip() for line in done.stdout.splitlines()]
        wrong = list(difflib.unified_diff(wanted(), got, "session.txt", "printed", lineterm="", n=1))
        if done.returncode != 0:
            wrong += [f"status {done.returncode}", *done.stderr.splitlines()[-5:]]
        return [(name, wrong + server.complaints(), None)]


def page(program, path):
    return list(results(program, path))


def main():
    program = sys.argv[1] if len(sys.argv) > 1 else str(HERE.parent / "bin" / "sr")
    clients = [
        ("a client in Python, with websockets 10.4 (python3-websockets)", python_client()),
        ("a client in JavaScript, with Node and ws 8.11 (nodejs, node-ws)", node_client()),
    ]
    with concurrent.futures.ThreadPoolExecutor() as lanes:
        running = [lanes.submit(session, program, *client) for client in clients]
        running += [lanes.submit(page, program, path) for path in PAGES]
    told = [one for ended in running for one in ended.result()]
    for name, wrong, missing in told:
        print(f"skipped {name}: {missing}" if missing else f"{'FAILED' if wrong else 'passed'} {name}", *wrong, sep="\n    ")
    failed, skipped = sum(bool(wrong) for _, wrong, _ in told), sum(bool(missing) for _, _, missing in told)
    print(f"{len(told) - failed - skipped} passed, {failed} failed, {skipped} skipped")
    return 1 if failed else 0


if __name__ == "__main__":
    sys.exit(main())
