"""A server of the program for one test, on a free port of this machine."""
import contextlib
import random
import resource
import select
import socket
import subprocess
import sys
import tempfile
import threading

HOST = "127.0.0.1"
PORTS = range(10_000, 32_768)  # Linux gives connections those from 32,768 on
START = 60  # seconds until it serves
TURNS = 50_000_000  # it ends by itself some day, should the test be killed
MOST_LIVE = 10_000  # connections, if --live doesn't say
OTHER_DESCRIPTORS = 64  # of a server, beside those of its connections
# a process that is begun has the port that another thread looks at until it is the program
BEGINNING = threading.Lock()


def free_port():
    """A port that nobody has. Connections are given none of PORTS, so that none takes it before the program listens there."""
    while True:
        port = random.choice(PORTS)
        with contextlib.suppress(OSError), socket.socket() as found:
            found.bind((HOST, port))
            return port


def few_descriptors(count, live=MOST_LIVE):
    """The lines that a server says at its start, as it may have so many descriptors."""
    few = count < live + OTHER_DESCRIPTORS
    return [f"sr: {count} descriptors are few for {live} live connections: raise the limit (ulimit -n)"] if few else []


class Serving:
    """The program while it serves. That it ends before it is told to is a complaint, and what it writes on standard error, but where it listens
    and that it may have few descriptors.

    `address_space` is how many KiB of addresses it may have, `rows` what it says that its store has, and `begun` has further words of
    `subprocess.Popen`."""

    def __init__(self, program, *options, address_space=None, rows=0, begun=None):
        self.program, self.options, self.address_space, self.rows, self.begun = program, options, address_space, rows, begun or {}

    def __enter__(self):
        self.errors = tempfile.TemporaryFile()
        with BEGINNING:
            self.port = free_port()
            command = [self.program, "serve", "--port", str(self.port), "--turns", str(TURNS), *self.options]
            self.process = subprocess.Popen(command, stdout=subprocess.PIPE, stderr=self.errors, **self.begun)
        self.base = f"http://{HOST}:{self.port}/hub"
        if self.address_space:
            resource.prlimit(self.process.pid, resource.RLIMIT_AS, (self.address_space * 1_024,) * 2)
        ready, _, _ = select.select([self.process.stdout], [], [], START)
        line = self.process.stdout.readline() if ready else b""
        if line != b"serving %d\n" % self.rows:
            self.__exit__()
            sys.exit(f"{self.program} serve: said {line!r} and not that it serves")
        return self

    def __exit__(self, *_):
        self.process.kill()
        self.process.wait()

    def live(self):
        return int(self.options[self.options.index("--live") + 1]) if "--live" in self.options else MOST_LIVE

    def complaints(self):
        status = self.process.poll()
        self.errors.seek(0)
        written = self.errors.read().decode(errors="replace").splitlines()[:20]
        wanted = [f"sr: listening on {self.base}", *few_descriptors(resource.getrlimit(resource.RLIMIT_NOFILE)[0], self.live())]
        written = written[len(wanted) :] if written[: len(wanted)] == wanted else [f"it didn't begin with {wanted!r}", *written]
        return written if status is None else [f"the server ended with {status}", *written]

    def memory(self):
        """How many KiB of memory the server holds. None if this system doesn't tell."""
        try:
            with open(f"/proc/{self.process.pid}/status") as lines:
                return next((int(line.split()[1]) for line in lines if line.startswith("VmRSS:")), None)
        except OSError:
            return None
