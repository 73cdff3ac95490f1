"""A program of which one call fails: refuse.c, compiled and loaded before it, and the counts of its calls."""
import contextlib
import errno
import os
import pathlib
import struct
import subprocess
import tempfile

HERE = pathlib.Path(__file__).resolve().parent
# The kinds of calls, in the order of refuse.c, with the C functions that are counted there.
KINDS = {
    "memory": "malloc, realloc",
    "read": "read",
    "write": "write, but to standard error",
    "complain": "write, to standard error",
    "recv": "recv",
    "send": "send",
    "accept": "accept4",
    "wait": "epoll_wait",
    "watch": "epoll_ctl",
    "epoll": "epoll_create1",
    "draw": "getentropy",
    "clock": "clock_gettime",
    "socket": "socket",
    "connect": "connect",
    "bind": "bind",
    "listen": "listen",
    "option": "setsockopt",
    "control": "fcntl, ioctl",
    "name": "getsockname",
    "limit": "getrlimit",
    "lookup": "getaddrinfo",
    "shut": "shutdown",
    "close": "close",
}
COUNTS = struct.Struct(f"{len(KINDS)}Q")


def compiled(folder):
    """The library that is loaded before the program."""
    path = pathlib.Path(folder) / "refuse.so"
    # Without -fno-builtin gcc takes the allocator's functions for those that it knows.
    subprocess.run(["gcc", "-O2", "-Wall", "-Wextra", "-fno-builtin", "-shared", "-fPIC", "-o", path, HERE / "refuse.c"], check=True)
    return path


class Fault:
    """The call of this kind and number fails with this error, and all further ones of its kind too if it `goes_on`. Without a kind none fails. `ends`
    says that the program has to end of it, and `counts` how many calls of each kind came."""

    def __init__(self, library, kind=None, at=0, error=errno.EIO, goes_on=False, ends=False):
        self.library, self.kind, self.at, self.error, self.goes_on, self.ends = library, kind, at, error, goes_on, ends

    def __enter__(self):
        self.file = tempfile.NamedTemporaryFile()
        self.file.write(bytes(COUNTS.size))
        self.file.flush()
        return self

    def __exit__(self, *_):
        self.file.close()

    def environment(self):
        named = {"LD_PRELOAD": str(self.library), "REFUSE_COUNTS": self.file.name}
        if self.kind:
            named |= {"REFUSE_KIND": str([*KINDS].index(self.kind)), "REFUSE_AT": str(self.at), "REFUSE_ERROR": str(self.error)}
        if self.goes_on:
            named["REFUSE_ON"] = ""
        return {**os.environ, **named}

    def counts(self):
        with open(self.file.name, "rb") as counted:
            return dict(zip(KINDS, COUNTS.unpack(counted.read())))

    def has_come(self):
        return self.kind is not None and self.counts()[self.kind] > self.at


@contextlib.contextmanager
def ended_at_last(process):
    """Whatever happens, the process is gone afterwards."""
    try:
        yield process
    finally:
        if process.poll() is None:
            process.kill()
        process.wait()
        for stream in process.stdin, process.stdout, process.stderr:
            if stream:
                with contextlib.suppress(OSError):
                    stream.close()
