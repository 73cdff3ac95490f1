"""What may stand in front of a server, by the text that a page of docs/ shows of it, for one test and on a free port.

In the text the server is at 127.0.0.1:8080, and nginx listens on 8000: these ports are put in other ones' places, and each has to be there
once."""
import os
import pathlib
import shutil
import socket
import subprocess
import tempfile
import time

from serving import HOST, free_port

HERE = pathlib.Path(__file__).resolve().parent
SHOWN_SERVER, SHOWN_LISTEN = f"{HOST}:8080", "listen 8000;"
START = 20  # seconds until it listens
NGINX = shutil.which("nginx") or shutil.which("nginx", path="/usr/sbin")
# Where Debian's node-http-proxy is, behind what the caller names.
NODE = {**os.environ, "NODE_PATH": os.pathsep.join(filter(None, [os.environ.get("NODE_PATH"), "/usr/share/nodejs"]))}
TEMPORARY = ["client_body", "proxy", "fastcgi", "uwsgi", "scgi"]


def put_once(text, old, new):
    if text.count(old) != 1:
        raise ValueError(f"{old} stands {text.count(old)} times in what is shown")
    return text.replace(old, new)


class Front:
    """A process that listens while it is used. What it says is told if it ends by itself."""

    def __init__(self, text, server):
        self.port = free_port()
        self.text = put_once(text, SHOWN_SERVER, f"{HOST}:{server}")

    def __enter__(self):
        self.folder = tempfile.TemporaryDirectory()
        self.said = tempfile.TemporaryFile()
        self.process = subprocess.Popen(self.command(), env=NODE, stdin=subprocess.DEVNULL, stdout=self.said, stderr=self.said)
        end = time.monotonic() + START
        while not self.listens():
            if self.process.poll() is not None or time.monotonic() > end:
                self.__exit__()
                self.said.seek(0)
                raise OSError(f"the front doesn't listen: {self.said.read().decode(errors='replace')[-500:]}")
            time.sleep(0.05)
        return self

    def listens(self):
        with socket.socket() as tried:
            return tried.connect_ex((HOST, self.port)) == 0

    def __exit__(self, *_):
        self.process.terminate()
        self.process.wait()
        self.folder.cleanup()


class Nginx(Front):
    """nginx with a file of its folder conf.d."""

    @staticmethod
    def missing():
        return None if NGINX else "nginx isn't installed"

    def command(self):
        folder = pathlib.Path(self.folder.name)
        shown = put_once(self.text, SHOWN_LISTEN, f"listen {HOST}:{self.port};")
        paths = "".join(f"{name}_temp_path {folder}/{name};\n" for name in TEMPORARY)
        (folder / "conf").write_text(
            f"daemon off;\npid {folder}/pid;\nerror_log stderr;\nevents {{}}\nhttp {{\naccess_log off;\n{paths}{shown}\n}}\n"
        )
        return [NGINX, "-e", "stderr", "-p", folder, "-c", folder / "conf"]


class Proxy(Front):
    """The proxy of a development server, with its options (proxy.mjs)."""

    @staticmethod
    def missing():
        try:
            found = subprocess.run(["node", "-e", 'require("http-proxy")'], env=NODE, capture_output=True).returncode == 0
        except OSError:
            found = False
        return None if found else "Node with http-proxy 1.18 (nodejs, node-http-proxy) isn't installed"

    def command(self):
        return ["node", HERE / "proxy.mjs", str(self.port), self.text]


FRONTS = {"nginx": Nginx, "closed": Nginx, "proxy": Proxy}
