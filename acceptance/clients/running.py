"""The program `sr client` while it runs, for tests."""
import contextlib
import subprocess
import tempfile
import threading
import time

from serving import BEGINNING

SECONDS = 90  # until it has ended, on a busy machine


class Running:
    """The program with these words, and this script on its standard input. What it prints goes to a file, so that it never waits for a reader.
    `limit` is what a shell sets before it, as in `ulimit -n 3`."""

    def __init__(self, program, words, script=b"", limit=None, **options):
        self.out, self.began = tempfile.TemporaryFile(), time.monotonic()
        options = {"stdin": subprocess.PIPE, "stdout": self.out, "stderr": subprocess.PIPE, **options}
        shell = ["sh", "-c", f'{limit} && exec "$0" "$@"'] if limit else []
        with BEGINNING:
            self.process = subprocess.Popen([*shell, program, "client", *words], **options)
        self.writer = threading.Thread(target=self.write, args=(script,), daemon=True)
        self.writer.start()

    def write(self, script):
        """A script that is refused need not be read to its end."""
        if self.process.stdin:
            with contextlib.suppress(BrokenPipeError):
                self.process.stdin.write(script)
            with contextlib.suppress(BrokenPipeError):
                self.process.stdin.close()

    def __enter__(self):
        return self

    def __exit__(self, *_):
        self.process.kill()
        self.process.wait()
        self.process.stderr.close()
        self.out.close()

    def printed(self):
        """What it has printed by now."""
        self.out.seek(0)
        return self.out.read().decode(errors="replace")

    def ended(self):
        """Its exit status and the lines that it printed."""
        status = self.process.wait(SECONDS)
        return status, self.printed().splitlines()

    def prints(self, line, seconds=SECONDS):
        """Waits until it has printed this line."""
        until = time.monotonic() + seconds
        while line not in self.printed().splitlines():
            if time.monotonic() > until or self.process.poll() is not None:
                raise TimeoutError(f"it didn't print {line!r}")
            time.sleep(0.005)
