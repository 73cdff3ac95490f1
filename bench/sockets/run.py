#!/usr/bin/env python3
"""Measures a WebSocket lane (crates/measures) beside Python's `websockets` without IO (peer.py), in one run. It is no test.

    bench/sockets/run.py [--rounds N] [--batches N]

A client's lane sends messages of 100 bytes, masked, in batches of a hundred, and a server's lane reads them. Of each the best of N rounds
counts, in processor time. The ratio is the other's time by ours: 1.00 is as fast. Needs Debian's python3-websockets."""
import argparse
import os
import pathlib
import sys
import tempfile

HERE = pathlib.Path(__file__).resolve().parent
sys.path.insert(0, str(HERE.parent))
from run import built, output, seconds  # noqa: E402


def main():
    words = argparse.ArgumentParser(description=__doc__, formatter_class=argparse.RawDescriptionHelpFormatter)
    words.add_argument("--rounds", type=int, default=5)
    words.add_argument("--batches", type=int, default=1000)
    asked = words.parse_args()
    os.environ["MALLOC_TRIM_THRESHOLD_"] = str(1 << 30)
    with tempfile.TemporaryDirectory() as folder:
        empty = str(pathlib.Path(folder) / "empty")
        pathlib.Path(empty).write_bytes(b"")
        commands = [built("measures"), "socket", str(asked.batches)], ["/usr/bin/python3", str(HERE / "peer.py"), str(asked.batches)]
        answers = [output(command, empty) for command in commands]
        assert answers[0] == answers[1], answers
        mine, other = (seconds(command, empty, asked.rounds) for command in commands)
        count = asked.batches * 100
        print(f"{count / mine / 1e6:.2f} million messages a second, websockets {count / other / 1e6:.3f}, ratio {other / mine:.2f}")


if __name__ == "__main__":
    main()
