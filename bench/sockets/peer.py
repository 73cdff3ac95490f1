#!/usr/bin/python3
"""Sends batches of a hundred messages of 100 bytes from a client to a server over the protocol of Python's `websockets` without IO (10.4, Debian's
python3-websockets, whose masking is in C), as crates/measures/src/sockets.rt does. Its word is how many batches."""
import sys

from websockets.connection import Connection, Side

MESSAGE = b"a" * 100


def main():
    client, server = Connection(Side.CLIENT), Connection(Side.SERVER)
    total = 0
    for _ in range(int(sys.argv[1])):
        for _ in range(100):
            client.send_text(MESSAGE)
        server.receive_data(b"".join(client.data_to_send()))
        total += sum(len(frame.data) for frame in server.events_received())
    print(f"bytes {total}")


if __name__ == "__main__":
    main()
