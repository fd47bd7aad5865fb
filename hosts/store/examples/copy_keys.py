#!/usr/bin/env python3
"""Copies what one store knows into a new cluster, where the others are lost for good: each key that is no lock, its
value, and the time that it has left.

    python3 copy_keys.py FROM TO          both as HOST:PORT, or PASSWORD@HOST:PORT

FROM is asked after READONLY, so it needs no majority. What the new cluster has under the same keys is replaced,
so it may be run again.
"""

import socket
import sys


class Store:
    """A connection to a store."""

    def __init__(self, place):
        password, _, address = place.rpartition("@")
        host, port = address.rsplit(":", 1)
        self.file = socket.create_connection((host, int(port))).makefile("rwb")
        if password:
            self.ask([b"AUTH", password.encode()])

    def ask(self, *commands):
        """What is replied to commands, in their order."""
        for words in commands:
            self.file.write(b"*%d\r\n" % len(words) + b"".join(b"$%d\r\n%s\r\n" % (len(it), it) for it in words))
        self.file.flush()
        return [self.reply() for _ in commands]

    def reply(self):
        kind, line = self.file.read(1), self.file.readline()[:-2]
        if kind == b"*":
            return [self.reply() for _ in range(int(line))]
        if kind == b"$":
            return None if line == b"-1" else self.file.read(int(line) + 2)[:-2]
        if kind in (b"", b"-"):
            sys.exit(f"copy_keys.py: {line.decode() or 'the connection is closed'}")
        return int(line) if kind == b":" else line


def deadline(left):
    """The words of a SET for a key that has so many milliseconds left; -1: it doesn't expire."""
    return [] if left == -1 else [b"PX", b"%d" % max(left, 1)]


def main():
    if len(sys.argv) != 3:
        sys.exit(__doc__)
    old, new = map(Store, sys.argv[1:])
    old.ask([b"READONLY"])
    copied, cursor = 0, None
    while cursor != b"0":
        ((cursor, keys),) = old.ask([b"SCAN", cursor or b"0", b"COUNT", b"100", b"TYPE", b"string"])
        told = old.ask(*([b"GET", key] for key in keys), *([b"PTTL", key] for key in keys))
        there = [it for it in zip(keys, told, told[len(keys) :]) if it[1] is not None]
        new.ask(*([b"SET", key, value, *deadline(left)] for key, value, left in there))
        copied += len(there)
    print(f"{copied} keys are copied")


if __name__ == "__main__":
    main()
