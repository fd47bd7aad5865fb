"""Ports for a cluster on this machine, as common/ports.rs of bindings/rust/epaxos/tests gives them to other tests."""

import os
import socket

# below those that the system gives to connections by itself
FIRST, BLOCKS, BLOCK = 10_000, 340, 64


class Ports:
    """A run of ports. Nobody who asks here, or there, has them too, as long as this is there."""

    def __init__(self):
        start = os.getpid() % BLOCKS
        for block in (*range(start, BLOCKS), *range(start)):
            first = FIRST + block * BLOCK
            self.held = listening(first)
            if self.held and all(map(is_free, range(first + 1, first + BLOCK))):
                self.first = first
                return
            if self.held:
                self.held.close()
        raise SystemExit("no free ports")

    def __getitem__(self, place):
        return [*range(self.first + 1, self.first + BLOCK)][place]


def listening(port):
    """A socket that listens at the port; None where another one does."""
    try:
        return socket.create_server(("127.0.0.1", port))
    except OSError:
        return None


def is_free(port):
    """Whether nobody listens at the port."""
    with socket.socket() as it:
        return it.connect_ex(("127.0.0.1", port)) != 0
