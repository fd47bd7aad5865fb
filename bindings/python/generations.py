#!/usr/bin/env python3
"""Three replicas that go through generations without a stop, each with a folder of its own: python3 generations.py FOLDER

Begins them in the folder, or goes on with those that are there: through three generations, in each of which clients put values at all three, until a seal is
executed. The next generation begins in memory, and on the disk by a reference; the file that it opens with is written later, by another thread, and then what
is older is dropped. At the end each replica is started again from its folder, and has the map that it had.

A folder has, for generation G, `G/opening` or `G/reference`, `G/whole` where the first is what the second stood for, `G/log`, and `G/left` once a later one is begun.
"""

import contextlib
import hashlib
import os
import shutil
import sys
import threading

from epaxos import Reference, Replica, first_opening, put, seal

REPLICAS, GENERATIONS, PUTS, KEYS = 3, 3, 20, 5


def synced(path, run, how="wb"):
    """Puts bytes on the disk, as a new file or behind what is there."""
    with open(path, how) as file:
        file.write(run)
        file.flush()
        os.fsync(file.fileno())


def sync_folder(path):
    folder = os.open(path, os.O_RDONLY)
    os.fsync(folder)
    os.close(folder)


def renamed(path):
    """What was written beside the place comes into it, at once."""
    os.rename(f"{path}.new", path)
    sync_folder(os.path.dirname(path))


def written(path, run):
    """Writes a file whole, or not at all."""
    synced(f"{path}.new", run)
    renamed(path)


def read(path):
    """What a file has; None where there is none."""
    with contextlib.suppress(FileNotFoundError), open(path, "rb") as file:
        return file.read()


class Host:
    """A replica with its folder."""

    def __init__(self, folder, me):
        self.folder, self.me, self.told, self.checkpoint = f"{folder}/{me}", me, 0, None
        if os.path.exists(self.folder):
            self.start()
        else:
            # (at the first start alone: a replica whose folder is lost must not come back)
            shutil.rmtree(f"{self.folder}.new", ignore_errors=True)
            os.makedirs(f"{self.folder}.new/1")
            synced(f"{self.folder}.new/1/opening", first_opening(REPLICAS))
            sync_folder(f"{self.folder}.new/1")
            renamed(self.folder)
            self.generation, self.replica = 1, Replica.new(REPLICAS, me)
        self.begin()

    def path(self, name, generation=None):
        return f"{self.folder}/{generation or self.generation}/{name}"

    def begin(self):
        """The log comes first: the bytes that it begins with, or all of it anew."""
        ready = self.replica.ready()
        written(self.path("log"), ready.log)
        self.sum = hashlib.sha256(ready.log)
        # (none before it may act any more, nor begin its log again)
        for name in os.listdir(self.folder):
            if int(name) < self.generation:
                written(self.path("left", name), b"%d" % self.generation)
        self.told = ready.synced().entries

    def turn(self):
        """The log, and only then what there is to tell."""
        ready = self.replica.ready()
        if ready.log:
            synced(self.path("log"), ready.log, "ab")
            self.sum.update(ready.log)
        output = ready.synced()
        self.told = output.entries
        return output

    def next(self):
        """Goes on in the next generation. Nothing is copied, and no file of the map is written."""
        reference = self.replica.reference(REPLICAS, self.sum.digest())
        os.makedirs(self.path("", reference.generation), exist_ok=True)
        sync_folder(self.folder)
        written(self.path("reference", reference.generation), reference.bytes)
        self.checkpoint = self.replica.succeed(reference, self.me)
        self.generation = reference.generation
        self.begin()

    def write(self, checkpoint, generation, reference):
        """Writes the file that a generation has opened with; then what is older may go. (Another thread may do it.)"""
        path, digest = self.path("opening", generation), b""
        with open(f"{path}.new", "wb") as file:
            for piece in checkpoint:
                file.write(piece)
                digest = piece
            file.flush()
            os.fsync(file.fileno())
        checkpoint.end()
        renamed(path)
        written(self.path("whole", generation), reference.binding(digest))
        for name in os.listdir(self.folder):
            if int(name) < generation:
                # (the mark last: without it this would be a generation in which the replica may act)
                for file in ("opening", "reference", "whole", "log", "left"):
                    with contextlib.suppress(FileNotFoundError):
                        os.remove(self.path(file, name))
                shutil.rmtree(self.path("", name))

    def reference(self, generation):
        run = read(self.path("reference", generation))
        return None if run is None else Reference.read(run)

    def is_whole(self, generation):
        """Whether the generation can be begun by its opening: what a reference stood for counts once the binding says so."""
        opening, reference = read(self.path("opening", generation)), self.reference(generation)
        return opening is not None and (reference is None or read(self.path("whole", generation)) == reference.binding(opening[-32:]))

    def start(self):
        """The replica of the newest generation: by the opening of the last whole one, and the logs since."""
        newest = max(int(it) for it in os.listdir(self.folder) if os.path.exists(self.path("opening", it)) or os.path.exists(self.path("reference", it)))
        first = next(it for it in range(newest, 0, -1) if self.is_whole(it))
        log = self.log_before(first, newest)
        opening, reference = read(self.path("opening", first)), self.reference(first)
        self.replica = Replica.open(REPLICAS, self.me, log, opening, reference=reference) if log else Replica.new(REPLICAS, self.me, opening, reference=reference)
        for generation in range(first + 1, newest + 1):
            self.replica.ready().synced()
            log = self.log_before(generation, newest)
            self.replica.succeed(self.reference(generation), self.me, log).end()
        self.generation = newest

    def log_before(self, generation, newest):
        """The log of a generation, as far as it counts; None where it isn't begun yet."""
        log = read(self.path("log", generation))
        if generation == newest:
            # (it can't have been begun where the generation before is here, and isn't left)
            if log is None and (not os.path.exists(self.path("", generation - 1)) or read(self.path("left", generation - 1))):
                raise SystemExit(f"{self.folder}: the log of generation {generation} is lost; the replica must not come back")
            return log
        reference = self.reference(generation + 1)
        if not reference.is_to((log or b"")[: reference.length]):
            raise SystemExit(f"{self.folder}: the log of generation {generation} isn't the one that generation {generation + 1} opens with")
        return log[: reference.length]


def settle(hosts, told):
    """Hands over frames until there are none."""
    frames = []
    while True:
        for host in hosts:
            host.replica.execute_all()
            output = host.turn()
            frames.extend(output.frames)
            told.update({(it.client, it.request): it.stamp for it in output.receipts})
        if not frames:
            return output.is_sealed
        for to, frame in frames:
            hosts[to].replica.handle(frame)
        frames = []


def play(hosts):
    """Clients put values at all three, and one seals the generation. Returns whether all of it was told."""
    told, generation = {}, hosts[0].generation
    # (what was sent before a start may be lost)
    for to, frame in [it for host in hosts for it in host.replica.report(0).frames]:
        hosts[to].replica.handle(frame)
    settle(hosts, told)
    # a client's number and its request's name one command over all generations
    for request in range(1, PUTS + 1):
        for host in hosts:
            client = REPLICAS * generation + host.me
            host.replica.propose(client, request, put(b"%d" % (request % KEYS), b"%d.%d" % (client, request)), told.get((client, request - 1), 0))
        settle(hosts, told)
    hosts[0].replica.propose(1, generation, seal(b"next"))
    return settle(hosts, told) and len(told) == REPLICAS * PUTS + 1


def main(folder):
    os.makedirs(folder, exist_ok=True)
    hosts = [Host(folder, me) for me in range(REPLICAS)]
    for host in hosts:
        # (a change may have been broken off; each has executed the seal before any goes on)
        while host.generation < max(it.generation for it in hosts):
            host.next()
            host.checkpoint.end()
    for _ in range(GENERATIONS):
        if not play(hosts):
            return "something wasn't told"
        files = [host.replica.close(REPLICAS) for host in hosts]
        for host in hosts:
            host.next()
        # the first one writes its files at once, each in another thread; the second one those of even generations; the third one none
        for host, file in zip(hosts, files):
            if host.me == 0 or host.me == 1 and host.generation % 2 == 0:
                other = threading.Thread(target=host.write, args=(host.checkpoint, host.generation, host.reference(host.generation)))
                other.start()
                other.join()
                if read(host.path("opening")) != file:
                    return "the pieces aren't the file that `close` gives"
            else:
                host.checkpoint.end()
        maps = [host.replica.contents() for host in hosts]
        if maps[1:] != maps[:1] * 2 or len(maps[0]) != KEYS:
            return "the maps differ"
        print(f"generation {hosts[0].generation}: {maps[0][b'0'].decode()}")
    for host in hosts:
        host.replica.end()
        again = Host(folder, host.me)
        if (again.generation, again.replica.contents()) != (host.generation, maps[0]):
            return "a start has another map"
        again.replica.end()
    print("three replicas agree, and each start does")
    return 0


if __name__ == "__main__":
    sys.exit(main(*sys.argv[1:]) if len(sys.argv) == 2 else __doc__)
