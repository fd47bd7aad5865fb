#!/usr/bin/env python3
"""Three replicas in one process, with a file each for a log: python3 three.py FOLDER

Begins them in the folder, or goes on with those that are there. Each of three clients puts 20 values, at a replica of its own; the keys are the same ones
for all. After each round one more client reads, at each replica in turn. Then the maps are compared, with one another
and with what a command over all keys tells.
"""

import os
import sys

from epaxos import Instance, Replica, TxAnswer, put, tx

PUTS, KEYS = 20, 3


class File:
    """A log in a file."""

    def __init__(self, path):
        self.path = path

    def keep(self, ready):
        """Puts it on the disk: appended, or in the place of the whole file, at once."""
        path = f"{self.path}.new" if ready.is_anew else self.path
        with open(path, "wb" if ready.is_anew else "ab") as file:
            file.write(ready.log)
            file.flush()
            os.fsync(file.fileno())
        if ready.is_anew:
            os.rename(path, self.path)
            folder = os.open(os.path.dirname(self.path) or ".", os.O_RDONLY)
            os.fsync(folder)
            os.close(folder)


def opened(folder, me, is_first):
    """A replica and its file. At the first start alone it is new: one whose log is lost must not come back."""
    path = f"{folder}/{me}.log"
    if is_first:
        return Replica.new(3, me), File(path)
    with open(path, "rb") as file:
        return Replica.open(3, me, file.read()), File(path)


def settle(replicas, frames, told):
    """Hands over frames until there are none, each replica's log before its frames."""
    while True:
        for replica, file in replicas:
            replica.execute_all()
            ready = replica.ready()
            if ready.log:
                file.keep(ready)
            output = ready.synced()
            frames.extend(output.frames)
            for receipt in output.receipts:
                told[receipt.client, receipt.request] = receipt
        if not frames:
            return
        for to, frame in frames:
            replicas[to][0].handle(frame)
        frames.clear()


def read(replicas, me, key):
    """A client's read at a replica, which writes nothing: once the client has asked, two tell what interferes."""
    reader, other = replicas[me][0], replicas[(me + 1) % 3][0]
    found = {*reader.interfering(key), *other.interfering(key)}
    answer = reader.read(key, found)
    if isinstance(answer, Instance):
        # (where frames are under way a host asks again once that is executed; here all are handed over)
        raise AssertionError(f"{answer} isn't executed")
    return answer


def starts(folder):
    """How often this was started here before: each start has clients' numbers of its own, since a number and a request name one command over all starts."""
    path, count = f"{folder}/starts", 0
    if os.path.exists(path):
        with open(path, encoding="ascii") as file:
            count = int(file.read())
    with open(path, "w", encoding="ascii") as file:
        file.write(str(count + 1))
    return count


def main(folder):
    os.makedirs(folder, exist_ok=True)
    first = 3 * starts(folder) + 1
    replicas = [opened(folder, me, first == 1) for me in range(3)]
    frames, told, seen = [], {}, [0] * 3
    for replica, file in replicas:
        ready = replica.ready()
        file.keep(ready)
        ready.synced()
        # (what was sent before this start may be lost)
        frames.extend(replica.report(0).frames)
    settle(replicas, frames, told)
    for request in range(1, PUTS + 1):
        for me, (replica, _) in enumerate(replicas):
            replica.propose(first + me, request, put(b"key %d" % (request % KEYS), b"%d.%d" % (first + me, request)), seen[me])
        settle(replicas, frames, told)
        seen = [told[first + me, request].stamp for me in range(3)]
        values = {read(replicas, me, b"key %d" % (request % KEYS)) for me in range(3)}
        if len(values) > 1 or not values < {b"%d.%d" % (first + me, request) for me in range(3)}:
            return f"what is read isn't what was put: {values}"
    keys = [b"key %d" % it for it in range(KEYS)]
    # (all of one moment)
    replicas[0][0].propose(first, PUTS + 1, tx(tell=keys), seen[0])
    settle(replicas, frames, told)
    maps = [[replica.get(key) for key in keys] for replica, _ in replicas]
    for key, value in zip(keys, maps[0]):
        print(key.decode(), (value or b"").decode())
    for replica, _ in replicas:
        replica.end()
    if maps[0] != maps[1] or maps[1] != maps[2] or None in maps[0]:
        return "the maps differ"
    if told[first, PUTS + 1].answer != TxAnswer(True, maps[0]):
        return f"the keys are told to have {told[first, PUTS + 1].answer}"
    print("three replicas agree")
    return 0


if __name__ == "__main__":
    sys.exit(main(*sys.argv[1:]) if len(sys.argv) == 2 else __doc__)
