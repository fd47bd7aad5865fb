"""A replica at the sizes that the format allows, where nothing may be out of memory: a map of 100,000 keys, opened, told and closed; 3,000 entries,
of more than 64 kB, by one `ready`; and a log of 5,000 entries, gone on from.

    python3 large.py
"""

import hashlib
import struct
import sys

from epaxos import LONGEST_VALUE, Instance, Replica, put, seal

KEYS, COMMANDS, VALUE = 100_000, 1_990, b"v" * 1_000
MAP = {b"key %06d" % at: b"%d" % at for at in range(KEYS)}


def opening(generation, since, of_seal, of_map, executed):
    """The file that a generation opens with (docs/FORMATS.md, section 12)."""
    pairs = b"".join(struct.pack(">BI", len(key), len(value)) + key + value for key, value in sorted(of_map.items()))
    front = b"EPOP\3\3" + struct.pack(">IQBI", generation, since, 1, len(of_seal)) + of_seal
    body = front + struct.pack(">I", len(of_map)) + pairs + struct.pack(">I", len(executed)) + b"".join(struct.pack(">BH", *it) for it in executed)
    return body + hashlib.sha256(body).digest()


def same(what, found, wanted):
    if found != wanted:
        sys.exit(f"{what}: {str(found)[:100]} and not {str(wanted)[:100]}")
    print(f"{what}: as it is to be", flush=True)


def settle(replicas):
    """Hands over frames until there are none."""
    frames = [frame for replica in replicas for frame in replica.ready().synced().frames]
    while frames:
        for to, frame in frames:
            replicas[to].handle(frame)
        for replica in replicas:
            replica.execute_all()
        frames = [frame for replica in replicas for frame in replica.ready().synced().frames]


def entries_of_one(begun):
    """So many entries that one `ready` lends, and more behind them: the log of a replica that goes on from them."""
    with Replica.new(3, 0, opening=begun) as replica:
        first = replica.ready()
        log = first.log
        first.synced()
        for request in range(1, COMMANDS + 1):
            replica.propose(1, request, put(b"key %06d" % request, VALUE if request > 1 else b"v" * LONGEST_VALUE))
        for number in range(1, 1_011):
            replica.recover(Instance(1, number))
        ready = replica.ready()
        log += ready.log
        same("3,000 entries by one ready, in bytes above 2,000,000", len(ready.log) > 2_000_000, True)
        output = ready.synced()
        same("their frames, and how many they are", (output.entries, len(output.frames)), (3_000, COMMANDS + 2 * 1_010))
        for number in range(1_011, 2_001):
            replica.recover(Instance(1, number))
        for number in range(1, 1_011):
            replica.recover(Instance(2, number))
        log += replica.ready().log
    with Replica.open(3, 0, log, opening=begun, told=0) as replica:
        ready = replica.ready()
        same("the log of a replica that goes on from 5,000 entries", ready.log == log, True)
        output = ready.synced()
        same("all that it tells then", (output.entries, len(output.frames)), (5_000, COMMANDS + 2 * 3_010))
        same("its map", replica.contents() == MAP, True)


def closed(begun):
    """What three replicas close the generation with."""
    replicas = [Replica.new(3, me, opening=begun) for me in range(3)]
    for replica in replicas:
        replica.ready().synced()
    replicas[0].propose(1, 1, put(b"more", b"1"))
    replicas[1].propose(2, 1, seal(b"next"), seen=9)
    settle(replicas)
    openings = [replica.close(3) for replica in replicas]
    executed = [Instance(0, 1), Instance(1, 1)]
    with_put, without = {**MAP, b"more": b"1"}, MAP
    since = [int.from_bytes(it[10:18], "big") for it in openings]
    is_done = replicas[0].get(b"more") == b"1"
    of_map = with_put if is_done else without
    wanted = [opening(3, stamp, b"next", of_map, executed if is_done else executed[1:]) for stamp in since]
    same("the openings that close a map of 100,000 keys", openings == wanted, True)
    for replica in replicas:
        replica.end()
    with Replica.new(3, 2, opening=openings[0]) as replica:
        replica.ready().synced()
        same("the map of the next generation", replica.contents() == of_map, True)


def main():
    begun = opening(2, 7, b"me", MAP, [])
    entries_of_one(begun)
    closed(begun)
    return 0


if __name__ == "__main__":
    sys.exit(main())
