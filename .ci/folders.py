"""Runs of `epaxos node --dir`: what is refused, and lives through generations, of which each start is a process of its own.

Requests and answers are those of docs/FORMATS.md, section 10, openings those of section 12, and folders those of section 13.

hosts/store has the same rules once more, for the host in the store: `.ci/folders.py NODE FOLDER` has its program `folder` make each start that is only looked
at, between those of the node that has the replicas go on, in the same folders."""

import hashlib
import os
import re
import shutil
import struct
import subprocess
import tempfile

from disks import shim
from disks.shim import ADVANCE, ALL, STATE, SYNC

TOP = os.path.dirname(os.path.dirname(os.path.abspath(__file__)))
SECONDS = 600
PUT, GET, SEAL = 3, 2, 9
EMPTY = {3: bytes.fromhex("45504f50 03 03 00000001 0000000000000000 00 00000000 00000000")}
for _size in (5, 7):
    EMPTY[_size] = EMPTY[3][:5] + bytes([_size]) + EMPTY[3][6:]
EMPTY = {size: it + hashlib.sha256(it).digest() for size, it in EMPTY.items()}


def digested(front):
    """An opening of these bytes, with their digest."""
    return front + hashlib.sha256(front).digest()


def opening(size=3, generation=2, since=5, seal=b"x", held=(), executed=()):
    """An opening."""
    front = b"EPOP" + struct.pack(">BBIQ", 3, size, generation, since)
    front += b"\0" if generation == 1 else b"\1" + struct.pack(">I", len(seal)) + seal
    front += struct.pack(">I", len(held)) + b"".join(struct.pack(">BI", len(key), len(value)) + key + value for key, value in held)
    front += struct.pack(">I", len(executed)) + b"".join(struct.pack(">BH", *it) for it in executed)
    return digested(front)


def reference(log, size=3, generation=2):
    """A reference to a log that has these bytes."""
    return digested(b"EPOR" + struct.pack(">BBIQ", 3, size, generation, len(log)) + hashlib.sha256(log).digest())


def binding(named, written):
    """What binds an opening to a reference."""
    return b"EPOB\3" + named[-32:] + written[-32:]


def parts_of(bytes_):
    """Of an opening: N, generation, since, the seal's value, the map, and the executed instances."""
    assert bytes_[:5] == b"EPOP\3" and bytes_ == digested(bytes_[:-32])
    size, generation, since, mark = struct.unpack_from(">BIQB", bytes_, 5)
    at, seal, held, executed = 19, None, {}, []
    if mark:
        length = struct.unpack_from(">I", bytes_, at)[0]
        seal, at = bytes_[at + 4 : at + 4 + length], at + 4 + length
    count, at = struct.unpack_from(">I", bytes_, at)[0], at + 4
    for _ in range(count):
        key, value = struct.unpack_from(">BI", bytes_, at)
        held[bytes_[at + 5 : at + 5 + key]] = bytes_[at + 5 + key : at + 5 + key + value]
        at += 5 + key + value
    count, at = struct.unpack_from(">I", bytes_, at)[0], at + 4
    executed = [struct.unpack_from(">BH", bytes_, at + 3 * it) for it in range(count)]
    return size, generation, since, seal, held, executed


class Cluster:
    """Replicas in folders of a folder. Frames are given to a replica by its next start. Starts that are only looked at are those of `starter`."""

    def __init__(self, program, folder, size=3, starter=None):
        self.program, self.folder, self.size, self.starter = program, folder, size, starter
        self.frames = [[] for _ in range(7)]

    def place(self, replica):
        return f"{self.folder}/{replica}"

    def words(self, replica, *more):
        return [self.program, "node", "--replicas", str(self.size), "--replica", str(replica), "--dir", self.place(replica), *more]

    def start(self, replica, requests=b"", *more):
        """Status, the answers and the fault output of a start, which handles what frames there are first."""
        given = b"".join(map(shim.frame, self.frames[replica])) + requests + SYNC
        it = subprocess.run(self.words(replica, *more), input=given, capture_output=True, timeout=SECONDS, check=False)
        if it.returncode == 0:
            self.frames[replica] = []
        answers, size = shim.answers(it.stdout, 3)
        assert size == len(it.stdout)
        for answer in answers:
            for entry in answer.entries:
                for to, frame in entry.frames:
                    self.frames[to].append(frame)
        return it.returncode, answers, it.stderr.decode()

    def begin(self, *replicas):
        for replica in replicas or range(self.size):
            os.makedirs(self.place(replica), exist_ok=True)
            status, _, told = self.start(replica, b"", "--new")
            assert not status, told

    def settle(self, requests, *replicas):
        """Has replica 0 propose, and these replicas handle frames until there is none for them, and execute what they can."""
        self.start(0, requests)
        replicas = replicas or tuple(range(self.size))
        while any(self.frames[it] for it in replicas):
            for replica in replicas:
                if self.frames[replica]:
                    self.start(replica)

    def opening(self, replica, generation):
        with open(f"{self.place(replica)}/{generation}/opening", "rb") as it:
            return it.read()

    def has(self, replica, name):
        return os.path.exists(f"{self.place(replica)}/{name}")


def put(number, key, value):
    return shim.propose_in(1, number, PUT, key, value)


def sparing(spared, proposal):
    """The proposal, which names the replica that it spares."""
    return shim.request(14, bytes([spared]) + proposal[5:])


def seal(number, value=b""):
    return shim.propose_in(1, number, SEAL, b"", value)


def generation_of(answers):
    """The generation that a state reports."""
    return next((int.from_bytes(it.body[:4], "big") for it in answers if it.kind == 8), None)


def value_of(answers):
    """The value that a get by kind 7 is answered."""
    body = next(it.body for it in answers if it.kind == 3)
    return body[3:] if body[0] else None


def get(key):
    return shim.request(7, key)


class ByStore(tuple):
    """What a start by the rules of hosts/store reports."""


# what a core in the store reports in other words than a node
IN_STORE = {
    "log refused: a log of another cluster or replica": "the log of another replica, cluster or generation",
    "log refused: a log of another generation": "the log of another replica, cluster or generation",
    "log refused: no header of a log": "the log can't be gone on from: no header of a log",
}


def in_short(status, generation, words):
    """Without what is to be done, and of a failure the status alone: there a store names the file too."""
    words = words.partition(";")[0].strip() if status == 2 else ""
    return status, generation, IN_STORE.get(words, re.sub(r"it is for --replicas (\d)", r"it is for \1 replicas", words))


def as_told(got, wanted):
    """What is wanted, where starts by the rules of hosts/store in short."""
    if isinstance(got, ByStore):
        return in_short(*wanted)
    if isinstance(got, tuple) and isinstance(wanted, tuple) and len(got) == len(wanted):
        return tuple(map(as_told, got, wanted))
    return wanted


def differs(got, wanted):
    wanted = as_told(got, wanted)
    return "" if got == wanted else f"{got!r} and not {wanted!r}"


def told(cluster, replica, *more):
    """Status, generation and fault output of a start that asks for a state."""
    if cluster.starter:
        words = [cluster.starter, *cluster.words(replica, *more)[1:]]
        it = subprocess.run(words, stdin=subprocess.DEVNULL, capture_output=True, text=True, timeout=SECONDS, check=False)
        return ByStore(in_short(it.returncode, int(it.stdout) if it.stdout else None, it.stderr))
    status, answers, line = cluster.start(replica, STATE, *more)
    return status, generation_of(answers), line


def line(words):
    return f"{words}\n"


EMPTY_LINE = line("folder refused: no generation is here; --new begins the first one of a new replica, --take FILE goes on with a peer's opening")


def left_line(generation):
    return line(f"folder refused: the replica has been in generation {generation}, which is gone; --take FILE goes on with the opening of a later one")


def no_log_line(generation):
    return line(f"folder refused: generation {generation} has no log; repeat the --take that was broken off, or go on with the opening of a later one by --take FILE")


def place_failed(it, cause):
    return line(f"folder failed: {it.place(0)}: {cause}")


def first_starts(it, folder):
    """A first start, and what is refused then."""
    yield "no folder", differs(told(it, 0), (4, None, place_failed(it, "no such file or directory")))
    if not it.starter:
        # a new replica's folder is made, where that which it is in is there
        new = Cluster(it.program, f"{folder}/new")
        yield "no folder for it, and --new", differs(told(new, 0, "--new"), (4, None, place_failed(new, "no such file or directory")))
        os.mkdir(new.folder)
        yield "no folder, and --new", differs((told(new, 0, "--new"), told(new, 0)), ((0, 1, ""), (0, 1, "")))
    os.mkdir(it.place(0))
    yield "an empty folder", differs(told(it, 0), (2, None, EMPTY_LINE))
    yield "an empty folder is left so", differs(os.listdir(it.place(0)), ["node.lock"])
    yield "--new", differs(told(it, 0, "--new"), (0, 1, ""))
    yield "its opening", differs(it.opening(0, 1), EMPTY[3])
    with open(f"{it.place(0)}/1/log", "rb") as log:
        yield "its log", differs(log.read(), b"EPLG\3\3\0" + struct.pack(">I", 1) + EMPTY[3][-32:])
    yield "--new again", differs(told(it, 0, "--new"), (2, None, line("log refused: there is one already")))
    yield "come back", differs(told(it, 0), (0, 1, ""))
    it.size = 5
    yield "another size", differs(told(it, 0), (2, None, line("folder refused: generation 1 has another size and isn't closed; go on with --replicas 3")))
    there = line("folder refused: generation 1 is here already; --new is for a new replica")
    yield "another size and --new", differs(told(it, 0, "--new"), (2, None, there))
    it.size = 3
    shutil.copytree(it.place(0), it.place(1))
    yield "the folder of another", differs(told(it, 1), (2, None, line("log refused: a log of another cluster or replica")))
    log = f"{it.place(0)}/1/log"
    os.truncate(log, 42)
    no_header = line("log refused: no header of a log")
    yield "a log without a header", differs(told(it, 0), (2, None, no_header))
    yield "a log without a header, --new", differs(told(it, 0, "--new"), (2, None, line("log refused: there is one already")))
    os.truncate(log, 0)
    yield "a log without a byte", differs(told(it, 0), (2, None, no_log_line(1)))
    yield "a log without a byte, --new", differs(told(it, 0, "--new"), (0, 1, ""))
    os.remove(log)
    yield "no log", differs(told(it, 0), (2, None, no_log_line(1)))
    yield "no log, --new", differs(told(it, 0, "--new"), (0, 1, ""))
    # what isn't a generation's is passed over
    for name in ("0", "01", "x", "4294967296", "-1", "2"):
        os.mkdir(f"{it.place(0)}/{name}")
    yield "other folders", differs(told(it, 0), (0, 1, ""))
    for name, damaged, wanted in (
        ("empty", b"", "cut short at byte 0"),
        ("cut", EMPTY[3][:58], "cut short at byte 58"),
        ("turned", EMPTY[3][:10] + b"\1" + EMPTY[3][11:], "damaged: no digest of the bytes before it at byte 27"),
        ("wrong", digested(EMPTY[3][:5] + b"\4" + EMPTY[3][6:27]), "wrong field at byte 5"),
    ):
        with open(f"{it.place(0)}/1/opening", "wb") as file:
            file.write(damaged)
        yield f"an opening that is {name}", differs(told(it, 0), (2, None, line(f"folder refused: the opening of generation 1: {wanted}")))
    with open(f"{it.place(0)}/1/opening", "wb") as file:
        file.write(opening())
    yield "the opening of another generation", differs(told(it, 0), (2, None, line("folder refused: the opening of generation 1 is that of generation 2")))
    with open(f"{it.place(0)}/1/opening", "wb") as file:
        file.write(opening(generation=1, held=((b"a", b"1"),)))
    yield "another opening than the log's", differs(told(it, 0), (2, None, line("log refused: a log of another generation")))


def one_at_a_time(it, folder):
    """A folder that a node has isn't another one's, whatever it asks for."""
    it.begin(0)
    with open(f"{folder}/taken", "wb") as file:
        file.write(opening(generation=7))
    first = subprocess.Popen(it.words(0), stdin=subprocess.PIPE, stdout=subprocess.PIPE)
    try:
        first.stdin.write(STATE)
        first.stdin.flush()
        first.stdout.read(26)
        for words in ((), ("--new",), ("--take", f"{folder}/taken")):
            yield f"a second one {' '.join(words[:1])}", differs(told(it, 0, *words), (4, None, place_failed(it, "another process has it open")))
    finally:
        first.communicate(timeout=SECONDS)
    yield "nothing was taken", differs(told(it, 0), (0, 1, ""))


def a_life(it, folder):
    """Three replicas through two seals, of which one comes late, one has a lost disk, and one is new."""
    it.begin()
    it.settle(put(1, b"x", b"1") + put(2, b"y", b"2"), 0, 1)
    it.settle(seal(3, b"next") + put(4, b"z", b"3"), 0, 1)
    # (nothing is executed so far but by nobody's word)
    status, answers, words = it.start(0, ADVANCE + STATE)
    state = next(a.body for a in answers if a.kind == 8)
    yield "a seal is executed", differs((status, state[12], words), (0, 1, ""))
    yield "the generation isn't closed at once", differs(it.has(0, "2"), False)
    since = struct.unpack_from(">Q", state, 13)[0]
    yield "a start after a seal", differs(told(it, 0), (0, 2, ""))
    size, generation, stamp, value, held, executed = parts_of(it.opening(0, 2))
    wanted = (3, 2, since, b"next", {b"x": b"1", b"y": b"2"}, [(0, 1), (0, 2), (0, 3)])
    yield "the next opening", differs((size, generation, stamp, value, held, executed), wanted)
    with open(f"{it.place(0)}/1/left", "rb") as file:
        yield "the mark", differs(file.read(), b"2")
    status, answers, _ = it.start(0, get(b"x") + get(b"z"))
    yield "a read in the next one", differs(value_of(answers), b"1")
    yield "a start after that", differs(told(it, 0), (0, 2, ""))
    yield "replica 1 executes all", differs(told_all(it, 1), (0, 1, ""))
    yield "replica 1 closes", differs(told(it, 1), (0, 2, ""))
    yield "its map", differs(parts_of(it.opening(1, 2))[3:], wanted[3:])
    yield from late(it, folder)
    yield from lost(it, folder)
    # (how many there are a host learns from seals, and not from its words)
    if not it.starter:
        yield from larger(it, folder)


def asked_by(answer):
    """Whom the one entry of an answer sends frames to."""
    (entry,) = answer.entries
    return [to for to, _ in entry.frames]


def who_is_spared(it, folder):
    """A proposal asks all others but the replica that it names, and is committed when these have answered."""
    it.begin()
    status, answers, words = it.start(0, put(1, b"x", b"0") + sparing(2, put(2, b"y", b"0")) + sparing(1, put(3, b"x", b"1")))
    yield "who is asked", differs((status, [asked_by(a) for a in answers[:3]], words), (0, [[1], [1], [2]], ""))
    for field, at, request in (
        (21, 5, sparing(0, put(4, b"x", b"2"))),
        (21, 5, sparing(3, put(4, b"x", b"2"))),
        (21, 5, sparing(255, put(4, b"x", b"2"))),
        (21, 5, shim.request(14)),
        (2, 6, sparing(1, b"\0" * 9 + put(4, b"x", b"2")[9:])),
        (12, 30, sparing(1, put(4, b"x", b"") + b"!")),
    ):
        _, answers, _ = it.start(0, request)
        yield f"field {field} at {at}: {request[:7].hex()}", differs((answers[0].kind, answers[0].body), (7, struct.pack(">BQ", field, at)))
    # (replica 1 has answered none: what asked it is open, and what asked replica 2 alone is committed without it)
    it.frames[1] = []
    it.start(2)
    _, answers, _ = it.start(0, shim.request(8, bytes(3)) + shim.request(8, b"\0\0\2") + shim.request(9, b"\0\0\3"))
    told = [(a.kind, a.body) for a in answers if a.kind in (4, 5)]
    yield "what is open", differs(told, [(4, b"\1\0\0\1"), (4, b"\0"), (5, b"\0")])
    # (a start goes on from the log, and sends what was asked for as before)
    status, answers, words = it.start(0, shim.request(13, struct.pack(">IB", 0, 0)))
    frames, at, told = int.from_bytes(answers[0].body[5:9], "big"), 9, []
    for _ in range(frames):
        told.append(answers[0].body[at])
        at += 5 + int.from_bytes(answers[0].body[at + 1 : at + 5], "big")
    yield "what is sent again", differs((status, told, words), (0, [1, 1, 2, 1, 2], ""))


def told_all(cluster, replica):
    status, answers, words = cluster.start(replica, ALL + STATE)
    return status, generation_of(answers), words


def late(it, folder):
    """A replica that hasn't seen the seal takes an opening."""
    taken = f"{folder}/taken"

    def take(content):
        with open(taken, "wb") as file:
            file.write(content)
        return told(it, 2, "--take", taken)

    good = it.opening(0, 2)
    yield "a file that isn't there", differs(told(it, 2, "--take", f"{folder}/none"), (4, None, line("opening failed: no such file or directory")))
    for name, content, wanted in (
        ("cut", good[:-1], f"damaged: no digest of the bytes before it at byte {len(good) - 33}"),
        ("short", good[:20], "cut short at byte 20"),
        ("turned", good[:40] + bytes([good[40] ^ 1]) + good[41:], f"damaged: no digest of the bytes before it at byte {len(good) - 32}"),
        ("of another size", opening(size=5), "it is for --replicas 5"),
    ):
        yield f"a taken opening that is {name}", differs(take(content), (2, None, line(f"opening refused: {wanted}")))
    yield "nothing was taken", differs((it.has(2, "2"), told(it, 2)), (False, (0, 1, "")))
    yield "an opening is taken", differs(take(good), (0, 2, ""))
    yield "it is the very one", differs(it.opening(2, 2), good)
    with open(f"{it.place(2)}/1/left", "rb") as file:
        yield "and the generation before is left", differs(file.read(), b"2")
    yield "it is taken again", differs(take(good), (0, 2, ""))
    other = it.opening(1, 2)
    if other != good:
        yield "another one is taken", differs(take(other), (2, None, line("opening refused: generation 2 has another one here; start without --take")))
    earlier = line("opening refused: it is of an earlier generation than 2, which is here; start without --take")
    yield "an earlier one is taken", differs(take(EMPTY[3]), (2, None, earlier))
    yield "without it", differs(told(it, 2), (0, 2, ""))


def lost(it, folder):
    """What is gone of a folder isn't begun again."""
    place, kept = it.place(2), f"{folder}/kept"
    shutil.copytree(place, kept)

    def again():
        shutil.rmtree(place)
        shutil.copytree(kept, place)

    taken = f"{folder}/taken"
    with open(taken, "wb") as file:
        file.write(it.opening(0, 2))
    os.remove(f"{place}/2/log")
    yield "the log is lost", differs(told(it, 2), (2, None, no_log_line(2)))
    yield "the log is lost, and taken again", differs(told(it, 2, "--take", taken), (2, None, no_log_line(2)))
    shutil.rmtree(f"{place}/2")
    for words in ((), ("--new",), ("--take", taken)):
        yield f"the folder is lost {' '.join(words[:1])}", differs(told(it, 2, *words), (2, None, left_line(2)))
    yield "nothing was made of it", differs(it.has(2, "2"), False)
    with open(taken, "wb") as file:
        file.write(opening(generation=3))
    yield "the folder is lost, and a later opening is taken", differs(told(it, 2, "--take", taken), (0, 3, ""))
    with open(f"{place}/1/left", "rb") as file:
        yield "the mark then", differs(file.read(), b"3")
    again()
    with open(f"{place}/1/left", "wb") as file:
        file.write(b"?")
    shutil.rmtree(f"{place}/2")
    yield "a mark that can't be read", differs(told(it, 2), (2, None, left_line(2**32 - 1)))
    for names in (("opening",), ("log",), ("opening", "log"), ("opening", "log", "left"), ("opening.lock", "log.lock", "left.lock")):
        again()
        for name in names:
            if os.path.exists(f"{place}/1/{name}"):
                os.remove(f"{place}/1/{name}")
        yield f"dropped in part: {' '.join(names)}", differs(told(it, 2), (0, 2, ""))
    again()
    shutil.rmtree(f"{place}/1")
    yield "dropped whole", differs(told(it, 2), (0, 2, ""))
    again()


def larger(it, folder):
    """The size changes at a seal."""
    it.settle(put(5, b"x", b"5") + seal(6, b"five"), 0, 1)
    status, answers, _ = it.start(0, ADVANCE + STATE)
    yield "a second seal", differs((status, next(a.body for a in answers if a.kind == 8)[12]), (0, 1))
    it.size = 5
    yield "with five", differs(told(it, 0), (0, 3, ""))
    yield "its opening", differs(parts_of(it.opening(0, 3))[:5:2], (5, parts_of(it.opening(0, 3))[2], {b"x": b"5", b"y": b"2"}))
    it.frames = [[] for _ in range(7)]
    with open(f"{folder}/taken", "wb") as file:
        file.write(it.opening(0, 3))
    os.mkdir(it.place(4))
    yield "a new one", differs(told(it, 4, "--take", f"{folder}/taken"), (0, 3, ""))
    yield "a new one comes back", differs(told(it, 4), (0, 3, ""))
    # (the store marks the generation that it leaves, the node all before it again)
    for generation in (2,) if it.starter else (1, 2):
        with open(f"{it.place(0)}/{generation}/left", "rb") as file:
            yield f"the mark of generation {generation} names the newest", differs(file.read(), b"3")
    os.mkdir(it.place(3))
    os.mkdir(f"{it.place(3)}/2")
    os.mkdir(f"{it.place(3)}/3")
    for generation, content in ((2, opening(size=5)), (3, it.opening(0, 3))):
        with open(f"{it.place(3)}/{generation}/opening", "wb") as file:
            file.write(content)
    it.size = 7
    other = line("folder refused: generation 3 has another size and isn't closed; go on with --replicas 5")
    yield "a log that isn't begun, with seven", differs((told(it, 3), it.has(3, "3/log"), it.has(3, "2/left")), ((2, None, other), False, False))
    it.size = 5
    yield "a log that isn't begun, with five", differs((told(it, 3), it.has(3, "2/left")), ((0, 3, ""), True))
    it.size = 3
    size = line("folder refused: generation 3 has another size and isn't closed; go on with --replicas 5")
    yield "with three again", differs(told(it, 0), (2, None, size))


def broken_line(generation):
    return line(f"folder refused: what generation {generation} opens with is gone, and a later one rests on it; --take FILE goes on with the opening of a later one")


def short_log_line(generation):
    return line(f"folder refused: the log of generation {generation} is gone or cut short, and what it leaves opens generation {generation + 1}")


def other_log_line(generation):
    return line(f"folder refused: the log of generation {generation} isn't the one that generation {generation + 1} opens with")


class Kept:
    """A replica's folder as it was, and what it has in other files."""

    def __init__(self, cluster, replica=0):
        self.cluster, self.place, self.tree = cluster, cluster.place(replica), shim.tree_of(cluster.place(replica))

    def lay(self, files=None, without=()):
        """Has the folder hold what it held, with these files by their names in it, and without what has these names or stands below them."""
        shutil.rmtree(self.place)
        os.makedirs(self.place)
        tree = {name: held for name, held in (self.tree | (files or {})).items() if not any(name == it or name.startswith(f"{it}/") for it in without)}
        for name, held in sorted(tree.items()):
            if held is None:
                os.makedirs(f"{self.place}/{name}", exist_ok=True)
                continue
            os.makedirs(os.path.dirname(f"{self.place}/{name}"), exist_ok=True)
            with open(f"{self.place}/{name}", "wb") as file:
                file.write(held)


def told_there(cluster, *keys):
    """Status, generation, the stamp, the values of these keys, and the fault output of a start."""
    status, answers, words = cluster.start(0, STATE + b"".join(map(get, keys)))
    state = next((it.body for it in answers if it.kind == 8), None)
    values = [it.body[3:] if it.body[0] else None for it in answers if it.kind == 3]
    return status, generation_of(answers), state and struct.unpack_from(">Q", state, 13)[0], values, words


def by_references(it, folder):
    """A generation that opens with what the log before it leaves, by a reference: the same as by its file."""
    it.begin()
    it.settle(put(1, b"x", b"1") + put(2, b"y", b"2"), 0, 1)
    it.settle(seal(3, b"next"), 0, 1)
    it.start(0, ADVANCE)
    kept = Kept(it)
    log = kept.tree["1/log"]
    # (what it is by its file)
    by_file = told_there(it, b"x", b"y", b"z")
    full = it.opening(0, 2)
    yield "by its file", differs((by_file[:2], by_file[3:]), ((0, 2), ([b"1", b"2", None], "")))
    named = reference(log)
    whole = {"2": None, "2/reference": named}
    # before the reference has its name
    kept.lay({"2": None, "2/reference.new": named[:40]})
    yield "half a reference", differs((told_there(it, b"x", b"y", b"z"), it.has(0, "2/opening")), (by_file, True))
    # between the reference and the log
    kept.lay(whole)
    yield "a reference", differs((told_there(it, b"x", b"y", b"z"), it.has(0, "2/opening")), (by_file, False))
    with open(f"{it.place(0)}/2/log", "rb") as file:
        header = file.read(43)
    yield "its log names it", differs(header, b"EPLG\3\3\0" + struct.pack(">I", 2) + named[-32:])
    with open(f"{it.place(0)}/1/left", "rb") as file:
        yield "the generation before is left", differs(file.read(), b"2")
    yield "again", differs(told_there(it, b"x", b"y", b"z"), by_file)
    # between the log and the mark
    kept.lay(whole | {"2/log": header})
    yield "a log without an entry", differs((told_there(it, b"x", b"y", b"z"), it.has(0, "1/left")), (by_file, True))
    it.frames = [[] for _ in range(7)]
    it.start(0, put(4, b"x", b"5"))
    yield "it goes on", differs(told_there(it)[:2], (0, 2))
    begun = Kept(it)
    yield from wrong_logs(it, kept, whole, begun)
    yield from wrong_references(it, kept, log, begun)
    yield from checkpoints(it, begun, named, full, by_file)
    yield from taken_over(it, folder, kept, whole, full)
    yield from in_a_chain(it, kept, whole)


def wrong_logs(it, kept, whole, begun):
    """The log that a reference names is cut, changed, another one or gone, before the next one is begun or after it."""
    log = kept.tree["1/log"]
    it.start(1)
    with open(f"{it.place(1)}/1/log", "rb") as file:
        others = file.read()
    for name, held, wanted in (
        ("with more behind it", log + b"torn!", None),
        ("cut by a byte", log[:-1], short_log_line(1)),
        ("without a byte", b"", short_log_line(1)),
        ("with its last byte turned", log[:-1] + bytes([log[-1] ^ 1]), other_log_line(1)),
        ("with a byte of its header turned", log[:20] + bytes([log[20] ^ 1]) + log[21:], other_log_line(1)),
        ("of another replica", others + log[len(others) :], other_log_line(1)),
    ):
        for when, there in (("new", kept), ("begun", begun)):
            there.lay((whole if there is kept else {}) | {"1/log": held})
            got = told(it, 0)
            yield f"{when}, a log {name}", differs(got, (2, None, wanted) if wanted else (0, 2, ""))
    for when, there in (("new", kept), ("begun", begun)):
        there.lay(whole if there is kept else {}, ("1/log",))
        yield f"{when}, no log", differs(told(it, 0), (2, None, short_log_line(1)))
    # what a reference names is a log to its end, and closed
    entries = [43]
    while entries[-1] < len(log):
        entries.append(entries[-1] + 24 + struct.unpack_from(">I", log, entries[-1])[0])
    yield "the log has whole records", differs(entries[-1], len(log))
    for name, part in (("cut in a record", log[: entries[2] - 3]), ("without a seal", log[: entries[2]]), ("without an entry", log[:43])):
        kept.lay({"2": None, "2/reference": reference(part)})
        yield f"a reference to a log {name}", differs(told(it, 0), (2, None, other_log_line(1)))
    # of another cluster
    kept.lay({"2": None, "2/reference": reference(log[:5] + b"\5" + log[6:]), "1/log": log[:5] + b"\5" + log[6:]})
    yield "a log of another cluster", differs(told(it, 0), (2, None, other_log_line(1)))


def wrong_references(it, kept, log, begun):
    """References that aren't those of the generation."""
    good = reference(log)
    for name, held, wanted in (
        ("cut", good[:-1], "cut short at byte 81"),
        ("without a byte", b"", "cut short at byte 0"),
        ("turned", good[:20] + bytes([good[20] ^ 1]) + good[21:], "damaged: no digest of the bytes before it at byte 50"),
        ("an opening", opening(seal=b"s" * 20), "wrong field at byte 0"),
        ("of four replicas", digested(good[:5] + b"\4" + good[6:50]), "wrong field at byte 5"),
        ("of generation 1", digested(good[:6] + struct.pack(">I", 1) + good[10:50]), "wrong field at byte 6"),
        ("to no log", digested(good[:10] + struct.pack(">Q", 42) + good[18:50]), "wrong field at byte 10"),
    ):
        kept.lay({"2": None, "2/reference": held})
        yield f"a reference that is {name}", differs(told(it, 0), (2, None, line(f"folder refused: the reference of generation 2: {wanted}")))
    kept.lay({"2": None, "2/reference": reference(log, generation=3)})
    yield "the reference of another generation", differs(told(it, 0), (2, None, line("folder refused: the reference of generation 2 is that of generation 3")))
    kept.lay({"2": None, "2/reference": reference(log, size=5)})
    yield "the reference of another size", differs(told(it, 0), (2, None, line("folder refused: generation 2 has another size and isn't closed; go on with --replicas 5")))
    # one that the log of the generation doesn't name
    begun.lay({"2/reference": reference(log + b"!"), "1/log": log + b"!"})
    yield "a reference to more than the log", differs(told(it, 0), (2, None, other_log_line(1)))
    begun.lay({"2": None, "2/reference": good}, ("2/log",))
    yield "the log is lost", differs(told(it, 0), (2, None, no_log_line(2)))
    begun.lay(without=("2/reference",))
    yield "the reference is lost", differs(told(it, 0), (2, None, left_line(2)))


def checkpoints(it, begun, named, full, by_file):
    """The opening is written behind its reference, then bound to it, and then what is older goes."""

    def there(bound=None, held=full, without=()):
        begun.lay({"2/opening": held} | ({"2/whole": bound} if bound is not None else {}), without)
        status, generation, _, values, words = told_there(it, b"y")
        return status, generation, values, words

    served = 0, 2, [b"2"], ""
    gone = 2, None, [], broken_line(1)
    other = opening(held=((b"y", b"9"),))
    begun.lay({"2/opening.new": full[:50]})
    yield "half an opening", differs(told(it, 0), (0, 2, ""))
    yield "an opening that nothing binds", differs(there(), served)
    yield "another opening that nothing binds", differs(there(held=other), served)
    yield "no opening at all that nothing binds", differs(there(held=b""), served)
    yield "bound", differs(there(binding(named, full)), served)
    yield "bound, and what is older is gone", differs(there(binding(named, full), without=("1",)), served)
    for names in (("1/opening",), ("1/log",), ("1/opening", "1/log")):
        yield f"bound, and {' '.join(names)} is gone", differs(there(binding(named, full), without=names), served)
    yield "not bound, and what is older is gone", differs(there(without=("1",)), gone)
    yield "not bound, and the opening before is gone", differs(there(without=("1/opening",)), gone)
    for name, bound in (
        ("another file", binding(named, other)),
        ("another reference", binding(reference(b"x" * 50), full)),
        ("in another version", b"EPOB\4" + binding(named, full)[5:]),
        ("in another word", b"EPOX" + binding(named, full)[4:]),
        ("with a byte more", binding(named, full) + b"\0"),
        ("with a byte less", binding(named, full)[:-1]),
        ("by nothing", b""),
    ):
        yield f"bound to {name}", differs(there(bound), served)
        yield f"bound to {name}, and what is older is gone", differs(there(bound, without=("1",)), gone)
    yield "bound, and another opening in its place", differs(there(binding(named, full), held=other), served)
    yield "bound, and another opening in its place, and what is older is gone", differs(there(binding(named, full), held=other, without=("1",)), gone)
    turned = full[:40] + bytes([full[40] ^ 1]) + full[41:]
    damaged = line(f"folder refused: the opening of generation 2: damaged: no digest of the bytes before it at byte {len(full) - 32}")
    yield "bound, and turned", differs(there(binding(named, full), held=turned), (2, None, [], damaged))
    yield "bound, and cut", differs(there(binding(named, full), held=full[:-1]), served)


def taken_over(it, folder, kept, whole, full):
    """Openings that are taken where a generation has a reference."""
    taken = f"{folder}/taken"

    def take(content):
        kept.lay(whole)
        with open(taken, "wb") as file:
            file.write(content)
        return told(it, 0, "--take", taken)

    yield "its own opening is taken", differs(take(full), (2, None, line("opening refused: generation 2 has another one here; start without --take")))
    yield "an earlier one is taken", differs(take(EMPTY[3]), (2, None, line("opening refused: it is of an earlier generation than 2, which is here; start without --take")))
    yield "a later one is taken", differs(take(opening(generation=3)), (0, 3, ""))
    yield "and gone on with", differs(told(it, 0), (0, 3, ""))


def in_a_chain(it, kept, whole):
    """A second reference rests on the first one."""
    kept.lay(whole)
    it.frames = [[] for _ in range(7)]
    # (replica 1 closes by a file, and its log names that: what the two answer each other is of one generation)
    it.start(1, ALL)
    it.start(1)
    it.start(0)
    it.settle(put(5, b"x", b"5") + seal(6, b"more"), 0, 1)
    it.start(0, ADVANCE)
    second = Kept(it)
    by_file = told_there(it, b"x", b"y")
    full = it.opening(0, 3)
    yield "a second change, by its file", differs((by_file[:2], by_file[3:]), ((0, 3), ([b"5", b"2"], "")))
    log, named = second.tree["2/log"], reference(second.tree["2/log"], generation=3)
    chained = {"3": None, "3/reference": named}
    second.lay(chained)
    yield "two references", differs((told_there(it, b"x", b"y"), it.has(0, "2/opening"), it.has(0, "3/opening")), (by_file, False, False))
    third = Kept(it)
    first = second.tree["1/log"]
    third.lay({"1/log": first[:-1] + bytes([first[-1] ^ 1])})
    yield "the first log is another", differs(told(it, 0), (2, None, other_log_line(1)))
    third.lay({"2/log": log[:-1] + bytes([log[-1] ^ 1])})
    yield "the second log is another", differs(told(it, 0), (2, None, other_log_line(2)))
    # (a log that names another reference than the one beside it)
    more = first + b"!"
    third.lay({"1/log": more, "2/reference": reference(more)})
    yield "the first reference is another", differs(told(it, 0), (2, None, other_log_line(1)))
    third.lay(without=("2/reference",))
    yield "the first reference is gone", differs(told(it, 0), (2, None, broken_line(2)))
    third.lay({"3/opening": full, "3/whole": binding(named, full)}, ("1", "2"))
    yield "the second one is whole, and nothing else is there", differs(told_there(it, b"x", b"y"), by_file)


def older_folders():
    """The bytes behind each name in tests/vectors/folders.txt. Lines that are indented further go on with the last."""
    found, name = {}, None
    with open(f"{TOP}/tests/vectors/folders.txt", encoding="utf-8") as file:
        for indented in (it for it in file if it.startswith("    ")):
            if indented[4] != " ":
                name, indented = indented.split(None, 1)
            found[name] = found.get(name, b"") + bytes.fromhex(indented)
    return found


def an_older_folder(it, folder):
    """Folders as an earlier node wrote them, before there were references, are gone on from."""
    for name, held in older_folders().items():
        os.makedirs(os.path.dirname(f"{it.folder}/{name}"), exist_ok=True)
        with open(f"{it.folder}/{name}", "wb") as file:
            file.write(held)
    yield "older folders start", differs([told(it, replica) for replica in (0, 1)], [(0, 2, "")] * 2)
    _, answers, _ = it.start(0, get(b"x") + get(b"y") + get(b"z"))
    values = [it.body[3:] if it.body[0] else None for it in answers if it.kind == 3]
    yield "what an older folder has", differs(values, [b"5", b"2", b"3"])
    it.settle(put(7, b"y", b"7"), 0, 1)
    it.settle(seal(8, b"last"), 0, 1)
    it.start(0, ADVANCE)
    yield "an older folder goes on", differs(told(it, 0), (0, 3, ""))
    yield "its next map", differs(parts_of(it.opening(0, 3))[3:5], (b"last", {b"x": b"5", b"y": b"7", b"z": b"3"}))


def words_refused(cluster, folder):
    """Words that don't go together."""
    for words, why in (
        ((), "'--log' or '--dir' is missing"),
        (("--log", "l", "--dir", "d"), "'--log' and '--dir' don't go together"),
        (("--log", "l", "--take", "f"), "'--take' goes with '--dir' alone"),
        (("--dir", "d", "--take", "f", "--new"), "'--new' and '--take' don't go together"),
    ):
        it = subprocess.run([cluster.program, "node", "--replicas", "3", "--replica", "0", *words], input=b"", capture_output=True, timeout=SECONDS, check=False, cwd=folder)
        wanted = f"command line refused\nerror: {why}\n\nFor more information, try '--help'.\n"
        yield f"words {' '.join(words)}", differs((it.returncode, it.stdout, it.stderr.decode()), (2, b"", wanted))


def every(program, starter=None):
    """The name of each run, and what is wrong with it, or nothing."""
    with tempfile.TemporaryDirectory(dir="/dev/shm" if os.path.isdir("/dev/shm") else None) as folder:
        for rows in (first_starts, one_at_a_time, a_life, an_older_folder, *[who_is_spared, words_refused, by_references] * (not starter)):
            place = f"{folder}/{rows.__name__}"
            os.mkdir(place)
            try:
                yield from ((f"folder, {name}", wrong) for name, wrong in rows(Cluster(program, place, starter=starter), place))
            except (AssertionError, LookupError, OSError, StopIteration, struct.error, subprocess.TimeoutExpired) as fault:
                yield f"folder, {rows.__name__.replace('_', ' ')}", repr(fault)[:300]


if __name__ == "__main__":
    import sys

    sys.dont_write_bytecode = True
    failed = 0
    for at, (name, wrong) in enumerate(every(*map(os.path.abspath, sys.argv[1:3])), 1):
        failed += bool(wrong)
        if wrong:
            print(f"{name}: {wrong}")
    print(f"{at - failed} passed, {failed} failed")
    sys.exit(bool(failed))
