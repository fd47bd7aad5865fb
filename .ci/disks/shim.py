"""Runs of `epaxos node` under shim.c, and what its requests, answers and logs are in bytes (docs/FORMATS.md, sections 9 and 10)."""

import copy
import os
import shutil
import struct
import subprocess
from dataclasses import dataclass

from disks import disk

SOURCE = os.path.join(os.path.dirname(os.path.abspath(__file__)), "shim.c")
SECONDS = 600
UNTRACED = "there is no cc, or no program can be traced here"
# the length of a log's header, and of what stands before and behind an entry in its record, by version
HEADERS = {2: 7, 3: 43}
BEFORE = {2: 8, 3: 16}
BEHIND = 8


def built(folder):
    """The shim, built there; None where it can't be built or can't trace."""
    compiler = shutil.which("cc")
    if not compiler or os.uname().machine != "x86_64":
        return None
    shim = f"{folder}/shim"
    if subprocess.run([compiler, "-O2", "-Wall", "-Wextra", "-Werror", "-o", shim, SOURCE]).returncode:
        return None
    return None if subprocess.run([shim, f"{folder}/none", folder, "--", "true"]).returncode else shim


def request(kind, body=b""):
    return struct.pack(">IB", len(body) + 1, kind) + body


def propose(client, number, key, value, seen=0):
    return request(1, struct.pack(">IIQBBH", client, number, seen, 3, len(key), len(value)) + key + value)


def propose_in(client, number, op, key=b"", body=b"", seen=0):
    """A proposal to a node of a generation; its op by number."""
    return request(1, struct.pack(">IIQBBBI", client, number, seen, op, len(key), 0, len(body)) + key + body)


def frame(content):
    return request(2, content)


ADVANCE = request(6)
SYNC = request(10)
STATE = request(11)
ALL = request(12)


@dataclass
class Entry:
    """An entry that an answer names."""

    number: int
    # each with its receiver
    frames: list


@dataclass
class Answer:
    kind: int
    # of `taken`
    entries: list
    # of `synced`
    synced: int = 0
    # all of it, without its length and kind
    body: bytes = b""


def answers(told, version=2):
    """The answers that stand whole at the beginning of these bytes, of a node of this version, and how many bytes they have."""
    at, whole = 0, []
    while at + 4 <= len(told) and at + 4 + (size := struct.unpack_from(">I", told, at)[0]) <= len(told):
        body = told[at + 4 : at + 4 + size]
        synced = struct.unpack(">I", body[1:])[0] if body[0] == 6 else 0
        whole.append(Answer(body[0], list(entries_told(body, version)) if body[0] == 1 else [], synced, body[1:]))
        at += 4 + size
    return whole, at


def entries_told(body, version):
    (count,), at = struct.unpack_from(">I", body, 1), 5
    for _ in range(count):
        number, frames, at = struct.unpack_from(">I", body, at)[0], [], at + 15
        sent, at = struct.unpack_from(">H", body, at)[0], at + 2
        for _ in range(sent):
            to, size = struct.unpack_from(">BI", body, at)
            frames.append((to, body[at + 5 : at + 5 + size]))
            at += 5 + size
        receipts, at = struct.unpack_from(">H", body, at)[0], at + 2
        for _ in range(receipts):
            at += 32
            reply, at = body[at], at + 1
            if reply == 1:
                size = 2 * (version - 1)
                at += size + int.from_bytes(body[at : at + size], "big")
        yield Entry(number, frames)


@dataclass
class Record:
    place: int
    end: int
    entry: bytes
    # up to which byte the log was on the disk when it was written; 0 in version 2
    synced: int


def records(log):
    """The records that stand whole at the beginning of a log, whatever their checksums are; None where it has no whole header."""
    if log[:4] != b"EPLG" or len(log) < 5 or log[4] not in HEADERS or len(log) < HEADERS[log[4]]:
        return None
    version, found = log[4], []
    at = HEADERS[version]
    while at + BEFORE[version] <= len(log):
        size, complement = struct.unpack_from(">II", log, at)
        begin = at + BEFORE[version]
        end = begin + size + BEHIND
        if size ^ complement != 0xFFFFFFFF or end > len(log):
            break
        synced = struct.unpack_from(">Q", log, at + 8)[0] if version == 3 else 0
        found.append(Record(at, end, log[begin : begin + size], synced))
        at = end
    return found


class Case:
    """Starts of a node on one disk. After each call it is looked at whether what was reported would outlast a power loss."""

    version = 2

    def __init__(self, shim, node, folder):
        self.shim, self.node, self.folder = shim, node, folder
        self.starts = 0
        self.forget()

    def forget(self):
        """A new disk with an empty folder."""
        # what is traced is at or below the root
        self.root = self.place = f"{self.folder}/{self.starts}"
        os.makedirs(self.place)
        self.log = f"{self.place}/log"
        self.disk = disk.Disk()
        # folders that have a new name in them, or are new themselves, and weren't synced since; and what came before their syncs
        self.unsynced, self.misordered = set(), []
        # how many entries were reported, -1 where nothing was answered; and the entries themselves
        self.told, self.entries = -1, []
        self.faults = []
        self.lines, self.status, self.errors = [], 0, ""

    def start(self, requests, *rules, words=(), is_new=False):
        """Starts the node, which reads these requests."""
        self.starts += 1
        # where the node is
        self.started = self.place
        trace = f"{self.folder}/{self.starts}.trace"
        run = [self.shim, trace, self.root, *rules, "--", *self.command(words, is_new)]
        ended = subprocess.run(run, input=requests, capture_output=True, timeout=SECONDS)
        self.status, self.errors = ended.returncode, ended.stderr.decode(errors="replace")
        with open(trace, encoding="ascii") as it:
            self.lines = it.read().splitlines()
        self.follow(self.lines)
        return self.status

    def command(self, words, is_new):
        """The program, and its words."""
        more = [*words, *(["--new"] if is_new else [])]
        return [self.node, "node", "--replicas", "3", "--replica", "0", *self.where(), *more]

    def where(self):
        """The words that name the place."""
        return ["--log", self.log]

    def whole(self, told):
        """The answers that stand whole at the beginning of these bytes, and how many bytes they have."""
        return answers(told, self.version)

    def follow(self, lines):
        """Does with the disk what these calls did, and looks after each."""
        out, read = b"", 0
        self.unsynced, self.misordered = set(), []
        for line in lines:
            kind, *rest = line.split(" ")
            self.name(kind, rest)
            if kind == "out" and int(rest[0]) > 0:
                out += bytes.fromhex(rest[1])
                whole, size = self.whole(out[read:])
                read += size
                self.hear(whole)
            elif kind == "unused":
                self.faults.append(f"no call met the rule {rest[0]}")
            elif kind not in ("err", "end", "read", "lock", "out"):
                try:
                    self.disk.feed(line)
                except ValueError as fault:
                    self.faults.append(str(fault))
                    break
            self.look(line)
        self.faults += self.misordered
        if read != len(out):
            self.faults.append("an answer is cut")

    def name(self, kind, rest):
        """A name is synced before there is another one, and before anything is reported."""
        if kind not in ("rename", "mkdir", "folder", "out") or rest[0] == "held" or int(rest[0]) < 0:
            return
        if kind == "folder":
            self.unsynced.discard(self.disk.folders[int(rest[1])])
            return
        if self.unsynced:
            self.misordered.append(f"{', '.join(sorted(os.path.relpath(it, self.place) for it in self.unsynced))} was not synced before: {kind} {rest[-1][-40:]}")
        if kind == "rename":
            self.unsynced = {os.path.dirname(rest[-1])}
        if kind == "mkdir":
            # (nobody knows whether the name of the folder that it is in would outlast a power loss)
            above = os.path.dirname(rest[-1])
            self.unsynced = {it for it in (above, os.path.dirname(above)) if it.startswith(self.root)}

    def hear(self, whole):
        for answer in whole:
            numbers = [it.number for it in answer.entries]
            self.told = max([self.told, answer.synced, *numbers])
        log = self.disk.current().get(self.log)
        held = [it.entry for it in (records(bytes(log.cache)) if log else None) or []][: max(self.told, 0)]
        if len(held) < self.told or held[: len(self.entries)] != self.entries:
            self.faults.append(f"{self.told} entries are told, and the log has not all of them: it has {len(held)}")
        self.entries = held

    def look(self, line):
        """Whether a power loss right after this call would take what was reported."""
        if self.told < 0 or self.faults or line.startswith(("read ", "err ", "end ", "lock ", "unused ")):
            return
        sure = records(self.disk.sure(self.log))
        if sure is None or [it.entry for it in sure[: self.told]] != self.entries:
            count = "no log" if sure is None else f"{len(sure)} entries"
            self.faults.append(f"{self.told} entries were told, and {count} would outlast a power loss after: {line[:60]}")

    def lose_power(self, chance=None):
        """From now on there is what a power loss leaves."""
        left = self.disk.after_crash(chance)
        self.starts += 1
        root = f"{self.folder}/{self.starts}"
        os.makedirs(root)
        self.disk = disk.Disk()
        for path, content in sorted(left.items()):
            self.lay(root + path.removeprefix(self.root), content)
        self.go_to(root)

    def begin_again(self):
        """The process was killed here, and the power stays on: what it has done with its files is in the cache."""
        self.starts += 1
        root = f"{self.folder}/{self.starts}"
        self.disk = self.disk.moved(self.root, root)
        self.go_to(root)

    def go_to(self, root):
        """Everything is below another root."""
        places = (root + it.removeprefix(self.root) for it in (self.root, self.place, self.log))
        self.root, self.place, self.log = places

    def lay(self, path, content):
        """Makes a file of this content, or a folder where there is none; it is on the disk."""
        if content is None:
            os.mkdir(path)
        else:
            with open(path, "wb") as it:
                it.write(content)
        self.disk.put(path)

    def wants(self, is_so, what):
        if not is_so:
            self.faults.append(what)

    def calls(self, *kinds):
        """How many calls of these kinds there were in the last start."""
        return sum(line.split(" ")[0] in kinds for line in self.lines)


class FolderCase(Case):
    """The same of a node in the folder of a replica that lives through generations. What was reported is of the generation that is served last."""

    version = 3

    def forget(self):
        super().forget()
        # the folder that the replica's folder is in is traced too
        self.lay(f"{self.root}/it", None)
        self.place = f"{self.root}/it"
        self.generation, self.log = 1, f"{self.place}/1/log"
        # the answers of the last start
        self.answers = []

    def where(self):
        return ["--dir", self.place]

    def put(self, tree):
        """Has the folder hold these files and folders, all on the disk, by their names in it."""
        for name, content in sorted(tree.items()):
            self.lay(f"{self.place}/{name}", content)

    def start(self, requests, *rules, words=(), is_new=False):
        self.answers = []
        # what there was before it, for a start that is followed again
        self.saved = copy.deepcopy((self.root, self.place, self.log, self.generation, self.told, self.entries, self.disk))
        return super().start(requests, *rules, words=words, is_new=is_new)

    def restore(self, saved):
        """From now on there is what there was before a start."""
        self.answers = []
        self.root, self.place, self.log, self.generation, self.told, self.entries, self.disk = copy.deepcopy(saved)

    def hear(self, whole):
        self.answers += whole
        for it in whole:
            if it.kind == 8:
                self.serves(int.from_bytes(it.body[:4], "big"))
        super().hear(whole)

    def serves(self, generation):
        """The node says that this is its generation: what was reported of another one is in the map that this one opened with."""
        if generation < self.generation:
            self.faults.append(f"generation {generation} is served after generation {self.generation}")
        if generation != self.generation:
            self.generation, self.log = generation, f"{self.place}/{generation}/log"
            self.told, self.entries = -1, []

    def state(self):
        """The generation that the last start served, and how many entries were on the disk; None where it reported none."""
        told = [it.body for it in self.answers if it.kind == 8]
        return struct.unpack_from(">II", told[-1]) if told else None


def tree_of(folder):
    """The files and folders in a folder, but for locks: the bytes of each file, None of a folder."""
    tree = {}
    for at, folders, files in os.walk(folder):
        for it in folders:
            tree[os.path.relpath(f"{at}/{it}", folder)] = None
        for it in files:
            if not it.endswith(".lock"):
                with open(f"{at}/{it}", "rb") as file:
                    tree[os.path.relpath(f"{at}/{it}", folder)] = file.read()
    return tree
