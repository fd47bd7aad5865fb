"""What a host does with its folder (`epaxos::host` over `epaxos::service::Folder` of bindings/rust/epaxos), where cargo
and the library are: the example `power` is run under shim.c, and a model of a disk (disk.py) tells what a power loss
would leave after each of its calls: as a generation begins in memory and by a reference, as an opening is written and
bound, and what is older goes, and as an opening of a peer is taken. The host is started from that, and has all on which
rested what went out. Runs alone too: python3 .ci/disks/hosts.py PROGRAM [WORD], with a word the rows alone whose names
have it.
"""

import os
import random
import shutil
import struct
import subprocess
import sys
import tempfile

sys.dont_write_bytecode = True
TOP = os.path.dirname(os.path.dirname(os.path.dirname(os.path.abspath(__file__))))
sys.path[:0] = [f"{TOP}/.ci", f"{TOP}/tools"]

import needs
from disks import shim

# how many disks that chance leaves are looked at after a call; of the calls on logs one of so many is looked at, and of
# either sort of calls not many more than this
CHANCES, SOME, MOST = 3, 6, 300
# calls that change nothing
QUIET = ("read", "lock", "err", "end", "out", "unused")
MOST_TOLD = 3


def is_later(values, before):
    return all(map(int.__ge__, values, before))


class HostCase(shim.FolderCase):
    """Starts of a host in a folder."""

    def forget(self):
        super().forget()
        # what its client was answered last
        self.values = (0, 0)
        # what was renamed last
        self.renamed = ""
        # whether threads share the folder
        self.is_shared = False

    def command(self, words, is_new):
        return [self.node, self.place, *(words or ("new" if is_new else "again",))]

    def start(self, *words, is_new=False):
        # (the name of the folder itself may not be on the disk, before that which it is in was synced)
        self.is_above_synced = False
        return super().start(b"", words=words, is_new=is_new)

    def whole(self, told):
        """A line for each time that something goes out: the generation, its entries, and the values."""
        end = told.rfind(b"\n") + 1
        lines = [tuple(map(int, it.split())) for it in told[:end].splitlines()]
        return [shim.Answer(8, [], line[1], struct.pack(">4I", *line)) for line in lines], end

    def hear(self, whole):
        super().hear(whole)
        for it in whole:
            values = struct.unpack_from(">2I", it.body, 8)
            self.wants(is_later(values, self.values), f"{values} is told after {self.values}")
            self.values = values

    def name(self, kind, rest):
        if kind == "folder" and rest[0] == "0":
            self.is_above_synced |= self.disk.folders[int(rest[1])] == self.root
        if self.is_shared:
            self.name_of_threads(kind, rest)
            return
        if kind == "mkdir" and rest[0] == "0" and os.path.dirname(rest[-1]) == self.place:
            # (the place's own name is another matter)
            self.unsynced = {self.place}
            return
        if kind == "rename" and rest[0] != "held" and int(rest[0]) >= 0:
            before, self.renamed = self.renamed, rest[-1]
            # (a log without its reference is none, so that one sync does for the names of both)
            if before.endswith("/reference") and self.renamed == before.removesuffix("reference") + "log":
                return
        if kind == "out" and not self.is_above_synced:
            self.misordered.append("something goes out before the name of the folder is on the disk for sure")
        super().name(kind, rest)

    def name_of_threads(self, kind, rest):
        """Each thread syncs its own names: what goes out rests on those of its generation alone."""
        if kind not in ("rename", "mkdir", "folder", "out") or rest[0] == "held" or int(rest[0]) < 0:
            return
        if kind == "folder":
            synced = self.disk.folders[int(rest[1])]
            self.unsynced = {it for it in self.unsynced if os.path.dirname(it) != synced}
        elif kind != "out":
            self.unsynced.add(rest[-1])
        else:
            for line in bytes.fromhex(rest[1]).splitlines():
                folder = f"{self.place}/{line.split()[0].decode()}"
                for it in self.unsynced & {folder, f"{folder}/reference", f"{folder}/log"}:
                    self.misordered.append(f"{os.path.relpath(it, self.place)} was not synced before: {line.decode()}")

    def look(self, line):
        # (once a later generation has begun, what was reported of an earlier one may be dropped)
        later = [f"{self.place}/{it}/log" for it in range(self.generation + 1, self.generation + 4)]
        names = self.disk.current()
        if not any(names.get(path) and self.disk.sure(path) for path in later):
            super().look(line)

    def now(self):
        return self.root, self.place, self.log, self.generation, self.told, self.entries, self.disk, self.values

    def turn_back(self, now):
        self.root, self.place, self.log, self.generation, self.told, self.entries, self.disk, self.values = now

    def after(self, lines, is_looked_at):
        """After each of these calls, in turn: which one it is. (What is done between two of them leaves nothing.)"""
        begun = self.saved
        self.restore(begun)
        self.values = (0, 0)
        for at, line in enumerate(lines):
            self.follow([line])
            if is_looked_at(at, line):
                now = self.now()
                yield line
                self.turn_back(now)

    def sweep(self):
        """Removes the folders of the starts before, but for the one that is used."""
        for name in os.listdir(self.folder):
            path = f"{self.folder}/{name}"
            if os.path.isdir(path) and path != self.root:
                shutil.rmtree(path)


def comes_back(case, when):
    """A start: it has all on which rested what went out."""
    generation, told, values = case.generation, case.told, case.values
    case.answers = []
    case.start()
    if case.status and told < 0:
        # (nothing has gone out, so a new replica may begin there)
        case.start("begin")
    case.wants(case.status == 0, f"{when}: status {case.status}, {case.errors.strip()[-300:]}")
    if case.status:
        return
    served, entries = case.state()
    there, here = f"{told} entries of generation {generation}", f"{entries} of {served}"
    case.wants(served > generation or entries >= told, f"{when}: {there} were there, and {here} came back")
    case.wants(is_later(case.values, values), f"{when}: {values} was told, and {case.values} came back")


def is_of_log(line):
    """Whether this is a call on a log that goes on."""
    return line.startswith(("write ", "fdatasync "))


def looked_at(lines):
    """Which calls are looked at: all that change something, of those on logs some; of a long life some of each."""
    changing = [line for line in lines if line.split(" ")[0] not in QUIET]
    on_logs = sum(map(is_of_log, changing))
    shares = {True: min(1 / SOME, MOST / max(1, on_logs)), False: MOST / max(1, len(changing) - on_logs)}

    def is_looked_at(at, line):
        return line.split(" ")[0] not in QUIET and random.Random(at).random() < shares[is_of_log(line)]

    return is_looked_at


def loses_power(case, *words):
    """The power is lost after each call of a life."""
    lives(case, *words)
    for line in case.after(case.lines, looked_at(case.lines)):
        if comes_back_by_chance(case, f"after {short(line)}"):
            return


def loses_power_as_a_service(case):
    """The same of a service, which writes openings beside the log."""
    case.is_shared = True
    loses_power(case, "serve")


def is_killed(case):
    """The process is killed after each call of a life that changes names, and started again; then the power is lost."""
    lives(case)
    for line in case.after(case.lines, lambda _, line: line.startswith(("rename ", "mkdir ", "unlink ", "folder "))):
        case.begin_again()
        comes_back(case, f"killed after {short(line)}")
        if comes_back_by_chance(case, f"killed after {short(line)}, and then the power was lost"):
            return


def comes_back_by_chance(case, when):
    """Starts from what some power losses leave: whether one of them is at fault."""
    now = case.now()
    for seed in range(CHANCES):
        case.turn_back(now)
        case.lose_power(random.Random(f"{when[:100]} {seed}") if seed else None)
        comes_back(case, f"(chance {seed}) {when}")
        if case.faults:
            return True
    case.sweep()
    return False


def is_marked(case):
    """The newest generation is lost with all of its folder: the replica has been there, and acts in none before it."""
    lives(case)
    newest = case.generation
    case.lose_power()
    shutil.rmtree(f"{case.place}/{newest}")
    case.start()
    said = f"the replica has been in generation {newest}, which is gone"
    case.wants(case.status == 1 and said in case.errors, f"status {case.status}, {case.errors.strip()}")


def short(line):
    kind, *rest = line.split(" ")
    return f"{kind} {' '.join(rest[1:])[-60:]}"


def lives(case, *words):
    """A life, as the example has it."""
    case.start(*words, is_new=True)
    errors = case.errors.strip()[-300:]
    case.wants(case.status == 0, f"the life: status {case.status}, {errors}")
    case.wants(case.generation > 3, f"the life comes to generation {case.generation}")
    paths = [it.split(" ")[-1] for it in case.lines if it.startswith(("rename ", "unlink "))]
    calls = [os.path.relpath(it, case.place) for it in paths]
    for name in ("reference", "log", "left", "machine", "opening", "whole"):
        case.wants(any(it.endswith(f"/{name}") for it in calls), f"no {name} came or went: {calls}")
    case.wants("1" in calls and "1/left" in calls, f"nothing was dropped: {calls}")


ROWS = (loses_power, loses_power_as_a_service, is_killed, is_marked)


def tried(program, word=""):
    """How many rows passed, and how many failed."""
    room = "/dev/shm" if os.path.isdir("/dev/shm") else None
    with tempfile.TemporaryDirectory(prefix="epaxos-hosts-", dir=room) as folder:
        built = shim.built(folder)
        if not built:
            needs.skip("a host's disk", shim.UNTRACED)
            return 0, 0
        passed = failed = 0
        for row in ROWS:
            name = row.__name__.replace("_", " ")
            if word not in name:
                continue
            case = HostCase(built, program, f"{folder}/{name.replace(' ', '-')}")
            try:
                row(case)
            except (subprocess.TimeoutExpired, LookupError, ValueError) as fault:
                case.faults.append(repr(fault)[:200])
            for fault in dict.fromkeys(case.faults[:MOST_TOLD]):
                print(f"a host's disk, {name}: {fault}", flush=True)
            passed, failed = passed + (not case.faults), failed + bool(case.faults)
    return passed, failed


if __name__ == "__main__":
    counts = tried(os.path.abspath(sys.argv[1]), *sys.argv[2:3])
    print("{} passed, {} failed".format(*counts))
    sys.exit(1 if counts[1] else 0)
