"""What `epaxos node` does with its disk: it is run under shim.c, which fails its calls one by one, and a model of a disk (disk.py)
tells what a power loss at any moment would leave; and then images of disks (images). Runs alone too: python3 .ci/disks/runs.py
[NODE PROGRAM [WORD]], with a word the rows alone whose names have it.

After each call of each run, whatever was answered has to be on the disk for sure, in whole records at the beginning of the log that the
log's name is found under. So no answer comes before its sync, no file gets the log's name before it is on the disk, and none is taken
for there whose folder wasn't synced.
"""

import os
import random
import shutil
import subprocess
import sys
import tempfile

sys.dont_write_bytecode = True
TOP = os.path.dirname(os.path.dirname(os.path.dirname(os.path.abspath(__file__))))

sys.path.insert(0, f"{TOP}/.ci")

sys.path.insert(0, f"{TOP}/tools")

import folders
import needs
from disks import disk, shim
from disks.shim import SYNC, propose

NODE = f"{TOP}/crates/ep_server/out/ep_server"
# errors of a disk, by their numbers, and the words for them
CAUSES = {5: "input/output error", 28: "no space left on device", 30: "read-only file system"}
IO, SPACE, READ_ONLY = CAUSES
# which errors a call of a kind may have
ERRORS = {"open": (READ_ONLY,), "write": (IO, SPACE), "fsync": (IO, SPACE), "fdatasync": (IO, SPACE), "folder": (IO,), "rename": (IO, SPACE), "cut": (IO,), "read": (IO,)}
# how many disks that chance leaves are looked at for each fault
CHANCES = 4
# so many faults of a row are reported
MOST_TOLD = 3


def puts(first, count):
    return b"".join(propose(1, number, b"x%d" % number, b"v" * (number * 37 % 500)) for number in range(first, first + count))


# what is asked of a first start, and of a second one
FIRST = puts(1, 3) + SYNC + puts(4, 2) + SYNC
SECOND = puts(6, 2) + SYNC + puts(8, 1) + SYNC


def begun(case):
    """A case whose first start is over."""
    case.start(FIRST, is_new=True)
    case.wants(case.status == 0 and case.told == 5, f"the first start: status {case.status}, {case.told} entries told")


def comes_back(case, least=None):
    """After a power loss all that was reported is there."""
    told = case.told if least is None else least
    case.start(SYNC)
    if case.status == 2 and told < 0 and "there is none" in case.errors:
        # (nothing was ever answered, and nothing is there)
        return
    case.wants(case.status == 0, f"the start after it: status {case.status}, {case.errors.strip()}")
    case.wants(case.told >= told, f"{told} entries were told, and {case.told} came back")


def comes_back_always(case, chances=CHANCES):
    """Whatever a power loss leaves."""
    disk, root, place, log, told, entries = case.disk, case.root, case.place, case.log, case.told, case.entries
    for seed in range(chances + 1):
        case.disk, case.root, case.place, case.log, case.told, case.entries = disk, root, place, log, told, entries
        case.lose_power(random.Random(seed) if seed else None)
        comes_back(case, told)


def asked(case):
    """Answers wait for a sync, and all that was asked before it shares one."""
    case.start(b"", is_new=True)
    before = case.calls("fsync", "fdatasync")
    case.wants(case.status == 0, f"a first start without a request: status {case.status}")
    case.forget()
    case.start(FIRST + SYNC, is_new=True)
    case.wants(case.told == 5, f"5 entries were asked for, {case.told} told")
    syncs = case.calls("fsync", "fdatasync") - before
    case.wants(syncs == 2, f"2 syncs were wanted, there were {syncs}")
    case.wants(case.calls("folder") >= 1, "no folder was synced")
    comes_back_always(case)


def each(case):
    """With `--sync each` each request has a sync of its own."""
    case.start(b"", is_new=True)
    before = case.calls("fsync", "fdatasync")
    case.forget()
    case.start(puts(1, 5), words=("--sync", "each"), is_new=True)
    case.wants(case.told == 5, f"5 entries were asked for, {case.told} told")
    syncs = case.calls("fsync", "fdatasync") - before
    case.wants(syncs == 5, f"5 syncs were wanted, there were {syncs}")
    outs = [line for line in case.lines if line.split(" ")[0] in ("out", "fsync", "fdatasync")]
    case.wants(case.calls("out") >= 5, f"5 answers came in {case.calls('out')} writes")
    case.wants(outs[-1].startswith("out"), "something was synced that nobody was told of")
    comes_back_always(case)


def short_writes(case):
    """Writes that write a part are gone on with."""
    case.start(FIRST, is_new=True)
    whole = bytes(case.disk.current()[case.log].cache)
    case.forget()
    case.start(FIRST, "short=write:1:1000", is_new=True)
    case.wants(case.status == 0 and case.told == 5, f"status {case.status}, {case.told} of 5 entries told")
    case.start(SECOND, "short=write:1:1000")
    case.wants(case.status == 0 and case.told == 8, f"the second start: status {case.status}, {case.told} of 8 entries told")
    case.wants(bytes(case.disk.current()[case.log].cache).startswith(whole), "the log has other bytes than with whole writes")
    comes_back_always(case)


def full_disk(case):
    """A write that writes a part, and then no room: what was reported before is there, and nothing after it is reported."""
    begun(case)
    # (the renewal at a start is one write at least)
    case.start(SYNC)
    before = case.calls("write")
    case.start(SECOND, f"short=write:{before + 2}:{before + 2}", f"fail=write:{before + 3}:{before + 3}:{SPACE}")
    told = case.told
    case.wants(case.status == 4 and f"log failed: {CAUSES[SPACE]}" in case.errors.lower(), f"status {case.status}, {case.errors.strip()}")
    comes_back_always(case)
    case.wants(told == 7, f"7 entries were to be told before the disk was full, {told} were")


def failed_sync(case):
    """A sync fails once, the node ends and is started again, and then the power is lost: all that was ever reported is there."""
    begun(case)
    case.start(SYNC)
    before = case.calls("fdatasync")
    case.start(SECOND, f"fail=fdatasync:{before + 1}:{before + 1}:{IO}")
    case.wants(case.status == 4 and case.told == 5, f"status {case.status}, {case.told} entries told, 5 of them before the failed sync")
    # the cache shows entries that the disk hasn't; whatever the node reports now has to be there after the power loss
    case.start(SYNC)
    case.wants(case.status == 0, f"the start after the failed sync: status {case.status}, {case.errors.strip()}")
    told = case.told
    case.start(puts(10, 1) + SYNC)
    case.wants(case.told == told + 1, f"one entry more was to be told after {told}, {case.told} were")
    comes_back_always(case, 20)


def a_disk_that_lies(case):
    """Of the rows themselves: a sync that says that it was done and wasn't is noticed."""
    begun(case)
    case.start(SYNC)
    before = case.calls("fdatasync")
    case.start(SECOND, f"held=fdatasync:{before + 1}:{before + 1}")
    noticed, case.faults = case.faults, []
    case.wants(any("would outlast" in it for it in noticed), "it wasn't noticed")


def failed_call(kind, place, error, is_first):
    """The place-th call of a kind fails: nothing is reported that isn't on the disk, and the cause is."""

    def row(case):
        if not is_first:
            begun(case)
        case.start(FIRST if is_first else SECOND, f"fail={kind}:{place}:{place}:{error}", is_new=is_first)
        wanted = f"log failed: {CAUSES[error]}"
        case.wants(case.status == 4, f"status {case.status}, and 4 was wanted")
        case.wants(case.errors.lower() == f"{wanted}\n", f"{case.errors.strip()!r} in the place of {wanted!r}")
        comes_back_always(case)
        # (without a power loss too, and then with one)
        if case.told >= 0:
            case.start(SYNC)
            case.wants(case.status == 0, f"the next start: status {case.status}, {case.errors.strip()}")
            comes_back_always(case, 1)

    return row


def failed_calls(make):
    """A row for each call of a first start and of a second one, with each error."""
    for is_first in (True, False):
        case = make()
        if not is_first:
            begun(case)
        case.start(FIRST if is_first else SECOND, is_new=is_first)
        which = "first" if is_first else "second"
        for kind, errors in ERRORS.items():
            for place in range(1, case.calls(kind) + 1):
                for error in errors:
                    yield f"{which} start, {kind} {place}: {CAUSES[error]}", failed_call(kind, place, error, is_first)


ROWS = (asked, each, short_writes, full_disk, failed_sync, a_disk_that_lies)


# Of a node in the folder of a replica that lives through generations: the power is lost after each call of a start.

# what a start is asked for: which generation it serves, the value of x there, and a proposal of each op that is needed
LIVES = shim.STATE + shim.request(7, b"x") + shim.propose_in(1, 9, 3, b"w", b"9") + SYNC


def sealed(node, folder):
    """Replica 0 of three, which has executed a seal and isn't closed; the same before it handles the frames that commit the seal, and those; and the
    opening of the next generation that replica 1 has; and the replica in the next generation, which has a reference, and has executed a seal there. By starts
    without the shim."""
    it = folders.Cluster(node, folder)
    it.begin()
    it.settle(folders.put(1, b"x", b"1"), 0, 1)
    it.start(0, shim.ADVANCE)
    it.start(1)
    it.start(0, folders.seal(2))
    it.start(1)
    before, frames = shim.tree_of(it.place(0)), b"".join(map(shim.frame, it.frames[0]))
    it.start(0, shim.ADVANCE)
    after = shim.tree_of(it.place(0))
    it.start(1)
    it.start(1, shim.ALL)
    it.start(1)
    taken = it.opening(1, 2)
    # the same of generation 2, which has a reference in both
    for replica, tree in ((0, after), (1, None)):
        place = it.place(replica)
        tree = tree or shim.tree_of(place)
        shutil.rmtree(f"{place}/2", ignore_errors=True)
        os.mkdir(f"{place}/2")
        if os.path.exists(f"{place}/1/left"):
            os.remove(f"{place}/1/left")
        with open(f"{place}/2/reference", "wb") as file:
            file.write(folders.reference(tree["1/log"]))
    it.frames = [[] for _ in range(7)]
    it.start(0)
    it.start(1)
    it.start(0, folders.seal(3))
    it.start(1)
    it.start(0, shim.ADVANCE)
    return before, frames, after, taken, shim.tree_of(it.place(0))


def goes_on(case, seed, told, words=(), to=2):
    """A start after a power loss: it serves, and has all that was reported; and it doesn't act in a generation that was left."""
    generation = case.generation
    is_left = os.path.exists(f"{case.place}/{to - 1}/left")
    case.start(LIVES, words=words)
    case.wants(case.status == 0, f"(chance {seed}) status {case.status}, {case.errors.strip()}")
    if case.status:
        return
    served, entries = case.state()
    value = next(it.body[3:] for it in case.answers if it.kind == 3)
    case.wants(value == b"1", f"(chance {seed}) x is {value!r} in generation {served}")
    case.wants(served == to or not is_left, f"(chance {seed}) generation {served} is served, and was left")
    case.wants(served > generation or entries >= told, f"(chance {seed}) {told} entries were told in generation {generation}, and {entries} came back")


def lost_after_each_call(case, words=(), retried=(), rules=(), to=2):
    """A start that begins the next generation, and the power is lost after each of its calls; and then a start again."""
    case.start(LIVES, *rules, words=words)
    case.wants(case.status == 0 and case.state()[0] == to, f"the start: status {case.status}, {case.errors.strip()}")
    lines, before = case.lines, case.saved
    for moment in range(len(lines)):
        if lines[moment].startswith(("read ", "lock ", "err ", "end ")):
            continue
        for seed in range(3):
            case.restore(before)
            case.follow(lines[: moment + 1])
            told = case.told
            case.lose_power(random.Random(f"{moment} {seed}") if seed else None)
            goes_on(case, f"{moment} {seed}", told, retried, to)
            if case.faults:
                case.faults[-1] += f", after: {lines[moment][:80]}"
                return


def closes(case):
    """The generation is closed at a start, and the next one begun."""
    case.put(case.trees[2])
    lost_after_each_call(case)


def goes_by_a_reference(case, rules=()):
    """The next generation has a reference: its log is begun by what the log before it leaves."""
    case.put(case.trees[2] | {"2": None, "2/reference": folders.reference(case.trees[2]["1/log"])})
    lost_after_each_call(case, rules=rules)


def closes_one_that_has_a_reference(case):
    """A generation that opens by a reference is closed, and the next one begun by a file."""
    case.put(case.trees[4])
    case.serves(2)
    lost_after_each_call(case, to=3)


def takes(case):
    """An opening is taken, by a replica that hasn't seen the seal."""
    case.put(case.trees[0])
    with open(f"{case.folder}/taken", "wb") as it:
        it.write(case.trees[3])
    words = ("--take", f"{case.folder}/taken")
    lost_after_each_call(case, words, words)


def executes_the_seal(case):
    """The seal is executed, reported, and the power is lost: the next start closes the generation."""
    case.put(case.trees[0])
    case.start(case.trees[1] + shim.ADVANCE + SYNC)
    told = case.told
    case.wants(case.status == 0 and told > 0, f"status {case.status}, {told} entries told")
    case.lose_power()
    goes_on(case, 0, told)
    case.wants(case.generation == 2, f"generation {case.generation} is served behind the seal")


def begins_a_folder(case):
    """`--new`, and the power is lost after each call: the same again goes on, or a start without it."""
    case.start(SYNC + LIVES, is_new=True)
    case.wants(case.status == 0, f"the first start: status {case.status}, {case.errors.strip()}")
    lines, before = case.lines, case.saved
    for moment in range(len(lines)):
        case.restore(before)
        case.follow(lines[: moment + 1])
        told = case.told
        case.lose_power(random.Random(moment))
        case.start(SYNC, is_new=True)
        if case.status == 2 and "there is one already" in case.errors:
            case.start(SYNC)
        case.wants(case.status == 0, f"status {case.status}, {case.errors.strip()}, after: {lines[moment][:80]}")
        case.wants(case.told >= told, f"{told} entries were told, and {case.told} came back, after: {lines[moment][:80]}")


def without_folder(case):
    """FOLDER isn't there."""
    case.disk.names.pop(case.place)
    os.rmdir(case.place)


def makes_a_folder(case):
    """The same where FOLDER isn't there: the node makes it."""
    without_folder(case)
    begins_a_folder(case)


def begun_by(case, how):
    """Has the folder hold what a start of this kind begins with; the words of such a start."""
    case.put(case.trees[0 if how == "take" else 2])
    if how == "refer":
        case.put({"2": None, "2/reference": folders.reference(case.trees[2]["1/log"])})
    if how != "take":
        return ()
    with open(f"{case.folder}/taken", "wb") as it:
        it.write(case.trees[3])
    return "--take", f"{case.folder}/taken"


def failed_in_a_folder(kind, place, error, how):
    """The place-th call of a kind fails in a start that closes, takes or goes by a reference; then a start again, and then a power loss."""

    def row(case):
        words = begun_by(case, how)
        case.start(LIVES, f"fail={kind}:{place}:{place}:{error}", words=words)
        wanted = CAUSES[error]
        case.wants(case.status == 4, f"status {case.status}, and 4 was wanted")
        lines = (f"log failed: {wanted}\n", f"folder failed: {wanted}\n", f"folder failed: {case.started}: {wanted}\n")
        case.wants(case.errors.lower() in lines, f"{case.errors.strip()!r} in the place of {wanted!r}")
        told = case.told
        goes_on(case, "none", told, words)
        told = case.told
        case.lose_power(random.Random(1))
        goes_on(case, 1, told, words)

    return row


def failed_in_folders(make):
    """A row for each call of a start that closes, of one that takes, and of one that goes by a reference."""
    for how in ("close", "take", "refer"):
        case = make()
        case.start(LIVES, words=begun_by(case, how))
        for kind, errors in (*ERRORS.items(), ("mkdir", (SPACE,))):
            for place in range(1, case.calls(kind) + 1):
                # (a lock file is made and never written: whether that fails is the folder's matter)
                yield f"{how}, {kind} {place}: {CAUSES[errors[0]]}", failed_in_a_folder(kind, place, errors[0], how)


def is_renewed(case, rules=()):
    """A sync fails once, and the next start writes the log anew: what it reports then is there after a power loss."""
    case.start(SYNC, is_new=True)
    case.start(shim.propose_in(1, 1, 3, b"x", b"1") + SYNC, f"fail=fdatasync:1:1:{IO}")
    case.wants(case.status == 4, f"status {case.status} where a sync failed")
    case.start(shim.STATE + SYNC, *rules)
    case.wants(case.status == 0 and case.told == 1, f"status {case.status}, {case.told} of 1 entry told")
    told = case.told
    case.lose_power()
    comes_back(case, told)


def is_marked(case, rules=()):
    """The power is lost, and the folder of the generation that was served too: the mark stays, and the replica acts in no generation before that one."""
    case.put(case.trees[2])
    case.start(LIVES, *rules)
    case.wants(case.status == 0 and case.state()[0] == 2, f"the start: status {case.status}, {case.errors.strip()}")
    case.lose_power()
    shutil.rmtree(f"{case.place}/2")
    case.start(LIVES)
    case.wants(case.status == 2 and "has been in generation 2, which is gone" in case.errors, f"status {case.status}, {case.errors.strip()}, where generation 2 is gone")


def is_in_a_new_folder(case, rules=()):
    """FOLDER was made right before, so a power loss may take it as long as the folder that it is in isn't synced."""
    case.disk.names.pop(case.place)
    case.disk.change({case.place: disk.Folder()})
    case.start(SYNC + LIVES, *rules, is_new=True)
    case.wants(case.status == 0, f"the first start: status {case.status}, {case.errors.strip()}")
    told = case.told
    case.lose_power(random.Random(1))
    comes_back(case, told)


def folders_synced(case):
    """Which folders the last start synced, by their names in FOLDER, in order."""
    opened, synced = {}, []
    for line in case.lines:
        kind, *words = line.split(" ")
        if kind == "open" and words[2] == "folder":
            opened[words[1]] = os.path.relpath(words[3], case.place)
        elif kind == "folder":
            synced.append(opened[words[1]])
    return synced


def notices(case, row, kind, place, word):
    """The row has a fault with this word where a sync isn't done."""
    case.forget()
    before, case.faults = case.faults, []
    row(case, rules=(f"held={kind}:{place}:{place}",))
    noticed, case.faults = case.faults, before
    case.wants(any(word in it for it in noticed), f"{row.__name__}: the {kind} {place} that wasn't done wasn't noticed: {noticed[:1]}")


def a_disk_that_lies_to_a_folder(case):
    """Of the rows themselves: each sync of a file or of a folder that wasn't done is noticed in a start that closes a generation, by what a power loss
    leaves or by the order of the calls; and each that what was reported needs, by what is there after the power loss."""
    case.put(case.trees[2])
    case.start(LIVES)
    synced, files = folders_synced(case), case.calls("fsync")
    case.wants(files == 4 and synced == ["1", ".", "..", "2", "2", "1"], f"{files} files and these folders were synced: {synced}")

    def closes_here(case, rules):
        case.put(case.trees[2])
        lost_after_each_call(case, rules=rules)

    for kind, count in (("fsync", files), ("folder", len(synced))):
        for place in range(1, count + 1):
            notices(case, closes_here, kind, place, "")
    case.forget()
    without_folder(case)
    case.start(SYNC, is_new=True)
    synced = folders_synced(case)
    case.wants(synced == ["..", ".", "..", "1", "1"], f"where FOLDER was made, these folders were synced: {synced}")

    def made_here(case, rules):
        without_folder(case)
        case.start(SYNC, *rules, is_new=True)

    for place in range(1, len(synced) + 1):
        notices(case, made_here, "folder", place, "")
    lost = "would outlast a power loss"
    # (a reference that was read may not be on the disk)
    case.forget()
    goes_by_a_reference(case)
    case.forget()
    case.put(case.trees[2] | {"2": None, "2/reference": folders.reference(case.trees[2]["1/log"])})
    case.start(LIVES)
    synced, files = folders_synced(case), case.calls("fsync")
    case.wants(files == 3 and synced == ["2", "2", "1"], f"by a reference, {files} files and these folders were synced: {synced}")
    for kind, count in (("fsync", files), ("folder", len(synced))):
        for place in range(1, count + 1):
            notices(case, goes_by_a_reference, kind, place, "")
    # (the names in FOLDER and in 2, of the opening and the log together)
    notices(case, closes_here, "folder", 2, lost)
    notices(case, closes_here, "folder", 5, lost)
    # (the log that was written anew, the mark, and FOLDER itself)
    notices(case, is_renewed, "folder", 1, lost)
    notices(case, is_marked, "folder", 6, "where generation 2 is gone")
    case.forget()
    case.start(SYNC, is_new=True)
    notices(case, is_in_a_new_folder, "folder", folders_synced(case).index("..") + 1, lost)


FOLDER_ROWS = (closes, goes_by_a_reference, closes_one_that_has_a_reference, takes, executes_the_seal, begins_a_folder, makes_a_folder, is_renewed, is_marked, is_in_a_new_folder, a_disk_that_lies_to_a_folder)


def tried(node=NODE, word=""):
    """How many rows passed, and how many failed; the images are one."""
    if not os.path.isfile(node):
        needs.skip("disks", "`rt ci` has not built ep_server")
        return 0, 0
    passed, failed = rows(node, word)
    if not word:
        if os.path.isfile(f"{node}.by-rattle"):
            counts = rows(f"{node}.by-rattle", word)
            passed, failed = passed + counts[0], failed + counts[1]
        is_well = not subprocess.run([f"{TOP}/.ci/disks/images", node], stdin=subprocess.DEVNULL).returncode
        passed, failed = passed + is_well, failed + (not is_well)
    return passed, failed


def rows(node, word):
    """How many rows of this program passed, and how many failed."""
    with tempfile.TemporaryDirectory(prefix="epaxos-disks-", dir="/dev/shm" if os.path.isdir("/dev/shm") else None) as folder:
        built = shim.built(folder)
        if not built:
            needs.skip("disks", shim.UNTRACED)
            return 0, 0
        made = 0

        def make():
            nonlocal made
            made += 1
            return shim.Case(built, node, f"{folder}/{made}")

        trees = sealed(node, f"{folder}/sealed")

        def make_folder():
            nonlocal made
            made += 1
            case = shim.FolderCase(built, node, f"{folder}/{made}")
            case.trees = trees
            return case

        plain = [(it.__name__.replace("_", " "), it, make) for it in ROWS] + [(*it, make) for it in failed_calls(make)]
        lives = [(it.__name__.replace("_", " "), it, make_folder) for it in FOLDER_ROWS] + [(*it, make_folder) for it in failed_in_folders(make_folder)]
        passed = failed = 0
        for name, row, made_for in (*plain, *lives):
            if word not in name:
                continue
            case = made_for()
            try:
                row(case)
            except (subprocess.TimeoutExpired, LookupError) as fault:
                case.faults.append(repr(fault)[:200])
            for fault in dict.fromkeys(case.faults[:MOST_TOLD]):
                print(f"disks, {name}: {fault}", flush=True)
            passed, failed = passed + (not case.faults), failed + bool(case.faults)
    name = os.path.basename(node)
    print(f"disks: {passed + failed} rows of {name}, whose calls are traced and failed; {passed} passed, {failed} failed", flush=True)
    return passed, failed


if __name__ == "__main__":
    counts = tried(*map(os.path.abspath, sys.argv[1:2]), *sys.argv[2:3])
    print("{} passed, {} failed".format(*counts))
    sys.exit(1 if counts[1] else 0)
