"""The bindings for Rust and Python in bindings/, over the library: the crate's tests and pages, and the example of each, begun,
gone on with, and audited by the programs that `rt ci` built. Runs alone too: python3 .ci/bindings.py [NODE PROGRAM [FOLDER]], of other builds, with the folder that
libepaxos.a and libepaxos.so are in.
"""

import hashlib
import os
import re
import shutil
import subprocess
import sys
import tempfile

sys.dont_write_bytecode = True
sys.path.insert(0, f"{os.path.dirname(os.path.dirname(os.path.abspath(__file__)))}/tools")

import needs
from nodes import worked
from store import BUILT, CHEAP, TOP, has_library, has_programs, is_well, joined, library_there

CRATE, PYTHON = f"{TOP}/bindings/rust/epaxos", f"{TOP}/bindings/python"
# how a page that lacks something, or links to nothing, isn't made
STRICT = {"RUSTDOCFLAGS": "-D warnings"}
# (a launcher of what isn't proved says so, on each start)
QUIET = {"EPAXOS_QUIET": "1"}


def rust(scratch, environment):
    """Whether each command went well: the tests, the pages, and the examples."""
    environment = {**environment, **CHEAP, **STRICT, "CARGO_TARGET_DIR": f"{scratch}/target"}
    all_of_it = ["--features", "async"]
    yield is_well(["cargo", "test", "--offline", "--quiet", *all_of_it], cwd=CRATE, env=environment)
    yield is_well(["cargo", "doc", "--offline", "--quiet", "--no-deps", *all_of_it], cwd=CRATE, env=environment)
    folder = f"{scratch}/rust"
    for words in (["three", folder], ["three", folder], ["lock"], ["accounts"], ["machine"]):
        yield is_well([f"{scratch}/target/debug/examples/{words[0]}", *words[1:]], env=environment)
    folders = [f"{folder}/{me}" for me in range(3)]
    yield is_audited(environment["EPAXOS"], folders, [f"{it}/receipts" for it in folders]) == 600
    for last in (4, 7):
        yield goes_on([f"{scratch}/target/debug/examples/generations", f"{scratch}/rust-generations"], environment, last)
    yield is_refused_without(environment, scratch)
    yield is_checked_without(environment, scratch)


def is_refused_without(environment, scratch):
    """Whether the crate isn't built where the library isn't, and says what is missing."""
    nowhere = {**environment, "EPAXOS_LIBRARY": f"{scratch}/nowhere"}
    ran = subprocess.run(["cargo", "check", "--offline", "--quiet"], cwd=CRATE, env=nowhere, stdin=subprocess.DEVNULL, stderr=subprocess.PIPE, text=True)
    return ran.returncode != 0 and f"{scratch}/nowhere/libepaxos.a" in ran.stderr


def is_checked_without(environment, scratch):
    """Whether the crate is checked and documented where no library was ever built, and a program says what is missing."""
    shutil.copytree(CRATE, f"{scratch}/alone", ignore=shutil.ignore_patterns("target", "lib"))
    how = {"cwd": f"{scratch}/alone", "stdin": subprocess.DEVNULL, "stderr": subprocess.PIPE, "text": True}
    # (cargo takes a build script of the same text for the same, wherever it is, and with it the library that it found)
    how["env"] = {name: it for name, it in environment.items() if name != "EPAXOS_LIBRARY"}
    how["env"]["CARGO_TARGET_DIR"] = f"{scratch}/alone-target"
    tried = (["check", "--examples"], ["doc", "--no-deps"], ["build", "--example", "lock"])
    runs = [subprocess.run(["cargo", it[0], "--offline", *it[1:]], **how) for it in tried]
    return [it.returncode for it in runs[:2]] == [0, 0] and runs[2].returncode and "there is no libepaxos.a" in runs[2].stderr


def goes_on(words, environment, last):
    """Whether an example goes through three generations up to this one, and comes back."""
    print(*(os.path.relpath(it, TOP) if it.startswith(TOP) else it for it in words), flush=True)
    said = subprocess.run(words, env=environment, stdin=subprocess.DEVNULL, stdout=subprocess.PIPE, text=True).stdout.splitlines()
    told = [re.fullmatch(r"generation (\d+): (\d+)\.20", it) for it in said[:-1]]
    # (the last to put a value is client 3 * G + me in generation G)
    found = [int(it[1]) for it in told if it and int(it[2]) // 3 == int(it[1]) - 1]
    return found == list(range(last - 2, last + 1)) and said[-1:] == ["three replicas agree, and each start does"]


def is_audited(program, folders, receipts=()):
    """How many receipts there are, where an audit accepts what the logs and these receipts say; else None."""
    words = [program, "collect", "--generation", "1", *folders, *(word for it in receipts for word in ("--receipts", it))]
    print("epaxos", *words[1:], "| epaxos audit", flush=True)
    bundle = subprocess.run(words, stdin=subprocess.DEVNULL, stdout=subprocess.PIPE)
    report = subprocess.run([program, "audit"], input=bundle.stdout, stdout=subprocess.PIPE)
    found = re.match(r"verdict accepted\n(?s:.*)^receipts (\d+)\n", report.stdout.decode(), re.M)
    return int(found[1]) if found and not bundle.returncode and not report.returncode else None


def line(begin):
    """The bytes of the one line of requests.txt that is indented and begins so, with the frame that it names."""
    with open(f"{TOP}/tests/vectors/requests.txt", encoding="utf-8") as file:
        (found,) = (it.strip() for it in file if it.startswith(f"    {begin}"))
    with open(f"{TOP}/tests/vectors/frames.txt", encoding="utf-8") as file:
        frame = next(it.strip() for it in file if it.startswith("    4550 01 01"))
    return bytes.fromhex(found.replace("FRAME", frame)), bytes.fromhex(frame)


def vectors():
    """Whether bindings/python spells and reads the worked bytes."""
    sys.path.insert(0, PYTHON)
    import epaxos

    known = worked()
    commands = {
        "get": epaxos.get(b"ab"),
        "put": epaxos.put(b"c", b"v"),
        "del": epaxos.delete(b"c"),
        "swap": epaxos.swap(b"c", b"de"),
        "cas": epaxos.cas(b"c", None, b"v"),
        "ask": epaxos.opaque(b"c", b"\x09", is_reading=True),
        "act": epaxos.opaque(b"c", b"\x09", b"d"),
        "seal": epaxos.seal(b"me"),
        "tx": epaxos.tx(require={b"x": None}, put={b"x": b"1"}, tell=[b"y"]),
        "tx-all": epaxos.tx(require={b"c": None, b"a": b"1"}, tell=[b"d", b"a"], put={b"a": b"2"}, delete=[b"c", b"b"]),
    }
    yield commands == {name: known[name] for name in commands}
    yield all(refuses_tx(epaxos, **words) for words in NO_TX)
    yield takes_text(epaxos)
    receipts = {name: epaxos._Fields(known[name]).receipt().answer for name in ("done", "done-untold", "undone")}
    yield receipts == {"done": (True, [None, b"old"]), "done-untold": (True, []), "undone": (False, [b""])}
    yield asked_by(lambda replica: replica.interfering(b"k"), known["found"]) == [known["interfering"]]
    found = [epaxos.Instance(1, 258), (0, 7)]
    yield asked_by(lambda replica: replica.read(b"k", found), known["read-closed"]) == [known["read"]]
    yield all(is_read(epaxos, known, *it) for it in READ)
    output, one, seven = epaxos.Output(known["report"][4:]), epaxos.Instance(1, 258), epaxos.Instance(0, 7)
    receipts = [epaxos.Receipt(9, 2, one, 3, 1, 4, 5, None)]
    told = (output.entries, output.is_sealed, output.frames, output.receipts, output.committed, output.executed)
    yield told == (4, True, [(2, b"\x06\x07")], receipts, [seven], [seven, one]) and output.open == [epaxos.Open(epaxos.Instance(2, 3), 0, 2, 1)]

    reference = epaxos.Reference(3, 2, 321, bytes(range(32)))
    run = opening_line("45504f52", 3)
    yield reference.bytes == run and epaxos.Reference.read(run) == reference and reference.binding(b"9" * 32) == b"EPOB\3" + run[-32:] + b"9" * 32
    yield all(is_no_reference(epaxos, changed) for changed in changes(run))

    yield line("0000001a 01")[0].endswith(epaxos.put(b"x", b"1"))
    answer, frame = line("0000004f 09")
    output, first = epaxos.Output(answer[4:]), epaxos.Instance(0, 1)
    told = (output.entries, output.is_sealed, output.frames, output.receipts, output.committed, output.executed)
    yield told == (1, False, [(1, frame)], [], [], []) and output.open == [epaxos.Open(first, 1, 1, 0)]


# No commands over many keys: of none, of one that is put and deleted, with keys or values out of range, of 1,025, of 17
# that are reported, and of a body that is a byte too long.
NO_TX = (
    {}, {"put": {b"x": b""}, "delete": [b"x"]}, {"tell": [b""]}, {"tell": [bytes(256)]},
    {"put": {b"x": bytes(65_536)}}, {"require": {b"x": bytes(65_536)}},
    {"delete": [it.to_bytes(2, "big") for it in range(1_025)]}, {"tell": [bytes([it]) for it in range(1, 18)]},
    {"put": {b"x": bytes(65_535), b"y": bytes(65_530)}},
)  # fmt: skip


def takes_text(epaxos):
    """Whether a text stands for its bytes, wherever bytes are wanted, and nothing else does; and whether the fault that
    callers meet first says what to do."""
    same = [it("ä", "1") == it("ä".encode(), b"1") for it in (epaxos.put, epaxos.swap, epaxos.opaque)]
    same.append(epaxos.cas("k", None, "v") == epaxos.cas(b"k", None, b"v"))
    words = {"require": {"a": "1"}, "tell": ["a"], "put": {"b": "2"}, "delete": ["c"]}
    plain = {"require": {b"a": b"1"}, "tell": [b"a"], "put": {b"b": b"2"}, "delete": [b"c"]}
    same.append(epaxos.tx(**words) == epaxos.tx(**plain))
    try:
        epaxos.put(b"k", 5)
    except TypeError:
        said = str(epaxos.Fault("Unsynced")), str(epaxos.Fault("NotLeading", "0.1"))
        return all(same) and "header" in said[0] and said[1] == "NotLeading 0.1"
    return False


def refuses_tx(epaxos, **words):
    try:
        return not epaxos.tx(**words)
    except epaxos.Fault as fault:
        return fault.name == "OutOfRange"


# What is read of the answers that are worked out.
READ = (
    ("found-none", []), ("found", [(0, 7), (1, 258)]), ("read-absent", None), ("read-empty", b""),
    ("read-value", b"v"), ("read-waits", (1, 258)), ("read-closed", "closed"),
)  # fmt: skip


def is_read(epaxos, known, name, wanted):
    """Whether a replica reads this answer so, and none that is cut, nor that of another request."""
    uses = [lambda replica: replica.read(b"k", []), lambda replica: replica.interfering(b"k")]
    use, answer = uses[name.startswith("found")], known[name]
    others = [answer[:at] for at in range(5, len(answer))] + [known[it] for it in ("synced", "malformed")]
    others += [known["read-closed" if name.startswith("found") else "found"], bytes.fromhex("00000002 0c 04")]
    got = []
    asked_by(lambda replica: got.append(use(replica)), answer)
    for it in others:
        try:
            asked_by(use, it)
        except epaxos.Fault:
            continue
        return False
    return got == [wanted]


def opening_line(begin, count):
    """The bytes of so many lines of tests/vectors/openings.txt that are indented, from the one on that begins so."""
    with open(f"{TOP}/tests/vectors/openings.txt", encoding="utf-8") as file:
        lines = [it.strip() for it in file if it.startswith("    ")]
    at = next(place for place, it in enumerate(lines) if it.startswith(begin))
    return bytes.fromhex("".join(lines[at : at + count]))


def changes(run):
    """These bytes cut anywhere, with one more, and with each of them changed; and with a digest that is right, but for a field that isn't."""
    yield from (run[:length] for length in range(len(run)))
    yield run + b"\0"
    yield from (run[:at] + bytes([run[at] ^ 1]) + run[at + 1 :] for at in range(len(run)))
    for at, field in ((5, b"\4"), (6, bytes(4)), (6, b"\0\0\0\1"), (10, (42).to_bytes(8, "big"))):
        front = run[:at] + field + run[at + len(field) : 50]
        yield front + hashlib.sha256(front).digest()


def is_no_reference(epaxos, run):
    try:
        return not epaxos.Reference.read(run)
    except ValueError:
        return True


def asked_by(use, answer):
    """The requests that a use of a replica makes, where this, with its length, is the answer."""
    import epaxos

    asked = []

    class Core:
        def ask(self, kind, body):
            asked.append(epaxos._request(kind, body))
            return answer[4:]

    use(epaxos.Replica(Core(), 0))
    return asked


def python(scratch, environment):
    """Whether each command went well: the examples, begun and gone on with, and what is reported and refused."""
    environment = {**environment, "PYTHONDONTWRITEBYTECODE": "1"}
    for _ in range(2):
        yield is_well([sys.executable, f"{PYTHON}/three.py", f"{scratch}/python"], env=environment)
    yield is_well([sys.executable, f"{PYTHON}/large.py"], env=environment)
    for last in (4, 7):
        yield goes_on([sys.executable, f"{PYTHON}/generations.py", f"{scratch}/python-generations"], environment, last)
    for what, (program, wanted) in PROGRAMS.items():
        yield says(environment, program, what, wanted)
    import epaxos

    folders = [f"{scratch}/audited/{me}" for me in range(3)]
    for me, folder in enumerate(folders):
        os.makedirs(f"{folder}/1")
        shutil.copy(f"{scratch}/python/{me}.log", f"{folder}/1/log")
        with open(f"{folder}/1/opening", "wb") as file:
            file.write(epaxos.first_opening(3))
    yield is_audited(environment["EPAXOS"], folders) == 0
    yield refuses_an_older_log(environment, f"{scratch}/python/0.log")


def refuses_an_older_log(environment, path):
    """Whether a log that has fewer entries than were reported is refused, and one that has as many isn't."""

    def told_of(told):
        words = [sys.executable, "-c", OLDER, PYTHON, path, *told]
        return subprocess.run(words, env=environment, stdout=subprocess.PIPE, text=True).stdout

    entries = int(told_of([]))
    told = [told_of([str(entries + more)]) for more in (0, 1)]
    print(f"an older log: {told}", flush=True)
    return told == [f"{entries}\n", f"the log has {entries} entries, and {entries + 1} were told: it is an older one, and must not be gone on from\n"]


def says(environment, program, what, wanted):
    """Whether a program that uses the binding says what it has to."""
    said = subprocess.run([sys.executable, "-c", program, PYTHON], env=environment, stdout=subprocess.PIPE, text=True).stdout
    print(f"{what}:", said, end="", flush=True)
    return said == wanted


# Eight threads propose at one replica, which is then ended.
THREADS = """
import sys, threading
sys.path.insert(0, sys.argv[1])
import epaxos
sys.setswitchinterval(1e-6)
replica = epaxos.Replica.new(3, 0)
replica.ready().synced()
refused = []
def run(client):
    for request in range(1, 240):
        try:
            replica.propose(client, request, epaxos.put(b"key", b"1"))
        except Exception as fault:
            refused.append(fault)
threads = [threading.Thread(target=run, args=(client,)) for client in range(1, 9)]
for it in threads: it.start()
for it in threads: it.join()
taken = replica.ready().synced().entries
replica.end()
try:
    replica.propose(1, 240, epaxos.get(b"key"))
except epaxos.Fault as fault:
    print(f"{taken} of {8 * 239} taken, {len(refused)} refused; then {fault.name}")
"""


# Proposes while what was proposed before is being written; a proposal has one frame, to the replica that isn't spared.
MEANWHILE = """
import sys
sys.path.insert(0, sys.argv[1])
import epaxos
replica = epaxos.Replica.new(3, 0)
replica.ready().synced()
replica.propose(1, 1, epaxos.put(b"a", b"1"))
ready = replica.ready()
try:
    replica.propose(1, 2, epaxos.put(b"b", b"2"))
except epaxos.Fault as fault:
    print(fault.name, end="; ")
ready.begin()
replica.propose(1, 2, epaxos.put(b"b", b"2"))
first, second = ready.synced(), replica.ready().synced()
print(f"told of {first.entries} entry, by {len(first.frames)} frame; then of {second.entries}, by {len(second.frames)}")
"""


# Reads that write nothing: before a put is known, before it is committed, before it is executed, behind it, and behind
# a seal; and what is refused.
READS = """
import sys
sys.path.insert(0, sys.argv[1])
import epaxos
def tried(call, *words):
    try:
        return call(*words)
    except epaxos.Fault as fault:
        return fault.name
def told(reading):
    return f"waits for {reading}" if isinstance(reading, epaxos.Instance) else reading
def settled(replica):
    return replica.ready().synced().frames
zero, one = replicas = [epaxos.Replica.new(3, me) for me in range(2)]
print(tried(one.interfering, b"k"), tried(one.read, b"k", []))
for it in replicas: settled(it)
print(one.interfering(b"k"), one.read(b"k", []))
zero.propose(1, 1, epaxos.put(b"k", b"v"))
print(tried(zero.interfering, b"k"), tried(zero.read, b"k", []))
for _, frame in settled(zero): one.handle(frame)
acknowledged = settled(one)
found = {*one.interfering(b"k"), *zero.interfering(b"k")}
print(*found, one.interfering(b"l"), told(one.read(b"k", found)), told(one.read(b"l", found)), one.read(b"k", ()))
for _, frame in acknowledged: zero.handle(frame)
zero.execute_all()
frames = settled(zero)
before = one.report(0).entries
print(zero.read(b"k", found), told(one.read(b"k", found)), one.report(0).entries - before)
for to, frame in frames:
    if to == 1: one.handle(frame)
settled(one)
print(told(one.read(b"k", found)), end=" ")
one.execute_all()
settled(one)
print(one.read(b"k", found), one.read(b"l", found), told(one.read(b"k", [(2, 7), (1, 9000), *found])))
odd = [(b"", []), (b"k" * 256, []), (b"k", [(0, 1)] * 63_001), *((b"k", [it]) for it in [(3, 1), (0, 0), (0, 9001)])]
print({tried(one.read, *it) for it in odd}, tried(one.interfering, b""), tried(one.interfering, b"k" * 256), end=" ")
print(one.read(b"k" * 255, []), one.read(b"k", [(0, 1)] * 63_000))
one.propose(1, 2, epaxos.seal(b"s"), spared=2)
for to, frame in settled(one):
    zero.handle(frame)
for to, frame in settled(zero): one.handle(frame)
one.execute_all()
settled(one)
print(*one.interfering(b"l"), one.read(b"k", one.interfering(b"k")), one.read(b"l", []), zero.read(b"l", [(1, 1)]))
# a request that was refused memory may wait for the next answers
for use in (lambda: one.interfering(b"l") == [(1, 1)], lambda: one.ready().synced().frames == []):
    one._core.call("ep_ask", epaxos._request(16, b"k"), 6)
    assert use()
one.end()
print(tried(one.interfering, b"k"), tried(one.read, b"k", []))
"""
READS_SAYS = """Unsynced Unsynced
[] None
Unsynced Unsynced
0.1 [] waits for 0.1 waits for 0.1 None
b'v' waits for 0.1 0
waits for 0.1 b'v' None waits for 1.9000
{'OutOfRange'} OutOfRange OutOfRange None b'v'
1.1 closed closed 1.1
NoReplica NoReplica
"""


# A replica that goes on when it may not: it is as it was.
SUCCEEDS = """
import hashlib, sys
sys.path.insert(0, sys.argv[1])
import epaxos
def refused(of, *words):
    try:
        of.succeed(*words)
    except epaxos.Fault as fault:
        print(fault.name, end=" ")
    except epaxos.OpenFault as fault:
        print(fault, end="; ")
    else:
        print("done", end=" ")
def settle(replicas):
    frames = True
    while frames:
        frames = []
        for replica in replicas:
            replica.execute_all()
            frames += replica.ready().synced().frames
        for to, frame in frames:
            replicas[to].handle(frame)
replicas = [epaxos.Replica.new(3, me) for me in range(3)]
log = replicas[0].ready().log
for it in replicas: it.ready().synced()
zero = replicas[0]
early = zero.reference(3, hashlib.sha256(log).digest())
refused(zero, early, 0)
refused(zero, early, 3)
refused(zero, early._replace(generation=3), 0)
refused(zero, early._replace(length=44), 0)
zero.propose(1, 1, epaxos.put(b"a", b"1"))
refused(zero, early, 0)
ready = zero.ready()
refused(zero, early, 0)
ready.begin()
refused(zero, early, 0)
frames = ready.synced().frames
for to, frame in frames: replicas[to].handle(frame)
settle(replicas)
zero.propose(1, 2, epaxos.seal(b"s"))
settle(replicas)
print("closes:", len(zero.close(3)), end=": ")
refused(zero, early, 0)
zero.propose(1, 3, epaxos.put(b"b", b"2"))
settle(replicas)
reference = zero.reference(3, b"9" * 32)
refused(zero, reference, 0, b"")
refused(zero, reference, 0, log, 1)
file = zero.close(3)
checkpoint = zero.succeed(reference, 0)
print("goes on:", b"".join(iter(lambda: checkpoint.piece(10), None)) == file, checkpoint.piece(), end=" ")
refused(zero, reference, 0)
refused(zero, reference._replace(generation=3, length=43), 0)
ready = zero.ready()
print(ready.is_anew, ready.log[-32:] == reference.digest, ready.synced().entries, zero.get(b"a"), end=": ")
refused(zero, reference._replace(generation=3, length=43), 0)
one = replicas[1]
refused(one, one.reference(3, b"9" * 32), 1, log)
refused(one, one.reference(3, b"9" * 32), 1)
zero.end()
refused(zero, reference._replace(generation=3, length=43), 0)
print()
"""
SUCCEEDS_SAYS = (
    "NotSealed OutOfRange OtherReference OtherReference Unsynced Unsynced Unsynced closes: 77: OtherReference the log is empty; "
    "the log has 0 entries, and 1 were told: it is an older one, and must not be gone on from; goes on: True None OtherReference OtherReference "
    "True True 0 b'1': NotSealed a log of another generation; NoReplica NoReplica \n"
)


PROGRAMS = {
    "what doesn't go on": (SUCCEEDS, SUCCEEDS_SAYS),
    "reads that write nothing": (READS, READS_SAYS),
    # all that threads propose at once is taken, and nothing once the replica is ended
    "threads that propose at once": (THREADS, "1912 of 1912 taken, 0 refused; then NoReplica\n"),
    # a replica takes while its log is written only where that was begun, and reports then of what was written alone
    "taken while the log is written": (MEANWHILE, "Unsynced; told of 1 entry, by 1 frame; then of 2, by 1\n"),
}

# Opens a log of which so many entries were reported, or all.
OLDER = """
import sys
sys.path.insert(0, sys.argv[1])
import epaxos
with open(sys.argv[2], "rb") as file:
    log = file.read()
try:
    with epaxos.Replica.open(3, 0, log, told=int(sys.argv[3]) if sys.argv[3:] else None) as replica:
        print(replica.ready().synced().entries)
except epaxos.OpenFault as fault:
    print(fault)
"""


def tried(node=BUILT[0], program=BUILT[1], library=None):
    """How many of these passed, and how many failed."""
    library = library or library_there()
    if not (has_programs(node, program, "the bindings") and has_library(library, "the bindings")):
        return 0, 0
    with tempfile.TemporaryDirectory(prefix="epaxos-bindings-") as scratch:
        environment = {**os.environ, **QUIET, "EPAXOS": joined(scratch, node, program), "EPAXOS_LIBRARY": library}
        well = [*vectors(), *python(scratch, environment)]
        if needs.has("cargo", "bindings/rust"):
            well += rust(scratch, environment)
    return well.count(True), well.count(False)


if __name__ == "__main__":
    counts = tried(*map(os.path.abspath, sys.argv[1:4]))
    print("{} passed, {} failed".format(*counts))
    sys.exit(1 if counts[1] else 0)
