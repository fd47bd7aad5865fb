"""Runs of `epaxos node` and `epaxos collect` that leave a log: on a log that comes back, over pipes, and with a standard stream closed.

Requests and answers are written by hand from docs/FORMATS.md, section 10, and logs from section 9."""

import os
import select
import subprocess
import sys
import tempfile
import time

TOP = os.path.dirname(os.path.dirname(os.path.abspath(__file__)))
sys.path.insert(0, f"{TOP}/tools")
from loaded import loaded

SECONDS = 600


def asked(kind, body=""):
    """A request of this kind, whose body is written in hexadecimal."""
    body = bytes.fromhex(body)
    return (len(body) + 1).to_bytes(4, "big") + bytes([kind]) + body


def put(client, request, key, value, seen=0):
    """A client's put."""
    head = f"{client:08x} {request:08x} {seen:016x} 03 {len(key):02x} {len(value):04x}"
    return asked(1, head + key.hex() + value.hex())


# Client 1 proposes `put x 1` as its request 1; a sync; the leads of 0.1; the value of x; bytes whose length is none.
PROPOSE, SYNC, LEADS, GET = put(1, 1, b"x", b"1"), asked(10), asked(9, "000001"), asked(7, "78")
NONE = bytes(4)
# Entry 1 of stamp 1, which took 0.1, with one frame, to 1, and no receipts; that one entry is on the disk; phase 1, with no answer so far; no value.
FRAME = "45500201 0001 000000000001 0000000000000001 000001 0000000000000000000001 03 01 0001 0000 7831"
TAKEN = bytes.fromhex(f"00000047 01 00000001 00000001 0000000000000001 000001 0001 01 0000002a {FRAME} 0000")
SYNCED, LEADING = bytes.fromhex("00000005 06 00000001"), bytes.fromhex("00000004 05 01 01 00")
# What there is to report of that entry: one frame, and 0.1 is open since entry 1 and led; and of entries behind it nothing.
READY, REST = asked(13, "00000000 01"), asked(13, "00000001 00")
TOLD = bytes.fromhex(f"0000004f 09 00000001 00 00000001 01 0000002a {FRAME} 00000000 00000000 00000000 01 000001 00000001 01 00")
TOLD_NOTHING = bytes.fromhex("00000017 09 00000001 00 00000000 00000000 00000000 00000000 00")
NO_VALUE, NOTHING = bytes.fromhex("00000002 03 00"), bytes.fromhex("00000005 06 00000000")
# The bundle of that log and of two without entries.
ENTRY = f"01 0000000000000001 00000001 00000001 0000000000000000 03 01 0001 78 31 0001 0000002a {FRAME} 0000"
BUNDLE = bytes.fromhex(f"45504a42 02 03 00000000 00 00000001 {ENTRY} 01 00000000 02 00000000")


def malformed(field, at):
    """The answer to a malformed request."""
    return bytes.fromhex(f"0000000a 07 {field:02x} {at:016x}")


def refused(fault):
    """The refusal by this fault, which names no instance."""
    return bytes.fromhex(f"00000005 02 {fault:02x} 000000")


# Requests that are whole and malformed, and how they are answered; the node goes on behind each.
MALFORMED = (
    ("kind 0", asked(0), malformed(1, 4)),
    ("kind 14 with a body", asked(14, "0102"), malformed(1, 4)),
    ("a proposal that spares replica 1", asked(14, "01 00000001 00000001 0000000000000000 03 01 0001 7831"), malformed(1, 4)),
    ("what interferes with a read of `x`", asked(16, "78"), malformed(1, 4)),
    ("a read of `x`", asked(17, "01 78 00000000"), malformed(1, 4)),
    ("kind 18", asked(18), malformed(1, 4)),
    ("a cut count of told entries", asked(13, "000000"), malformed(19, 5)),
    ("no count of open instances", asked(13, "00000000"), malformed(20, 9)),
    ("a byte behind both counts", asked(13, "000000000000"), malformed(12, 10)),
    ("client 0", put(0, 1, b"x", b"1"), malformed(2, 5)),
    ("request 0", put(1, 0, b"x", b"1"), malformed(3, 9)),
    ("a cut seen stamp", asked(1, "00000001 00000001 000000"), malformed(4, 13)),
    ("op 6", asked(1, "00000001 00000001 0000000000000000 06 01 0001 7831"), malformed(5, 21)),
    ("no key", asked(1, "00000001 00000001 0000000000000000 03 00 0001 31"), malformed(6, 22)),
    ("a get with a value", asked(1, "00000001 00000001 0000000000000000 02 01 0001 7831"), malformed(7, 23)),
    ("a cut key", asked(1, "00000001 00000001 0000000000000000 04 02 0000 78"), malformed(8, 25)),
    ("a swap of one key", asked(1, "00000001 00000001 0000000000000000 05 01 0001 7878"), malformed(9, 26)),
    ("a byte behind a put", put(1, 1, b"x", b"1")[:3] + b"\x18" + put(1, 1, b"x", b"1")[4:] + b"!", malformed(12, 27)),
    ("replica 3 of 3", asked(4, "03 0001"), malformed(10, 5)),
    ("what was handled of replica 3 of 3", asked(15, "03"), malformed(10, 5)),
    ("a byte behind a replica", asked(15, "0101"), malformed(12, 6)),
    ("number 2001", asked(3, "00 07d1"), malformed(11, 6)),
    ("a body of a sync", asked(10, "00"), malformed(12, 5)),
    ("a body of a state", asked(11, "00"), malformed(12, 5)),
    ("a body of an execution of all", asked(12, "00"), malformed(12, 5)),
    ("a key of 256 bytes", asked(7, "78" * 256), malformed(8, 5)),
)

# What interferes with a read of `x`, and one of `y`; a read of `x` for which 0.1 was found.
LOOK, LOOK_Y, READ = asked(16, "78"), asked(16, "79"), asked(17, "01 78 00000001 000001")
# What frames of generation 1 say of `put x 1` in 0.1 and of a seal in 0.2: from the instance to the seq, and the rest.
OF_PUT = "000001 000000 00 000000 00000001"
OF_SEAL = "000002 000000 00 000000 00000002"
PUT, SEALS = "03 01 0000 0000 00000001 00000001 7831", "09 00 0000 0001 00000001 00000000 000001"
# What replica 1 is sent: the PreAccept of each, and its Commit.
PRE_ACCEPT = f"4550 03 01 00 01 0000 00000001 0000000000000001 {OF_PUT} {PUT}"
COMMIT = f"4550 03 05 00 01 0000 00000002 0000000000000003 {OF_PUT} {PUT}"
PRE_ACCEPT_SEAL = f"4550 03 01 00 01 0000 00000003 0000000000000004 {OF_SEAL} {SEALS}"
COMMIT_SEAL = f"4550 03 05 00 01 0000 00000004 0000000000000007 {OF_SEAL} {SEALS}"
# The PreAcceptOKs that it answers to 0, by entry 1 of stamp 2 and entry 4 of stamp 6; and what it reports of both.
ANSWERED = f"4550 03 02 01 00 0000 00000001 0000000000000002 {OF_PUT} 00 00 0000 0000 00000001 00000000"
ANSWERED_SEAL = f"4550 03 02 01 00 0000 00000004 0000000000000006 {OF_SEAL} 00 00 0000 0001 00000001 00000000 000001"
VOTED = bytes.fromhex(f"0000004d 01 00000001 00000001 0000000000000002 000000 0001 00 00000030 {ANSWERED} 0000")
VOTED_SEAL = f"00000050 01 00000001 00000004 0000000000000006 000000 0001 00 00000033 {ANSWERED_SEAL} 0000"
# The same of `tx if x %! put x 1 get y` in 0.1, whose body is 14 bytes.
ITEMS = "0002 01 06 78 00 00000001 31 01 01 79"
MANY = f"0a 00 0000 0000 00000001 0000000e {ITEMS}"
PRE_ACCEPT_MANY = f"4550 03 01 00 01 0000 00000001 0000000000000001 {OF_PUT} {MANY}"
COMMIT_MANY = f"4550 03 05 00 01 0000 00000002 0000000000000003 {OF_PUT} {MANY}"
FOUND_NONE, ABSENT, CLOSED = (bytes.fromhex(it) for it in ("00000005 0b 00000000", "00000002 0c 00", "00000002 0c 03"))


def found(*instances):
    """The answer that these interfere."""
    return bytes.fromhex(f"{5 + 3 * len(instances):08x} 0b {len(instances):08x} {' '.join(instances)}")


def waits(instance):
    """The answer that a read waits for this one."""
    return bytes.fromhex(f"00000005 0c 02 {instance}")


def quiet(entry, stamp):
    """What is reported of an entry that sends nothing, and that answers nobody."""
    return bytes.fromhex(f"00000018 01 00000001 {entry:08x} {stamp:016x} 000000 0000 0000")


# Malformed ones of a node of a generation: kind 16, and changes of `01 78 00000002 010002 002328`, a read of `x` for
# which 1.2 and 0.9000 were found.
MALFORMED_READS = (
    ("no key", asked(16), malformed(8, 5)),
    ("a key of 256 bytes", asked(16, "78" * 256), malformed(8, 5)),
    ("kind 18", asked(18), malformed(1, 4)),
    ("a read of nothing", asked(17), malformed(6, 5)),
    ("of a key of no bytes", asked(17, "00 78 00000000"), malformed(6, 5)),
    ("a cut key", asked(17, "02 78"), malformed(8, 6)),
    ("no count", asked(17, "01 78"), malformed(22, 7)),
    ("a cut count", asked(17, "01 78 000000"), malformed(22, 7)),
    ("63,001 instances", asked(17, "01 78 0000f619" + "000001" * 63_001), malformed(22, 7)),
    ("no instance of two", asked(17, "01 78 00000002"), malformed(23, 11)),
    ("an instance without its number", asked(17, "01 78 00000001 01"), malformed(23, 12)),
    ("one that is cut", asked(17, "01 78 00000001 0100"), malformed(23, 12)),
    ("one of two", asked(17, "01 78 00000002 010002"), malformed(23, 14)),
    ("replica 3 of 3", asked(17, "01 78 00000002 010002 032328"), malformed(23, 14)),
    ("number 0", asked(17, "01 78 00000002 010000 002328"), malformed(23, 12)),
    ("number 9,001", asked(17, "01 78 00000002 010002 002329"), malformed(23, 15)),
    ("a byte behind the last", asked(17, "01 78 00000002 010002 002328 00"), malformed(12, 17)),
    ("a byte behind a read for which none was found", asked(17, "01 78 00000000 00"), malformed(12, 11)),
    ("no instance, and two", asked(17, "01 78 00000000 010002 002328"), malformed(12, 11)),
    ("one instance, and two", asked(17, "01 78 00000001 010002 002328"), malformed(12, 14)),
    ("two of three instances", asked(17, "01 78 00000003 010002 002328"), malformed(23, 17)),
    ("a key of two bytes", asked(17, "02 78 00000002 010002 002328"), malformed(23, 15)),
    ("a key of 255 bytes", asked(17, "ff 78 00000002 010002 002328"), malformed(8, 6)),
)


def many(items, length=None, lengths="00 00"):
    """A client's proposal of a command over many keys; of another length of its body, or other lengths of keys, where these are given."""
    items = bytes.fromhex(items)
    length = len(items) if length is None else length
    return asked(1, f"00000001 00000001 0000000000000000 0a {lengths} {length:08x} {items.hex()}")


# Malformed ones over many keys: the lengths of its keys are 0, and its body stands at 31.
MALFORMED_ITEMS = (
    ("a first key", many(ITEMS, lengths="01 00"), malformed(13, 22)),
    ("a second key", many(ITEMS, lengths="00 01"), malformed(14, 23)),
    ("a body of four bytes", many("0001 01 01"), malformed(15, 24)),
    ("a body of 131,081 bytes", many(ITEMS, 131_081), malformed(15, 24)),
    ("a body that is cut", many(ITEMS[:-2]), malformed(18, 28)),
    ("a body that is longer than the request", many(ITEMS, 15), malformed(18, 28)),
    ("a byte behind the body", many(ITEMS, 13), malformed(18, 28)),
    ("an item less", many("0001" + ITEMS[4:]), malformed(18, 28)),
    ("keys that fall", many(ITEMS[:-2] + "77"), malformed(18, 28)),
    ("a key twice", many(ITEMS[:-2] + "78"), malformed(18, 28)),
    ("an item that says nothing", many(ITEMS[:-5] + "00 79"), malformed(18, 28)),
)


def node(program, log, *more, replica=0):
    """The words of a run."""
    return [program, "node", "--replicas", "3", "--replica", str(replica), "--log", log, *more]


def run(words, given, redirect=""):
    """What a run answers: status, output and fault output."""
    if redirect:
        words = ["sh", "-c", f'exec "$@" {redirect}', "sh", *words]
    it = subprocess.run(words, input=given, capture_output=True, timeout=SECONDS, check=False)
    return it.returncode, it.stdout, it.stderr


def differs(got, wanted):
    """What is wrong with a run, or nothing."""
    return "" if got == wanted else f"{got!r} and not {wanted!r}"


def first_starts(program, folder):
    """A log is begun by that word alone, and is gone on with without it."""
    log = f"{folder}/zero"
    none, there = b"log refused: there is none\n", b"log refused: there is one already\n"
    yield "node, no log and no --new", differs(run(node(program, log), SYNC), (2, b"", none))
    yield "node, no log is left by that", "" if not os.path.exists(log) else "there is one"
    open(log, "wb").close()
    yield "node, an empty log and no --new", differs(run(node(program, log), SYNC), (2, b"", none))
    os.remove(log)
    yield "node, a proposal", differs(run(node(program, log, "--new"), PROPOSE + SYNC), (0, TAKEN + SYNCED, b""))
    held = open(log, "rb").read()
    yield "node, --new and a log", differs(run(node(program, log, "--new"), SYNC), (2, b"", there))
    yield "node, the log after that", differs(open(log, "rb").read(), held)
    yield "node, come back", differs(run(node(program, log), SYNC + LEADS), (0, SYNCED + LEADING, b""))
    yield "node, what there is to tell", differs(run(node(program, log), READY + REST), (0, TOLD + TOLD_NOTHING, b""))
    yield "node, no request", differs(run(node(program, log), SYNC + NONE), (2, SYNCED, b"request refused at byte 5\n"))
    another = b"log refused: a log of another cluster or replica\n"
    yield "node, the log of another", differs(run(node(program, log, replica=1), SYNC), (2, b"", another))
    with open(log, "ab") as it:
        it.write(b"torn!")
    cut = b"log cut at byte %d: 5 bytes behind it were no whole record\n" % len(held)
    yield "node, a torn log", differs(run(node(program, log), SYNC), (0, SYNCED, cut))
    yield "node, the log after that", differs(run(node(program, log), SYNC), (0, SYNCED, b""))
    others = [f"{folder}/one", f"{folder}/two"]
    for replica, other in enumerate(others, 1):
        yield f"node, replica {replica}", differs(run(node(program, other, "--new", replica=replica), SYNC), (0, NOTHING, b""))
    yield "node, its log collected", differs(run([program, "collect", log, *others], b""), (0, BUNDLE, b""))


def odd_requests(program, folder):
    """Requests that are malformed or too far ahead are answered, and the node goes on."""
    for place, (name, request, answer) in enumerate(MALFORMED):
        log = f"{folder}/malformed-{place}"
        got = run(node(program, log, "--new"), request + PROPOSE + SYNC, "")
        yield f"node, malformed: {name}", differs(got, (0, answer + TAKEN + SYNCED, b""))
    # the last stamp is 0, and then 1
    far = 1 << 40
    for name, first, seen, wanted in (
        ("a stamp 2^40 ahead", b"", far, 1 + far),
        ("a stamp 2^40 + 1 ahead", b"", far + 1, 0),
        ("a stamp 2^40 ahead of 1", PROPOSE, far + 1, 2 + far),
        ("the greatest number", PROPOSE, (1 << 64) - 1, 0),
    ):
        log = f"{folder}/far-{name.replace(' ', '-')}"
        status, wrote, told = run(node(program, log, "--new"), first + put(1, 2, b"y", b"", seen) + SYNC + PROPOSE + SYNC)
        answers = split(wrote)
        at = 1 if first else 0
        answer = answers[at]
        is_well = answer == refused(15) if not wanted else answer[4] == 1 and int.from_bytes(answer[13:21], "big") == wanted
        is_well = is_well and (status, told) == (0, b"") and answers[-2][4] == 1
        yield f"node, {name}", "" if is_well else f"{status}, {told!r}, {[it.hex() for it in answers]}"


def split(wrote):
    """The answers, each with its length."""
    answers = []
    while wrote:
        size = 4 + int.from_bytes(wrote[:4], "big")
        answers.append(wrote[:size])
        wrote = wrote[size:]
    return answers


class Piped:
    """A node over pipes, which is asked one request after the other."""

    def __init__(self, words):
        self.it = subprocess.Popen(words, stdin=subprocess.PIPE, stdout=subprocess.PIPE, stderr=subprocess.PIPE)

    def ask(self, request, seconds=SECONDS):
        """The answer that comes within so many seconds, or what came of it."""
        self.it.stdin.write(request)
        self.it.stdin.flush()
        return self.hear(seconds)

    def hear(self, seconds):
        got, end = b"", time.monotonic() + seconds
        while len(got) < 4 or len(got) < 4 + int.from_bytes(got[:4], "big"):
            wanted = 4 - len(got) if len(got) < 4 else 4 + int.from_bytes(got[:4], "big") - len(got)
            if not select.select([self.it.stdout], [], [], max(0, end - time.monotonic()))[0]:
                return got
            more = os.read(self.it.stdout.fileno(), wanted)
            if not more:
                return got
            got += more
        return got

    def end(self):
        out, err = self.it.communicate(timeout=SECONDS)
        return self.it.returncode, out, err

    def kill(self):
        self.it.kill()
        self.it.communicate()


def request_by_request(program, folder):
    """A host that waits for each answer before it asks again."""
    piped = Piped(node(program, f"{folder}/each", "--new", "--sync", "each"))
    try:
        answers = [piped.ask(it) for it in (PROPOSE, LEADS, asked(0), GET, SYNC)]
        yield "node --sync each, request by request", differs(answers, [TAKEN, LEADING, malformed(1, 4), NO_VALUE, SYNCED])
        yield "node --sync each, its end", differs(piped.end(), (0, b"", b""))
    finally:
        piped.kill()
    piped = Piped(node(program, f"{folder}/asked", "--new"))
    try:
        yield "node, nothing waits for the disk", differs(piped.ask(GET), NO_VALUE)
        yield "node, an answer waits for a sync", differs(piped.ask(PROPOSE, 1), b"")
        answers = [piped.ask(SYNC), piped.hear(SECONDS), piped.ask(GET)]
        yield "node, answers come with a sync", differs(answers, [TAKEN, SYNCED, NO_VALUE])
        yield "node, its end", differs(piped.end(), (0, b"", b""))
    finally:
        piped.kill()


def member(program, folder, *more, replica=1):
    """The words of a replica of generation 1."""
    return [program, "node", "--replicas", "3", "--replica", str(replica), "--dir", folder, *more]


def reads(program, folder):
    """Reads that write nothing: what interferes is found before it is committed; a read waits until it is executed."""
    state, execute_all = asked(11), asked(12)
    unchanged = bytes.fromhex("00000016 08 00000001 00000001 0000 0000 00 0000000000000002")
    many = "".join(f"{at // 9000:02x}{at % 9000 + 1:04x}" for at in reversed(range(27_000)))
    rows = (
        ("a log that is begun", SYNC, NOTHING),
        ("nothing interferes", LOOK, FOUND_NONE),
        ("nothing was found", asked(17, "01 78 00000000"), ABSENT),
        ("what isn't there is waited for", READ, waits("000001")),
        ("a PreAccept", asked(2, PRE_ACCEPT), VOTED),
        ("a vote is found", LOOK, found("000001")),
        ("of another key nothing is", LOOK_Y, FOUND_NONE),
        ("it isn't committed", READ, waits("000001")),
        ("of a read nothing is written", state, unchanged),
        ("a read of another key", asked(17, "01 79 00000000"), ABSENT),
        ("a Commit", asked(2, COMMIT), quiet(2, 4)),
        ("it isn't executed", READ, waits("000001")),
        ("it is executed", execute_all, quiet(3, 5)),
        ("the value", READ, bytes.fromhex("00000005 0c 01 0001 31")),
        ("the least that isn't executed", asked(17, "01 78 00000004 020005 010003 000001 010004"), waits("010003")),
        ("each instance of a cluster of three", asked(17, f"01 78 00006978 {many}"), waits("000002")),
        ("0.1, 63,000 times", asked(17, "01 78 0000f618" + "000001" * 63_000), bytes.fromhex("00000005 0c 01 0001 31")),
        ("what was executed is still found", LOOK, found("000001")),
        ("the PreAccept of a seal", asked(2, PRE_ACCEPT_SEAL), bytes.fromhex(VOTED_SEAL)),
        ("a seal interferes with all reads", LOOK, found("000001", "000002")),
        ("of any key", LOOK_Y, found("000002")),
        ("a seal that isn't executed", asked(17, "01 79 00000001 000002"), waits("000002")),
        ("its Commit", asked(2, COMMIT_SEAL), quiet(5, 8)),
        ("a seal is executed", execute_all, quiet(6, 9)),
        ("a closed map", asked(17, "01 78 00000002 000001 000002"), CLOSED),
        ("of any key, for which nothing was found", asked(17, "01 79 00000000"), CLOSED),
        ("what isn't executed is waited for still", asked(17, "01 79 00000001 010001"), waits("010001")),
    )
    log = f"{folder}/1/log"
    piped = Piped(member(program, folder, "--new", "--sync", "each"))
    try:
        for name, request, wanted in rows:
            held = os.path.getsize(log) if os.path.exists(log) else 0
            yield f"node, reads: {name}", differs(piped.ask(request), wanted)
            if request[4] in (16, 17):
                yield f"node, reads: {name}: the log", differs(os.path.getsize(log), held)
    finally:
        piped.kill()


def reads_wait_for_the_disk(program, folder):
    """What is found, and what is read, is reported once all that was taken before is on the disk."""
    piped = Piped(member(program, folder, "--new"))
    try:
        yield "node, a look at what is on the disk", differs(piped.ask(LOOK), FOUND_NONE)
        yield "node, a vote that isn't on the disk", differs(piped.ask(asked(2, PRE_ACCEPT) + LOOK + READ, 1), b"")
        answers = [piped.ask(SYNC), *(piped.hear(SECONDS) for _ in range(3)), piped.ask(LOOK)]
        wanted = [VOTED, found("000001"), waits("000001"), SYNCED, found("000001")]
        yield "node, a look behind the sync", differs(answers, wanted)
        yield "node, its end behind a look", differs(piped.end(), (0, b"", b""))
    finally:
        piped.kill()


def many_keys(program, folder):
    """A command over many keys: it is found by each of its keys, voted for, executed, and proposed."""
    voted = f"4550 03 02 01 00 0000 00000001 0000000000000002 {OF_PUT} 00 00 0000 0000 00000001 00000000"
    asks = f"4550 03 01 01 02 0000 00000004 0000000000000006 010001 000001 00 000000 00000002 0a 00 0000 0001 00000001 0000000e {ITEMS} 000001"
    own = bytes.fromhex(f"{29 + 65:08x} 01 00000001 00000004 0000000000000006 010001 0001 02 00000041 {asks} 0000")
    rows = (
        ("a PreAccept", asked(2, PRE_ACCEPT_MANY), bytes.fromhex(f"0000004d 01 00000001 00000001 0000000000000002 000000 0001 00 00000030 {voted} 0000")),
        ("its first key", LOOK, found("000001")),
        ("its second key, which it only tells", LOOK_Y, found("000001")),
        ("another key", asked(16, "7a"), FOUND_NONE),
        ("it isn't committed", READ, waits("000001")),
        ("a Commit", asked(2, COMMIT_MANY), quiet(2, 4)),
        ("it is executed", asked(12), quiet(3, 5)),
        ("what it wrote", READ, bytes.fromhex("00000005 0c 01 0001 31")),
        ("what it told", asked(17, "01 79 00000001 000001"), ABSENT),
        ("one of its own", many(ITEMS), own),
        ("its own is found", LOOK, found("000001", "010001")),
    )
    piped = Piped(member(program, folder, "--new", "--sync", "each"))
    try:
        for name, request, wanted in rows:
            yield f"node, many keys: {name}", differs(piped.ask(request), wanted)
    finally:
        piped.kill()
    yield from malformed_ones(program, folder, "items", MALFORMED_ITEMS)


def malformed_reads(program, folder):
    yield from malformed_ones(program, folder, "reads", MALFORMED_READS)


def malformed_ones(program, folder, of_what, rows):
    """Each is answered by its first field at fault, and nothing is done."""
    for name, request, answer in rows:
        place = f"{folder}/{name.replace(' ', '-').replace(',', '')}"
        got = run(member(program, place, "--new"), request + LOOK + SYNC)
        yield f"node, malformed {of_what}: {name}", differs(got, (0, answer + FOUND_NONE + NOTHING, b""))


def closed_streams(program, folder):
    """A standard stream that is closed is none of the log's."""
    log = f"{folder}/open"
    run(node(program, log, "--new"), PROPOSE + SYNC)
    held = open(log, "rb").read()
    requests = PROPOSE + SYNC
    for name, redirect, wanted, left in (
        ("output", ">&-", (4, b"", b"writing failed\n"), held),
        ("input", "<&-", (4, b"", b"reading failed\n"), held[:43]),
        ("fault output", "2>&-", (0, TAKEN + SYNCED, b""), held),
        ("fault output, at a fault", "2>&-", (2, TAKEN, b""), held),
        ("input and output", "<&- >&-", (4, b"", b"reading failed\n"), held[:43]),
        ("every stream", "<&- >&- 2>&-", (4, b"", b""), held[:43]),
    ):
        log = f"{folder}/{name.replace(' ', '-')}"
        given = PROPOSE + NONE if "at a fault" in name else requests
        got = run(node(program, log, "--new"), given, redirect)
        yield f"node, {name} closed", differs(got, wanted)
        yield f"node, {name} closed: its log", differs(open(log, "rb").read() if os.path.exists(log) else None, left)
        # (it can be gone on with)
        yield f"node, {name} closed: come back", differs(run(node(program, log), SYNC)[0::2], (0, b""))


def closed_for_a_collection(program, folder):
    """Nor is it a log's that is read."""
    logs = [f"{folder}/{replica}" for replica in range(3)]
    for replica, log in enumerate(logs):
        run(node(program, log, "--new", replica=replica), PROPOSE + SYNC if not replica else b"")
    held = [open(log, "rb").read() for log in logs]
    for name, redirect, wanted in (
        ("output", ">&-", (4, b"", b"writing failed\n")),
        ("input", "<&-", (0, BUNDLE, b"")),
        ("fault output", "2>&-", (0, BUNDLE, b"")),
        ("every stream", "<&- >&- 2>&-", (4, b"", b"")),
    ):
        yield f"collect, {name} closed", differs(run([program, "collect", *logs], b"", redirect), wanted)
        yield f"collect, {name} closed: the logs", differs([open(log, "rb").read() for log in logs], held)


def worked():
    """The bytes behind each name in tests/vectors/wire.txt. Lines that are indented further go on with the one before."""
    found, name = {}, None
    with open(f"{TOP}/tests/vectors/wire.txt", encoding="utf-8") as file:
        for indented in (it for it in file if it.startswith("    ")):
            if indented[4] != " ":
                name, indented = indented.split(None, 1)
            found[name] = found.get(name, b"") + bytes.fromhex(indented)
    return found


# The worked requests, and the kinds of their answers by a new replica 0.
WORKED = (
    ("propose", 1), ("propose-sparing", 1), ("propose-tx", 1), ("frame", 2), ("give-up", 2), ("recover", 1),
    ("execute", 2), ("advance", 1), ("value-of", 3), ("next-open", 4), ("first-open", 4), ("sync", 6), ("state", 8),
    ("execute-all", 1), ("ready", 9), ("interfering", 11), ("read", 12),
)  # fmt: skip


def worked_requests(program, folder):
    """Each of the worked requests is one, and each of the worked commands; what is none is malformed."""
    known = worked()
    # (what stands before a command: behind the length and the kind the client, the request and the stamp)
    head, end = known["propose"][5:21], list(known).index("propose")
    commands = {name: asked(1, (head + it).hex()) for name, it in list(known.items())[:end]}
    requests = [(name, known[name], kind) for name, kind in WORKED]
    requests += [(name, it, 7 if name.startswith("bad-") else 1) for name, it in commands.items()]
    piped = Piped(member(program, folder, "--new", "--sync", "each", replica=0))
    try:
        for name, request, kind in requests:
            answer = piped.ask(request)
            yield f"node, worked: {name}", differs(answer[4:5], bytes([kind]))
    finally:
        piped.kill()


def worked_answers(*_):
    """A host in Python (tools/lives) reads the worked answers."""
    lives, known = loaded("lives", f"{TOP}/tools/lives"), worked()
    receipt = lives.Receipt(9, 2, "1.258", 5, "present old", known["present"])
    bare = lives.Entry("0.0", [], [])
    for name, told in (
        ("taken", (1, [lives.Entry("1.258", [(2, b"\6\7")], [receipt])])),
        ("taken-two", (1, [bare, bare])),
        ("taken-none", (1, [])),
        ("no-room", (2, 4)),
        ("not-committed", (2, 10)),
        ("none-open", (4, None)),
        ("open", (4, (1, 258))),
        ("synced", (6, 258)),
        ("state-told", (8, lives.State(2, 3, 260, 1_286, True, 7))),
    ):
        yield f"a host reads the worked answer {name}", differs(lives.answer_in(known[name][4:]), told)


def every(program):
    """The name of each run, and what is wrong with it, or nothing."""
    with tempfile.TemporaryDirectory() as folder:
        of_reads = (reads, reads_wait_for_the_disk, malformed_reads, many_keys, worked_requests, worked_answers)
        of_streams = (closed_streams, closed_for_a_collection)
        for rows in (first_starts, odd_requests, request_by_request, *of_reads, *of_streams):
            place = f"{folder}/{rows.__name__}"
            os.mkdir(place)
            yield from rows(program, place)
