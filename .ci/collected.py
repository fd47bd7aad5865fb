"""Rows of `epaxos collect --generation` and `epaxos contents`: folders of nodes in the generations of .ci/generations.py, as dictionaries of a row's parts.

Opening files and logs are written out from docs/FORMATS.md, sections 12 and 9, and what is wanted of them from docs/CLI.md, sections 6.1 and 6.3."""

import hashlib

from generations import HELP, LAST_GENERATION, ONE, REFUSED, THREE, TWO, Generation, joined, map_bytes, number, told, worded

NAMES = ("zero", "one", "two", "three", "four", "five", "six")
MISSING = "is missing: a generation in which a machine's log is gone can't be audited whole; a chain begins behind it"
FIRST = Generation("put x 1")
LAST = Generation("put x 1", "del x", generation=LAST_GENERATION, since=5, opening={"%00": "%-", "y": "v" * 300})
# of the values' lengths in answers, one that needs two bytes, and one that needs none
LONG = Generation("put k %-", "get k", "put k " + "w" * 60_000, "get k", generation=3, since=9)
# proposals that name the replica that they spare
NAMED = Generation("put x 1", "swap x y", "seal n", generation=5, size=5, spared=2)


# replica 0, which alone has executed all, goes on by references; its clock from its own last stamp
SECOND = ONE.next("get a", "cas b %- %!", "del c", "seal %-", "get a", size=5, since=ONE.stamps[0])
THIRD = SECOND.next("put d 4", "swap a d", since=SECOND.stamps[0])


def sealed(body):
    """The bytes with their digest behind them."""
    return body + hashlib.sha256(body).digest()


def opening(it, since=None, seal=b"s"):
    """The opening file of a generation, perhaps with another stamp."""
    began = b"\0" if it.generation == 1 else b"\1" + number(len(seal), 4) + seal
    head = b"EPOP" + bytes([3, it.size]) + number(it.generation, 4) + number(it.since if since is None else since, 8)
    return sealed(head + began + map_bytes(it.opening) + number(0, 4))


def checksum(offset, synced, entry):
    """What a record ends with."""
    whole = len(entry) // 8 * 8
    words = [offset, synced, *(int.from_bytes(entry[at : at + 8], "little") for at in range(0, whole, 8)), *entry[whole:]]
    it = len(entry)
    for word in words:
        it ^= word
        it = ((it << 29 | it >> 35) & (1 << 64) - 1) * 0x9E3779B97F4A7C15 & (1 << 64) - 1
    return number(it, 8)


def log(it, replica, beside, entries=None):
    """The log of a replica that opened with this file."""
    whole = b"EPLG" + bytes([3, it.size, replica]) + number(it.generation, 4) + beside[-32:]
    for entry in it.entries[replica] if entries is None else entries:
        lengths = number(len(entry), 4) + number((1 << 32) - 1 - len(entry), 4)
        # (all before it is on the disk)
        whole += lengths + number(len(whole), 8) + entry + checksum(len(whole), len(whole), entry)
    return whole


def folder(it, replica, since=None, name=None):
    """What the folder of a replica has of a generation."""
    beside = opening(it, since)
    place = f"{name or NAMES[replica]}/{it.generation}"
    return {f"{place}/opening": beside, f"{place}/log": log(it, replica, beside)}


def folders(it, *sinces):
    """Those of all replicas, of which the first ones perhaps have other stamps."""
    files = {}
    for replica in range(it.size):
        files |= folder(it, replica, sinces[replica] if replica < len(sinces) else None)
    return files


def reference(it, before):
    """The reference of a generation to the log before it."""
    return sealed(b"EPOR" + bytes([3, it.size]) + number(it.generation, 4) + number(len(before), 8) + hashlib.sha256(before).digest())


def binding(named, written):
    """What binds an opening to a reference."""
    return b"EPOB\3" + named[-32:] + written[-32:]


def referred(*generations):
    """What the folder of replica 0 has that goes from the first of these generations to each next one by a reference."""
    files = folder(generations[0], 0)
    for before, it in zip(generations, generations[1:]):
        named = reference(it, files[f"zero/{before.generation}/log"])
        files |= {f"zero/{it.generation}/reference": named, f"zero/{it.generation}/log": log(it, 0, named)}
    return files


def by_references(*generations):
    """The folders of all replicas in the last of these generations, of which replica 0 has it by references."""
    it = generations[-1]
    return {name: held for name, held in folders(it).items() if not name.startswith("zero/")} | referred(*generations)


def collect(it, *names, receipts=True):
    """The words of a collection."""
    return ["collect", "--generation", str(it.generation), *(["--receipts", "told"] if receipts else []), *(names or NAMES[: it.size])]


def receipts(it):
    return {"told": b"".join(it.receipts)}


def collections():
    """Folders of which a bundle is made."""
    for name, it in (("generation 1", FIRST), ("generation 7", ONE), ("5 replicas", TWO), ("7 replicas", THREE), ("the last generation", LAST), ("long values", LONG), ("spared replicas", NAMED), ("nothing", Generation(generation=2))):
        yield dict(name=f"collect of {name}", words=collect(it), files=folders(it) | receipts(it), wanted=it.bundle())
    # more than 5,000 entries in a log
    many = Generation(*[f"put k{at} v" for at in range(1700)], generation=3, since=9)
    yield dict(name="collect of long logs", words=collect(many), files=folders(many) | receipts(many), wanted=many.bundle())
    yield dict(name="audit of long logs", words=["audit"], given=many.bundle(), wanted=many.audited())
    yield dict(name="contents of a long log", words=["contents", "zero"], files=folders(many), wanted=shown(many, 0, many.held))
    turned = collect(ONE, "two", "zero", "one")
    yield dict(name="collect of folders in another order", words=turned, files=folders(ONE) | receipts(ONE), wanted=ONE.bundle())
    # the least stamp stands in the bundle, whoever has it
    for at, sinces in enumerate(((41, 42, 40), (40, 1000, 2**48 - 1), (41, 40, 40))):
        yield dict(name=f"collect of other stamps, {at}", words=collect(ONE), files=folders(ONE, *sinces) | receipts(ONE), wanted=ONE.bundle())
    bare = Generation(generation=8, since=6, opening={"a": "1"})
    yield dict(name="collect of no receipts", words=collect(bare, receipts=False), files=folders(bare, 9, 6, 7), wanted=bare.bundle())
    # what generation 1 opens with is the same for all clusters of a size, so that its files may be missing
    for it in (FIRST, Generation("put x 1", "get x", size=5), Generation("put x 1", "get x", size=7)):
        bare = {name: held for name, held in folders(it).items() if not name.endswith("opening")}
        yield dict(name=f"collect of generation 1 of {it.size} without its openings", words=collect(it), files=bare | receipts(it), wanted=it.bundle())
    # other files and generations in the folders change nothing
    more = folders(ONE) | folders(ONE.next()) | {"zero/7/left": b"8", "zero/x": b"", "one/07/log": b"x"} | receipts(ONE)
    yield dict(name="collect of folders with more", words=collect(ONE), files=more, wanted=ONE.bundle())
    # torn ends
    files = folders(ONE) | receipts(ONE)
    for name, (tail, where) in {"a torn log": (b"torn!", "one/7/log"), "torn receipts": (ONE.receipts[0][:32], "told"), "torn receipts, cut in a length": (LONG.receipts[1][:36], "told")}.items():
        line = f"torn end in {where} after byte {len(files[where])}\n".encode()
        yield dict(name=f"collect of {name}", words=collect(ONE), files=files | {where: files[where] + tail}, wanted=ONE.bundle(), told=line)


def collections_by_references():
    """Folders of which one goes by references, of which a bundle is made and whose map is shown."""
    for name, them in (("a reference", (ONE, SECOND)), ("two references", (ONE, SECOND, THIRD))):
        it, files = them[-1], by_references(*them)
        yield dict(name=f"collect by {name}", words=collect(it), files=files | receipts(it), wanted=it.bundle())
        turned = [*reversed(NAMES[: it.size])]
        yield dict(name=f"collect by {name}, in another order", words=collect(it, *turned), files=files | receipts(it), wanted=it.bundle())
        yield dict(name=f"contents by {name}", words=["contents", "zero"], files=files, wanted=shown(it, 0, it.held))
        bare = Generation(generation=it.generation, opening={worded(key): worded(value) for key, value in it.opening.items()})
        for what, held in (("no log", without(files, f"zero/{it.generation}/log")), ("an empty log", files | {f"zero/{it.generation}/log": b""})):
            yield dict(name=f"contents by {name} and {what}", words=["contents", "zero"], files=held, wanted=shown(bare, 0, bare.opening))
        # the opening is written behind its reference
        named, written = files[f"zero/{it.generation}/reference"], opening(it)
        more = {f"zero/{it.generation}/opening": written}
        bound = more | {f"zero/{it.generation}/whole": binding(named, written)}
        alone = {at: held for at, held in files.items() if not at.startswith("zero/") or at.startswith(f"zero/{it.generation}/")}
        for what, held in (("an opening that nothing binds", files | more), ("an opening that is bound", files | bound), ("an opening that is bound, alone", alone | bound)):
            yield dict(name=f"collect by {name} and {what}", words=collect(it), files=held | receipts(it), wanted=it.bundle())
            yield dict(name=f"contents by {name} and {what}", words=["contents", "zero"], files=held, wanted=shown(it, 0, it.held))
    files = by_references(ONE, SECOND)
    line = f"torn end in zero/8/log after byte {len(files['zero/8/log'])}\n".encode()
    torn = files | {"zero/8/log": files["zero/8/log"] + b"\0"}
    yield dict(name="contents by a reference and a torn log", words=["contents", "zero"], files=torn, wanted=shown(SECOND, 0, SECOND.held), told=line)
    yield dict(name="collect by a reference and a torn log", words=collect(SECOND), files=torn | receipts(SECOND), wanted=SECOND.bundle(), told=line)
    longer = files | {"zero/7/log": files["zero/7/log"] + b"more"}
    yield dict(name="collect by a reference to the first bytes of a log", words=collect(SECOND), files=longer | receipts(SECOND), wanted=SECOND.bundle())


def refusals_by_references():
    """Why a reference gives nothing; and what is wrong beside one."""
    files = by_references(ONE, SECOND)
    before, named, written = files["zero/7/log"], files["zero/8/reference"], opening(SECOND)
    other = "zero: folder refused: the log of generation 7 isn't the one that generation 8 opens with"
    short = "zero: folder refused: the log of generation 7 is gone or cut short, and what it leaves opens generation 8"
    gone = "zero: folder refused: what generation 7 opens with is gone, and a later one rests on it; --take FILE goes on with the opening of a later one"
    for name, held, line in (
        ("a log that is turned before a reference", files | {"zero/7/log": before[:-1] + bytes([before[-1] ^ 1])}, other),
        ("a log that is cut before a reference", files | {"zero/7/log": before[:-1]}, short),
        ("no log before a reference", without(files, "zero/7/log"), short),
        ("the log of another before a reference", files | {"zero/7/log": log(ONE, 1, files["zero/7/opening"]) + before}, other),
        ("no opening before a reference", without(files, "zero/7/opening"), gone),
        ("an opening that isn't bound, alone", without(files, "zero/7/opening") | {"zero/8/opening": written}, gone),
        ("an opening that is bound to another reference", without(files, "zero/7/opening") | {"zero/8/opening": written, "zero/8/whole": binding(written, written)}, gone),
        ("a cut reference", files | {"zero/8/reference": named[:81]}, "zero: folder refused: the reference of generation 8: cut short at byte 81"),
        ("a turned reference", files | {"zero/8/reference": named[:9] + b"\1" + named[10:]}, "zero: folder refused: the reference of generation 8: damaged: no digest of the bytes before it at byte 50"),
        ("the reference of another generation", files | {"zero/8/reference": reference(THIRD, before)}, "zero: folder refused: the reference of generation 8 is that of generation 9"),
        ("a damaged opening before a reference", files | {"zero/7/opening": b"EPOP"}, "zero: folder refused: the opening of generation 7: cut short at byte 4"),
        ("a log that names the opening in place of its reference", files | {"zero/8/log": log(SECOND, 0, written)}, "log refused zero/8/log: another generation"),
    ):
        yield refused(name, held | receipts(SECOND), line, collect(SECOND))
        yield dict(name=f"contents of {name}", words=["contents", "zero"], files=held, told=f"{line}\n".encode(), status=2)
    yield refused("a reference to a log that isn't there", without(files, "zero/8/log") | receipts(SECOND), f"zero/8/log {MISSING}", collect(SECOND))
    odd = Generation(generation=8, since=SECOND.since, opening={"c": "1"}, size=5)
    yield refused("another map than a reference stands for", files | folder(odd, 1) | receipts(SECOND), "one/8/opening has another map than the first opening", collect(SECOND))
    five = Generation(generation=8, since=SECOND.since, opening={"c": "0"}, size=3)
    yield refused("another size than a reference says", files | folder(five, 1) | receipts(SECOND), "one/8/opening is of another cluster", collect(SECOND))


def refused(name, files, line, words=None, status=2):
    return dict(name=f"collect of {name}", words=words or collect(ONE), files=receipts(ONE) | files, told=f"{line}\n".encode(), status=status)


def without(files, name):
    return {it: held for it, held in files.items() if it != name}


def refusals():
    """Folders of which none is made, and the line of the first fault."""
    files = folders(ONE)
    for name in ("zero/7/opening", "two/7/opening", "zero/7/log", "one/7/log"):
        yield refused(f"no {name}", without(files, name), f"{name} {MISSING}")
    # a generation that a folder doesn't have; what it has; and a folder one level off
    yield refused("another generation than there is", files, "zero has no generation 6: its oldest is 7, its newest 7", collect(Generation(generation=6)))
    held = files | folders(Generation(generation=12, opening={"c": "0"})) | folders(Generation(generation=9, opening={"c": "0"}))
    yield refused("another generation than several", held, "zero has no generation 8: its oldest is 7, its newest 12", collect(Generation(generation=8)))
    yield refused("a generation that the second folder lacks", files | folder(ONE.next(), 0), "one has no generation 8: its oldest is 7, its newest 7", collect(ONE.next()))
    stored = {f"zero/generations/{name.removeprefix('zero/')}": it for name, it in files.items() if name.startswith("zero/")}
    yield refused("the folder of a store", stored, "zero has no generation; look into zero/generations", collect(ONE, "zero"))
    yield refused("a folder without a generation", {"zero/x": b""}, "zero has no generation", collect(ONE, "zero"))
    yield refused("a folder that isn't there", files, "reading three failed: no such file or directory", collect(ONE, "zero", "three"), 4)
    yield refused("no such receipts", files, "reading more failed: no such file or directory", ["collect", "--generation", "7", "--receipts", "more", "zero", "one", "two"], 4)
    yield refused("a folder in the place of a log", without(files, "one/7/log") | {"one/7/log/x": b""}, "reading one/7/log failed: not a regular file", status=4)
    # logs of version 3 that are named plainly
    yield refused("a log of version 3 named plainly", files, "log refused zero/7/log: a log of version 3; name its node's folder, with --generation G", ["collect", "zero/7/log"])
    # opening files
    held = files["one/7/opening"]
    body = held[:-32]
    for name, changed, line in (
        ("an opening without bytes", b"", "cut short at byte 0"),
        ("a cut opening", held[:58], "cut short at byte 58"),
        ("a cut opening with 59 bytes", held[:59], "damaged, by the digest at byte 27"),
        ("a turned byte", held[:20] + b"\xff" + held[21:], f"damaged, by the digest at byte {len(body)}"),
        ("no opening", b"EPLG" + held[4:], "the word in front is wrong at byte 0"),
        ("version 4", held[:4] + b"\4" + held[5:], "the version is wrong at byte 4"),
        ("four replicas", sealed(body[:5] + b"\4" + body[6:]), "the number of replicas is wrong at byte 5"),
        ("a byte too many", sealed(body + b"\0"), f"what stands behind the last field is wrong at byte {len(body)}"),
    ):
        yield refused(f"an opening: {name}", files | {"one/7/opening": changed}, f"opening refused one/7/opening: {line}")
    eight = opening(Generation(generation=8, since=40, opening={"c": "0"}))
    five = opening(Generation(generation=7, since=40, opening={"c": "0"}, size=5))
    yield refused("an opening of another generation", files | {"one/7/opening": eight}, "one/7/opening is of another generation")
    yield refused("a first opening of another generation", files | {"zero/7/opening": eight}, "zero/7/opening is of another generation")
    yield refused("an opening of another size", files | {"two/7/opening": five}, "two/7/opening is of another cluster")
    for name, other in (("another value", {"c": "1"}), ("a key more", {"c": "0", "d": "%-"}), ("no key", {})):
        it = Generation(generation=7, since=40, opening=other)
        yield refused(f"another map, of {name}", files | folder(it, 2), "two/7/opening has another map than the first opening")
    # logs
    yield refused("a log begun with another stamp", files | {"one/7/opening": opening(ONE, 41)}, "log refused one/7/log: another generation")
    yield refused("a log begun after another seal", files | {"one/7/opening": opening(ONE, seal=b"t")}, "log refused one/7/log: another generation")
    yield refused("a log of another generation", files | {"one/7/log": log(ONE.next(), 1, held)}, "log refused one/7/log: another generation")
    old = b"EPLG" + bytes([2, 3, 1])
    yield refused("a log of version 2", files | {"one/7/log": old}, "log refused one/7/log: another generation")
    yield refused("a log of version 4", files | {"one/7/log": b"EPLG\4" + files["one/7/log"][5:]}, "log refused one/7/log: another version")
    yield refused("a log without bytes", files | {"two/7/log": b""}, "log refused two/7/log: no header of a log")
    at = 43
    spoiled = ONE.entries[0][:1] + [ONE.entries[0][0]]
    place = len(log(ONE, 0, files["zero/7/opening"], spoiled[:1]))
    yield refused("a log with an entry twice", files | {"zero/7/log": log(ONE, 0, files["zero/7/opening"], spoiled)}, f"log refused zero/7/log: not the next entry at byte {place}")
    yield refused("a log with no entry", files | {"zero/7/log": log(ONE, 0, files["zero/7/opening"], [b"\7" + bytes(20)])}, f"log refused zero/7/log: bad entry at byte {at}")
    # the spared replica stands behind the kind, the stamp, the client, the request and the seen stamp
    named = Generation("put a 1", generation=7, since=40, opening={"c": "0"}, spared=1).entries[0][0]
    for byte in (0, 3, 255):
        spoiled = [named[:25] + number(byte, 1) + named[26:]]
        yield refused(f"a log whose proposal spares {byte}", files | {"zero/7/log": log(ONE, 0, files["zero/7/opening"], spoiled)}, f"log refused zero/7/log: bad entry at byte {at}")
    spoiled = [named[:25] + number(2, 1) + named[26:]]
    yield refused("a log whose proposal asks the spared replica", files | {"zero/7/log": log(ONE, 0, files["zero/7/opening"], spoiled)}, f"log refused zero/7/log: not the next entry at byte {at}")
    wide = Generation("put a 1", generation=7, since=40, opening={"c": "0"}, size=5)
    yield refused("a log of five replicas", files | {"two/7/log": log(wide, 2, files["two/7/opening"])}, "two/7/log is of another cluster")
    # the logs together
    yield refused("one replica twice", files, "replica 0 has two logs", collect(ONE, "zero", "zero", "two"))
    yield refused("a replica too few", files, "replica 2 has no log", collect(ONE, "one", "zero"))
    yield refused("one folder", files, "replica 0 has no log", collect(ONE, "one"))
    # receipts of version 2 have shorter lengths
    early = ONE.receipts[0][:32] + b"\1" + number(1, 2) + b"v"
    yield refused("receipts of version 2", files | {"told": early + bytes(4)}, "receipts refused told: bad field at byte 33")
    code = ONE.receipts[0][:32] + b"\7"
    yield refused("receipts with another answer", files | {"told": code}, "receipts refused told: bad field at byte 32")
    # the first fault: of a file that is missing, of the openings, of the logs, and of the receipts
    bad = {"two/7/opening": b"", "zero/7/log": b"", "told": code}
    yield refused("several faults", without(files | bad, "two/7/log"), f"two/7/log {MISSING}")
    yield refused("several faults, and no file missing", files | bad, "opening refused two/7/opening: cut short at byte 0")
    yield refused("several faults, and no bad opening", files | {"zero/7/log": b"", "told": code}, "log refused zero/7/log: no header of a log")


def shown(it, replica, held):
    """The lines of a map that this replica has."""
    lines = [f"generation {it.generation} entries {len(it.entries[replica])} {told(held)}"]
    return joined([*lines, *(f"{worded(key)} {worded(held[key])}" for key in sorted(held))]).encode()


def maps():
    """Maps of folders."""
    for name, it in (("generation 1", FIRST), ("generation 7", ONE), ("5 replicas", TWO), ("7 replicas", THREE), ("the last generation", LAST), ("long values", LONG), ("spared replicas", NAMED), ("nothing", Generation(generation=2))):
        yield dict(name=f"contents of {name}", words=["contents", "zero"], files=folders(it), wanted=shown(it, 0, it.held))
        # (another replica has executed nothing)
        yield dict(name=f"contents of {name}, of another replica", words=["contents", "one"], files=folders(it), wanted=shown(it, 1, it.opening))
    odd = Generation(generation=2, opening={"%00": "a%20b", "%25": "%-", "%ff": "%25", "!": "%21", "aa": "1", "a": "2"})
    yield dict(name="contents of odd keys", words=["contents", "zero"], files=folders(odd), wanted=shown(odd, 0, odd.opening))
    # the newest one
    nine, ten = Generation("put x 9", generation=9), Generation("put x 10", generation=10)
    yield dict(name="contents of the newest generation", words=["contents", "zero"], files=folders(ten) | folders(nine), wanted=shown(ten, 0, ten.held))
    more = {"zero/11/log": b"", "zero/012/opening": b"", "zero/13x/opening": b"", "zero/0/opening": b"", "zero/4294967296/opening": b"", "zero/x": b"", "zero/9/left": b"10"}
    yield dict(name="contents of a folder with more", words=["contents", "zero"], files=folders(nine) | more, wanted=shown(nine, 0, nine.held))
    # logs that aren't begun, and torn ones
    files = folders(ONE)
    bare = Generation(generation=7, opening={"c": "0"})
    for name, held in (("no log", without(files, "zero/7/log")), ("an empty log", files | {"zero/7/log": b""}), ("a log without an entry", files | {"zero/7/log": files["zero/7/log"][:43]})):
        yield dict(name=f"contents of {name}", words=["contents", "zero"], files=held, wanted=shown(bare, 0, bare.opening))
    line = f"torn end in zero/7/log after byte {len(files['zero/7/log'])}\n".encode()
    yield dict(name="contents of a torn log", words=["contents", "zero"], files=files | {"zero/7/log": files["zero/7/log"] + b"\0"}, wanted=shown(ONE, 0, ONE.held), told=line)
    # refusals
    eight = opening(Generation(generation=8))
    for name, held, line, status in (
        ("no generation", {"zero/x": b""}, "zero has no generation", 2),
        ("a log alone", without(files, "zero/7/opening"), "zero has no generation", 2),
        ("no folder", {"one/x": b""}, "reading zero failed: no such file or directory", 4),
        ("the folder of a store", {"zero/generations/7/opening": files["zero/7/opening"]}, "zero has no generation; look into zero/generations", 2),
        ("a file", {"zero": b""}, "reading zero failed: no such file or directory", 4),
        ("a cut opening", files | {"zero/7/opening": b"EPOP"}, "opening refused zero/7/opening: cut short at byte 4", 2),
        ("another generation's opening", files | {"zero/7/opening": eight}, "zero/7/opening is of another generation", 2),
        ("a log begun otherwise", files | {"zero/7/opening": opening(ONE, 41)}, "log refused zero/7/log: another generation", 2),
        ("no log's bytes", files | {"zero/7/log": b"x"}, "log refused zero/7/log: no header of a log", 2),
    ):
        yield dict(name=f"contents of {name}", words=["contents", "zero"], files=held, told=f"{line}\n".encode(), status=status)


def words():
    """Words that are refused."""
    def value(word):
        return b"invalid value \"%s\" for '--generation <G>': it takes a number from 1 to 4294967295\n" % word.encode()

    for word in ("0", "00", "01", "x", "", "1x", "4294967296", "99999999999", "1.0", "+1"):
        yield dict(name=f"words: generation {word}", words=["collect", f"--generation={word}", "zero"], told=REFUSED + value(word) + HELP, status=2)


def every():
    yield from collections()
    yield from collections_by_references()
    yield from refusals_by_references()
    yield from refusals()
    yield from maps()
    yield from words()
