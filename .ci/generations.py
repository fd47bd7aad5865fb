"""Scripts, bundles, upgrades and chains of version 3, and what is wanted of them: as dictionaries of a row's parts.

What is wanted is written out from docs/FORMATS.md (frames and bundles, sections 1 and 2) and docs/CLI.md (scripts and reports, 4 and 5, chains, 6.2).
Digests are hashlib's, of bytes that are spelled here."""

import copy
import hashlib
import string

S = "replicas 3\n"
LAST_GENERATION, LAST_STAMP = 2**32 - 1, 2**48 - 1
OPS = {"get": 2, "put": 3, "del": 4, "swap": 5, "cas": 6, "ask": 7, "act": 8, "seal": 9, "tx": 10}
EMPTY_DIGEST = "df3f619804a92fdb4057192dc43dd748ea778adc52bc498ce80524c014b81119"
# what a refused command line reports first and last
REFUSED, HELP = b"command line refused\nerror: ", b"\nFor more information, try '--help'.\n"
LONGEST = "v" * 65_535
# as many keys as a command may name, rising
MANY_KEYS = [one + other for one in string.digits + string.ascii_lowercase for other in string.digits + string.ascii_lowercase][:1024]


def number(value, size):
    """A number of so many bytes."""
    return value.to_bytes(size, "big")


def worded(held):
    """Bytes as one word."""
    return "".join(chr(it) if 0x21 <= it <= 0x7E and it != 0x25 else f"%{it:02x}" for it in held) or "%-"


def spelled(word):
    """The bytes of a word; none where it is `%!`."""
    if word in ("%-", "%!"):
        return b"" if word == "%-" else None
    first, *rest = word.split("%")
    return first.encode() + b"".join(bytes([int(it[:2], 16)]) + it[2:].encode() for it in rest)


def map_bytes(held):
    """A map as a bundle spells it: how many keys, and each by rising bytes."""
    return number(len(held), 4) + b"".join(number(len(key), 1) + number(len(held[key]), 4) + key + held[key] for key in sorted(held))


def contents(held):
    """The line that reports a map, of keys and values as words."""
    return told({spelled(key): spelled(value) for key, value in held.items()})


def told(held):
    return f"contents {len(held)} {hashlib.sha256(map_bytes(held)).hexdigest()}"


def joined(lines):
    return "".join(f"{it}\n" for it in lines)


def report(life, committed=(), history=(), closing="open", held=None, receipts=(), refused=None, lost=None):
    """A report of version 3; that of an audit without `refused`, that of a run with `lost`."""
    lines = ["verdict accepted", f"generation {life}", f"committed {len(committed)}", *committed]
    lines += [f"history {len(history)}", *[f"{at} {it}" for at, it in enumerate(history, 1)], closing, contents(held or {})]
    for name, its in (("receipts", receipts), ("refused", refused)):
        lines += [] if its is None else [f"{name} {len(its)}", *its]
    return joined([*lines, *([] if lost is None else [f"lost {lost}"])]).encode()


def optional(held):
    """A value, or that there is none."""
    return b"\0" if held is None else b"\1" + number(len(held), 4) + held


def part(word):
    """One of the two parts of a comparison's body."""
    return optional(spelled(word))


def items_of(words):
    """What the words of a command over many keys say of each key, by rising keys: its guard in a list, whether it is reported, and what is written in a list."""
    items, at = {}, 0
    while at < len(words):
        kind, key = words[at], spelled(words[at + 1])
        guard, told, write = items.get(key, ([], False, []))
        if kind == "if":
            guard = [spelled(words[at + 2])]
        elif kind == "get":
            told = True
        else:
            write = [spelled(words[at + 2]) if kind == "put" else None]
        items[key] = guard, told, write
        at += 3 if kind in ("if", "put") else 2
    return sorted(items.items())


def item_bytes(key, guard, told, write):
    """An item of a command over many keys."""
    flags = told + 2 * bool(guard) + (0 if not write else 8 if write[0] is None else 4)
    put = number(len(write[0]), 4) + write[0] if flags & 4 else b""
    return number(len(key), 1) + number(flags, 1) + key + b"".join(optional(it) for it in guard) + put


def item_words(key, guard, told, write):
    """The same, as a report has it."""
    of = worded(key)
    yield from (f" if {of} {'%!' if it is None else worded(it)}" for it in guard)
    yield from [f" get {of}"] * told
    yield from (f" del {of}" if it is None else f" put {of} {worded(it)}" for it in write)


class Command:
    """A command, of its words in a script."""

    def __init__(self, text):
        name, *words = text.split(" ")
        self.text, self.name, self.op = text, name, OPS[name]
        if name == "tx":
            self.items = items_of(words)
            self.keys = [it for it, _ in self.items]
            self.only_reads = not any(write for _, (_, _, write) in self.items)
            self.body = number(len(self.items), 2) + b"".join(item_bytes(key, *it) for key, it in self.items)
            self.text = "tx" + "".join(word for key, it in self.items for word in item_words(key, *it))
            return
        of_two = name == "swap" or name in ("ask", "act") and len(words) == 3
        self.keys = [] if name == "seal" else [spelled(it) for it in words[: 1 + of_two]]
        rest = words[len(self.keys) :]
        self.body = part(rest[0]) + part(rest[1]) if name == "cas" else spelled(rest[0]) if rest else b""
        self.values = [spelled(it) for it in rest]
        self.only_reads = name in ("get", "ask")

    def meets(self, other):
        """Whether the two interfere."""
        if "seal" in (self.name, other.name):
            return True
        return bool({*self.keys} & {*other.keys}) and not (self.only_reads and other.only_reads)

    def reply(self, held):
        """What the command is answered by an open map, which it changes."""
        if self.name in ("seal", "ask", "act"):
            return None if self.name == "seal" else "ordered"
        if self.name == "tx":
            return self.transact(held)
        had = held.get(self.keys[0])
        if self.name == "put":
            held[self.keys[0]] = self.values[0]
        elif self.name == "del":
            held.pop(self.keys[0], None)
        elif self.name == "swap":
            other = held.get(self.keys[1])
            for key, value in ((self.keys[0], other), (self.keys[1], had)):
                held.pop(key, None)
                if value is not None:
                    held[key] = value
        elif self.name == "cas" and had == self.values[0]:
            held.pop(self.keys[0], None)
            if self.values[1] is not None:
                held[self.keys[0]] = self.values[1]
        return had

    def transact(self, held):
        """What one over many keys is answered: whether it was done, and what each key had that it reports."""
        told = [held.get(key) for key, (_, is_told, _) in self.items if is_told]
        if any(held.get(key) != it for key, (guard, _, _) in self.items for it in guard):
            return "undone", told
        for key, (_, _, write) in self.items:
            for it in write:
                held.pop(key, None)
                if it is not None:
                    held[key] = it
        return "done", told


def replied(reply):
    """A reply as reports have it."""
    if isinstance(reply, tuple):
        return reply[0] + "".join(f" {replied(it)}" for it in reply[1])
    return reply if isinstance(reply, str) else "absent" if reply is None else f"present {worded(reply)}"


class Generation:
    """What the journals of a generation say, and their bytes: client 1 proposes commands at replica 0, one after the other, and each is committed on the
    fast path and executed there before the next one. No Commit is handled. (Of versions 1 and 2 there is no generation and no opening.) Each proposal names
    the replica `spared`, where one is given."""

    def __init__(self, *texts, size=3, generation=1, since=0, opening=None, version=3, spared=None):
        self.size, self.generation, self.since, self.version, self.spared = size, generation, since, version, spared
        self.members = [it for it in range(1, size) if it != (size - 1 if spared is None else spared)]
        self.opening = {spelled(key): spelled(value) for key, value in (opening or {}).items()}
        self.held, self.closing = {**self.opening}, None
        self.stamps, self.entries = [since] * size, [[] for _ in range(size)]
        self.taken, self.deps, self.seqs, self.committed, self.history, self.receipts, self.given = [], [], [], [], [], [], []
        for text in texts:
            self.take(Command(text))

    # bytes

    def command_bytes(self, command, deps=None):
        """The op and all lengths; in a frame with the number of dependencies."""
        keys = [] if command.name == "tx" else command.keys
        key = keys[0] if keys else b""
        second = keys[1] if len(keys) > 1 else b""
        start = number(command.op, 1) + number(len(key), 1)
        count = b"" if deps is None else number(len(deps), 2)
        if self.version < 3:
            return start + number(len(command.body or second), 2) + count, key + second + command.body
        if deps is None:
            return start + number(len(second), 1) + number(len(command.body), 4), key + second + command.body
        return start + number(len(second), 2) + count + number(self.generation, 4) + number(len(command.body), 4), key + second + command.body

    def frame(self, kind, sender, receiver, place, seq, deps, command=None):
        """The frame, by the entry that its sender makes next."""
        entry, stamp = len(self.entries[sender]) + 1, self.stamps[sender]
        head = b"EP" + bytes([self.version, kind, sender, receiver]) + number(place, 2) + number(entry, 4) + number(stamp, 8) + self.instance()
        head += bytes(7) + number(seq, 4)
        if command:
            lengths, rest = self.command_bytes(command, deps)
        else:
            lengths, rest = bytes(4) + number(len(deps), 2) + (number(self.generation, 4) + bytes(4) if self.version == 3 else b""), b""
        frame = head + lengths + rest + b"".join(number(0, 1) + number(it, 2) for it in deps)
        return number(len(frame), 4) + frame

    def instance(self):
        """The instance that was taken last."""
        return number(0, 1) + number(len(self.taken), 2)

    def tick(self, replica, *others):
        self.stamps[replica] = 1 + max(self.stamps[replica], *others, 0)

    def enter(self, replica, kind, body, frames=(), answers=()):
        """An entry's bytes behind the others of the replica."""
        whole = number(kind, 1) + number(self.stamps[replica], 8) + body + number(len(frames), 2) + b"".join(frames)
        self.entries[replica].append(whole + number(len(answers), 2) + b"".join(answers))

    def answer_bytes(self, reply):
        if isinstance(reply, tuple):
            return number(5 if reply[0] == "done" else 6, 1) + number(len(reply[1]), 2) + b"".join(optional(it) for it in reply[1])
        if reply in ("closed", "ordered"):
            return number(3 if reply == "closed" else 4, 1)
        return b"\0" if reply is None else b"\1" + number(len(reply), 4 if self.version == 3 else 2) + reply

    # events

    def take(self, command):
        """The command is proposed, committed and executed."""
        asked = self.propose(command)
        proposed = self.stamps[0]
        votes = [self.vote(at, proposed, frame) for at, frame in zip(self.members, asked)]
        for at, vote in enumerate(votes, 1):
            self.hear(vote, at == len(votes))
        self.execute(command, self.seqs[-1], self.deps[-1], number(len(self.taken), 4))

    def propose(self, command):
        """The command is proposed: the frames that ask the members."""
        self.taken.append(command)
        self.deps.append([at for at, it in enumerate(self.taken[:-1], 1) if it.meets(command)])
        self.seqs.append(1 + max((self.seqs[it - 1] for it in self.deps[-1]), default=0))
        self.tick(0)
        asked = [self.frame(1, 0, it, place, self.seqs[-1], self.deps[-1], command) for place, it in enumerate(self.members)]
        lengths, rest = self.command_bytes(command)
        kind, named = (1, b"") if self.spared is None else (6, number(self.spared, 1))
        self.enter(0, kind, number(1, 4) + number(len(self.taken), 4) + number(0, 8) + named + lengths + rest, asked)
        return asked

    def vote(self, at, proposed, asked=None):
        """The stamp and the frame of a replica's vote for it, with an entry where a frame asked for it."""
        self.tick(at, proposed)
        vote = self.stamps[at], self.frame(2, at, 0, 0, self.seqs[-1], self.deps[-1])
        if asked:
            self.enter(at, 2, asked, vote[1:])
        return vote

    def hear(self, vote, commits):
        """Replica 0 handles the vote, and commits or waits for more."""
        stamp, frame = vote
        self.tick(0, stamp)
        told = [self.frame(5, 0, it, it - 1, self.seqs[-1], self.deps[-1], self.taken[-1]) for it in range(1, self.size)] if commits else ()
        self.enter(0, 2, frame, told)

    def execute(self, command, seq, deps, request):
        reply = "closed" if self.closing else command.reply(self.held)
        self.tick(0)
        answer = self.answer_bytes(reply)
        self.enter(0, 5, self.instance(), (), [self.instance() + answer])
        name, stamp = f"0.{len(self.taken)}", self.stamps[0]
        if command.name == "seal" and not self.closing:
            self.closing = f"closed {name} {command.text.split(' ')[1]} stamp {stamp}"
        said = replied(reply)
        self.committed.append(f"{name} seq {seq} deps {','.join(f'0.{it}' for it in deps) or '-'} {command.text}")
        self.history.append(f"{name} {command.text} -> {said}")
        self.given.append(f"client 1 request {len(self.taken)} {name} {said}")
        self.receipts.append(number(1, 4) + request + self.instance() + number(0, 8) + number(0, 1) + number(len(self.entries[0]), 4) + number(stamp, 8) + answer)

    # what is wanted

    def bundle(self):
        """The bytes of the journals and of all receipts."""
        head = b"EPJB" + bytes([self.version, self.size])
        if self.version == 3:
            head += number(self.generation, 4) + number(self.since, 8)
        whole = head + number(len(self.receipts), 4) + (map_bytes(self.opening) if self.version == 3 else b"")
        for at, entries in enumerate(self.entries):
            whole += number(at, 1) + number(len(entries), 4) + b"".join(entries)
        return whole + b"".join(self.receipts)

    def ending(self):
        return self.closing or "open", told(self.held)

    def audited(self):
        """What an audit says."""
        placed = [f"{at} {it}" for at, it in enumerate(self.history, 1)]
        life = [f"generation {self.generation} since {self.since}"] if self.version == 3 else []
        lines = ["verdict accepted", *life, f"committed {len(self.committed)}", *self.committed, f"history {len(placed)}", *placed]
        return joined([*lines, *(self.ending() if self.version == 3 else ()), f"receipts {len(self.given)}", *self.given]).encode()

    def link(self):
        """Its line where a chain is accepted."""
        return " ".join([f"generation {self.generation} since {self.since} committed {len(self.committed)} history {len(self.history)}", *self.ending()])

    def next(self, *texts, **changed):
        """The generation that opens with this one's map, at the stamp at which it was closed."""
        held = {worded(key): worded(value) for key, value in self.held.items()}
        stamp = int(self.closing.rpartition(" ")[2])
        return Generation(*texts, **{"generation": self.generation + 1, "since": stamp, "opening": held} | changed)


# Scripts

FLUSHED = "flush\n" * 3
# Lines that `replay` and `run` refuse, behind the head that is given, each with its number
REFUSED_LINES = (
    *((S + f"generation{it}\n", 2) for it in ("", " 0", " 1 1", " 4294967296", " 00000000001", " -1", " one", " 1.1")),
    ("generation 1\nreplicas 3\n", 1),
    (S + "generation 1\ngeneration 1\n", 3),
    (S + "# a generation\n\ngeneration 1\n#\n\ngeneration 2\n", 7),
    (S + "propose 0 1 get x\ngeneration 1\n", 3),
    (S + "since 0\n", 2),
    (S + "opening k v\n", 2),
    (S + "since 0\ngeneration 1\n", 2),
    (S + "generation 1\npropose 0 1 get x\nsince 0\n", 4),
    (S + "generation 1\npropose 0 1 get x\nopening k v\n", 4),
    (S + "generation 1\nopening k v\npropose 0 1 get x\nopening l v\n", 5),
    (S + "generation 1\nsince 0\nsince 0\n", 4),
    (S + "generation 1\nsince 5\nopening k v\nsince 5\n", 5),
    *((S + f"generation 1\nsince{it}\n", 3) for it in ("", " 281474976710655", " 0000000000000001", " 1 2", " -1", " 1000000000000000", " x")),
    *((S + f"generation 1\nopening{it}\n", 3) for it in ("", " k", " k v w", " %- v", " k %!", " %! v", " k v%!", " k %", " " + "k" * 256 + " v")),
    (S + "generation 1\nopening x 1\nopening x 2\n", 4),
    (S + "generation 1\nopening x 1\nopening y 1\nopening %78 1\n", 5),
    (S + "generation 1\nopening %fF 1\nopening %Ff 1\n", 4),
)
# Commands that are refused, in a script of version 3
REFUSED_COMMANDS = (
    *(f"cas{it}" for it in ("", " x", " x 1", " x 1 2 3", " %- 1 2", " %! 1 2", " x %!! 1", " x 1%! 2", " x 1 %!x", " x % 1", " x %!%! 1")),
    *(f"{name}{it}" for name in ("ask", "act") for it in ("", " x", " x y b c", " %- b", " x %- b", " x x b", " x %78 b", " x %!", " x y %!", " %! b", " x% b")),
    *(f"seal{it}" for it in ("", " a b", " %!", " %", " a%!")),
    *("put x %!", "put %! x", "get %!", "swap x %!", "Cas x 1 2", "opaque x b", "noop", "seals n"),
    *(f"tx{it}" for it in ("", " x", " get", " put x", " if x", " del", " set x 1", " get x 1", " get x get x", " get x get %78", " put x 1 put x 2", " del x del x", " put x 1 del x", " del x put x 1")),
    *(f"tx{it}" for it in (" if x 1 if x 1", " if x %! put x %!", " get %-", " get %!", " if %! 1", " del x%", " put x 1 cas x 1 2", " get x if", " Get x")),
    *("tx " + " ".join(f"get {it}" for it in MANY_KEYS[:17]), "tx " + " ".join(f"del {it}" for it in (*MANY_KEYS, "aaa"))),
    f"tx get {'k' * 256}",
    f"cas {'k' * 256} 1 2",
    f"ask k {'k' * 256} b",
)
# Commands of version 3 that a script of version 2 refuses
LATER_COMMANDS = ("tx get x", "tx put x 1 put y 2", "cas x 1 2", "cas x %! 1", "ask x b", "ask x y b", "act x b", "act x y b", "seal n", "seal %-", "put x " + "v" * 1025)

# Proposals in version 3 that don't name another replica of three as the spared one
REFUSED_SPARING = (
    *(f"sparing{it}" for it in ("", " 1", " 1 propose", " 1 propose 0", " 1 propose 0 1", " propose 0 1 get x", " 1 1 propose 0 1 get x", " 1 giveup 0 0.1", " 1 recover 0 0.1")),
    *(f"sparing {it} propose 0 1 get x" for it in ("0", "00", "3", "6", "-1", "one", "1.1", "00000000001")),
    *("sparing 1 propose 1 1 get x", "sparing 2 propose 3 1 get x", "sparing 1 propose 0 0 get x", "sparing 1 propose 0 1 noop", "sparing 1 propose 0 1 get x 1"),
    *("sparing 1 Propose 0 1 get x", "Sparing 1 propose 0 1 get x", "sparing 1 sparing 2 propose 0 1 get x", "propose 0 1 sparing 2 get x", "sparing 1 execute 0 0.1"),
)


def refused_scripts():
    """Scripts that `replay` and `run` refuse, and the lines."""
    yield from REFUSED_LINES
    for it in REFUSED_COMMANDS:
        yield S + f"generation 1\npropose 0 1 {it}\n", 3
    for it in LATER_COMMANDS:
        yield S + f"propose 0 1 {it}\n", 2
    yield S + "generation 1\npropose 3 1 seal n\n", 3
    yield S + "sparing 1 propose 0 1 put x 1\n", 2
    for it in REFUSED_SPARING:
        yield S + f"generation 1\n{it}\n", 3
    yield "replicas 7\ngeneration 1\nsparing 6 propose 0 1 get x\nsparing 6 propose 6 1 get x\n", 4
    yield S + "generation 1\npropose 0 0 seal n\n", 3
    for it in ("giveup 0 0.9001", "recover 0 1.9001", "recover 0 2.65535"):
        yield S + f"generation 1\n{it}\n", 3
    # (as long as a line may be, and one byte more)
    yield S + f"generation 1\nopening k {'v' * 8182}\n#{'#' * 8192}\n", 4


# A lock, taken, not taken, given back and not taken by another comparison; what is expected may be nothing, and no bytes
LOCK = ("cas lock %! a", "cas lock %! b", "cas lock a %!", "cas lock b c", "cas lock %! %-", "cas lock %! d", "cas lock %- e", "get lock")
LOCK_TOLD = ("absent", "present a", "present a", "absent", "absent", "present %-", "present %-", "present e")
# Ten commands, proposed in turn at three replicas; 0.3's finds what it expects, and 1.3 closes the map
TURNS = ("get a", "act a b %-", "ask b c q", "ask a r", "put c 3", "swap a c", "cas b %- %!", "seal n", "put d 4", "seal m")
TURNS_COMMITTED = (
    "0.1 seq 1 deps - get a",
    "0.2 seq 3 deps 1.1 ask a r",
    "0.3 seq 4 deps 1.1,2.1 cas b %- %!",
    "0.4 seq 8 deps 0.1,0.2,0.3,1.1,1.2,1.3,2.1,2.2,2.3 seal m",
    "1.1 seq 2 deps 0.1 act a b %-",
    "1.2 seq 4 deps 2.1 put c 3",
    "1.3 seq 6 deps 0.1,0.2,0.3,1.1,1.2,2.1,2.2 seal n",
    "2.1 seq 3 deps 1.1 ask b c q",
    "2.2 seq 5 deps 0.1,0.2,1.1,1.2,2.1 swap a c",
    "2.3 seq 7 deps 1.3 put d 4",
)
TURNS_HEAD = "generation 2\nopening b %-\nsince 1000\nopening a 1\n"
TURNS_LIFE = "2 since 1000"
TURNS_LEFT = {"a": "3", "c": "1"}


def locked():
    """The lock, by one client at replica 0, each command executed everywhere before the next one; all seen by one execution."""
    committed = [f"0.{at} seq {at} deps {','.join(f'0.{it}' for it in range(1, at)) or '-'} {text}" for at, text in enumerate(LOCK, 1)]
    history = [f"0.{at} {text} -> {said}" for at, (text, said) in enumerate(zip(LOCK, LOCK_TOLD), 1)]
    receipts = [f"client 1 request {at} 0.{at} {said}" for at, said in enumerate(LOCK_TOLD, 1)]
    return dict(committed=committed, history=history, held={"lock": "e"}, receipts=receipts)


def played():
    """Names, scripts for a replay, and their reports."""
    for name, script, wanted in replays():
        yield f"version 3: {name}", script.encode(), wanted


def hosted():
    """Names, words of `run`, scripts, and their reports, of which any one may come."""
    for name, script, wanted in runs():
        yield f"version 3: {name}", [], script.encode(), [wanted]


def replays():
    """Names, scripts for a replay as text, and their reports."""
    yield "an empty generation", S + "generation 1\n", report("1 since 0", refused=())
    yield "the last generation, and a comment before it", S + "# the last one\n\ngeneration 4294967295", report("4294967295 since 0", refused=())
    yield "a generation of ten digits", S + "generation 0000000012\nsince 000000000000007\n", report("12 since 7", refused=())
    yield "a generation of five replicas", "replicas 5\ngeneration 1\n", report("1 since 0", refused=())
    keys = {"a": "1", "ab": "%-", "b": "%00%ff", "%ff": "2"}
    spelled_so = "opening %ff 2\nopening b %00%FF\nsince 9\nopening ab %-\nopening %61 1\n"
    yield "an opening in any order", S + "generation 3\n" + spelled_so, report("3 since 9", held=keys, refused=())
    long = "v" * 8182
    yield "a long value of an opening", S + f"generation 1\nopening k {long}\n", report("1 since 0", held={"k": long}, refused=())
    # after the greatest `since` one stamp is left, and none for who handles what it sends
    full = ["line 5 E15 stamp full", "line 6 E15 stamp full"]
    last = "generation 1\nsince 281474976710654\npropose 0 1 put x 1\npropose 0 1 put y 1\ndeliver 1\n"
    yield "the last stamp", S + last, report("1 since 281474976710654", refused=full)
    lines = "".join(f"propose 0 1 {it}\n{FLUSHED}" for it in LOCK)
    yield "a lock by comparisons", S + f"generation 1\n{lines}execute 0 0.8\n", report("1 since 0", **locked(), refused=())
    yield "ten commands in turn", *in_turn(False)
    yield "ten commands in turn, which spare the replica above", *in_turn(True)
    yield "two seals", *two_seals()
    yield "a seal in a circle", *circle()
    yield "a no-op behind a seal", *lost_behind()
    yield "the last ten numbers", *last_numbers()
    put = dict(committed=["0.1 seq 1 deps - put x 1"], history=["0.1 put x 1 -> absent"], receipts=["client 1 request 1 0.1 absent"], held={"x": "1"})
    yield "a spared replica of ten digits", S + f"generation 1\nsparing 0000000001 propose 0 1 put x 1\n{FLUSHED}execute 0 0.1\n", report("1 since 0", **put, refused=())
    yield "a commit without the replica that is spared", S + "generation 1\nsparing 1 propose 0 1 put x 1\ndeliver 1 2\nexecute 0 0.1\n", report("1 since 0", **put, refused=())
    # replica 2 alone was asked, and answers the Prepare of replica 1, which goes on with an Accept, as F replicas but the leader voted so
    recovered = "deliver 1\nrecover 1 0.1\ndeliver 4 5 7 8 9\nexecute 0 0.1\n"
    yield "a recovery by the replica that was spared", S + f"generation 1\nsparing 1 propose 0 1 put x 1\n{recovered}", report("1 since 0", **put, refused=())
    noop = dict(committed=["0.1 seq 1 deps - noop"], receipts=["client 1 request 1 0.1 lost"])
    unasked = "recover 1 0.1\ndeliver 3 4 6 7 9 10 11\nexecute 0 0.1\n"
    yield "a recovery by the replica that was spared, of what nobody heard of", S + f"generation 1\nsparing 1 propose 0 1 put x 1\n{unasked}", report("1 since 0", **noop, refused=())
    # the spared replica 3 takes part in the slow path, behind the answers of two others
    slow = "sparing 3 propose 1 1 put x 1\ndeliver 1 2 4\ngiveup 1 1.1\ndeliver 5\ngiveup 1 1.1\ndeliver 8 6 10 11\nexecute 1 1.1\n"
    given_up = report("1 since 0", ["1.1 seq 1 deps - put x 1"], ["1.1 put x 1 -> absent"], receipts=["client 1 request 1 1.1 absent"], held={"x": "1"}, refused=["line 5 E7 too few answers"])
    yield "the slow path with the replica that was spared", f"replicas 5\ngeneration 1\n{slow}", given_up
    yield "numbers of proposals that spare one", *last_numbers("sparing 1 ")
    yield "all numbers, one execution", *all_numbers()
    yield "the last number of another replica", S + "generation 1\nrecover 0 2.9000\n", report("1 since 0", refused=())


def turns(is_named):
    """The ten proposals, a line each, which name the replica above theirs as the spared one, or none."""
    return [f"{f'sparing {(at + 1) % 3} ' * is_named}propose {at % 3} {at % 3 + 1} {it}\n" for at, it in enumerate(TURNS)]


def in_turn(is_named):
    """Each proposal's events have four stamps, and its replica's last one is the third: 1003, 1007 .. 1039. The execution has 1040."""
    lines = "".join(f"{it}{FLUSHED}" for it in turns(is_named))
    history = [
        "0.1 get a -> present 1",
        "1.1 act a b %- -> ordered",
        "0.2 ask a r -> ordered",
        "2.1 ask b c q -> ordered",
        "0.3 cas b %- %! -> present %-",
        "1.2 put c 3 -> absent",
        "2.2 swap a c -> present 1",
        "1.3 seal n -> absent",
        "2.3 put d 4 -> closed",
        "0.4 seal m -> closed",
    ]
    receipts = ["client 1 request 1 0.1 present 1", "client 1 request 2 0.2 ordered", "client 1 request 3 0.3 present %-", "client 1 request 4 0.4 closed"]
    left = dict(closing="closed 1.3 n stamp 1040", held=TURNS_LEFT, receipts=receipts, refused=())
    return S + TURNS_HEAD + lines + "execute 0 0.4\n", report(TURNS_LIFE, TURNS_COMMITTED, history, **left)


def two_seals():
    """Replica 1 has its own seal when it votes for the other one, which is so executed behind it."""
    script = "generation 1\npropose 0 1 seal a\npropose 1 2 seal b\ndeliver 1 2\nflush\nflush\nexecute 0 0.1\n"
    history = ["1.1 seal b -> absent", "0.1 seal a -> closed"]
    left = dict(closing="closed 1.1 b stamp 5", receipts=["client 1 request 1 0.1 closed"], refused=())
    return S + script, report("1 since 0", ["0.1 seq 2 deps 1.1 seal a", "1.1 seq 1 deps - seal b"], history, **left)


def circle():
    """Each of three commands depends on the next one, with one seq: they are executed by their instances, and each replica executes all."""
    script = "generation 1\npropose 0 1 put x 1\npropose 1 2 seal n\npropose 2 3 put x 2\nflush\nflush\nflush\nexecute 0 0.1\nexecute 1 1.1\nexecute 2 2.1\n"
    history = ["0.1 put x 1 -> absent", "1.1 seal n -> absent", "2.1 put x 2 -> closed"]
    receipts = ["client 1 request 1 0.1 absent", "client 2 request 1 1.1 absent", "client 3 request 1 2.1 closed"]
    committed = ["0.1 seq 2 deps 1.1 put x 1", "1.1 seq 2 deps 2.1 seal n", "2.1 seq 2 deps 0.1 put x 2"]
    return S + script, report("1 since 0", committed, history, "closed 1.1 n stamp 6", {"x": "1"}, receipts, ())


def lost_behind():
    """Replica 0's put is lost: replica 2 recovers its instance, finds no vote, and commits a no-op there, which replica 0 executes behind the seal."""
    script = "generation 1\npropose 1 2 seal n\nflush\nflush\nflush\npropose 0 1 put x 1\nrecover 2 0.1\n" + "".join(f"deliver {it}\n" for it in (7, 8, 10, 11, 13, 14, 15))
    committed = ["0.1 seq 1 deps - noop", "1.1 seq 1 deps - seal n"]
    left = dict(closing="closed 1.1 n stamp 13", receipts=["client 1 request 1 0.1 lost"], refused=())
    return S + script + "execute 0 1.1\nexecute 0 0.1\n", report("1 since 0", committed, ["1.1 seal n -> absent"], **left)


def last_numbers(sparing=""):
    """The numbers above 8,990 are for seals."""
    gets, seals = f"{sparing}propose 0 7 get x\n" * 8991, f"{sparing}propose 0 7 seal n\n" * 11
    return S + "generation 1\n" + gets + seals, report("1 since 0", refused=["line 8993 E4 space full", "line 9004 E4 space full"])


def all_numbers():
    """All 9,000 numbers of a replica, the last ten for seals, and a seal and a get more; one event executes all. A get depends on nothing, and a seal on all before it."""
    gets, seals = range(1, 8991), range(8991, 9001)
    script = "propose 0 7 get x\n" * len(gets) + "flush\n" * 3 + ("propose 0 7 seal n\n" + "flush\n" * 3) * len(seals)
    committed = [f"0.{it} seq 1 deps - get x" for it in gets]
    committed += [f"0.{it} seq {it - 8989} deps {','.join(f'0.{before}' for before in range(1, it))} seal n" for it in seals]
    told = {it: "closed" if it > 8991 else "absent" for it in range(1, 9001)}
    history = [f"0.{it} {'get x' if it in gets else 'seal n'} -> {told[it]}" for it in told]
    receipts = [f"client 7 request {it} 0.{it} {told[it]}" for it in told]
    # replica 0 has two stamps for a get, three for a seal (one goes by at replica 1 before it proposes again), and one for the execution
    closing = f"closed 0.8991 n stamp {2 * len(gets) + 3 * len(seals) + 1}"
    refused = ["line 9036 E4 space full", "line 9037 E4 space full"]
    return S + "generation 1\n" + script + "propose 0 7 seal n\npropose 0 7 get x\nexecute 0 0.9000\n", report("1 since 0", committed, history, closing, receipts=receipts, refused=refused)


def runs():
    """Names, scripts for a run as text, and their reports."""
    yield "an empty generation", S + "generation 1\n", report("1 since 0", refused=(), lost=0)
    yield "an opening", S + "generation 4294967295\nsince 9\nopening b 2\nopening a 1\n", report("4294967295 since 9", held={"a": "1", "b": "2"}, refused=(), lost=0)
    last = S + "generation 1\nsince 281474976710654\ngiveup 0 0.1\nsection\npropose 0 1 put x 1\npropose 0 1 put y 1\n"
    yield "the last stamp", last, report("1 since 281474976710654", refused=["line 4 E6 not leading", "line 7 E15 stamp full"], lost=0)
    yield "a lock by comparisons", S + "generation 1\n" + "".join(f"propose 0 1 {it}\n" for it in LOCK), report("1 since 0", **locked(), refused=(), lost=0)
    yield "a lock by proposals that spare replica 1", S + "generation 1\n" + "".join(f"sparing 1 propose 0 1 {it}\n" for it in LOCK), report("1 since 0", **locked(), refused=(), lost=0)
    # all frames between replicas 0 and 1 are dropped: the proposal doesn't ask replica 1
    dropped = "drop 0 1 1\ndrop 0 1 2\ndrop 1 0 1\n"
    put = dict(committed=["0.1 seq 1 deps - put x 1"], history=["0.1 put x 1 -> absent"], receipts=["client 1 request 1 0.1 absent"], held={"x": "1"})
    yield "a put that spares the replica that isn't reached", S + "generation 1\nsparing 1 propose 0 1 put x 1\n" + dropped, report("1 since 0", **put, refused=(), lost=0)
    yield "a put that asks the replica that isn't reached", S + "generation 1\npropose 0 1 put x 1\n" + dropped, report("1 since 0", refused=(), lost=0)
    # a section has one proposal, whose events have four stamps: 1001 to 1004 in the first one, and so on
    history = [
        "0.1 get a -> present 1",
        "1.1 act a b %- -> ordered",
        "2.1 ask b c q -> ordered",
        "0.2 ask a r -> ordered",
        "1.2 put c 3 -> absent",
        "2.2 swap a c -> present 1",
        "0.3 cas b %- %! -> present %-",
        "1.3 seal n -> absent",
        "2.3 put d 4 -> closed",
        "0.4 seal m -> closed",
    ]
    receipts = [f"client {at % 3 + 1} request {at // 3 + 1} {it.split(' ')[0]} {it.partition(' -> ')[2]}" for at, it in enumerate(history)]
    left = dict(closing="closed 1.3 n stamp 1032", held=TURNS_LEFT, receipts=receipts, refused=(), lost=0)
    for name, is_named in (("ten commands in turn", False), ("ten commands in turn, which spare the replica above", True)):
        yield name, S + TURNS_HEAD + "section\n".join(turns(is_named)), report(TURNS_LIFE, TURNS_COMMITTED, history, **left)


# Bundles

# commands that are each executed alone, from the opening {a: 1, b: an empty value}
ALONE = (
    *("get a", "get x", "put a 2", "put x %-", "del a", "del x", "swap a b", "swap x a", "cas a 1 2", "cas a 2 3", "cas a 1 %!", "cas x %! 1", "cas x %- 1", "cas b %- %!"),
    *("ask a q", "ask a b %-", "act x q", "act b a %00%ff", "seal n", "seal %-"),
    *("tx get a", "tx put x %-", "tx del a", "tx if a 1", "tx if x 1", "tx get b put a 2 get x del b get a", "tx if b %- if x %! put x 1 put a %00%ff get b", "tx if a %! del a get a"),
)
# accounts, between which goes what is there
BANK = ("tx if a 10 if b 20 put a 5 put b 25", "tx get b get a", "tx if a 10 put a 0 put b 30", "tx get a get b get c", "put a 1", "tx if c %! put c 7 get a del b", "swap a c", "get b", "tx if b %- get b", "tx del x")
RUNS = (
    Generation(),
    Generation(generation=LAST_GENERATION, since=LAST_STAMP),
    Generation(size=7, opening={"ab": "%-", "a": "1", "%ff": "x"}),
    Generation(opening={"k": LONGEST, "l": "2"}),
    Generation("get k", "put k w", opening={"k": LONGEST}),
    Generation("put k " + LONGEST, "get k", f"cas k {LONGEST} {LONGEST[1:]}w", "get k"),
    Generation("ask k l " + LONGEST, "act k " + LONGEST, "seal " + LONGEST, "put k 1"),
    Generation(*LOCK, size=5, generation=7, since=LAST_STAMP - 500),
    Generation("seal a", "seal b", "get a", "act a b c", size=7, opening={"a": "1"}),
    *(Generation(*BANK, "seal n", "tx put a 1 get a", size=size, opening={"a": "10", "b": "20"}) for size in (3, 7)),
    # (as many keys as there may be, as many that are reported, as long a body, and as long a reply)
    Generation("tx " + " ".join(f"put {it} {at}" for at, it in enumerate(MANY_KEYS)), "tx " + " ".join(f"get {it}" for it in MANY_KEYS[:16]) + " " + " ".join(f"del {it}" for it in MANY_KEYS[8:]), "get aa"),
    Generation(f"tx put k {LONGEST} put l {LONGEST[6:]}", "tx get l get k", f"tx if k {LONGEST} get l", opening={"a": "1"}),
    Generation("tx " + " ".join(f"get {it}" for it in MANY_KEYS[:16]), opening={it: LONGEST for it in MANY_KEYS[:16]}),
    *(Generation("put x 1", "cas x 1 2", "seal n", size=size, spared=it, generation=2) for size in (3, 5, 7) for it in range(1, size)),
)
# of FORMATS.md, section 2.2: a generation that opens with nothing, one that opens with a and ab, and one in which `put x 1` was proposed
NONE = bytes.fromhex("45504a42 03 03 00000001 0000000000000000 00000000 00000000 00 00000000 01 00000000 02 00000000")
OPENED = bytes.fromhex("45504a42 03 03 00000001 0000000000000000 00000000 00000002 01 00000001 61 31 02 00000000 61 62 00 00000000 01 00000000 02 00000000")
PROPOSED = bytes.fromhex(
    "45504a42 03 03 00000001 0000000000000000 00000000 00000000"
    "00 00000001 01 0000000000000001 00000001 00000001 0000000000000000 03 01 00 00000001 78 31"
    "0001 00000032 4550 03 01 00 01 0000 00000001 0000000000000001 00 0001 0000 00 00 0000 00 00000001 03 01 0000 0000 00000001 00000001 78 31"
    "0000 01 00000000 02 00000000"
)
# the same in versions 1 and 2
EARLY = [
    bytes.fromhex(
        f"45504a42 {version} 03 00000000 00 00000001 01 0000000000000001 00000001 00000001 0000000000000000 03 01 0001 78 31"
        f"0001 0000002a 4550 {version} 01 00 01 0000 00000001 0000000000000001 00 0001 0000 00 00 0000 00 00000001 03 01 0001 0000 78 31"
        "0000 01 00000000 02 00000000"
    )
    for version in ("01", "02")
]
NOT_A_RUN = b"bundle refused E11 at replica 0 entry 1\n"


def bad(at):
    return b"bundle refused E12 at byte %d\n" % at


def changed(bundle, *bytes_at):
    """The bundle with these bytes at these places."""
    return bytes(dict(bytes_at).get(at, it) for at, it in enumerate(bundle))


# the same as PROPOSED, with replica 1 named as the spared one: the frame goes to replica 2
SPARED = bytes.fromhex(
    "45504a42 03 03 00000001 0000000000000000 00000000 00000000"
    "00 00000001 06 0000000000000001 00000001 00000001 0000000000000000 01 03 01 00 00000001 78 31"
    "0001 00000032 4550 03 01 00 02 0000 00000001 0000000000000001 00 0001 0000 00 00 0000 00 00000001 03 01 0000 0000 00000001 00000001 78 31"
    "0000 01 00000000 02 00000000"
)


def of_keys(*entries):
    """A bundle of no entries, which opens with these keys and values in this order."""
    return NONE[:22] + number(len(entries), 4) + b"".join(number(len(key), 1) + number(len(value), 4) + key + value for key, value in entries) + NONE[26:]


def bad_bundles():
    """Bundles that are refused, and what is reported."""
    for length, at in ((4, 4), (5, 5), (6, 6), (9, 6), (10, 10), (17, 10), (18, 18), (21, 18), (22, 22), (25, 22), (26, 26), (40, 37)):
        yield f"the first {length} bytes of an empty one", NONE[:length], bad(at)
    yield "an empty one of version 3 and a byte more", NONE + b"\0", bad(41)
    yield "version 4", changed(NONE, (4, 4)), bad(4)
    yield "four replicas", changed(NONE, (5, 4)), bad(5)
    yield "generation 0", changed(NONE, (9, 0)), bad(6)
    yield "since 2^48", changed(NONE, (11, 1)), bad(10)
    yield "4,000,000,001 keys", NONE[:22] + number(4_000_000_001, 4) + NONE[26:], bad(22)
    yield "4,000,000,000 keys, of which none is there", NONE[:22] + number(4_000_000_000, 4), bad(26)
    yield "keys out of order", of_keys((b"b", b"1"), (b"a", b"")), bad(38)
    yield "a key twice", of_keys((b"a", b"1"), (b"a", b"1")), bad(38)
    yield "a longer key first", of_keys((b"ab", b""), (b"a", b"")), bad(38)
    yield "keys as signed bytes", of_keys((b"\xff", b""), (b"\x7f", b"")), bad(37)
    yield "an empty key", of_keys((b"", b"1")), bad(26)
    yield "a value of 65,536 bytes", of_keys((b"a", b"v" * 65_536)), bad(27)
    yield "a key that is cut", OPENED[:31], bad(31)
    yield "a value that is cut", OPENED[:32], bad(32)
    for byte, at in ((1, 56), (11, 56), (2, 59), (4, 59), (5, 58), (6, 59), (9, 57), (10, 57)):
        yield f"op {byte} in the place of a put", changed(PROPOSED, (56, byte)), bad(at)
    for byte in (7, 8):
        yield f"op {byte} in the place of a put, which its frame isn't of", changed(PROPOSED, (56, byte)), NOT_A_RUN
    for byte in (0, 3, 6, 255):
        yield f"a spared replica {byte} of three, at replica 0", changed(SPARED, (56, byte)), bad(56)
    yield "another spared replica than by its frame", changed(SPARED, (56, 2)), NOT_A_RUN
    yield "the frame of a proposal that spares another one", changed(SPARED, (77, 1)), NOT_A_RUN
    # (the frame stands at 68, behind the number of frames; it names its receiver at 9 of it, and its place at 11)
    sent = SPARED[68:122]
    yield "a proposal that asks nobody", SPARED[:66] + number(0, 2) + SPARED[122:], NOT_A_RUN
    yield "a proposal that asks the spared replica too", SPARED[:66] + number(2, 2) + changed(sent, (9, 1)) + changed(sent, (11, 1)) + SPARED[122:], NOT_A_RUN
    for length, at in ((31, 31), (48, 48), (56, 56), (57, 57), (58, 58)):
        yield f"the first {length} bytes of a proposal that names the spared replica", SPARED[:length], bad(at)
    for byte, at in ((1, 57), (11, 57), (2, 60), (10, 58)):
        yield f"op {byte} in the place of a put, behind the spared replica", changed(SPARED, (57, byte)), bad(at)
    for bundle, at, name in ((SPARED, 31, "3"), (EARLY[0], 15, "1"), (EARLY[1], 15, "2")):
        for byte in (0, 7, 255) if name == "3" else (0, 6, 7):
            yield f"an event of kind {byte} in version {name}", changed(bundle, (at, byte)), bad(at)
    yield "a body of 65,537 bytes", changed(PROPOSED, (60, 1)), bad(59)
    yield "a frame of 47 bytes", changed(PROPOSED, (70, 47)), bad(67)
    yield "a frame of 400,001 bytes", PROPOSED[:67] + number(400_001, 4) + PROPOSED[71:], bad(67)
    yield "a proposal of another generation", changed(PROPOSED, (9, 2)), NOT_A_RUN
    yield "a frame of another generation", changed(PROPOSED, (114, 2)), NOT_A_RUN
    yield "a frame of version 2", changed(PROPOSED, (73, 2)), NOT_A_RUN
    yield "a stamp that isn't above since", changed(PROPOSED, (17, 1)), NOT_A_RUN
    swap = Generation("swap x y").bundle()
    yield "a swap of one key", changed(swap, (swap.index(b"xy"), 0x79)), bad(swap.index(b"xy") + 1)
    cas = Generation("cas x %! 1").bundle()
    at = cas.index(b"x\0\1\0\0\0\x011") + 1
    for name, place, byte in (("a part of a comparison that is neither", 0, 2), ("the second part of one", 1, 2), ("a part that is longer than the body", 5, 2), ("a part that is shorter", 5, 0)):
        yield name, changed(cas, (at + place, byte)), bad(at)
    # an answer's code and its value's length: of the last entry but the journals and the receipt behind it
    held = Generation("get a", opening={"a": "1"}).bundle()
    receipt = len(held) - 6
    yield "an answer of another kind", changed(held, (receipt, 7)), bad(receipt)
    # (it says nothing, and then there are three bytes left)
    yield "an answer to a command over many keys in the place of a get's", changed(held, (receipt, 5)), bad(receipt + 3)
    yield "an answer of 65,537 bytes", changed(held, (receipt + 2, 1)), bad(receipt + 1)
    # the codes of version 3, in version 2
    early = Generation("get a", version=2).bundle()
    for byte in (3, 4, 5, 6):
        yield f"answer {byte} in version 2", changed(early, (len(early) - 1, byte)), bad(len(early) - 1)


def bad_items():
    """Bundles whose commands over many keys are none, or whose replies are none, and what is reported."""
    body = "0002 01 06 78 00 00000001 31 01 01 79"
    it = Generation("tx if x %! put x 1 get y").bundle()
    at = it.index(bytes.fromhex(body))
    changes = {
        "no items": (1, 0), "an item less": (1, 1), "an item more": (1, 3), "many items more": (0, 4), "an empty key": (2, 0), "another length of a key": (2, 2), "a longer key": (2, 200),
        "neither told nor guarded nor written": (3, 0), "put and deleted": (3, 12), "a flag that there is none": (3, 22), "no put": (3, 2), "no guard": (3, 4), "a guard that is neither": (5, 2),
        "a value of 65,536 bytes": (7, 1), "a longer value": (9, 2), "a shorter value": (9, 0), "the same key": (13, 0x78), "keys that fall": (13, 0x77),
        "a second item that says nothing": (12, 0), "a second item of all flags": (12, 15),
    }
    for name, (place, byte) in changes.items():
        yield f"items: {name}", changed(it, (at + place, byte)), bad(at)
    # (the length of the body stands before it)
    for length, place in ((4, at - 4), (13, at), (15, at)):
        yield f"items: a body of {length} bytes", changed(it, (at - 1, length)), bad(place)
    yield "items: a body of 131,081 bytes", it[: at - 4] + number(131_081, 4) + it[at:], bad(at - 4)
    seventeen = number(17, 2) + b"".join(item_bytes(it.encode(), [], True, []) for it in MANY_KEYS[:17])
    yield "items: 17 that are told", it[: at - 4] + number(len(seventeen), 4) + seventeen + it[at + 14 :], bad(at)
    more = number(1_025, 2) + b"".join(item_bytes(it.encode(), [], False, [None]) for it in (*MANY_KEYS, "zzz"))
    yield "items: 1,025 of them", it[: at - 4] + number(len(more), 4) + more + it[at + 14 :], bad(at)
    # the reply `done`, of y alone, which isn't there: 5, 1 in two bytes, 0; at the receipt's end
    end = len(it)
    yield "a reply that tells 17", changed(it, (end - 2, 17)), bad(end - 3)
    yield "a reply that tells 257", changed(it, (end - 3, 1)), bad(end - 3)
    yield "a reply that tells neither a value nor none", changed(it, (end - 1, 2)), bad(end - 1)
    yield "a reply that tells a value of 65,536 bytes", it[:-1] + b"\1" + number(65_536, 4) + bytes(65_536), bad(end)
    yield "a reply that is cut off", it[:-1], bad(end - 1)
    yield "a reply that tells nothing, and a byte more", changed(it, (end - 2, 0)), bad(end - 1)


def told_by_number(version, told):
    """A bundle of empty journals and a receipt of the instance 0.N of this number, and the place of the number."""
    receipts = number(1, 4)
    head = number(1, 4) + number(0, 8) + receipts + number(0, 4) if version == 3 else receipts
    front = b"EPJB" + bytes([version, 3]) + head + b"".join(bytes([it]) + number(0, 4) for it in range(3)) + number(1, 4) + number(1, 4) + b"\0"
    return front + number(told, 2) + number(0, 8) + b"\0" + number(1, 4) + number(1, 8) + b"\0", len(front)


def by_number():
    """The greatest number of each version is read, and refused as it was never proposed; the next one is refused where it stands."""
    for version, most in ((1, 1_000), (2, 2_000), (3, 9_000)):
        last, _ = told_by_number(version, most)
        yield dict(name=f"a receipt of number {most} in version {version}", words=["audit"], given=last, wanted=b"verdict refused\nA4 unknown receipt 1\n", status=1)
        for other in sorted({0, most + 1, 9_001, 65_535}):
            it, at = told_by_number(version, other)
            yield dict(name=f"a receipt of number {other} in version {version}", words=["audit"], given=it, told=bad(at), status=2)


def bundles():
    """Bundles, written and audited."""
    yield from by_number()
    for name, it in (("nothing", NONE), ("an opening", OPENED), ("one proposal", PROPOSED), ("one that names the spared replica", SPARED)):
        wanted = report("1 since 0", held={"a": "1", "ab": "%-"} if it is OPENED else {}, receipts=())
        yield dict(name=f"an audit of {name}, in version 3", words=["audit"], given=it, wanted=wanted)
    for head, it in (("", NONE), ("opening ab %-\nopening a 1\n", OPENED), ("propose 0 1 put x 1\n", PROPOSED), ("sparing 1 propose 0 1 put x 1\n", SPARED)):
        yield dict(name=f"the bundle of version 3 of {head or 'nothing'!r}", words=["replay", "--emit", "bundle"], given=(S + "generation 1\n" + head).encode(), wanted=it)
    for text in ALONE:
        for size in (3, 5, 7):
            it = Generation(text, size=size, generation=size, since=size * 10, opening={"a": "1", "b": "%-"})
            script = f"replicas {size}\ngeneration {size}\nsince {size}0\nopening a 1\nopening b %-\npropose 0 1 {text}\nflush\nflush\nexecute 0 0.1\n"
            yield dict(name=f"the bundle of {text} at {size} replicas", words=["replay", "--emit", "bundle"], given=script.encode(), wanted=it.bundle())
            yield dict(name=f"{text} at {size} replicas, reported", words=["replay"], given=script.encode(), wanted=it.audited() + b"refused 0\n")
    for size, spared in ((3, 1), (3, 2), (5, 1), (5, 4), (7, 3)):
        it = Generation("put x 1", size=size, spared=spared)
        script = f"replicas {size}\ngeneration 1\nsparing {spared} propose 0 1 put x 1\nflush\nflush\nexecute 0 0.1\n"
        yield dict(name=f"the bundle of a put that spares {spared} of {size}", words=["replay", "--emit", "bundle"], given=script.encode(), wanted=it.bundle())
        yield dict(name=f"a put that spares {spared} of {size}, reported", words=["replay"], given=script.encode(), wanted=it.audited() + b"refused 0\n")
    for at, it in enumerate(RUNS):
        yield dict(name=f"an audit of run {at} of version 3", words=["audit"], given=it.bundle(), wanted=it.audited())
    yield from answers_of_others()
    for name, it, told_of in (*bad_bundles(), *bad_items()):
        yield dict(name=f"an audit of {name}", words=["audit"], given=it, told=told_of, status=2)


def answers_of_others():
    """Audits of a proposal whose leader handles an answer of the spared replica, which wasn't asked: it counts for nothing, however many there are."""
    for size, spared in ((3, None), (3, 1), (3, 2), (5, None), (5, 1), (5, 3), (7, 4)):
        others = [it for it in range(1, size) if it != (size - 1 if spared is None else spared)]
        odd = next(it for it in range(1, size) if it not in others)
        name = f"an answer of the spared replica {odd} of {size}{', which is named,' * (spared is not None)}"
        # it comes in the place of the last other member's, or before it: then the other one's makes the commit
        for place, heard, commits in (("the last place", [*others[:-1], odd], ()), ("the first place", [odd, *others], others[-1:]), ("the last place, and a commit", [*others[:-1], odd], [odd])):
            it = Generation(size=size, spared=spared)
            asked = dict(zip(others, it.propose(Command("put x 1"))))
            votes = {at: it.vote(at, 1, asked.get(at)) for at in range(1, size)}
            for at in heard:
                it.hear(votes[at], at in commits)
            entry = 2 + heard.index(odd)
            row = dict(name=f"an audit of {name} in {place}", words=["audit"], given=it.bundle())
            if commits == [odd]:
                yield row | dict(told=b"bundle refused E11 at replica 0 entry %d\n" % entry, status=2)
            else:
                yield row | dict(wanted=b"verdict refused\nA1 unsent frame at replica 0 entry %d\n" % entry, status=1)


# Upgrades

# what versions 1 and 2 can say, and what 2 alone can
OLD = ("put x 1", "get x", "put x " + "v" * 1024, "del x", "del x", "put y %-", "get y")
SWAPS = (*OLD, "swap y x", "swap y x", "get z")


def upgrades():
    """Bundles, upgraded to version 2 and to version 3."""
    empty = [Generation(version=it).bundle() for it in (1, 2, 3)]
    of_old = [Generation(*OLD, version=it).bundle() for it in (1, 2, 3)]
    of_swaps = [None, *[Generation(*SWAPS, size=5, version=it).bundle() for it in (2, 3)]]
    for name, by_version in (("nothing", empty), ("one proposal", [*EARLY, PROPOSED]), ("seven commands", of_old), ("swaps", of_swaps)):
        for version, it in enumerate(by_version, 1):
            if not it:
                continue
            for words in (["--to", "3"], ["--to=3"]):
                yield dict(name=f"upgrade {' '.join(words)} of {name}, version {version}", words=["upgrade", *words], given=it, wanted=by_version[2])
            for words in ([], ["--to", "2"], ["--to=2"]):
                row = dict(name=f"upgrade {' '.join(words)} of {name}, version {version}", words=["upgrade", *words], given=it)
                yield row | (dict(told=bad(4), status=2) if version == 3 else dict(wanted=by_version[1]))
    for at, it in enumerate(RUNS):
        yield dict(name=f"upgrade --to 3 of run {at} of version 3", words=["upgrade", "--to", "3"], given=it.bundle(), wanted=it.bundle())
        yield dict(name=f"upgrade of run {at} of version 3", words=["upgrade"], given=it.bundle(), told=bad(4), status=2)
    yield dict(name="upgrade of a bundle of version 3 that is cut behind its version", words=["upgrade"], given=NONE[:5], told=bad(4), status=2)
    yield dict(name="upgrade --to 3 of a bundle that is cut", words=["upgrade", "--to", "3"], given=NONE[:40], told=bad(37), status=2)
    yield dict(name="upgrade --to 3 of an old one that is cut", words=["upgrade", "--to", "3"], given=EARLY[0][:50], told=bad(48), status=2)
    yield dict(name="upgraded to version 2, then to 3", words=["upgrade", "|", "upgrade", "--to", "3"], given=of_old[0], wanted=of_old[2])
    # version 3 has all numbers of version 2 for any command
    gets = S + "propose 0 7 get x\n" * 2000
    words = ["replay", "--emit", "bundle", "|", "upgrade", "--to", "3"]
    yield dict(name="upgrade --to 3 of 2,000 proposals", words=[*words, "|", "audit"], given=gets.encode(), wanted=report("1 since 0", receipts=()))
    for words in (["--to"], ["--to", "1"], ["--to", "4"], ["--to", "02"], ["--to", "three"], ["--to=3", "--to=3"], ["3"], ["--to", "3", "3"]):
        yield dict(name=f"words refused: upgrade {' '.join(words)}", words=["upgrade", *words], given=NONE, told=REFUSED, rest=HELP, status=2)


# Chains

ONE = Generation("put a 1", "put b %-", "act a q", "seal to-5", "put a 2", generation=7, since=40, opening={"c": "0"})
TWO = ONE.next("get a", "cas b %- %!", "del c", "seal %-", "get a", size=5)
THREE = TWO.next("put d 4", "swap a d", size=7)
NEVER_CLOSED = Generation("put a 1", generation=7)
# the stamp at which the first one is closed
CLOSED_AT = TWO.since


def accepted_chains():
    """Lists of generations that are accepted."""
    yield "one that is closed", [ONE]
    yield "one that isn't", [NEVER_CLOSED]
    yield "nothing", [Generation()]
    yield "the last generation", [Generation("seal n", generation=LAST_GENERATION)]
    yield "two", [ONE, TWO]
    yield "two, the last one without an entry", [ONE, ONE.next()]
    yield "three, of 3, 5 and 7 replicas", [ONE, TWO, THREE]
    named = Generation("put x 1", "seal n", size=5, spared=2)
    yield "three, whose proposals name whom they spare", [named, named.next("swap x y", "seal m", size=3, spared=1), Generation.next(named.next("swap x y", "seal m", size=3, spared=1), "get y", size=7, spared=6)]
    third = TWO.next("put d 4", "swap a d", "seal o", size=7)
    fourth = third.next("put e 5", "seal p", size=5)
    yield "five", [ONE, TWO, third, fourth, fourth.next("del e", size=3)]
    yield "two that begin later", [TWO, THREE]
    yield "two, with a later since", [ONE, ONE.next("get a", since=CLOSED_AT + 1000)]
    first = Generation("seal n", size=7, opening={"k": LONGEST})
    second = first.next("seal n", size=7)
    yield "three of 7 replicas, of a long value", [first, second, second.next(size=7)]
    two = Generation("put x 1", "seal n", "put y 2", "seal m", "del x")
    yield "what stands behind the seal counts for nothing", [two, two.next("get x")]


def refused_chains():
    """Lists of generations, the generation at fault, and its fault."""
    def opened(**held):
        """TWO's opening, with these keys otherwise."""
        return {key: value for key, value in ({"a": "1", "b": "%-", "c": "0"} | held).items() if value is not None}

    yield "a generation that is left out", [ONE, Generation(generation=9, since=CLOSED_AT, opening=opened())], 9, "A6 not consecutive"
    yield "a generation twice", [ONE, ONE], 7, "A6 not consecutive"
    yield "two that are turned", [TWO, ONE], 7, "A6 not consecutive"
    yield "the third is left out", [ONE, TWO, Generation(generation=10)], 10, "A6 not consecutive"
    for name, held, key in (
        ("a key that is lacking", opened(b=None), "b"),
        ("a key too many", opened(aa="1"), "aa"),
        ("another value", opened(c="1"), "c"),
        ("an empty value in the place of none", opened(d="%-"), "d"),
        ("two other values", opened(a="2", c="1"), "a"),
        ("a key before all others", opened(**{"%00": "1", "a": "2"}), "%00"),
        ("an empty opening", {}, "a"),
        ("a longer key", opened(a=None, a1="1"), "a"),
        ("a key beyond 7f", opened(**{"%ff": "1"}), "%ff"),
        ("what stands behind the seal", opened(a="2"), "a"),
    ):
        yield name, [ONE, Generation(generation=8, since=CLOSED_AT, opening=held)], 8, f"A7 opening differs at key {key}"
    yield "stamps that go back by one", [ONE, ONE.next(since=CLOSED_AT - 1)], 8, "A8 stamps go back"
    yield "stamps that begin at 0", [ONE, TWO, TWO.next(since=0)], 9, "A8 stamps go back"
    yield "one that isn't closed", [NEVER_CLOSED, Generation(generation=8, opening={"a": "1"})], 7, "A9 not closed"
    yield "the second isn't closed", [ONE, ONE.next("get a"), Generation(generation=9)], 8, "A9 not closed"
    # several faults: of the first bundle that has one the first
    yield "another generation, with another opening", [ONE, Generation(generation=9)], 9, "A6 not consecutive"
    yield "another opening, with an earlier stamp", [ONE, Generation(generation=8)], 8, "A7 opening differs at key a"
    yield "an earlier stamp, and not closed", [ONE, ONE.next(since=1), TWO], 8, "A8 stamps go back"
    yield "not closed, and the next of another generation", [NEVER_CLOSED, THREE], 7, "A9 not closed"
    yield "another opening, and not closed", [ONE, Generation(generation=8, since=CLOSED_AT), THREE], 8, "A7 opening differs at key a"


def unsent(generation):
    """The bundle of this generation without replica 0's entries and the receipts: replica 1 handles a frame that nobody sent."""
    it = copy.copy(generation)
    it.entries, it.receipts = [[], *it.entries[1:]], []
    return it.bundle()


def chained(bundles):
    """Words and files of a chain of these bundles."""
    files = {f"{at}.bundle": it for at, it in enumerate(bundles)}
    return dict(words=["audit", "--chain", *files], files=files)


def chains():
    """Chains of bundles, in files."""
    for name, links in accepted_chains():
        wanted = joined(["verdict accepted", *[it.link() for it in links]]).encode()
        yield dict(name=f"a chain of {name}", wanted=wanted, **chained([it.bundle() for it in links]))
    for name, links, generation, fault in refused_chains():
        wanted = f"verdict refused\ngeneration {generation}\n{fault}\n".encode()
        yield dict(name=f"a chain of {name}", wanted=wanted, status=1, **chained([it.bundle() for it in links]))
    one, two, three = (it.bundle() for it in (ONE, TWO, THREE))
    spoiled = unsent(TWO)
    unsent_line = "A1 unsent frame at replica 1 entry 1"
    # a bundle that its own audit refuses: before what it lacks as a link, and behind what the one before lacks
    for name, held, generation, fault in (
        ("an audit's fault", [one, spoiled], 8, unsent_line),
        ("an audit's fault of the first", [unsent(ONE), two], 7, unsent_line),
        ("an audit's fault, and not consecutive", [one, unsent(THREE)], 9, unsent_line),
        ("not closed, and an audit's fault behind it", [NEVER_CLOSED.bundle(), spoiled], 7, "A9 not closed"),
    ):
        yield dict(name=f"a chain with {name}", wanted=f"verdict refused\ngeneration {generation}\n{fault}\n".encode(), status=1, **chained(held))
    early = [Generation("put a 1", version=it).bundle() for it in (1, 2)]
    for name, held, line in (
        ("a bundle of version 1", [early[0]], "E12 at byte 4 in 0.bundle"),
        ("a bundle of version 2", [one, early[1]], "E12 at byte 4 in 1.bundle"),
        ("a bundle of version 2, cut behind its version", [early[1][:5]], "E12 at byte 4 in 0.bundle"),
        ("a bundle of version 2 with another fault behind it", [early[1][:5] + b"\7"], "E12 at byte 4 in 0.bundle"),
        ("a bundle of version 4", [changed(one, (4, 4))], "E12 at byte 4 in 0.bundle"),
        ("a cut bundle", [one, two, three[:60]], "E12 at byte 55 in 2.bundle"),
        ("a byte more", [one, two + b"\0"], f"E12 at byte {len(two)} in 1.bundle"),
        ("no bytes", [one, b""], "E12 at byte 0 in 1.bundle"),
        ("no bundle", [one, b"replicas 3\n"], "E12 at byte 0 in 1.bundle"),
        ("an entry that is no step", [one, changed(PROPOSED, (114, 2))], "E11 at replica 0 entry 1 in 1.bundle"),
        ("two that can't be read", [one[:3], two[:4]], "E12 at byte 0 in 0.bundle"),
        ("one that can't be read, behind a fault", [NEVER_CLOSED.bundle(), unsent(TWO), three[:5]], "E12 at byte 5 in 2.bundle"),
    ):
        yield dict(name=f"a chain with {name}", told=f"bundle refused {line}\n".encode(), status=2, **chained(held))


def chain_files():
    """Files that aren't there or can't be read, and other words."""
    one, two = ONE.bundle(), TWO.bundle()
    wanted = joined(["verdict accepted", ONE.link(), TWO.link()]).encode()
    files = {"one bundle": one, "two.bundle": two, "old.bundle": EARLY[1]}
    chain = ["audit", "--chain"]
    yield dict(name="a chain of files with a blank in a name", words=[*chain, "one bundle", "two.bundle"], files=files, wanted=wanted)
    for name, words, told_of, status in (
        ("a file that isn't there", ["one bundle", "none.bundle"], b"reading none.bundle failed: no such file or directory\n", 4),
        ("a file that isn't there, before one of version 2", ["none.bundle", "old.bundle"], b"reading none.bundle failed: no such file or directory\n", 4),
        ("a file that isn't there, behind one of version 2", ["old.bundle", "none.bundle"], b"bundle refused E12 at byte 4 in old.bundle\n", 2),
        ("a folder", ["one bundle", "."], b"reading . failed: not a regular file\n", 4),
    ):
        yield dict(name=f"a chain with {name}", words=[*chain, *words], files=files, told=told_of, status=status)
    for redirect in ("< /dev/null", "<&-", "< ."):
        yield dict(name=f"a chain with {redirect}", words=[*chain, "one bundle", "two.bundle"], files=files, redirect=redirect, wanted=wanted)
    for redirect in ("> /dev/full", ">&-"):
        yield dict(name=f"a chain with {redirect}", words=[*chain, "one bundle"], files=files, redirect=redirect, told=b"writing failed\n", status=4)
    for words in (["--chain"], ["one bundle"], ["one bundle", "two.bundle"], ["--chain", "--chain"], ["--emit", "bundle", "--chain", "one bundle"], ["--chains", "one bundle"], ["--chain=one bundle"]):
        yield dict(name=f"words refused: audit {' '.join(words)}", words=["audit", *words], files=files, told=REFUSED, rest=HELP, status=2)


def every():
    """Rows of other kinds than scripts that are played or run."""
    assert told({}) == f"contents 0 {EMPTY_DIGEST}" and told({b"a": b"1"}).endswith(" 206960ee329adb7b1232b29107ded731f9108ffc0d354ede6773283953d8eb58")
    for script, line in refused_scripts():
        for subcommand in ("replay", "run"):
            name = f"{subcommand} refuses {script[:60]!r} of {len(script)} bytes"
            yield dict(name=name, words=[subcommand], given=script.encode(), told=b"script refused at line %d\n" % line, status=2)
    for subcommand, line in (("replay", "section"), ("run", "flush")):
        yield dict(name=f"{subcommand} refuses {line} behind a generation", words=[subcommand], given=f"{S}generation 1\n{line}\ngeneration 1\n".encode(), told=b"script refused at line 3\n", status=2)
    yield dict(name="replay refuses a generation behind a flush", words=["replay"], given=f"{S}flush\ngeneration 1\n".encode(), told=b"script refused at line 3\n", status=2)
    yield dict(name="run refuses a generation behind a section", words=["run"], given=f"{S}section\ngeneration 1\n".encode(), told=b"script refused at line 3\n", status=2)
    # at the last stamp two proposals name whom they spare: the second one is refused
    asked = "PreAccept 0.1 ballot (0, 0) put x 1 seq 1 deps -"
    script = S + "generation 1\nsince 281474976710654\nsparing 1 propose 0 1 put x 1\nsparing 2 propose 0 1 get x\n"
    traced = joined(
        [
            f"version 3 generation 1 since 281474976710654 opening 0 {EMPTY_DIGEST}",
            f"line 4  stamp 281474976710655  replica 0 entry 1  propose put x 1 (client 1 request 1 seen 0) sparing 1; took 0.1; sends #1 to 2: {asked}",
            "line 5  refused E15 stamp full: sparing 2 propose 0 1 get x",
            f"never given  #1 from 0 to 2: {asked}",
            "not committed  0.1 at replica 0, which leads it: PreAccepts are out, answers of others so far: 0",
            "next  recover 0.1 at any replica that reaches 1 and 2",
        ]
    )
    yield dict(name="a trace of proposals that name whom they spare", words=["trace"], given=script.encode(), wanted=traced.encode())
    yield from bundles()
    yield from upgrades()
    yield from chains()
    yield from chain_files()
