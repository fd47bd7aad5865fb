"""Bundles of version 3, as `show`, `explain`, `draw` and `trace-events` tell them: as dictionaries of a row's parts.

What is wanted is written out from docs/FORMATS.md, section 2 (the bytes of bundles, by .ci/generations.py), and docs/CLI.md, section 11 (entries)."""

import drawing
from generations import LAST_GENERATION, LONGEST, Generation, number, told

ALL = ("cas a 1 2", "cas a 1 3", "cas c %! %-", "ask a q", "ask a b q%20r", "act a %-", "act b a seq", "swap b a", "seal n", "get b", "ask a q", "seal m")

MANY = ("tx if x %! put x 1 get y", "tx if x %! get x put z 1", "get z", "tx get y get x", "tx del x if y %! put %ff %-", "seal n", "tx get z")


class Looked(Generation):
    """A generation, and the lines that are shown of it, each with its stamp and its replica."""

    def __init__(self, *texts, **how):
        self.lines = []
        super().__init__(*texts, **how)

    def enter(self, replica, kind, body, frames=(), answers=()):
        super().enter(replica, kind, body, frames, answers)
        command, name, seq = self.taken[-1], f"0.{len(self.taken)}", self.seqs[-1]
        deps = ",".join(f"0.{at}" for at, it in enumerate(self.taken[:-1], 1) if it.meets(command)) or "-"
        attributes = f"seq {seq} deps {deps}"
        ask, vote = f"PreAccept {name} ballot (0, 0) {command.text} {attributes}", f"PreAcceptOK {name} ballot (0, 0) {attributes}"
        to = lambda first, last, lost: ", ".join(f"to {it}{lost}" for it in range(first, last))
        if kind in (1, 6):
            spared = "" if self.spared is None else f" sparing {self.spared}"
            asked = ", ".join(f"to {it}" for it in self.members)
            event = f"propose {command.text} (client 1 request {len(self.taken)} seen 0){spared}; took {name}; sends {asked}: {ask}"
            self.asked = len(self.entries[replica])
        elif kind == 5:
            event = f"execute {name}; executed {name} -> "
        elif replica:
            event = f"handle 0:{self.asked}:{self.members.index(replica)} {ask}; sends to 0: {vote}"
        else:
            at = self.members[len(self.entries[0]) - self.asked - 1]
            event = f"handle {at}:{len(self.taken)}:0 {vote}"
            if frames:
                event += f"; sends {to(1, self.size, ' NEVER HANDLED')}: Commit {name} {command.text} {attributes}"
        self.lines.append((self.stamps[replica], replica, f"stamp {self.stamps[replica]}  replica {replica} entry {len(self.entries[replica])}  {event}"))

    def execute(self, command, seq, deps, request):
        super().execute(command, seq, deps, request)
        said = self.history[-1].rpartition(" -> ")[2]
        stamp, replica, line = self.lines.pop()
        self.lines.append((stamp, replica, line + said))

    def edition(self):
        """The first line; none but in version 3."""
        return [f"version 3 generation {self.generation} since {self.since} opening {told(self.opening).partition(' ')[2]}"] if self.version == 3 else []

    def shown(self, keeps=lambda line: True):
        """What is shown of it."""
        kept = [line for _, _, line in sorted(self.lines) if keeps(line)]
        lines = self.edition() + (kept or [f"0 of {len(self.lines)} entries"] * bool(self.lines))
        return "".join(f"{it}\n" for it in lines).encode()


def life(**how):
    """A generation with each of the commands, opened with two keys."""
    return Looked(*ALL, **{"generation": 7, "since": 40, "opening": {"b": "%00", "a": "1"}} | how)


def shown():
    """How they are shown."""
    one = life()
    yield dict(name="version 3: every command, shown", words=["show"], given=one.bundle(), wanted=one.shown())
    for name, other in (
        ("five replicas", life(size=5)),
        ("the spared replica", life(spared=1)),
        ("the spared one of seven replicas", Looked("put x 1", "seal n", size=7, spared=3)),
        ("the last generation, and the last stamp that leaves room", Looked("put x 1", generation=LAST_GENERATION, since=2**48 - 5)),
        ("nothing", Looked(generation=1)),
        ("an opening alone", Looked(generation=2, since=2**48 - 1, opening={"%ff": "2", "%00": "%-"})),
        ("long values", Looked(f"put k {LONGEST}", f"cas k {LONGEST} {LONGEST[1:]}", f"seal {LONGEST}", opening={"k": LONGEST})),
        ("many keys", Looked(*MANY)),
        ("version 2", Looked("put x 1", "swap x y", version=2)),
        ("version 1", Looked("put x 1", "get x", version=1)),
    ):
        yield dict(name=f"version 3: {name}, shown", words=["show"], given=other.bundle(), wanted=other.shown())
    # (each event names one instance)
    many = Looked(*MANY)
    for key, names in (("x", ("0.1", "0.2", "0.4", "0.5")), ("y", ("0.1", "0.4", "0.5")), ("z", ("0.2", "0.3", "0.7")), ("%ff", ("0.5",)), ("1", ())):
        events = [it for at in names for it in (f"; took {at};", f" PreAccept {at} ", f" PreAcceptOK {at} ", f"execute {at};")]
        wanted = many.shown(lambda line: any(it in line for it in events))
        yield dict(name=f"version 3: of many keys, what is about the key {key}, shown", words=["show", "--key", key], given=many.bundle(), wanted=wanted)
    for key, names in (("c", ("0.3",)), ("b", ("0.5", "0.7", "0.8", "0.10")), ("%62", ("0.5", "0.7", "0.8", "0.10")), ("n", ()), ("q", ())):
        events = [it for at in names for it in (f"; took {at};", f" PreAccept {at} ", f" PreAcceptOK {at} ", f"execute {at};")]
        wanted = one.shown(lambda line: any(it in line for it in events))
        yield dict(name=f"version 3: what is about the key {key}, shown", words=["show", "--key", key], given=one.bundle(), wanted=wanted)
    wanted = one.shown(lambda line: "took 0.9;" in line or " 0.9 " in line.partition(" deps ")[0] or "execute 0.9;" in line)
    yield dict(name="version 3: what is about a seal, shown", words=["show", "--instance", "0.9"], given=one.bundle(), wanted=wanted)
    small = Looked("seal n", generation=3, since=9)
    column = f"""{small.edition()[0]}
replica 0{' ' * 25}replica 1{' ' * 25}replica 2
stamp 10 entry 1: propose seal n
(client 1 request 1 seen 0);
took 0.1; sends to 1: PreAccept
0.1 ballot (0, 0) seal n seq 1
deps -
"""
    yield dict(name="version 3: a seal, in columns", words=["show", "--columns", "--to", "10"], given=small.bundle(), wanted=column.encode())
    none = f"{column.partition('stamp')[0]}0 of 4 entries\n"
    yield dict(name="version 3: nothing in columns", words=["show", "--columns", "--to", "9"], given=small.bundle(), wanted=none.encode())
    named = Looked("put x 1", generation=1, spared=1)
    column = f"""{named.edition()[0]}
replica 0{' ' * 25}replica 1{' ' * 25}replica 2
stamp 1 entry 1: propose put x 1
(client 1 request 1 seen 0)
sparing 1; took 0.1; sends to 2:
PreAccept 0.1 ballot (0, 0) put
x 1 seq 1 deps -
"""
    yield dict(name="version 3: the spared replica, in columns", words=["show", "--columns", "--to", "1"], given=named.bundle(), wanted=column.encode())


def explained():
    """How they are explained."""
    one = life()
    edition = one.edition()[0]
    for name, it in (("every command", one), ("many keys", Looked(*MANY)), ("nothing", Looked(generation=1)), ("version 2", Looked("put x 1", version=2))):
        # (replica 1 hears of no Commit, and replica 0 has executed all)
        left = [f"next  recover 0.{at} at any replica that reaches 1 and 2" for at, _ in enumerate(it.taken, 1)]
        wanted = "".join(f"{line}\n" for line in ["verdict accepted", *it.edition(), *left])
        yield dict(name=f"version 3: {name}, explained", words=["explain"], given=it.bundle(), wanted=wanted.encode())
    # the last receipt says that the last seal was absent, and not closed
    wanted = f"verdict refused\n{edition}\nA4 unknown receipt 12\n"
    says = ["client 1 request 12 0.12 absent, executed by", "; for 0.12 it answers closed\n"]
    yield dict(name="version 3: another answer, explained", words=["explain"], given=one.bundle()[:-1] + b"\0", wanted=wanted.encode(), is_begun=True, says=says, status=1)
    # what isn't a bundle
    line, entries = b"bundle refused E12 at byte 0\n", ["\n  found: entries in words, as show prints them\n"]
    yield dict(name="version 3: what is shown, explained", words=["explain"], given=one.shown(), wanted=line, is_begun=True, says=entries, status=2)
    traced = f"{edition}\nline 3  stamp 41  replica 0 entry 1  propose get x (client 1 request 1 seen 40); took 0.1\n"
    says = ["\n  found: a trace, as trace prints it\n"]
    yield dict(name="version 3: a trace, explained", words=["explain"], given=traced.encode(), wanted=line, is_begun=True, says=says, status=2)
    says = ["\n  found: a report, as replay, run and audit print it\n"]
    link = b"verdict accepted\ngeneration 1 since 0 committed 0 history 0 open contents 0 df3f\n"
    for name, given in (("a report", b"verdict accepted\ngeneration 1 since 0\ncommitted 0\n"), ("what is said of a chain", link)):
        yield dict(name=f"version 3: {name}, explained", words=["explain"], given=given, wanted=line, is_begun=True, says=says, status=2)
    # (a line `generation` makes no script of a text, and a line `replicas` does)
    yield dict(name="version 3: replicas behind a generation, explained", words=["explain"], given=b"generation 1\nreplicas 3\n", wanted=b"script refused at line 1\n", is_begun=True, status=2)
    yield from fields()
    yield from steps()


def refusal(name, given, at, field, where, allowed, found):
    """The row of a field that isn't allowed."""
    line = f"bundle refused E12 at byte {at}\n"
    says = [f"\n  field: {field}, in {where}\n  allowed: {allowed}\n  found: {found}\n"]
    yield dict(name=f"version 3: {name}, explained", words=["explain"], given=given, wanted=line.encode(), is_begun=True, says=says, status=2)


OP = "op (2 get, 3 put, 4 del, 5 swap, 6 cas, 7 ask, 8 act, 9 seal, 10 tx)"
CODE = "code of an answer (0 absent, 1 present, 2 lost, 3 closed, 4 ordered, 5 done, 6 undone)"
TWO_PARTS = "what is expected, and then what is new, and nothing more: each a 0, or a 1, a length of four bytes to 65535, and so many bytes"
ITEMS = (
    "a count of two bytes from 1 to 1024, then so many keys, rising, and nothing more: each a length from 1, flags (1 told, 2 guarded, 4 put, 8 del; at least one, "
    "not both put and del, and at most 16 told), the key, of a guard a 0, or a 1, a length of four bytes to 65535, and so many bytes, and of a put a length of four "
    "bytes to 65535, and so many bytes"
)


def changed(held, at, value):
    """The bytes with others in the place of those from this one on."""
    return held[:at] + value + held[at + len(value) :]


def fields():
    """Fields that aren't allowed. Before the opening stand 26 bytes, a key of the opening with its lengths takes 5 and what it has."""
    opened = Looked("act b a seq", generation=7, since=40, opening={"a": "1", "b": "22"}).bundle()
    yield from refusal("a version", changed(opened, 4, b"\4"), 4, "version", "the header", "1 to 3", "4")
    yield from refusal("generation 0", changed(opened, 6, bytes(4)), 6, "generation", "the header", "1 to 4294967295", "0")
    yield from refusal("a stamp too high", changed(opened, 10, number(2**48, 8)), 10, "stamp that the clocks go on from", "the header", "0 to 281474976710655", str(2**48))
    yield from refusal("too many keys", changed(opened, 22, number(4_000_000_001, 4)), 22, "number of keys of the opening", "the header", "0 to 4000000000", "4000000001")
    yield from refusal("an empty key", changed(opened, 26, b"\0"), 26, "length of the key", "the opening, key 1", "1 to 255", "0")
    yield from refusal("a value too long", changed(opened, 27, number(65_536, 4)), 27, "length of the value", "the opening, key 1", "0 to 65535", "65536")
    higher = "a key above the one before it, by their bytes from the first one on"
    yield from refusal("a key twice", changed(opened, 38, b"a"), 38, "key", "the opening, key 2", higher, "a")
    # a proposal's command stands 5 + 9 + 16 bytes behind the opening's 15
    op, where = 26 + 15 + 5 + 9 + 16, "the journal of replica 0 entry 1"
    yield from refusal("an op", changed(opened, op, b"\13"), op, OP, where, "2 to 10", "11")
    yield from refusal("no op", changed(opened, op, b"\1"), op, OP, where, "2 to 10", "1")
    yield from refusal("no key", changed(opened, op + 1, b"\0"), op + 1, "length of the key", where, "1 to 255", "0")
    yield from refusal("a seal's key", changed(opened, op, b"\11"), op + 1, "length of the key", where, "0", "1")
    yield from refusal("a second key of a get", changed(opened, op, b"\2"), op + 2, "length of the second key", where, "0", "1")
    yield from refusal("no second key of a swap", changed(opened, op, b"\5\1\0"), op + 2, "length of the second key", where, "1 to 255", "0")
    yield from refusal("a swap's body", changed(opened, op, b"\5"), op + 3, "length of the body", where, "0", "3")
    yield from refusal("a body too long", changed(opened, op + 3, number(65_536, 4)), op + 3, "length of the body", where, "0 to 65535", "65536")
    yield from refusal("a body too short", changed(opened, op, b"\6\1\0\0\0\0\1"), op + 3, "length of the body", where, "2 to 131080", "1")
    yield from refusal("two equal keys", changed(opened, op + 8, b"b"), op + 8, "second key", where, "another key than the first", "b")
    # the kind stands behind the journal's number and its count, the spared replica 9 + 16 bytes behind it
    kinds = "event kind (1 propose, 2 handle, 3 give up, 4 recover, 5 execute{})"
    late = kinds.format(", 6 propose and name the spared replica")
    for byte in (0, 7):
        yield from refusal(f"an event of kind {byte}", changed(opened, 26 + 15 + 5, bytes([byte])), 26 + 15 + 5, late, where, "1 to 6", str(byte))
    old = Looked("put x 1", version=2).bundle()
    yield from refusal("an event of kind 6 in version 2", changed(old, 10 + 5, b"\6"), 10 + 5, kinds.format(""), where, "1 to 5", "6")
    spared = Looked("put x 1", size=5, generation=1, spared=2).bundle()
    for byte in (0, 5):
        yield from refusal(f"a spared replica {byte}", changed(spared, 26 + 5 + 9 + 16, bytes([byte])), 26 + 5 + 9 + 16, "spared replica", where, "0 to 4, and not the journal's own replica", str(byte))
    yield from refusal("no op behind a spared replica", changed(spared, 26 + 5 + 9 + 17, b"\1"), 26 + 5 + 9 + 17, OP, where, "2 to 10", "1")
    cas = Looked("cas k %! 1", generation=1).bundle()
    body = 26 + 5 + 9 + 16 + 7 + 1
    yield from refusal("a body of no two parts", changed(cas, body, b"\2"), body, "body", where, TWO_PARTS, "%02%01%00%00%00%011")
    yield from refusal("a frame too short", changed(cas, body + 7 + 2, number(47, 4)), body + 7 + 2, "length of a frame", where, "48 to 400000", "47")
    yield from refusal("a frame too long", changed(cas, body + 7 + 2, number(400_001, 4)), body + 7 + 2, "length of a frame", where, "48 to 400000", "400001")
    # the last byte is that of a receipt's answer
    yield from refusal("an answer", cas[:-1] + b"\7", len(cas) - 1, CODE, "receipt 1", "0 to 6", "7")
    long = cas[:-1] + b"\1" + number(65_536, 4)
    yield from refusal("an answer too long", long, len(cas), "length of an answer's value", "receipt 1", "0 to 65535", "65536")
    many = Looked("tx if x %! put x 1 get y", generation=1).bundle()
    yield from refusal("a key of a command over many keys", changed(many, body - 7, b"\1"), body - 7, "length of the key", where, "0", "1")
    yield from refusal("too few bytes of many keys", changed(many, body - 5, number(4, 4)), body - 5, "length of the body", where, "5 to 131080", "4")
    yield from refusal("many keys that fall", changed(many, body - 1 + 13, b"w"), body - 1, "body", where, ITEMS, "%00%02%01%06x%00%00%00%00%011%01%01w")
    # the last four bytes are the receipt's answer: its code, how many keys are reported, and of one that it has nothing
    yield from refusal("too many told keys", changed(many, len(many) - 2, b"\21"), len(many) - 3, "number of told keys", "receipt 1", "0 to 16", "17")
    yield from refusal("a told key's mark", many[:-1] + b"\2", len(many) - 1, "mark of a told key (0 absent, 1 present)", "receipt 1", "0 to 1", "2")
    yield from refusal("a told key's value too long", many[:-1] + b"\1" + number(65_536, 4), len(many), "length of an answer's value", "receipt 1", "0 to 65535", "65536")
    early = Looked("put x 1", version=2).bundle()
    yield from refusal("an answer of version 2", early[:-1] + b"\3", len(early) - 1, "code of an answer (0 absent, 1 present, 2 lost)", "receipt 1", "0 to 2", "3")


def steps():
    """Entries that aren't their replica's next step."""
    one = Looked("put x 1", generation=7, since=40)
    given = one.bundle()
    ask = "PreAccept 0.1 ballot (0, 0) put x 1 seq 1 deps -"
    # the first entry's stamp, behind the header, a journal's 5 bytes and the entry's kind
    line = b"bundle refused E11 at replica 0 entry 1\n"
    says = ["\n  cause: its stamp 40 isn't above the stamp that the clocks go on from, 40\n"]
    yield dict(name="version 3: a stamp that doesn't go on, explained", words=["explain"], given=changed(given, 26 + 5 + 1, number(40, 8)), wanted=line, is_begun=True, says=says, status=2)
    # the spared replica stands behind the kind, the stamp, the client, the request and the seen stamp: another frame is to be sent
    named = Looked("put x 1", generation=7, since=40, spared=1).bundle()
    says = ["\n  event: propose put x 1 (client 1 request 1 seen 0) sparing 2\n", "\n  first difference: receiver (byte 5), expected 1, found 2\n"]
    yield dict(name="version 3: another spared replica, explained", words=["explain"], given=changed(named, 26 + 5 + 9 + 16, b"\2"), wanted=line, is_begun=True, says=says, status=2)
    # the frame that replica 1 handles
    frame = given.rindex(b"EP\3\1")
    line = b"bundle refused E11 at replica 1 entry 1\n"
    says = [f"\n  event: handle 0:1:0 {ask}\n  generations: the frame's is 8, the bundle's is 7\n  cause: the event is refused: E14 bad frame: the frame is of another generation than the bundle\n"]
    yield dict(name="version 3: a frame of another generation, explained", words=["explain"], given=changed(given, frame + 40, number(8, 4)), wanted=line, is_begun=True, says=says, status=2)
    for place, field, value in ((36, "length of the second key", b"\0\1"), (40, "generation", bytes(4)), (44, "length of the body", number(65_536, 4))):
        says = [f"\n  cause: the bytes that are handled are no frame: the field at {place} is not allowed ({field})\n"]
        yield dict(name=f"version 3: a frame's {field}, explained", words=["explain"], given=changed(given, frame + place, value), wanted=line, is_begun=True, says=says, status=2)
    # the frame that the proposal sends: a byte of its body, of its generation, of its second key
    act = Looked("act x y body", generation=7, since=40).bundle()
    line = b"bundle refused E11 at replica 0 entry 1\n"
    sent = act.index(b"EP\3\1")
    for at, field, place, expected, found in ((50, "body", 50, "body", "Body"), (49, "second key", 49, "y", "z"), (48, "key", 48, "x", "w"), (43, "generation", 40, "7", "8")):
        value = number(8, 1) if field == "generation" else found[:1].encode()
        says = [f"first difference: {field} (byte {place}), expected {expected}, found {found}\n"]
        yield dict(name=f"version 3: another {field} sent, explained", words=["explain"], given=changed(act, sent + at, value), wanted=line, is_begun=True, says=says, status=2)


def drawn():
    """How they are drawn."""
    for name, one in (("every command", life()), ("many keys", Looked(*MANY)), ("the spared replica", life(spared=1)), ("nothing", Looked(generation=1)), ("version 2", Looked("put x 1", "swap x y", version=2))):
        yield dict(name=f"version 3: {name}, drawn", words=["draw", "--mermaid"], given=one.bundle(), wanted=drawing.sequence(one.shown().decode(), one.size).encode())
        yield dict(name=f"version 3: {name}, drawn as a graph", words=["draw", "--dot"], given=one.bundle(), wanted=drawing.graph(one.shown().decode()).encode())


def traced():
    """As trace events."""
    one = life()
    label = f'{{"ph":"M","name":"process_labels","pid":0,"tid":0,"args":{{"labels":"{one.edition()[0]}"}}}},\n'
    yield dict(name="version 3: every command, as trace events", words=["trace-events"], given=one.bundle(), wanted=b'{"traceEvents":[\n', is_begun=True, says=[label])
    event = "propose put x 1 (client 1 request 1 seen 0) sparing 1"
    says = [f'"name":"{event}","args":{{"entry":1,"words":"{event}; took 0.1"}}}}']
    yield dict(name="version 3: the spared replica, as trace events", words=["trace-events"], given=Looked("put x 1", generation=1, spared=1).bundle(), wanted=b'{"traceEvents":[\n', is_begun=True, says=says)


def every():
    """All of them."""
    yield from shown()
    yield from explained()
    yield from drawn()
    yield from traced()
