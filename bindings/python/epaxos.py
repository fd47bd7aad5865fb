"""A replicated key-value core without a leader, for Python: one replica, without sockets, timers or threads.

    replica = Replica.new(3, 0)                          # replica 0 of three; later Replica.open(3, 0, log)
    while True:
        ready = replica.ready()                          # at first, the log as it begins
        file.write(ready.log)                            # (where ready.is_anew, in the place of the whole file)
        os.fdatasync(file.fileno())
        output = ready.synced()                          # only then there is something to send
        for to, frame in output.frames: ..
        for receipt in output.receipts: ..
        for to, frame in replica.report(told).frames: ..     # when a link is up again by which all of the first `told` entries had come

        replica.propose(client=1, request=1, command=put(b"x", b"1"))
        replica.handle(frame)                            # bytes from a peer
        replica.advance()                                # executes what can be executed
        replica.read(b"x", found)                        # a client's read that writes nothing: `Replica.read`

The core is a library, libepaxos.so, in the folder that EPAXOS_LIBRARY names, beside this file, or in the repository that it is in. `./epaxos --build` proves and builds
it, and `./epaxos --build --unproved` builds it in minutes. What is proved, and what you owe, stands in bindings/rust/epaxos/src/lib.rs; the bytes in docs/FORMATS.md,
section 10. Nothing here is proved.
"""

import ctypes
import functools
import hashlib
import os
import re
import struct
import sys
import threading
from typing import NamedTuple, Optional

HERE = os.path.dirname(os.path.realpath(__file__))
TOP = os.path.dirname(os.path.dirname(HERE))
LONGEST_KEY, LONGEST_VALUE = 255, 65_535
# a `tx` names 1 to so many keys, of which it tells so many at most, and has so many bytes at most
MOST_KEYS, MOST_TOLD, LONGEST_TX = 1_024, 16, 131_080
# a cluster has so many instances at most, and so many may be named for a read
MOST_FOUND = 63_000
# tools/generate writes what follows: the numbers of refusals (docs/FORMATS.md, section 7).
FAULTS = {
    1: "Memory",
    3: "OutOfRange",
    4: "SpaceFull",
    5: "SeqExhausted",
    6: "NotLeading",
    7: "TooFewAnswers",
    8: "AlreadyCommitted",
    9: "BallotsExhausted",
    10: "NotCommitted",
    13: "NotMine",
    14: "BadFrame",
    15: "StampFull",
}
# What tools/generate writes ends here.


# What the refusals that callers meet first say.
SAID = {
    "Memory": "out of memory: the call may be made again",
    "OutOfRange": "a number, a key or a value is out of its range",
    "SpaceFull": "the generation has no number left for this replica's commands",
    "NotCommitted": "the instance isn't committed yet: wait for it, or recover it",
    "NotMine": "the frame is for another replica",
    "BadFrame": "the bytes are no frame of this cluster's generation",
    "Unsynced": "the log's new bytes, at first its header, have to be on the disk first: ready(), then synced()",
    "NoReplica": "the replica was ended, or another thread is in a call with it",
}


class Fault(Exception):
    """A call was refused, and has changed nothing: `name`, as `NotCommitted`, and the instance that it names, if it does.

    `NoReplica`: it was ended; or another thread is in a call with it, which the binding keeps out. `Ended: ..`: the library answers what it never should.
    """

    def __init__(self, name, instance=None):
        said = f": {SAID[name]}" if name in SAID else ""
        super().__init__((f"{name} {instance}" if instance else name) + said)
        self.name, self.instance = name, instance


class OpenFault(Exception):
    """Why there is no replica."""


class Instance(NamedTuple):
    """A place for one command: the replica that leads it, and its number from 1."""

    replica: int
    number: int

    def __str__(self):
        return f"{self.replica}.{self.number}"


class Receipt(NamedTuple):
    """What a client may be told: `answer` is a value, or None where the key had none, or one of LOST, CLOSED and
    ORDERED, or of a `tx` a TxAnswer. `stamp` is its next `seen`."""

    client: int
    request: int
    instance: Instance
    seen: int
    replica: int
    entry: int
    stamp: int
    answer: object


class Open(NamedTuple):
    """An instance that isn't committed: since which entry it is known, and how far it is led here: a phase (1 to 3; 0: not at all) and answers. Whom your proposal of
    it spares, where it names one, a core doesn't tell: `open._replace(spared=1)` tells it `Patience`."""

    instance: Instance
    since: int
    phase: int
    answers: int
    spared: int | None = None


class Answer(str):
    """An answer that isn't a value."""


# A no-op took the instance: it wasn't done, and never will be there. Or it stands behind the seal. Or it is for a machine of your own.
LOST, CLOSED, ORDERED = Answer("lost"), Answer("closed"), Answer("ordered")


class TxAnswer(NamedTuple):
    """What a `tx` is answered: whether all that it requires was there, so that it was done, and what each key had
    before it that it tells, a value or None, in rising order of keys."""

    is_done: bool
    values: list


def get(key):
    """Tells a key's value, as of all that was answered before."""
    return _command(2, key)


def put(key, value):
    """Gives a key a value; the answer is what it had. Wherever bytes are wanted a text stands for its UTF-8."""
    return _command(3, key, body=value)


def delete(key):
    """Takes a key's value away; the answer is what it had."""
    return _command(4, key)


def swap(first, second):
    """The values of two different keys change places; the answer is what the first had."""
    return _command(5, first, second)


def cas(key, expected, new):
    """The key gets the new value, or None, where it has the expected one, or None; the answer is what it had."""
    return _command(6, key, body=_part(expected) + _part(new))


def tx(require=None, tell=(), put=None, delete=()):
    """Asks for some keys, and writes some, if all that it requires is there: each key of `require` has the value that
    stands there, or none where that is None. Then those of `put` get their values, and those of `delete` lose theirs;
    else nothing is written. The answer, a `TxAnswer`, has what those of `tell` had before.

        tx(require={b"alice": b"30", b"bob": None}, put={b"alice": b"20", b"bob": b"10"})

    Fault OutOfRange: it names no key, or more than 1,024; it tells more than 16; a key is put and deleted; it has more
    than 131,080 bytes."""
    require, put = ({_run(key): value for key, value in dict(it or {}).items()} for it in (require, put))
    tell, delete = {*map(_run, tell)}, {*map(_run, delete)}
    keys = sorted({*require, *tell, *put, *delete})
    if not 1 <= len(keys) <= MOST_KEYS or len(tell) > MOST_TOLD or delete & {*put}:
        raise Fault("OutOfRange")
    items = []
    for key in keys:
        flags = (key in tell) + 2 * (key in require) + 4 * (key in put) + 8 * (key in delete)
        items += [bytes([len(_key(key)), flags]), key]
        items += [_part(require[key])] if key in require else []
        items += [_block(_value(put[key]))] if key in put else []
    return _command(10, b"", body=len(keys).to_bytes(2, "big") + b"".join(items))


def opaque(first, body, second=b"", is_reading=False):
    """A command of a machine of your own, which the core puts in its place by its one key or two."""
    return _command(7 if is_reading else 8, first, second, body)


def seal(value):
    """Ends the generation."""
    return _command(9, b"", body=value)


class Reference(NamedTuple):
    """What a generation opens with, by the log that leaves it: that of the generation before, of which the first `length` bytes, with this SHA-256, count. `replicas`: how many the
    generation has; `generation`: from 2. Keep `bytes` as `G/reference`, on the disk before the log of G is: `Replica.succeed`."""

    replicas: int
    generation: int
    length: int
    sum: bytes

    @classmethod
    def read(cls, run):
        """That of these bytes. ValueError: they are those of none."""
        run, head, place = bytes(run), _STRUCTS["ep_reference_head"](), _STRUCTS["ep_place"]()
        status = _loaded(_library()).ep_read_reference(run, len(run), head, place)
        if status == _STATUSES["EP_MEMORY"]:
            raise Fault("Memory")
        if status:
            raise ValueError("no reference")
        return cls(head.replicas, head.generation, head.length, run[18:50])

    @property
    def bytes(self):
        """The bytes of the file."""
        _packed(">BIQ", *self[:3])
        closed = _STRUCTS["ep_closed_log"](_bytes(self.sum), self.length, self.generation, self.replicas)
        status, run = _copied_by("ep_reference", closed)
        _Library.check(status)
        return run

    @property
    def digest(self):
        """The digest that the generation's log names."""
        return self.bytes[-32:]

    def is_to(self, log):
        """Whether these are the bytes of the log that it names: as many, with its sum."""
        return len(log) == self.length and hashlib.sha256(log).digest() == self.sum

    def binding(self, digest):
        """The bytes of `G/whole`, which say that `G/opening`, a file that ends in this digest, is what the reference
        stood for. Write it once that is on the disk; then what is older may go."""
        status, run = _copied_by("ep_binding", self.digest, 32, bytes(digest), len(digest))
        _Library.check(status)
        return run


def first_opening(replicas):
    """The file that generation 1 opens with, of so many replicas: a map in which nothing is. `epaxos collect` wants it beside each log (README.md)."""
    _packed(">B", replicas)
    status, run = _copied_by("ep_first_opening", replicas)
    _Library.check(status)
    return run


def _run(text):
    """Bytes, or those that a text has in UTF-8."""
    return text.encode() if isinstance(text, str) else bytes(memoryview(text))


def _command(op, first, second=b"", body=b""):
    first, second, body = _run(first), _run(second), _run(body)
    longest = LONGEST_TX if op in (6, 10) else LONGEST_VALUE
    if len(first) > LONGEST_KEY or len(second) > LONGEST_KEY or len(body) > longest:
        raise Fault("OutOfRange")
    return struct.pack(">BBBI", op, len(first), len(second), len(body)) + first + second + body


def _block(run):
    return len(run).to_bytes(4, "big") + run


def _part(value):
    """A value, or that there is none."""
    return b"\0" if value is None else b"\1" + _block(_value(value))


def _value(value):
    value = _run(value)
    if len(value) > LONGEST_VALUE:
        raise Fault("OutOfRange")
    return value


class _Fields:
    """Bytes that are read from the front."""

    def __init__(self, held):
        self.held, self.at = held, 0

    def run(self, length):
        """The next bytes."""
        run = self.held[self.at : self.at + length]
        if len(run) < length:
            raise Fault("Ended: an answer is cut")
        self.at += length
        return run

    def number(self, length):
        return int.from_bytes(self.run(length), "big")

    def instance(self):
        return Instance(self.number(1), self.number(2))

    def block(self):
        return self.run(self.number(4))

    def part(self):
        return self.block() if self.number(1) else None

    def answer(self):
        kind = self.number(1)
        if kind in (5, 6):
            return TxAnswer(kind == 5, self.all(self.part, 2))
        return self.block() if kind == 1 else (None, None, LOST, CLOSED, ORDERED)[kind]

    def receipt(self):
        return Receipt(self.number(4), self.number(4), self.instance(), self.number(8), self.number(1), self.number(4), self.number(8), self.answer())

    def all(self, read, length=4):
        """As many as a number tells."""
        return [read() for _ in range(self.number(length))]


class Output:
    """What may be sent and told, now that it is on the disk; each thing once.

    frames: pairs of a receiver and bytes; receipts; committed, executed: instances, own and others'; open: the least instances that are open, as many as were asked for;
    is_sealed: whether a seal was executed; entries: how many were told with this.
    """

    def __init__(self, answer):
        fields = _Fields(answer)
        fields.run(1)
        self.entries, self.is_sealed = fields.number(4), fields.number(1) == 1
        self.frames = fields.all(lambda: (fields.number(1), fields.block()))
        self.receipts = fields.all(fields.receipt)
        self.committed = fields.all(fields.instance)
        self.executed = fields.all(fields.instance)
        self.open = fields.all(lambda: Open(fields.instance(), fields.number(4), fields.number(1), fields.number(1)), 1)


class Ready:
    """What is to be put on the disk: `log`, appended to what is there, or, where `is_anew`, in the place of all that is there, at once."""

    def __init__(self, replica, log, is_anew, most):
        self.log, self.is_anew, self._replica, self._most = log, is_anew, replica, most

    def synced(self):
        """Call it once the bytes are on the disk, and not before."""
        return self._replica._synced(self._most)

    def begin(self):
        """Lets the replica take more while the bytes are put on the disk; `synced` then tells of them alone. What is taken meanwhile is lent by the next `ready`."""
        self._replica._begin(self._most)
        return self


def _in_turn(call):
    """The call, which waits until no other thread is in one with the replica."""

    @functools.wraps(call)
    def waiting(self, *words, **named):
        with self._lock:
            return call(self, *words, **named)

    return waiting


def _packed(form, *numbers):
    """The bytes of numbers, which may be out of range."""
    try:
        return struct.pack(form, *numbers)
    except struct.error:
        raise Fault("OutOfRange") from None


class Replica:
    """One replica. `new` begins it, `open` goes on from its log.

    Threads may share it: calls take turns. While what one of them has got by `ready` isn't synced, what others want it to take is refused (Unsynced), unless it has called
    `begin`. So have one thread write the log.
    """

    def __init__(self, core, told):
        self._core, self._told, self._lock, self._begun = core, told, threading.Lock(), False
        # its generation; how many bytes its log has, and has once what is lent is there: none of these is known before its log is lent
        self._generation, self._length, self._end = 0, 0, 0

    @classmethod
    def new(cls, replicas, me, opening=None, reference=None):
        """Replica `me` of so many, before any event; of generation 1, or of the one that `opening` begins. `reference`: that which stood for the opening before it was written, where
        the generation was begun by one (`succeed`): its log names that. Look at the binding first."""
        return cls(_Library(replicas, me, opening, None, reference), 0)

    @classmethod
    def open(cls, replicas, me, log, opening=None, told=None, reference=None):
        """The replica that this log is of, as if it had never stopped. `told`: how many entries were told before; None:
        all that the log has."""
        if not log:
            raise OpenFault("the log is empty")
        core = _Library(replicas, me, opening, log, reference)
        return cls(core, core.told_of(log, told))

    @_in_turn
    def propose(self, client, request, command, seen=0, spared=None):
        """Proposes a client's command: `seen` is the greatest stamp of the receipts that it knows of, `spared` the other replica that isn't asked at first, such as the slowest
        one or one that can't be reached (None: the one just below this). (Nothing is taken while a Ready isn't synced, nor begun: Unsynced.)"""
        _packed(">IIQB", client, request, seen, spared or 0)
        self._core.propose((client, request, seen, spared), command)

    @_in_turn
    def handle(self, frame):
        """Handles bytes that came from a peer."""
        self._core.handle(bytes(frame))

    @_in_turn
    def give_up(self, instance):
        """Waits no longer for the fast quorum of an own instance."""
        self._core.act("ep_give_up", _instance(instance))

    @_in_turn
    def recover(self, instance):
        """Takes over an instance."""
        self._core.act("ep_recover", _instance(instance))

    @_in_turn
    def execute(self, instance):
        """Executes an instance, and before it all that it depends on."""
        self._core.execute(_instance(instance))

    @_in_turn
    def advance(self):
        """Executes all own instances that are ready."""
        self._core.act("ep_advance")

    @_in_turn
    def execute_all(self):
        """Executes all instances that are ready, others' too."""
        self._core.act("ep_execute_all")

    @_in_turn
    def ready(self, most=0):
        """What is to be put on the disk; then `synced` hands out what is to be sent, and at most so many open instances."""
        log, is_anew = self._core.lend()
        self._end = len(log) if is_anew else self._length + len(log)
        if is_anew:
            self._generation = _head_of("log", log).generation
        return Ready(self, log, is_anew, most)

    @_in_turn
    def _begin(self, most):
        if not self._begun:
            self._core.prepare(self._told, most)
            self._begun = True

    @_in_turn
    def _synced(self, most):
        self._core.sync()
        self._length = self._end
        begun, self._begun = self._begun, False
        output = Output(self._core.release() if begun else self._core.tell(self._told, most))
        self._told = output.entries
        return output

    @_in_turn
    def report(self, after, most=0):
        """Tells once more what there was to tell behind the first `after` entries, for a peer whose link stands again, and after a start: a Commit that is lost
        may leave nothing open there. All that was taken has to be on the disk."""
        return Output(self._core.tell(after, most))

    @_in_turn
    def get(self, key) -> Optional[bytes]:
        """What this replica's map has at the key: a local read, which may be old. All that was taken has to be on the disk."""
        return self._core.get(_key(key))

    @_in_turn
    def interfering(self, key):
        """Which instances interfere with a read of the key, in rising order: those of all writes of it, and of all
        seals, that this replica has recorded, committed or not. It is one of F + 1 answers that a `read` is given. All
        that was taken has to be on the disk."""
        fields = self._answered(16, _key(key), 11)
        return fields.all(fields.instance)

    @_in_turn
    def read(self, key, found):
        """A client's read of the key that writes nothing, and is as good as the command: it stands behind all that was
        answered when it was asked for. All that was taken has to be on the disk.

        It is a value, or None where the key has none; or an Instance, the least of those found that isn't executed
        here: call it again, with the same `found`, once that is (`execute_all`); where it stays open it is recovered as
        any other is. Or CLOSED: ask anew in the next generation, the replicas too.

        found: all instances that F + 1 replicas told of (`interfering`) when they were asked *after* the client asked;
        this one may be among them. How a replica's host asks another one is yours; the question names the generation.
        One answer is for all reads of the key that were asked for before its question was sent, and for no later
        one."""
        found = list(found)
        if len(found) > MOST_FOUND:
            raise Fault("OutOfRange")
        named = b"".join(_packed(">BH", *it) for it in found)
        fields = self._answered(17, bytes([len(_key(key))]) + key + len(found).to_bytes(4, "big") + named, 12)
        reply = fields.number(1)
        if reply > 3:
            raise Fault(_BAD_ANSWER)
        if reply == 2:
            return fields.instance()
        return fields.run(fields.number(2)) if reply == 1 else CLOSED if reply else None

    def _answered(self, kind, body, told):
        """What stands in the answer of this kind to a request."""
        answer = self._core.ask(kind, body)
        _check(answer)
        if answer[0] != told:
            raise Fault(_BAD_ANSWER)
        return _Fields(answer[1:])

    @_in_turn
    def contents(self):
        """What all keys of this replica's map have, by their names: a local read, as `get`."""
        fields = _Fields(self._core.contents())
        return dict(fields.all(lambda: _pair(fields)))

    @_in_turn
    def handled(self, peer):
        """How many entries of a peer are known here, by the log: the greatest number among those whose frames were handled, 0 where none were. A peer whose log has
        fewer has lost what it promised, and must not go on."""
        return self._core.handled(peer)

    @_in_turn
    def close(self, replicas):
        """The opening of the next generation, of so many replicas, once a seal was executed: keep it on the disk, begin each replica with it, and have none act in the
        generation before."""
        return self._core.close(replicas)

    @_in_turn
    def reference(self, replicas, sum):
        """The reference to its log as it is on the disk, with this SHA-256, by which the next generation, of so many replicas, begins."""
        if replicas not in (3, 5, 7) or len(sum) != 32 or not 0 < self._generation < 2**32 - 1 or self._length < _HEADER:
            raise Fault("OutOfRange")
        return Reference(replicas, self._generation + 1, self._length, bytes(sum))

    @_in_turn
    def succeed(self, reference, me, log=None, told=None):
        """Goes on in the next generation, once a seal was executed and all that was taken is on the disk and told (what isn't told is dropped): it is replica `me` of that one then, with the map as it is. Its log
        comes first, as of `new`, and names the reference. What is returned gives the file that the generation opens with, in pieces: a `Checkpoint`.

        The order on the disk, for generation G + 1: `reference.bytes` as `G+1/reference`; this call; `G+1/log`, which `ready` lends; the mark `G/left`; and only then `synced`. When
        there is time: the pieces as `G+1/opening`, then `reference.binding(digest)` as `G+1/whole`; then what is older may go.

        After a start the same call, with `log`, and `told` as of `open`, leads from the last whole opening through the generations since: each log is opened up to the bytes that the
        next reference names (`is_to`), and said to be synced.

        Faults: Unsynced, NotSealed, LastGeneration, OutOfRange; OtherReference: it isn't to this log. The replica is as it was then. At Memory, and an OpenFault of the log, it is gone:
        open it again from what is on the disk."""
        if self._begun:
            raise Fault("Unsynced")
        if not 0 <= me < reference.replicas:
            raise Fault("OutOfRange")
        if (reference.generation, reference.length) != (self._generation + 1, self._length):
            raise Fault("OtherReference")
        if log is not None:
            # (what a crash has left may look like a record, which the library alone tells)
            _told_of(log, told)
        checkpoint = self._core.succeed(reference, me, log)
        told = 0 if log is None else self._core.told_of(log, told)
        self._told, self._generation, self._length, self._end = told, reference.generation, 0, 0
        return checkpoint

    @_in_turn
    def end(self):
        """Ends it; what wasn't synced is gone."""
        self._core.end()

    def __enter__(self):
        return self

    def __exit__(self, *_):
        self.end()


class Checkpoint:
    """The file that a generation opens with, in pieces: `for piece in checkpoint: file.write(piece)`. Any thread may take them, whatever the replica does, whose map it shares. The last
    piece is the file's digest alone, 32 bytes. It keeps what is left of the generation before, until it goes."""

    PIECE = 1 << 16

    def __init__(self, calls, handle):
        self._calls, self._handle, self._lock = calls, handle, threading.Lock()

    @_in_turn
    def piece(self, most=PIECE):
        """The next piece: at most `most` bytes, or 189,004 where that is more, since no field is cut. None: all was given. (Fault Memory: the same call may succeed later.)"""
        lent = _STRUCTS["ep_bytes"]()
        status = self._calls.ep_checkpoint_next(self._handle, most, lent)
        if status in (_STATUSES["EP_NONE"], _STATUSES["EP_NO_CHECKPOINT"]):
            return None
        _Library.check(status)
        return _copied(lent)

    def __iter__(self):
        return iter(self.piece, None)

    @_in_turn
    def let_go(self):
        """Lets go what is left of the generation before, which goes with it else. That takes some time, in the thread that calls it."""
        self._calls.ep_checkpoint_rest(self._handle)

    @_in_turn
    def end(self):
        """Lets it go; it gives nothing more."""
        self._calls.ep_checkpoint_free(self._handle)

    def __del__(self):
        self._calls.ep_checkpoint_free(self._handle)


def _instance(instance):
    """A struct ep_instance of this one."""
    replica, number = instance
    _packed(">BH", replica, number)
    return _STRUCTS["ep_instance"](number, replica)


def _key(key):
    key = _run(key)
    if not 1 <= len(key) <= LONGEST_KEY:
        raise Fault("OutOfRange")
    return key


def _pair(fields):
    key, value = fields.number(1), fields.number(4)
    return fields.run(key), fields.run(value)


def _request(kind, body):
    return struct.pack(">IB", len(body) + 1, kind) + body


def _check(answer):
    """Raises what an answer refuses."""
    if answer[0] == 2:
        fields = _Fields(answer[1:])
        fault, instance = fields.number(1), fields.instance()
        raise Fault(FAULTS.get(fault, f"E{fault}"), instance if instance.number else None)
    if answer[0] == 7:
        raise Fault("OutOfRange")


# how many bytes a log begins with, before its first record
_HEADER = 43
# no entry has this number: behind it there is nothing to tell
_NOTHING = 0xFFFFFFFF
_BAD_ANSWER = "Ended: an answer isn't of the protocol"


def _entries(log):
    """How many records these bytes of a log have, all of which are whole, as the library has found them."""
    log, length, call = bytes(log), ctypes.c_uint64(), _loaded(_library()).ep_record
    begin, at, count = ctypes.cast(log, ctypes.c_void_p).value, _HEADER, 0
    while at < len(log) and call(ctypes.c_char_p(begin + at), len(log) - at, length) == _STATUSES["EP_DONE"]:
        at, count = at + length.value, count + 1
    return count


def _told_of(log, told):
    """How many entries of the log were told: so many, or all."""
    if not log:
        raise OpenFault("the log is empty")
    entries = _entries(log)
    if told is not None and told > entries:
        raise OpenFault(f"the log has {entries} entries, and {told} were told: it is an older one, and must not be gone on from")
    return entries if told is None else told


# tools/generate writes what follows, from bindings/c/epaxos.h.
_DECLARED = """
#define EP_VERSION 9
EP_DONE = 0
EP_MEMORY = 1
EP_OUT_OF_RANGE = 3
EP_SPACE_FULL = 4
EP_SEQ_EXHAUSTED = 5
EP_NOT_LEADING = 6
EP_TOO_FEW_ANSWERS = 7
EP_ALREADY_COMMITTED = 8
EP_BALLOTS_EXHAUSTED = 9
EP_NOT_COMMITTED = 10
EP_NOT_A_RUN = 11
EP_BAD_BUNDLE = 12
EP_NOT_MINE = 13
EP_BAD_FRAME = 14
EP_STAMP_FULL = 15
EP_NO_GENERATION = 16
EP_HAS_GENERATION = 17
EP_LEFT = 18
EP_OLDER = 19
EP_OTHER_FILE = 20
EP_BROKEN = 21
EP_NO_REPLICA = 32
EP_HAS_REPLICA = 33
EP_LENT = 34
EP_UNSYNCED = 35
EP_NOT_LENT = 36
EP_NOT_ALL = 37
EP_NONE = 38
EP_TOO_SHORT = 39
EP_NOT_ONE = 40
EP_REFUSED = 41
EP_NOT_SEALED = 42
EP_LAST_GENERATION = 43
EP_NO_PATIENCE = 44
EP_HAS_PATIENCE = 45
EP_UNTOLD = 46
EP_NO_CHECKPOINT = 30
EP_HAS_CHECKPOINT = 31
EP_NO_LOG = 48
EP_LOG_EXISTS = 49
EP_OTHER_LOG = 50
EP_NO_HEADER = 51
EP_OTHER_VERSION = 52
EP_OTHER_GENERATION = 53
EP_BAD_LENGTH = 54
EP_BAD_CHECKSUM = 55
EP_BAD_ENTRY = 56
EP_NOT_NEXT = 57
EP_TURNED = 58
EP_NOT_CLOCKED = 59
EP_OPENING_SHORT = 60
EP_OPENING_DAMAGED = 61
EP_OPENING_WRONG = 62
EP_OTHER_OPENING = 63
struct ep_replica { void *at; };
struct ep_patience { void *at; };
struct ep_bytes { const uint8_t *at; size_t len; };
struct ep_call { uint64_t seen; uint32_t client; uint32_t request; uint8_t has_spared; uint8_t spared; };
struct ep_checkpoint { void *at; };
struct ep_closed_log { struct ep_bytes sum; uint64_t length; uint32_t generation; uint8_t replicas; };
struct ep_exchange { struct ep_bytes expected; struct ep_bytes desired; uint8_t has_expected; uint8_t has_desired; };
struct ep_frame_head { uint32_t entry; uint32_t generation; uint32_t body_at; uint32_t body_len; uint16_t number; uint16_t ballot; uint16_t dependencies; uint8_t replica; uint8_t from; uint8_t to; uint8_t kind; uint8_t op; };
struct ep_held_generation { uint32_t number; uint32_t left_for; uint8_t has_opening; uint8_t has_reference; uint8_t is_bound; };
struct ep_instance { uint16_t number; uint8_t replica; };
struct ep_leading { uint8_t phase; uint8_t answers; };
struct ep_log_head { uint32_t generation; uint8_t replicas; uint8_t replica; };
struct ep_opening_head { uint64_t base_stamp; uint64_t map_at; uint32_t generation; uint32_t seal_len; uint32_t keys; uint8_t replicas; uint8_t has_seal; };
struct ep_opening_parts { struct ep_bytes seal; struct ep_bytes map; uint64_t base_stamp; uint32_t generation; uint8_t replicas; };
struct ep_pair { uint64_t len; uint32_t key_at; uint32_t key_len; uint32_t value_at; uint32_t value_len; };
struct ep_place { uint64_t at; uint64_t by; };
struct ep_reference_head { uint64_t length; uint32_t generation; uint8_t replicas; };
struct ep_setup { struct ep_bytes opening; struct ep_bytes log; uint8_t replicas; uint8_t replica; uint8_t is_new; };
struct ep_start_plan { uint32_t generation; uint8_t writes; uint8_t log; };
struct ep_start_wish { uint32_t generation; uint8_t kind; uint8_t is_same; };
struct ep_succession { struct ep_bytes digest; struct ep_bytes log; uint8_t replicas; uint8_t replica; uint8_t is_new; };
struct ep_touching { struct ep_bytes first; struct ep_bytes second; uint8_t has_second; uint8_t is_reading; };
struct ep_waits { uint64_t seed; uint32_t granularity; uint32_t initial; uint32_t told; uint32_t longest; uint8_t replicas; uint8_t replica; };
uint8_t ep_open(struct ep_replica *replica, const struct ep_setup *setup, struct ep_place *place);
uint8_t ep_cut(struct ep_replica *replica, struct ep_place *place);
uint8_t ep_free(struct ep_replica *replica);
uint8_t ep_propose_get(struct ep_replica *replica, const struct ep_call *call, const uint8_t *key, size_t key_len);
uint8_t ep_propose_put(struct ep_replica *replica, const struct ep_call *call, const uint8_t *key, size_t key_len, const uint8_t *value, size_t value_len);
uint8_t ep_propose_del(struct ep_replica *replica, const struct ep_call *call, const uint8_t *key, size_t key_len);
uint8_t ep_propose_swap(struct ep_replica *replica, const struct ep_call *call, const uint8_t *first, size_t first_len, const uint8_t *second, size_t second_len);
uint8_t ep_propose_cas(struct ep_replica *replica, const struct ep_call *call, const uint8_t *key, size_t key_len, const struct ep_exchange *exchange);
uint8_t ep_propose_opaque(struct ep_replica *replica, const struct ep_call *call, const struct ep_touching *touching, const uint8_t *body, size_t body_len);
uint8_t ep_propose_tx(struct ep_replica *replica, const struct ep_call *call, const uint8_t *body, size_t body_len);
uint8_t ep_propose_seal(struct ep_replica *replica, const struct ep_call *call, const uint8_t *value, size_t value_len);
uint8_t ep_handle(struct ep_replica *replica, const uint8_t *frame, size_t frame_len);
uint8_t ep_give_up(struct ep_replica *replica, struct ep_instance instance);
uint8_t ep_recover(struct ep_replica *replica, struct ep_instance instance);
uint8_t ep_advance(struct ep_replica *replica);
uint8_t ep_execute_all(struct ep_replica *replica);
uint8_t ep_execute(struct ep_replica *replica, struct ep_instance instance, struct ep_instance *waits_for);
uint8_t ep_ready(struct ep_replica *replica, struct ep_bytes *log, uint8_t *is_anew);
uint8_t ep_synced(struct ep_replica *replica, size_t count);
uint8_t ep_answers(struct ep_replica *replica, uint32_t told, uint8_t most, struct ep_bytes *answers);
uint8_t ep_prepare(struct ep_replica *replica, uint32_t told, uint8_t most);
uint8_t ep_answers_all(struct ep_replica *replica, uint32_t told, uint8_t most, struct ep_bytes *answers);
uint8_t ep_prepare_all(struct ep_replica *replica, uint32_t told, uint8_t most);
uint8_t ep_told(struct ep_replica *replica, struct ep_bytes *answers);
uint8_t ep_ask(struct ep_replica *replica, const uint8_t *request, size_t request_len);
uint8_t ep_get(struct ep_replica *replica, const uint8_t *key, size_t key_len, struct ep_bytes *value);
uint8_t ep_contents(struct ep_replica *replica, struct ep_bytes *contents);
uint8_t ep_handled(struct ep_replica *replica, uint8_t peer, uint32_t *entries);
uint8_t ep_next_open(struct ep_replica *replica, struct ep_instance above, struct ep_instance *instance);
uint8_t ep_leads(struct ep_replica *replica, struct ep_instance instance, struct ep_leading *leading);
uint8_t ep_close(struct ep_replica *replica, uint8_t replicas, struct ep_bytes *opening);
uint8_t ep_reference(const struct ep_closed_log *closed, uint8_t *out, size_t out_len, size_t *len);
uint8_t ep_binding(const uint8_t *reference, size_t reference_len, const uint8_t *opening, size_t opening_len, uint8_t *out, size_t out_len, size_t *len);
uint8_t ep_succeed(struct ep_replica *replica, struct ep_checkpoint *checkpoint, const struct ep_succession *succession, struct ep_place *place);
uint8_t ep_checkpoint_next(struct ep_checkpoint *checkpoint, size_t most, struct ep_bytes *piece);
uint8_t ep_checkpoint_rest(struct ep_checkpoint *checkpoint);
uint8_t ep_checkpoint_free(struct ep_checkpoint *checkpoint);
uint8_t ep_open_bound(struct ep_replica *replica, const uint8_t *opening, size_t opening_len, const struct ep_succession *succession, struct ep_place *place);
uint8_t ep_patience_begin(struct ep_patience *patience, const struct ep_waits *waits);
uint8_t ep_patience_free(struct ep_patience *patience);
uint8_t ep_patience_measure(struct ep_patience *patience, uint8_t peer, uint32_t took);
uint8_t ep_patience_reach(struct ep_patience *patience, uint8_t peer, uint8_t is_reached);
uint8_t ep_patience_hurry(struct ep_patience *patience);
uint8_t ep_patience_put_off(struct ep_patience *patience, struct ep_instance instance, uint16_t ballot, uint64_t now);
uint8_t ep_patience_turn(struct ep_patience *patience, uint64_t now, const uint8_t *instances, size_t instances_len, struct ep_bytes *late);
uint8_t ep_patience_due(struct ep_patience *patience, uint64_t *due);
uint8_t ep_frame_head(const uint8_t *frame, size_t frame_len, struct ep_frame_head *head);
uint8_t ep_opening_head(const uint8_t *opening, size_t opening_len, struct ep_opening_head *head);
uint8_t ep_check_opening(const uint8_t *opening, size_t opening_len, struct ep_place *place);
uint8_t ep_opening(const struct ep_opening_parts *parts, uint8_t *out, size_t out_len, size_t *len, struct ep_place *place);
uint8_t ep_read_reference(const uint8_t *reference, size_t reference_len, struct ep_reference_head *read, struct ep_place *place);
uint8_t ep_log_head(const uint8_t *log, size_t log_len, struct ep_log_head *head);
uint8_t ep_record(const uint8_t *records, size_t records_len, uint64_t *len);
uint8_t ep_pair(const uint8_t *pairs, size_t pairs_len, struct ep_pair *pair);
uint8_t ep_plan(const struct ep_held_generation *held, size_t held_len, const struct ep_start_wish *wish, struct ep_start_plan *plan, struct ep_place *place);
uint8_t ep_newest(const struct ep_held_generation *held, size_t held_len, uint32_t *newest);
uint8_t ep_first(const struct ep_held_generation *held, size_t held_len, uint32_t generation, uint32_t *first);
uint8_t ep_generation_in(const uint8_t *name, size_t name_len, uint32_t *generation);
uint32_t ep_left_in(const uint8_t *mark, size_t mark_len, uint32_t generation);
uint32_t ep_version(void);
uint8_t ep_first_opening(uint8_t replicas, uint8_t *out, size_t out_len, size_t *len);
uint8_t ep_sum(const uint8_t *bytes, size_t bytes_len, uint8_t *out, size_t out_len, size_t *len);
uint8_t ep_audit(const uint8_t *bundle, size_t bundle_len, uint8_t *out, size_t out_len, size_t *len);
"""
# What tools/generate writes ends here.
_NUMBERS = {"uint8_t": ctypes.c_uint8, "uint16_t": ctypes.c_uint16, "uint32_t": ctypes.c_uint32, "uint64_t": ctypes.c_uint64, "size_t": ctypes.c_size_t}
_STATUSES = {name: int(number) for name, number in re.findall(r"^(EP_\w+) = (\d+)$", _DECLARED, re.M)}
_STRUCTS = {}


def _type(words, is_field=False):
    """The type of a field or of a parameter that is declared so: `const uint8_t *key`."""
    name = re.fullmatch(r"(?:const )?(?:struct )?(\w+) (\*?)\w+", words)
    base, is_pointer = _NUMBERS.get(name[1]) or _STRUCTS.get(name[1]), name[2]
    if is_pointer and (is_field or words.startswith("const uint8_t")):
        return ctypes.c_void_p if is_field else ctypes.c_char_p
    return ctypes.POINTER(base) if is_pointer else base


for _name, _body in re.findall(r"^struct (\w+) \{ (.*); \};$", _DECLARED, re.M):
    _STRUCTS[_name] = type(_name, (ctypes.Structure,), {"_fields_": [(it.split()[-1].lstrip("*"), _type(it, True)) for it in _body.split("; ")]})


def _bytes(run):
    """A struct ep_bytes of these, which have to outlive it."""
    return _STRUCTS["ep_bytes"](ctypes.cast(run, ctypes.c_void_p), len(run))


def _copied(lent):
    return ctypes.string_at(lent.at, lent.len) if lent.len else b""


def _head_of(what, run):
    """What an opening or a log says in front, of which these are the first bytes; None where none begins so."""
    head = _STRUCTS[f"ep_{what}_head"]()
    status = getattr(_loaded(_library()), f"ep_{what}_head")(bytes(run), len(run), head)
    return None if status else head


def _copied_by(name, *words):
    """The status of a call that copies bytes, and these."""
    call, length, out = getattr(_loaded(_library()), name), ctypes.c_size_t(), (ctypes.c_uint8 * 0)()
    status = _STATUSES["EP_TOO_SHORT"]
    while status == _STATUSES["EP_TOO_SHORT"]:
        out = (ctypes.c_uint8 * length.value)()
        status = call(*words, ctypes.cast(out, ctypes.POINTER(ctypes.c_uint8)), len(out), length)
    return status, bytes(out)


# Why a call is refused, where that has no number of a fault's name.
_REFUSED = {
    _STATUSES[name]: fault
    for name, fault in {
        "EP_NO_REPLICA": "NoReplica",
        "EP_LENT": "Unsynced",
        "EP_UNSYNCED": "Unsynced",
        "EP_NOT_SEALED": "NotSealed",
        "EP_LAST_GENERATION": "LastGeneration",
    }.items()
}

# Why nothing is opened.
_UNOPENED = {
    "EP_MEMORY": "out of memory",
    "EP_OUT_OF_RANGE": "out of range",
    "EP_NO_LOG": "the log is empty",
    "EP_OTHER_LOG": "the log of another replica or cluster",
    "EP_NO_HEADER": "no header of a log",
    "EP_OTHER_VERSION": "a log of another version",
    "EP_OTHER_GENERATION": "a log of another generation",
    "EP_BAD_LENGTH": "bad length in the record at byte {at}",
    "EP_BAD_CHECKSUM": "bad checksum in the record at byte {at}",
    "EP_BAD_ENTRY": "no entry in the record at byte {at}",
    "EP_NOT_NEXT": "not the next entry in the record at byte {at}",
    "EP_TURNED": "damaged at byte {at}, which was on the disk by the record at byte {by}",
    "EP_NOT_CLOCKED": "entry {at} is not clocked",
    "EP_OPENING_SHORT": "the opening is cut short at byte {at}",
    "EP_OPENING_DAMAGED": "the opening is damaged, by the digest at byte {at}",
    "EP_OPENING_WRONG": "the opening's field at byte {at} is wrong",
    "EP_OTHER_OPENING": "the opening is for another number of replicas",
}


class _Library:
    """The core in this process. What it lends is copied, and freed by itself."""

    def __init__(self, replicas, me, opening, log, reference=None):
        self.calls, self.lent, self.begun, self.replicas = _loaded(_library()), 0, True, replicas
        if not (0 <= replicas < 256 and 0 <= me < 256):
            raise OpenFault(_UNOPENED["EP_OUT_OF_RANGE"])
        if opening is None:
            status, opening = _copied_by("ep_first_opening", replicas)
            self.opened(status, _STRUCTS["ep_place"]())
        # (no bytes are no opening; to the library they would be another version)
        if not opening:
            self.opened(_STATUSES["EP_OPENING_SHORT"], _STRUCTS["ep_place"]())
        setup = _STRUCTS["ep_setup"](_bytes(opening), _bytes(log or b""), replicas, me, log is None)
        self.replica, place = _STRUCTS["ep_replica"](), _STRUCTS["ep_place"]()
        # (why an opening is none the library tells as it opens)
        head = _head_of("opening", opening)
        if reference is None:
            self.opened(self.calls.ep_open(self.replica, setup, place), place)
        elif head and (reference.replicas, reference.generation) != (replicas, head.generation):
            raise OpenFault("the reference is that of another generation")
        else:
            digest = reference.digest
            self.opened(self.calls.ep_open_bound(self.replica, bytes(opening), len(opening), self.succession(reference, digest, me, log), place), place)

    @staticmethod
    def succession(reference, digest, me, log):
        """What a replica goes on as. (The digest has to outlive it.)"""
        return _STRUCTS["ep_succession"](_bytes(digest), _bytes(log or b""), reference.replicas, me, log is None)

    def succeed(self, reference, me, log):
        if self.lent:
            raise Fault("Unsynced")
        digest, checkpoint, place = reference.digest, _STRUCTS["ep_checkpoint"](), _STRUCTS["ep_place"]()
        status = self.calls.ep_succeed(self.replica, checkpoint, self.succession(reference, digest, me, log), place)
        if status == _STATUSES["EP_MEMORY"]:
            # (it may be there without its file)
            self.end()
        if status >= _STATUSES["EP_NO_LOG"]:
            self.opened(status, place)
        self.check(status)
        self.begun, self.replicas = True, reference.replicas
        return Checkpoint(self.calls, checkpoint)

    def told_of(self, log, told):
        """How many entries were told of the log that it was opened from: so many, or all."""
        place = _STRUCTS["ep_place"]()
        status = self.calls.ep_cut(self.replica, place)
        try:
            return _told_of(log[: len(log) - (0 if status == _STATUSES["EP_NONE"] else place.by)], told)
        except OpenFault:
            self.end()
            raise

    @staticmethod
    def opened(status, place):
        for name, why in _UNOPENED.items():
            if status == _STATUSES[name]:
                raise OpenFault(why.format(at=place.at, by=place.by))
        if status:
            raise OpenFault(f"the library answers status {status}")

    def call(self, name, *words):
        """Calls, and raises what is refused."""
        self.check(getattr(self.calls, name)(self.replica, *words))

    @staticmethod
    def check(status):
        if status:
            raise Fault(_REFUSED.get(status) or FAULTS.get(status, f"Ended: the library answers status {status}"))

    def act(self, name, *words):
        """A call by which it takes something."""
        if self.lent and not self.begun:
            raise Fault("Unsynced")
        self.call(name, *words)

    def handle(self, frame):
        self.act("ep_handle", frame, len(frame))

    def execute(self, instance):
        waits_for = _STRUCTS["ep_instance"]()
        try:
            self.act("ep_execute", instance, waits_for)
        except Fault as fault:
            if fault.name == "NotCommitted":
                raise Fault(fault.name, Instance(waits_for.replica, waits_for.number)) from None
            raise

    def propose(self, caller, command):
        """Proposes the command that these bytes spell."""
        client, request, seen, spared = caller
        call = _STRUCTS["ep_call"](seen, client, request, spared is not None, spared or 0)
        fields = _Fields(command)
        op, lengths, length = fields.number(1), (fields.number(1), fields.number(1)), fields.number(4)
        first, second = (fields.run(it) for it in lengths)
        body = fields.run(length)
        words = [first, len(first)]
        if op in (7, 8):
            touching = _STRUCTS["ep_touching"](_bytes(first), _bytes(second), bool(second), op == 7)
            words = [touching, body, len(body)]
        elif op == 6:
            parts = _Fields(body)
            expected, new = parts.part(), parts.part()
            words.append(_STRUCTS["ep_exchange"](_bytes(expected or b""), _bytes(new or b""), expected is not None, new is not None))
        elif op in (3, 9, 10):
            words = [*words * (op == 3), body, len(body)]
        elif op == 5:
            words += [second, len(second)]
        names = {2: "get", 3: "put", 4: "del", 5: "swap", 6: "cas", 7: "opaque", 8: "opaque", 9: "seal", 10: "tx"}
        self.act(f"ep_propose_{names[op]}", call, *words)

    def lend(self):
        lent, is_anew = _STRUCTS["ep_bytes"](), ctypes.c_uint8()
        self.call("ep_ready", lent, is_anew)
        self.begun &= lent.len == self.lent
        self.lent = lent.len
        return _copied(lent), bool(lent.len and is_anew.value)

    def sync(self):
        self.call("ep_synced", self.lent)
        self.lent = 0

    def prepare(self, told, most):
        self.call("ep_prepare", told, most)
        self.begun = True

    def release(self):
        self.begun = False
        return self.answers("ep_told")[-1]

    def tell(self, told, most):
        return self.answers("ep_answers", told, most)[-1]

    def answers(self, name, *words):
        """The answers that a call lends: the last one is what there is to tell. (Before it may stand one to a request
        that was refused memory.)"""
        fields, answers = _Fields(self.lent_by(name, *words)), []
        while fields.at < len(fields.held):
            answers.append(fields.block())
        return answers

    def get(self, key):
        value = _STRUCTS["ep_bytes"]()
        status = self.calls.ep_get(self.replica, bytes(key), len(key), value)
        if status != _STATUSES["EP_NONE"]:
            self.check(status)
            return _copied(value)
        return None

    def ask(self, kind, body):
        """The answer to a request, of a replica all of whose entries are on the disk."""
        if self.lent:
            raise Fault("Unsynced")
        # (while something isn't on the disk this is refused: the answer would wait)
        self.get(b"-")
        request = _request(kind, body)
        self.call("ep_ask", request, len(request))
        return self.answers("ep_answers", _NOTHING, 0)[-2]

    def lent_by(self, name, *words):
        """What a call lends."""
        lent = _STRUCTS["ep_bytes"]()
        self.call(name, *words, lent)
        return _copied(lent)

    def contents(self):
        return self.lent_by("ep_contents")

    def handled(self, peer):
        entries = ctypes.c_uint32()
        if not 0 <= peer < self.replicas:
            raise Fault("OutOfRange")
        self.call("ep_handled", peer, entries)
        return entries.value

    def close(self, replicas):
        return self.lent_by("ep_close", *struct.unpack(">B", _packed(">B", replicas)))

    def end(self):
        self.calls.ep_free(self.replica)

    def __del__(self):
        if hasattr(self, "replica"):
            self.end()


class Patience:
    """Tells when to give up and when to recover: the library's, which is proved. Times are numbers of a clock of yours; count in microseconds, by which the waits are
    that stand here (`granularity` and `initial` are those of RFC 6298).

        patience = Patience(3, 0, seed=7)
        patience.measure(1, took)                        # an answer of peer 1 to an own proposal took so long, whose frame was sent once; or to a message of yours
        patience.reach(1, False)                         # its connection is lost
        for kind, instance in patience.turn(now, output.open): ..      # replica.give_up(instance) where kind is GIVE_UP, else replica.recover(instance)
    """

    def __init__(self, replicas, me, seed, granularity=100_000, initial=1_000_000, told=1_500_000, longest=20_000_000):
        self.calls = _loaded(_library())
        if not 0 <= me < replicas < 256:
            raise Fault("OutOfRange")
        waits = _STRUCTS["ep_waits"](seed % 2**64, granularity, initial, told, longest, replicas, me)
        # (whom an own proposal spares that names none)
        self.usual = (me - 1) % replicas
        self.patience = _STRUCTS["ep_patience"]()
        self.call("ep_patience_begin", waits)

    def call(self, name, *words):
        _Library.check(getattr(self.calls, name)(self.patience, *words))

    def measure(self, peer, took):
        self.call("ep_patience_measure", *struct.unpack(">BI", _packed(">BI", peer, took)))

    def reach(self, peer, is_reached):
        self.call("ep_patience_reach", *struct.unpack(">BB", _packed(">BB", peer, bool(is_reached))))

    def hurry(self):
        self.call("ep_patience_hurry")

    def put_off(self, instance, ballot, now):
        """A Prepare or an Accept of this instance was sent or handled here, at a ballot of this counter."""
        self.call("ep_patience_put_off", _STRUCTS["ep_instance"](instance[1], instance[0]), ballot, now)

    def turn(self, now, open, told=()):
        """A turn at this time, at which just these are open, and a peer tells that these instances are committed: what the replica is to be asked for."""
        all = {Instance(*it): (TOLD, 0, 0) for it in told}
        all |= {Instance(*it.instance): (it.phase, it.answers, self.usual if it.spared is None else it.spared) for it in open}
        bytes_of = b"".join(_packed(">BHIBBB", *instance, 0, *how) for instance, how in sorted(all.items()))
        late = _STRUCTS["ep_bytes"]()
        self.call("ep_patience_turn", now, bytes_of, len(bytes_of), late)
        return [(kind, Instance(replica, number)) for kind, replica, number in struct.iter_unpack(">BBH", _copied(late))]

    def next_due(self):
        """When to have the next turn at the latest; None: nothing is waited for, or too few peers are reached."""
        due = ctypes.c_uint64()
        status = self.calls.ep_patience_due(self.patience, due)
        if status == _STATUSES["EP_NONE"]:
            return None
        _Library.check(status)
        return due.value

    def __del__(self):
        if hasattr(self, "patience"):
            self.calls.ep_patience_free(self.patience)


# What a turn asks for; and in the place of a phase, that a peer tells that an instance is committed.
GIVE_UP, RECOVER, TOLD = 3, 4, 4


@functools.cache
def _loaded(path):
    """The library at the path, with the types of its calls."""
    try:
        library = ctypes.CDLL(path)
        for result, name, words in re.findall(r"^(\w+) (\w+)\((.*)\);$", _DECLARED, re.M):
            call = getattr(library, name)
            call.restype, call.argtypes = _NUMBERS[result], [_type(it) for it in words.split(", ") if it != "void"]
    except (OSError, AttributeError) as error:
        raise OpenFault(f"there is no core: {error}") from None
    if f"EP_VERSION {library.ep_version()}\n" not in _DECLARED:
        raise OpenFault(f"there is no core: {path} is of another version")
    return library


def _library():
    """Where the library is: in the folder that is named, or beside this file, as in a release, or where a build puts it, the proved one first."""
    named = os.environ.get("EPAXOS_LIBRARY")
    places = [named] if named else [HERE, f"{TOP}/out", f"{TOP}/out/unproved", f"{sys.prefix}/lib"]
    for it in places:
        if os.path.isfile(f"{it}/libepaxos.so"):
            return f"{it}/libepaxos.so"
    raise OpenFault("there is no core: no libepaxos.so; ./epaxos --build --unproved, at the top of its repository, makes one in minutes")
