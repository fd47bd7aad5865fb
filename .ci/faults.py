"""Scripts that `epaxos explain` tells the faults of, and text that it is given for a bundle: as dictionaries of a row's parts.

What is wanted is written out from docs/CLI.md: lines, words, numbers and ranges by section 4, and how a fault is told by section 5.2."""

S = b"replicas 3\n"
# what is reported of text that is no bundle, before what it is
TEXT = "bundle refused E12 at byte 0\n  do: give explain a bundle, as `epaxos replay --emit bundle` and `epaxos collect` write it, or a script\n  likely: another file or another program's output was given\n  found: "
BOTH = "replay"


def told(line, rest, size="line 1", taken=BOTH):
    """What is reported of a line that is refused, behind its number."""
    cluster = f"  {size}: there are 3 replicas, 0 to 2\n" if size else ""
    return f"script refused at line {line}\n  line {line}{rest}\n{cluster}  read as a script for {taken}; docs/CLI.md, section 4, has all lines\n"


def replay(line):
    return f"replay, by line {line}"


def run(line):
    return f"run, by line {line}"


def firsts():
    """Faults of the first line, and of the line after the last one."""
    yield "comments alone", b"# nothing\n", told(2, ": the script is over, and has no line replicas N, with N 3, 5 or 7", None)
    yield "no replicas", b"# a put\npropose 0 1 put x 1\nflush\n", told(2, ", word 1: propose isn't replicas: the first line is replicas 3, replicas 5 or replicas 7", None, replay(3))
    yield "no number of replicas", b"replicas\nflush\n", told(1, ", word 2: nothing stands here: how many replicas there are, 3, 5 or 7", None, replay(2))
    yield "four replicas", b"replicas 4\n", told(1, ", word 2: 4 is out of range: how many replicas there are, 3, 5 or 7", None)
    yield "replicas in letters", b"replicas five\n", told(1, ", word 2: five is no number: how many replicas there are, 3, 5 or 7", None)
    yield "a word behind the replicas", b"replicas 3 5\n", told(1, ", word 3: 5 is one word more than the line has: replicas N", None)
    yield "replicas in capitals", b"Replicas 3\npropose 0 1 put x 1\n", told(1, ", word 1: Replicas isn't replicas: the first line is replicas 3, replicas 5 or replicas 7", None)
    for word in ("Replicas", "REPLICAS", "replica", "replcas", "rreplicas", "replikas", "replicsa"[:7] + "s"):
        yield f"{word} alone", f"{word} 3\n".encode(), told(1, f", word 1: {word} isn't replicas: the first line is replicas 3, replicas 5 or replicas 7", None)
    mark = "%ef%bb%bf"
    yield "a byte order mark", b"\xef\xbb\xbfreplicas 3\npropose 0 1 put x 1\n", told(1, f", word 1: {mark}replicas begins with a byte order mark: scripts have none", None)
    yield "a byte order mark, and nothing else", b"\xef\xbb\xbfreplicas 3\n", told(1, f", word 1: {mark}replicas begins with a byte order mark: scripts have none", None)
    yield "a comment behind the replicas", b"replicas 3 # three\n", told(1, ", word 3: # is one word more than the line has: replicas N; comments stand on lines of their own", None)
    yield "replicas twice", S + b"\nreplicas 3\n", told(3, ", word 1: replicas stands once, before all other lines")


def words():
    """Words that don't stand there, and words that are missing or too many."""
    yield "another command", S + b"propose 0 1 set x 1\n", told(2, ", word 4: set is no command: get, put, del or swap")
    yield "another line", S + b"flush\nexecutes 0 0.1\n", told(3, ", word 1: executes is unknown; a line begins with propose, giveup, recover, execute, deliver or flush", taken=replay(2))
    yield "a section in a replay", S + b"flush\nsection\n", told(3, ", word 1: section is a line of run alone: here may stand propose, giveup, recover, execute, deliver or flush", taken=replay(2))
    yield "a flush in a run", S + b"section\nflush\n", told(3, ", word 1: flush is a line of replay alone: here may stand propose, giveup, recover, section, drop, hold or repeat", taken=run(2))
    yield "another line of a run", S + b"section\nlose 0 1 1\n", told(3, ", word 1: lose is unknown; a line begins with propose, giveup, recover, section, drop, hold or repeat", taken=run(2))
    yield "no client", S + b"propose 0\n", told(2, ", word 3: nothing stands here: a client, 1 to 4294967295")
    yield "no command", S + b"propose 0 1\n", told(2, ", word 4: nothing stands here: a command, get, put, del or swap")
    yield "no value", S + b"propose 0 1 put x\n", told(2, ", word 6: nothing stands here: a value")
    yield "a get with a value", S + b"propose 0 1 get x 1\n", told(2, ", word 6: 1 is one word more than the line has: propose R C get K")
    yield "a flush with a number", S + b"flush 2\n", told(2, ", word 2: 2 is one word more than the line has: flush", taken=replay(2))
    yield "a zero byte", S + b"flush \0\n", told(2, ", word 2: %00 is one word more than the line has: flush", taken=replay(2))
    yield "a form feed", S + b"\x0cpropose 0 1 put x 1\n", told(2, ", word 1: %0cpropose is unknown; a line begins with propose, giveup, recover, execute, deliver or flush")
    yield "a comment behind a command", S + b"propose 0 1 get x #one\n", told(2, ", word 6: #one is one word more than the line has: propose R C get K; comments stand on lines of their own")
    yield "a section with a name", S + b"section one\n", told(2, ", word 2: one is one word more than the line has: section", taken=run(2))
    yield "a deliver of nothing", S + b"deliver\n", told(2, ", word 2: nothing stands here: a message, 1 to 4294967295", taken=replay(2))


def numbers():
    """Numbers that are none, or out of their range."""
    yield "a replica too high", S + b"propose 3 1 put x 1\n", told(2, ", word 2: 3 is out of range: a replica, 0 to 2")
    yield "a replica in letters", S + b"propose zero 1 put x 1\n", told(2, ", word 2: zero is no number: a replica, 0 to 2")
    yield "client 0", S + b"propose 0 0 put x 1\n", told(2, ", word 3: 0 is out of range: a client, 1 to 4294967295")
    yield "a number of 11 digits", S + b"propose 0 12345678901 put x 1\n", told(2, ", word 3: 12345678901 is too long; expected a client, 1 to 4294967295")
    yield "message 0", S + b"deliver 1 0\n", told(2, ", word 3: 0 is out of range: a message, 1 to 4294967295", taken=replay(2))
    yield "an instance without a dot", S + b"execute 0 1\n", told(2, ", word 3: 1 is no instance: R.I, a replica R, a dot and a number I, 1 to 2000", taken=replay(2))
    yield "an instance with two dots", S + b"execute 0 0.1.1\n", told(2, ", word 3: 0.1.1 is no instance: R.I, a replica R, a dot and a number I, 1 to 2000", taken=replay(2))
    yield "an instance of no replica", S + b"giveup 0 3.1\n", told(2, ", word 3: 3.1 is out of range: the replica before its dot, 0 to 2")
    yield "an instance too high", S + b"recover 0 1.2001\n", told(2, ", word 3: 1.2001 is out of range: the number behind its dot, 1 to 2000")
    yield "an instance too high, of version 3", S + b"generation 1\nrecover 0 1.9001\n", told(3, ", word 3: 1.9001 is out of range: the number behind its dot, 1 to 9000")
    yield "no instance, of version 3", S + b"generation 1\ngiveup 0 1\n", told(3, ", word 3: 1 is no instance: R.I, a replica R, a dot and a number I, 1 to 9000")


def keys():
    """Keys and values."""
    yield "an escape that is none", S + b"propose 0 1 put a%zzb 1\n", told(2, ", word 5: a%zzb has %zz, which is no escape: % and two hexadecimal digits; %- stands alone, for no bytes")
    yield "an odd byte", S + b"propose 0 1 put \xc3\xa9 1\n", told(2, ", word 5: %c3%a9 has the byte c3: bytes outside 21 to 7e (hexadecimal) are written %c3")
    yield "an empty key", S + b"propose 0 1 get %-\n", told(2, ", word 5: %- spells 0 bytes: the length of a key, 1 to 255")
    yield "a key too long", S + b"propose 0 1 get " + b"k" * 256 + b"\n", told(2, ", word 5: " + "k" * 60 + "... spells 256 bytes: the length of a key, 1 to 255")
    yield "a value too long", S + b"propose 0 1 put k " + b"v" * 1025 + b"\n", told(2, ", word 6: " + "v" * 60 + "... spells 1025 bytes: the length of a value, 0 to 1024")
    yield "a swap of one key", S + b"propose 0 1 swap a %61\n", told(2, ", word 6: %61 spells the bytes of the first key: a swap has two different keys")


LATE = S + b"generation 1\n"


def generations():
    """Lines of version 3: where they stand, and their words."""
    place = ", word 1: generation stands once, as the first line behind replicas"
    yield "a generation twice", LATE + b"generation 2\n", told(3, place)
    yield "a generation behind a line", S + b"propose 0 1 put x 1\ngeneration 1\n", told(3, place)
    yield "generation 0", S + b"generation 0\n", told(2, ", word 2: 0 is out of range: a generation, 1 to 4294967295")
    yield "a generation and more", S + b"generation 1 2\n", told(2, ", word 3: 2 is one word more than the line has: generation G")
    early = "is a line of version 3: behind replicas stands generation G, and then such lines"
    yield "a stamp without a generation", S + b"since 7\n", told(2, f", word 1: since {early}")
    yield "an opening without a generation", S + b"opening x 1\n", told(2, f", word 1: opening {early}")
    late = "stands behind generation, before all lines of other kinds"
    yield "a stamp behind a line", LATE + b"propose 0 1 put x 1\nsince 7\n", told(4, f", word 1: since {late}")
    yield "an opening behind a line", LATE + b"flush\nopening x 1\n", told(4, f", word 1: opening {late}", taken=replay(3))
    yield "a stamp too high", LATE + b"since 281474976710655\n", told(3, ", word 2: 281474976710655 is out of range: a stamp, 0 to 281474976710654")
    yield "a stamp of 16 digits", LATE + b"since 0000000000000000\n", told(3, ", word 2: 0000000000000000 is too long; expected a stamp, 0 to 281474976710654")
    yield "a stamp twice", LATE + b"since 7\nopening x 1\nsince 7\n", told(5, ", word 1: since is the script's second line since, after line 3")
    yield "a key twice", LATE + b"opening x 1\nopening y 1\nopening %78 2\n", told(5, ", word 2: %78 spells a key that has a value already, by line 3")
    yield "an opening without a value", LATE + b"opening x\n", told(3, ", word 3: nothing stands here: a value")
    yield "an opening with no bytes for a key", LATE + b"opening %- 1\n", told(3, ", word 2: %- spells 0 bytes: the length of a key, 1 to 255")


def late():
    """Commands of version 3."""
    early = "is a command of version 3: here may stand get, put, del or swap; behind replicas, generation G makes the script one of version 3"
    for command in (b"cas x 1 2", b"ask x q", b"act x y q", b"seal n", b"tx get x"):
        word = command.split()[0].decode()
        yield f"{word} in version 2", S + b"propose 0 1 " + command + b"\n", told(2, f", word 4: {word} {early}")
    yield "another command of version 3", LATE + b"propose 0 1 set x 1\n", told(3, ", word 4: set is no command: get, put, del, swap, cas, ask, act, seal or tx")
    yield "no command of version 3", LATE + b"propose 0 1\n", told(3, ", word 4: nothing stands here: a command, get, put, del, swap, cas, ask, act, seal or tx")
    yield "a cas without what is new", LATE + b"propose 0 1 cas x 1\n", told(3, ", word 7: nothing stands here: a value")
    yield "a cas and more", LATE + b"propose 0 1 cas x 1 2 3\n", told(3, ", word 8: 3 is one word more than the line has: propose R C cas K E N")
    none = "has %!, which is no escape: % and two hexadecimal digits; %- stands alone, for no bytes"
    yield "none for a key", LATE + b"propose 0 1 cas %! 1 2\n", told(3, f", word 5: %! {none}")
    yield "none for a body", LATE + b"propose 0 1 ask x %!\n", told(3, f", word 6: %! {none}")
    yield "another line of version 3", LATE + b"flush\nexecutes 0 0.1\n", told(4, ", word 1: executes is unknown; a line begins with propose, sparing, giveup, recover, execute, deliver or flush", taken=replay(3))
    yield "a flush in a run of version 3", LATE + b"section\nflush\n", told(4, ", word 1: flush is a line of replay alone: here may stand propose, sparing, giveup, recover, section, drop, hold or repeat", taken=run(3))
    yield "a spared replica in version 2", S + b"sparing 1 propose 0 1 put x 1\n", told(2, ", word 1: sparing is a line of version 3: behind replicas, generation G makes the script one of version 3")
    yield "no spared replica", LATE + b"sparing\n", told(3, ", word 2: nothing stands here: the spared replica, 0 to 2")
    yield "a spared replica too high", LATE + b"sparing 3 propose 0 1 put x 1\n", told(3, ", word 2: 3 is out of range: the spared replica, 0 to 2")
    yield "nothing behind a spared replica", LATE + b"sparing 1\n", told(3, ", word 3: nothing stands here: propose: the line is sparing S propose R C COMMAND")
    yield "a recovery that spares one", LATE + b"sparing 1 recover 0 0.1\n", told(3, ", word 3: recover isn't propose: the line is sparing S propose R C COMMAND")
    yield "a replica that spares itself", LATE + b"sparing 00 propose 0 1 put x 1\n", told(3, ", word 4: 0 is the spared replica too: no replica spares itself")
    yield "no client behind a spared replica", LATE + b"sparing 1 propose 0\n", told(3, ", word 5: nothing stands here: a client, 1 to 4294967295")
    yield "another command behind a spared replica", LATE + b"sparing 1 propose 0 1 set x\n", told(3, ", word 6: set is no command: get, put, del, swap, cas, ask, act, seal or tx")
    yield "a get and more behind a spared replica", LATE + b"sparing 1 propose 0 1 get x 1\n", told(3, ", word 8: 1 is one word more than the line has: sparing S propose R C get K")
    yield "a swap of one key behind a spared replica", LATE + b"sparing 2 propose 0 1 swap a %61\n", told(3, ", word 8: %61 spells the bytes of the first key: a swap has two different keys")
    yield "an act of one key twice", LATE + b"propose 0 1 act x %78 q\n", told(3, ", word 6: %78 spells the bytes of the first key: such a command has two different keys")
    yield "an ask without a body", LATE + b"propose 0 1 ask x\n", told(3, ", word 6: nothing stands here: a body")
    yield "an ask and more", LATE + b"propose 0 1 ask x y q z\n", told(3, ", word 8: z is one word more than the line has: propose R C ask K K B")
    yield "a seal and more", LATE + b"propose 0 1 seal n m\n", told(3, ", word 6: m is one word more than the line has: propose R C seal V")


def many():
    """Commands over many keys."""
    items = "if K E, get K, put K V or del K"
    yield "a tx without items", LATE + b"propose 0 1 tx\n", told(3, f", word 5: nothing stands here: an item, {items}")
    yield "a tx of a swap", LATE + b"propose 0 1 tx swap x y\n", told(3, f", word 5: swap begins no item of tx: {items}")
    yield "an item and more", LATE + b"propose 0 1 tx get x y\n", told(3, f", word 7: y begins no item of tx: {items}")
    yield "a comment behind items", LATE + b"propose 0 1 tx get x # both\n", told(3, f", word 7: # begins no item of tx: {items}; comments stand on lines of their own")
    yield "an item without a key", LATE + b"propose 0 1 tx get x del\n", told(3, ", word 8: nothing stands here: a key")
    yield "a guard without a value", LATE + b"propose 0 1 tx if x\n", told(3, ", word 7: nothing stands here: a value")
    yield "an item of an empty key", LATE + b"propose 0 1 tx get %-\n", told(3, ", word 6: %- spells 0 bytes: the length of a key, 1 to 255")
    yield "a put of none", LATE + b"propose 0 1 tx put x %!\n", told(3, ", word 7: %! has %!, which is no escape: % and two hexadecimal digits; %- stands alone, for no bytes")
    one = "a key has at most one if, one get, and one put or del"
    yield "a key that is put and deleted", LATE + b"propose 0 1 tx put x 1 get x del %78\n", told(3, f", word 11: %78 spells a key that has such an item already, by word 6: {one}")
    yield "a key that is guarded twice", LATE + b"sparing 1 propose 0 1 tx if x 1 if x 1\n", told(3, f", word 11: x spells a key that has such an item already, by word 8: {one}")
    gets = b"".join(b" get k%d" % it for it in range(17))
    yield "17 keys that are told", LATE + b"propose 0 1 tx" + gets + b"\n", told(3, ", word 37: get is the 17th get: a tx tells at most 16 keys")
    dels = b"".join(b" del %c%c" % (48 + it % 64, 48 + it // 64) for it in range(1025))
    yield "1,025 keys", LATE + b"propose 0 1 tx" + dels + b"\n", told(3, ", word 2054: 0@ spells the 1025th key: a tx names at most 1024")


def weather():
    """Lines of a weather, and lines that are too long."""
    yield "a frame for itself", S + b"drop 1 1 1\n", told(2, ", word 3: 1 is the sender too: no replica puts a frame for itself", taken=run(2))
    yield "a frame held twice", S + b"drop 0 1 1\nsection\ndrop 0 1 1\npropose 0 1 put x 1\nhold 00 1 01\n", told(6, ", word 1: hold is the section's second line for this frame, after line 4", taken=run(2))
    yield "frame 0", S + b"repeat 0 1 0\n", told(2, ", word 4: 0 is out of range: the place of a frame, 1 to 4294967295", taken=run(2))
    yield "a line too long", S + b"# " + b"x" * 8191 + b"\n", told(2, ": a line has at most 8192 bytes, and this one has more")


def endless():
    """What gives bytes without an end, and what is reported of it."""
    yield "yes", "yes", TEXT + "text, of which no line near its beginning begins with a word of scripts, as replicas or propose\n"
    yield "yes replicas 3", "yes replicas 3", told(2, ", word 1: replicas stands once, before all other lines")
    yield "comments", "yes '#'", told(100001, ": a script has at most 100000 lines", None)
    yield "one line", "{ printf 'replicas 3\\n'; yes | tr -d '\\n'; }", told(2, ": a line has at most 8192 bytes, and this one has more")
    yield "zeros", "cat /dev/zero", """bundle refused E12 at byte 0
  do: copy the bundle again from where it was made, or make it anew from the logs by `epaxos collect`
  likely: the bundle was changed here, or a length or a count before this place was
  field: magic, in the header
  allowed: EPJB
  found: %00%00%00%00
"""
    yield "zeros behind a bundle", r"{ printf 'EPJB\x02\x03\0\0\0\0\0\0\0\0\0\x01\0\0\0\0\x02\0\0\0\0'; cat /dev/zero; }", """bundle refused E12 at byte 25
  do: copy the bundle again from where it was made, or make it anew from the logs by `epaxos collect`
  likely: something was appended to the bundle, or a count before this place was changed
  found: a byte or more after the last receipt, where the bundle is over
"""


def texts():
    """Text that is given for a bundle, and what it is."""
    yield "a report", b"verdict accepted\ncommitted 0\nhistory 0\nreceipts 0\nrefused 0\n", "a report, as replay, run and audit print it\n"
    yield "a trace", b"line 2  stamp 1  replica 0 entry 1  propose put x 1 (client 1 request 1 seen 0); took 0.1\n", "a trace, as trace prints it\n"
    yield "what is shown", b"stamp 1  replica 0 entry 1  execute 0.1\n", "entries in words, as show prints them\n"
    yield "nothing", b"", "nothing, as the input is empty\n"
    for order in ("le", "be"):
        for mark in ("", "\ufeff"):
            yield f"UTF-16{order}{' with its mark' if mark else ''}", f"{mark}replicas 3\npropose 0 1 put x 1\n".encode(f"utf-16-{order}"), "text in UTF-16; a script is in ASCII\n"
    yield "nearly replicas, behind another line", b"hello\nReplicas 3\n", "text, of which no line near its beginning begins with a word of scripts, as replicas or propose\n"
    for word in ("replisacs", "repla", "replicate", "replicasas"):
        yield f"{word} alone", f"{word} 3\n".encode(), "text, of which no line near its beginning begins with a word of scripts, as replicas or propose\n"
    yield "a letter", b"Dear replica,\n\nyours\n", "text, of which no line near its beginning begins with a word of scripts, as replicas or propose\n"


def every():
    """All of them."""
    for name, script, wanted in (*firsts(), *words(), *numbers(), *keys(), *generations(), *late(), *many(), *weather()):
        yield dict(name=f"explain a script: {name}", words=["explain"], given=script, wanted=wanted.encode(), status=2)
    for name, command, wanted in endless():
        yield dict(name=f"explain input without an end: {name}", words=["explain"], redirect=f"< <({command})", wanted=wanted.encode(), status=2)
    for name, given, what in texts():
        yield dict(name=f"explain text for a bundle: {name}", words=["explain"], given=given, wanted=(TEXT + what).encode(), status=2)
    for name, script, subcommand, more in (
        ("a proposal that spares one", LATE + b"sparing 1 propose 0 1 put x 1\n", "replay", ""),
        ("replay", S + b"propose 0 1 put x 1\nflush\n", "replay", ""),
        ("run", S + b"propose 0 1 put x 1\nsection\n", "run", "  replay refuses line 3, as section is a line of run alone\n"),
        ("both", S + b"propose 0 1 put x 1", "replay", ""),
        ("version 3", LATE + b"opening y 1\nsince 7\nopening x %-\npropose 0 1 cas x %- %!\npropose 1 2 seal n\nhold 0 1 1\nsection\n", "run", "  replay refuses line 8, as hold is a line of run alone\n"),
    ):
        yield dict(name=f"explain a script for {name}", words=["explain"], given=script, wanted=f"script read, for {subcommand}\n{more}".encode())
