"""Words, numbers, lines and sections, each in a script that is refused at a line or that has its report here; and what such a script leaves, shown.

What is wanted is written out from docs/FORMATS.md and docs/CLI.md."""

import drawing

NOTHING = dict(committed=[], history=[], receipts=[])
# instance 0.1 has `put x 1`, of client 1
ONE_PUT = dict(committed=["0.1 seq 1 deps - put x 1"], history=["0.1 put x 1 -> absent"], receipts=["client 1 request 1 0.1 absent"])
# a put, a swap, and a get of the swap's second key
SWAPPED = dict(
    committed=["0.1 seq 1 deps - put x 1", "0.2 seq 2 deps 0.1 swap x y", "0.3 seq 3 deps 0.2 get y"],
    history=["0.1 put x 1 -> absent", "0.2 swap x y -> present 1", "0.3 get y -> present 1"],
    receipts=["client 1 request 1 0.1 absent", "client 1 request 2 0.2 present 1", "client 1 request 3 0.3 present 1"],
)
# what a refused command line reports first and last
REFUSED, HELP = b"command line refused\nerror: ", b"\n\nFor more information, try '--help'.\n"


def text(committed, history, receipts, refused=(), lost=None):
    """A report of these lines; that of a run, where a number of lost frames is given."""
    placed = [f"{place} {it}" for place, it in enumerate(history, 1)]
    lines = ["verdict accepted"]
    for name, its in (("committed", committed), ("history", placed), ("receipts", receipts), ("refused", refused)):
        lines += [f"{name} {len(its)}", *its]
    return "".join(f"{it}\n" for it in [*lines, *([] if lost is None else [f"lost {lost}"])]).encode()


def named(script):
    """A script in one line of a name."""
    return repr(script)[2:-1]


# Scripts that `replay` refuses, and those that `run` refuses, each with the line
REFUSED_BY_REPLAY = (
    (b"replicas 4", 1),
    (b"replicas 3\r\r", 1),
    (b"replicas", 1),
    (b"replicas 3 3", 1),
    (b"replicas 3\nreplicas 3\n", 2),
    (b"flush\nreplicas 3\n", 1),
    (b"Replicas 3\n", 1),
    (b"replicas 3\nflush\nnothing\nflush now\n", 3),
    (b"replicas 3\nflush now\n", 2),
    (b"replicas 3\nexecute 0 0.0\n", 2),
    (b"replicas 3\nexecute 0 0.1.1\n", 2),
    (b"replicas 3\nexecute 0 01\n", 2),
    (b"replicas 3\nexecute 0\n", 2),
    (b"replicas 3\ndeliver\n", 2),
    (b"replicas 3\ndeliver 1 0\n", 2),
    (b"replicas 3\ndeliver -1\n", 2),
    (b"replicas 3\ndeliver 1a\n", 2),
    (b"replicas 3\ndeliver 00000000012\n", 2),
    (b"replicas 3\ndeliver 9999999999\n", 2),
    (b"replicas 3\nsection\n", 2),
    (b"replicas 3\n\n#\n\x0cflush\n", 4),
)
REFUSED_BY_RUN = (
    (b"", 1),
    (b"replicas 4", 1),
    (b"# x\n\n", 3),
    (b"section\nreplicas 3\n", 1),
    (b"replicas 3\nreplicas 3\n", 2),
    (b"replicas 3\nsection 1\n", 2),
    (b"replicas 3\nSection\n", 2),
    (b"replicas 3\nsections\n", 2),
    (b"replicas 3\nexecute 0 0.1\n", 2),
    (b"replicas 3\ndeliver 1\n", 2),
    (b"replicas 3\nflush\n", 2),
    (b"replicas 3\r\n\t\n# section\n section \r\n\tflush\n", 5),
    (b"replicas 3\nsection\nflush\nnothing\n", 3),
    # the weather
    (b"replicas 3\nrepeat 0 1 00000000001\n", 2),
    (b"replicas 3\nrepeat 0 1 -1\n", 2),
    (b"replicas 3\nsection\ndrop 1 1 1\n", 3),
    (b"replicas 3\nhold 1 1 2\n", 2),
    (b"replicas 3\nhold 2 02 7\n", 2),
    (b"replicas 3\ndrop 3 1 1\n", 2),
    (b"replicas 3\ndrop 1 3 1\n", 2),
    (b"replicas 3\ndrop 0 0.1 1\n", 2),
    (b"replicas 3\ndrop\n", 2),
    (b"replicas 3\nhold 0\n", 2),
    (b"replicas 3\nrepeat 0 1\n", 2),
    (b"replicas 3\nholds 0 1 1\n", 2),
    (b"drop 0 1 1\nreplicas 3\n", 1),
    (b"replicas 3\ndrop 1 0 1\nhold 1 0 0\nnothing\n", 3),
    (b"# x\nreplicas 3\n\n#\nrepeat 0 7 1\n", 5),
    # a frame that a line of the weather has named already
    (b"replicas 3\ndrop 0 1 1\ndrop 0 1 1\n", 3),
    (b"replicas 3\ndrop 0 1 1\nhold 0 1 01\n", 3),
    (b"replicas 3\nhold 0 1 7\npropose 0 1 get x\n\nrepeat 0 1 7\n", 5),
    (b"replicas 3\nrepeat 2 1 9\nhold 0 1 9\ndrop 2 1 9\nnothing\n", 4),
    (b"replicas 3\ndrop 0 1 1\nsection\nhold 0 1 1\nrepeat 0 1 1\n", 5),
    (b"replicas 3\nsection\ndrop 0 1 1\ndrop 0 1 2\ndrop 0 1 3\ndrop 0 1 2\n", 6),
    (b"replicas 3\ndrop 0 1 1\nnothing\ndrop 0 1 1\n", 3),
)
# Lines that both refuse, behind `replicas 3`
REFUSED_LINES = (
    b"propose 3 1 put x 1",
    b"propose 0 0 put x 1",
    b"propose 0 4294967296 put x 1",
    b"propose 0 00000000001 put x 1",
    b"propose 0 -1 put x 1",
    b"propose 0 1a put x 1",
    b"propose 0 1 put %- 1",
    b"propose 0 1 put x%- 1",
    b"propose 0 1 put x",
    b"propose 0 1 get x 1",
    b"propose 0 1 noop",
    b"propose 0 1",
    b"giveup 0",
    b"giveup 0 0.1 1",
    b"giveup 0 0.2001",
    b"giveup 0 0.0",
    b"recover 3 0.1",
    b"recover 0 2.2001",
    b"recover 0 3.1",
    b"recover 2 1.2001",
    b"recover 2 1.67536",
    # values that are no words of bytes
    b"propose 0 1 put x %",
    b"propose 0 1 put x %2",
    b"propose 0 1 put x %2g",
    b"propose 0 1 put x %-%-",
    b"propose 0 1 put x x%-",
    b"propose 0 1 put x %-x",
    b"propose 0 1 put x a b",
    b"propose 0 1 put x \x7f",
    # swaps
    b"propose 0 1 swap x x",
    b"propose 0 1 swap x %78",
    b"propose 0 1 swap a%fF a%Ff",
    b"propose 0 1 swap",
    b"propose 0 1 swap x",
    b"propose 0 1 swap x y z",
    b"propose 0 1 swap x y y",
    b"propose 0 1 swap %- y",
    b"propose 0 1 swap x %-",
    b"propose 0 1 swap %- %-",
    b"propose 0 1 swap x% y",
    b"propose 0 1 swap x %7",
    b"propose 0 1 swap x y\x7f",
    b"propose 0 1 Swap x y",
    b"propose 0 1 swaps x y",
    b"propose 3 1 swap x y",
    b"propose 0 0 swap x y",
    b"propose 0 swap x y",
    b"swap x y",
)


def refused():
    """Names of scripts, what refuses them, the scripts, and the lines at which they are refused."""
    for subcommand, scripts in (("replay", REFUSED_BY_REPLAY), ("run", REFUSED_BY_RUN)):
        for script, line in scripts:
            yield f"{subcommand} refuses {named(script)}", subcommand, script, line
    for subcommand in ("replay", "run"):
        for line in REFUSED_LINES:
            yield f"{subcommand} refuses the line {named(line)}", subcommand, b"replicas 3\n" + line, 2
        for first, second, what in (
            (b"x" * 255, b"x" * 255, "the same key of 255 bytes twice"),
            (b"%78" * 255, b"x" * 255, "the same key of 255 bytes twice, once escaped"),
            (b"x" * 256, b"y", "a first key of 256 bytes"),
            (b"x", b"y" * 256, "a second key of 256 bytes"),
            (b"%00" * 256, b"%01" * 255, "a first key of 256 escaped bytes"),
        ):
            yield f"{subcommand} refuses a swap of {what}", subcommand, b"replicas 3\npropose 0 1 swap %b %b" % (first, second), 2
        for length, end in ((8192, b"\r\r\n"), (8193, b""), (8193, b"\r\n"), (20_000, b"\nfault")):
            yield f"{subcommand} refuses a line of {length:,} bytes and {named(end)}", subcommand, b"replicas 3\n" + b"#" * length + end, 2
        for end in (b"#", b"section"):
            yield f"{subcommand} refuses 100,000 lines and {named(end)}", subcommand, b"replicas 3\n" + b"\n" * 99_999 + end, 100_001
    # (a section may have as many lines of weather as a script has lines)
    yield "run refuses a second line for a frame of 99,998", "run", weathered(99_998) + b"drop 0 1 1\n", 100_000
    yield "run refuses a line behind 99,999 lines of weather", "run", weathered(99_999) + b"#", 100_001


def weathered(count):
    """A script of one section with so many lines of weather."""
    return b"replicas 3\n" + b"".join(b"hold 0 1 %06d\n" % it for it in range(1, count + 1))


# Commands, proposed at a replica by a client in a cluster: the line, the instance that the command takes, and the command as it is printed
PROPOSALS = (
    (3, b"propose 2 4294967295 put x %-", "2.1", "put x %-"),
    (5, b"propose 3 1 put x 1", "3.1", "put x 1"),
    (7, b"propose 6 1 del x", "6.1", "del x"),
    (3, b"propose 0 1 get x", "0.1", "get x"),
    (3, b"propose 0 1 del x", "0.1", "del x"),
    (3, b"propose 0 0000000012 put x1~! x1~!", "0.1", "put x1~! x1~!"),
    (3, b"propose 0 1 put a%20b%25%00%7F%fF -", "0.1", "put a%20b%25%00%7f%ff -"),
    (3, b"propose 0 1 put %78 a%20b%25%00%7F%fF", "0.1", "put x a%20b%25%00%7f%ff"),
    (3, b"propose 0 1 swap x y", "0.1", "swap x y"),
    (3, b" propose\t2 4294967295\tswap  y\tx \r", "2.1", "swap y x"),
    (3, b"propose 0 1 swap x xx", "0.1", "swap x xx"),
    (3, b"propose 0 1 swap x X", "0.1", "swap x X"),
    (3, b"propose 0 1 swap %00 %ff", "0.1", "swap %00 %ff"),
    (3, b"propose 0 1 swap %25 %2d", "0.1", "swap %25 -"),
    (3, b"propose 1 7 swap k%20 %00v", "1.1", "swap k%20 %00v"),
    (3, b"propose 0 1 swap " + b"x" * 255 + b" " + b"y" * 255, "0.1", f"swap {'x' * 255} {'y' * 255}"),
    (3, b"propose 0 1 swap " + b"x" * 255 + b" " + b"x" * 254, "0.1", f"swap {'x' * 255} {'x' * 254}"),
    (3, b"propose 0 1 swap " + b"%00" * 255 + b" " + b"%01" * 255, "0.1", f"swap {'%00' * 255} {'%01' * 255}"),
)
# Give-ups and recoveries in an idle cluster: the line, what a replay lists as refused, and the no-op that a run commits
ALONE = (
    (b"giveup 0 0.1", ["line 2 E6 not leading"], []),
    (b"giveup 0 0.1001", ["line 2 E6 not leading"], []),
    (b"giveup 0 0.2000", ["line 2 E6 not leading"], []),
    (b"recover 0 2.2000", [], ["2.2000 seq 1 deps - noop"]),
    (b"recover 2 1.0000002000", [], ["1.2000 seq 1 deps - noop"]),
)
# Lines and bytes behind `replicas 3` that say nothing
SAYS_NOTHING = (
    ("no line feed at the end", b"replicas 3"),
    ("a line of 8,192 bytes", b"replicas 3\n" + b"#" * 8192),
    ("a line of 8,192 bytes and a return", b"replicas 3\n" + b"#" * 8192 + b"\r"),
    ("a line of 8,192 bytes, a return and a line feed", b"replicas 3\n" + b"#" * 8192 + b"\r\n"),
    ("a return and no line feed at the end", b"replicas 7\r"),
    ("comments and lines of blanks", b"# x\n\n\t \r\n #\n replicas\t5 \r\n"),
)


def proposed():
    """Names of scripts with one proposal, the scripts, and what comes of them."""
    for size, line, instance, command in PROPOSALS:
        client = int(line.split()[2])
        name = f"replicas {size}, {named(line)}" if len(line) < 80 else f"a swap of keys of {' and '.join(str(len(it)) for it in line.split()[4:])} bytes as spelled"
        left = dict(committed=[f"{instance} seq 1 deps - {command}"], history=[f"{instance} {command} -> absent"], receipts=[f"client {client} request 1 {instance} absent"])
        yield name, b"replicas %d\n%b\n" % (size, line), instance, left


def flushed(*lines):
    """A script for three replicas in which all messages are given behind each line."""
    return b"".join(b"%b\n%b" % (it, b"flush\n" * 3) for it in lines)


def played():
    """Names, scripts for a replay, and their reports."""
    for name, script, instance, left in proposed():
        executed = f"flush\nflush\nexecute {instance[0]} {instance}\n".encode()
        yield f"{name}, played", script + executed, text(**left)
    for line, listed, _ in ALONE:
        yield f"{named(line)}, played", b"replicas 3\n" + line, text(**NOTHING, refused=listed)
    for name, script in SAYS_NOTHING:
        yield f"{name}, played", script, text(**NOTHING)
    for messages in ("1 2 3", "3 1 2", "0000000012", "4294967295"):
        listed = [f"line 2 E18 no such message {int(it)}" for it in messages.split()]
        yield f"deliver {messages} before any is sent", f"replicas 3\ndeliver {messages}\n".encode(), text(**NOTHING, refused=listed)
    yield "line 100,000", b"replicas 3\n" + b"\n" * 99_998 + b"deliver 1", text(**NOTHING, refused=["line 100000 E18 no such message 1"])
    # message 1 is the PreAccept, 2 and 3 the Prepares; the leader has no answer yet when it gives up
    each = b"# one line of each kind\nreplicas 3\npropose 0 1 put k%20 v\n\ngiveup 0 0.1\nrecover 1 0.2\nexecute 2 1.3\ndeliver 2 1\nflush"
    listed = ["line 5 E7 too few answers", "line 7 E10 not committed 1.3"]
    yield "one line of each kind", each, text(**(NOTHING | dict(committed=["0.1 seq 1 deps - put k%20 v"])), refused=listed)
    yield "what a flush gives, played", GIVEN, text(**ONE_PUT, refused=["line 2 E18 no such message 1", "line 5 E10 not committed 0.1", "line 10 E18 no such message 5"])
    yield "keys and values of bytes that are escaped", *escaped()
    yield "keys of swaps that are escaped", *swapped()
    yield "a request behind 2,001 others", *counted()


# Message 1 is asked for before it is sent. The first flush gives it, the second one its answer, the third one the Commits, 3 and 4, and the last one none.
GIVEN = b"replicas 3\ndeliver 1\npropose 0 1 put x 1\nflush\nexecute 0 0.1\nflush\nexecute 0 0.1\nflush\nflush\ndeliver 5\n"


def escaped():
    """Puts on one key by one client, with bytes that are escaped, and gets of another key between them; a replica with instances 2 and 12 in the dependencies."""
    own = {2: b"put %25%0A %-", 12: b"put %25%0a %fF%7E"}
    script = b"replicas 3\n" + b"".join(b"propose 0 4294967295 %b\n" % own.get(it, b"get y") for it in range(1, 13)) + b"flush\n" * 3
    script += flushed(b"propose 1 4294967295 put %25%0A ~%00", b"propose 2 4294967295 del %25%0a") + b"execute 2 2.1\n"
    gets = [f"0.{it} seq 1 deps - get y" for it in range(3, 12)]
    return script, text(
        committed=[
            "0.1 seq 1 deps - get y",
            "0.2 seq 1 deps - put %25%0a %-",
            *gets,
            "0.12 seq 2 deps 0.2 put %25%0a %ff~",
            "1.1 seq 3 deps 0.2,0.12 put %25%0a ~%00",
            "2.1 seq 4 deps 0.2,0.12,1.1 del %25%0a",
        ],
        history=["0.2 put %25%0a %- -> absent", "0.12 put %25%0a %ff~ -> present %-", "1.1 put %25%0a ~%00 -> present %ff~", "2.1 del %25%0a -> present ~%00"],
        receipts=["client 4294967295 request 14 2.1 present ~%00"],
    )


def swapped():
    """Three swaps, of which the first one shares a key with each of the others."""
    script = flushed(b"propose 0 1 swap a%20b %25-", b"propose 1 2 swap ~%FF %25%2d", b"propose 2 3 swap !%00 a%20b")
    return b"replicas 3\n" + script + b"execute 2 2.1\nexecute 2 1.1\n", text(
        committed=["0.1 seq 1 deps - swap a%20b %25-", "1.1 seq 2 deps 0.1 swap ~%ff %25-", "2.1 seq 2 deps 0.1 swap !%00 a%20b"],
        history=["0.1 swap a%20b %25- -> absent", "2.1 swap !%00 a%20b -> absent", "1.1 swap ~%ff %25- -> absent"],
        receipts=["client 3 request 1 2.1 absent"],
    )


def counted():
    """Gets by one client: one more at replica 0 than it has numbers, which keeps its request's number, and then one at replica 1."""
    script = b"replicas 3\n" + b"propose 0 7 get x\n" * 2001 + flushed(b"propose 1 7 get x") + b"execute 1 1.1\n"
    committed = [*[f"0.{it} seq 1 deps - get x" for it in range(1, 2001)], "1.1 seq 1 deps - get x"]
    return script, text(committed, ["1.1 get x -> absent"], ["client 7 request 2002 1.1 absent"], ["line 2002 E4 space full"])


TWO_SECTIONS = dict(
    committed=["0.1 seq 1 deps - put x 1", "2.1 seq 2 deps 0.1 get x"],
    history=["0.1 put x 1 -> absent", "2.1 get x -> present 1"],
    receipts=["client 1 request 1 0.1 absent", "client 1 request 2 2.1 present 1"],
)
# Scripts for a run that say nothing but weather, of which no frame is
WEATHER_ALONE = (
    b"drop 0 1 1\n",
    b"hold 2 0 4294967295\n",
    b" repeat\t1 2 0000000001\r\n",
    b"drop 0 1 1\ndrop 1 0 1\nhold 0 2 1\nhold 0 1 2\nrepeat 2 1 1\n",
    b"drop 0 1 1\ndrop 0 1 11\ndrop 0 1 10\ndrop 0 1 101\n",
    b"drop 0 1 1\nsection\ndrop 0 1 1\n",
    b"drop 0 1 1\nsection\nsection\nhold 0 1 1\nsection\nrepeat 0 1 1\n",
    b"drop 0 1 1\n# drop 0 1 1\n",
)


def hosted():
    """Names, words of `run`, scripts, and their reports, of which any one may come."""
    for name, script, _, left in proposed():
        yield name, [], script, [text(**left, lost=0)]
    for line, listed, noop in ALONE:
        yield named(line), [], b"replicas 3\n" + line, [text(**(NOTHING | dict(committed=noop)), refused=listed, lost=0)]
    for name, script in (*SAYS_NOTHING, ("a section", b"replicas 3\nsection\n"), ("100,000 lines", b"replicas 3\n" + b"\n" * 99_998 + b"section")):
        yield name, [], script, [text(**NOTHING, lost=0)]
    for lines in WEATHER_ALONE:
        yield f"weather alone, {named(lines)}", [], b"replicas 3\n" + lines, [text(**NOTHING, lost=0)]
    yield "weather alone, of five replicas", [], b"replicas 5\ndrop 1 3 1\n", [text(**NOTHING, lost=0)]
    for name, end in (("no section at the end", b""), ("a comment at the end", b"\n# end\n\n")):
        yield f"two sections, {name}", [], b"replicas 3\npropose 0 1 put x 1\nsection\npropose 2 1 get x" + end, [text(**TWO_SECTIONS, lost=0)]
    directed = b"replicas 5\nsection\ngiveup 4 0.12\n\nrecover 1 4.2000\nsection\nsection\nsection\n# no line\n"
    yield "sections without a line", [], directed, [text(["4.2000 seq 1 deps - noop"], [], [], ["line 3 E6 not leading"], 0)]
    # of the weather only the second line has a frame, a Commit
    each = b"replicas 3\nrepeat 2 1 12\ndrop 0 2 1\npropose 0 1 put x 1\nhold 1 0 4294967295\nsection\nsection\nhold 2 1 0012"
    yield "weather of each kind", [], each, [text(**ONE_PUT, lost=0)]
    yield "a put, a swap and a get in one section", [], b"replicas 3\npropose 0 1 put x 1\npropose 0 1 swap x y\npropose 0 1 get y\n", [text(**SWAPPED, lost=0)]
    listed = ["line 2 E6 not leading", "line 4 E6 not leading", "line 6 E8 already committed"]
    yield "lines refused in two sections", [], b"replicas 5\ngiveup 4 0.1\npropose 0 1 put x 1\ngiveup 2 1.1\nsection\nrecover 0 0.1\n", [text(**ONE_PUT, refused=listed, lost=0)]
    yield "a client at two replicas", [], b"replicas 3\npropose 1 9 put x 1\npropose 0 9 put y 2\nsection\npropose 1 9 put z 3\n", of_two_replicas()
    # the held frames come when all else is done: the first one fills the queue
    lines = b"".join(b"hold 0 1 %d\npropose 0 1 put %c 1\n" % (it, 96 + it) for it in range(1, 6))
    one = dict(committed=["0.1 seq 1 deps - put a 1"], history=["0.1 put a 1 -> absent"], receipts=["client 1 request 1 0.1 absent"])
    yield "five held frames at capacity 1", ["--capacity", "1"], b"replicas 3\n" + lines, [text(**one, lost=4)]
    for turns in ("0010000000", "1"):
        yield f"--turns {turns}", ["--turns", turns], b"replicas 3\npropose 0 1 put x 1\n" + b"section\n" * 8, [text(**ONE_PUT, lost=0)]
    # in each section a thread gives each replica one pump or turn, and a round gives one more: eight or nine in rounds alone do not end it
    keys = "abcdefghij"
    ten = dict(
        committed=[f"0.{it} seq 1 deps - put {key} 1" for it, key in enumerate(keys, 1)],
        history=[f"0.{it} put {key} 1 -> absent" for it, key in enumerate(keys, 1)],
        receipts=[f"client 1 request {it} 0.{it} absent" for it in range(1, 11)],
    )
    puts = b"".join(b"propose 0 1 put %c 1\n" % ord(key) for key in keys)
    yield "ten puts, by the threads too", ["--turns", "1"], b"replicas 3\n" + puts + b"section\n" * 9, [text(**ten, lost=0)]


def of_two_replicas():
    """A client's receipts stand by replica within a section; its first two puts, of two keys, may be executed in either order."""
    first, second, third = "0.1 put y 2 -> absent", "1.1 put x 1 -> absent", "1.2 put z 3 -> absent"
    committed = ["0.1 seq 1 deps - put y 2", "1.1 seq 1 deps - put x 1", "1.2 seq 1 deps - put z 3"]
    receipts = ["client 9 request 2 0.1 absent", "client 9 request 1 1.1 absent", "client 9 request 3 1.2 absent"]
    return [text(committed, [*its, third], receipts, lost=0) for its in ((first, second), (second, first))]


# The entries of three replays, shown. A proposal's stamp is above what its client has seen.
PUT, SAME = "PreAccept 0.1 ballot (0, 0) put x 1 seq 1 deps -", "PreAcceptOK 0.1 ballot (0, 0) seq 1 deps -"
COMMIT = "Commit 0.1 put x 1 seq 1 deps -"
SHOWN_GIVEN = f"""stamp 1  replica 0 entry 1  propose put x 1 (client 1 request 1 seen 0); took 0.1; sends to 1: {PUT}
stamp 2  replica 1 entry 1  handle 0:1:0 {PUT}; sends to 0: {SAME}
stamp 3  replica 0 entry 2  handle 1:1:0 {SAME}; sends to 1, to 2: {COMMIT}
stamp 4  replica 0 entry 3  execute 0.1; executed 0.1 -> absent
stamp 4  replica 1 entry 2  handle 0:2:0 {COMMIT}
stamp 4  replica 2 entry 1  handle 0:2:1 {COMMIT}
"""
# Message 2 is given before 1; the flush gives 1 and the answer to 2, and not 2 again.
LATE = b"replicas 3\npropose 0 1 put x 1\npropose 1 2 put y 2\ndeliver 2\nflush\n"
LATER = "PreAccept 1.1 ballot (0, 1) put y 2 seq 1 deps -"
SHOWN_LATE = f"""stamp 1  replica 0 entry 1  propose put x 1 (client 1 request 1 seen 0); took 0.1; sends to 1: {PUT}
stamp 1  replica 1 entry 1  propose put y 2 (client 2 request 1 seen 0); took 1.1; sends to 2: {LATER}
stamp 2  replica 1 entry 2  handle 0:1:0 {PUT}; sends to 0 NEVER HANDLED: {SAME}
stamp 2  replica 2 entry 1  handle 1:1:0 {LATER}; sends to 1: PreAcceptOK 1.1 ballot (0, 1) seq 1 deps -
stamp 3  replica 1 entry 3  handle 2:1:0 PreAcceptOK 1.1 ballot (0, 1) seq 1 deps -; sends to 0 NEVER HANDLED, to 2 NEVER HANDLED: Commit 1.1 put y 2 seq 1 deps -
"""
SEEN = b"replicas 3\npropose 0 1 put x 1\nflush\nflush\nexecute 0 0.1\npropose 1 1 get x\npropose 2 2 get x\n"
SHOWN_SEEN = f"""stamp 1  replica 0 entry 1  propose put x 1 (client 1 request 1 seen 0); took 0.1; sends to 1: {PUT}
stamp 1  replica 2 entry 1  propose get x (client 2 request 1 seen 0); took 2.1; sends to 0 NEVER HANDLED: PreAccept 2.1 ballot (0, 2) get x seq 1 deps -
stamp 2  replica 1 entry 1  handle 0:1:0 {PUT}; sends to 0: {SAME}
stamp 3  replica 0 entry 2  handle 1:1:0 {SAME}; sends to 1 NEVER HANDLED, to 2 NEVER HANDLED: {COMMIT}
stamp 4  replica 0 entry 3  execute 0.1; executed 0.1 -> absent
stamp 5  replica 1 entry 2  propose get x (client 1 request 2 seen 4); took 1.1; sends to 2 NEVER HANDLED: PreAccept 1.1 ballot (0, 1) get x seq 2 deps 0.1
"""


# Three proposals of two clients, of which no message is given. The second names two keys.
PARTED = b"replicas 3\npropose 0 1 put x 1\npropose 0 2 swap x y\npropose 0 1 put z 3\n"
SHOWN_PARTED = [
    f"stamp {it}  replica 0 entry {it}  propose {what} (client {client} seen 0); took 0.{it}; sends to 1 NEVER HANDLED: PreAccept 0.{it} ballot (0, 0) {what} {attributes}\n"
    for it, what, client, attributes in ((1, "put x 1", "1 request 1", "seq 1 deps -"), (2, "swap x y", "2 request 1", "seq 2 deps 0.1"), (3, "put z 3", "1 request 2", "seq 1 deps -"))
]
# The options of a part, and which of those lines it keeps.
PARTS = (
    (["--key", "x"], (0, 1)),
    (["--key=%79"], (1,)),
    (["--client", "1"], (0, 2)),
    (["--key", "x", "--client", "1"], (0,)),
    (["--key", "y", "--client", "1"], ()),
    (["--client", "1", "--from", "2"], (2,)),
    (["--key", "x", "--instance", "0.2"], (1,)),
    (["--key", "x" * 255], ()),
)
# Entries of others that are about the instances that are kept: of LATE's two, by the lines above.
LATE_PARTS = ((["--key", "x"], (0, 2)), (["--client", "2"], (1, 3, 4)), (["--client", "3"], ()))


def parted():
    """Parts by key and by client, and what is said where none is kept."""
    made = ["replay", "--emit", "bundle", "|"]
    for script, lines, parts in ((PARTED, SHOWN_PARTED, PARTS), (LATE, SHOWN_LATE.splitlines(True), LATE_PARTS)):
        for words, kept in parts:
            wanted = "".join(lines[it] for it in kept) or f"0 of {len(lines)} entries\n"
            name = " ".join(words)[:40]
            yield dict(name=f"{len(kept)} of {len(lines)} entries by {name}, shown", words=[*made, "show", *words], given=script, wanted=wanted.encode())
            part = "".join(lines[it] for it in kept)
            yield dict(name=f"{len(kept)} of {len(lines)} entries by {name}, drawn", words=[*made, "draw", "--mermaid", *words], given=script, wanted=drawing.sequence(part, 3).encode())
            yield dict(name=f"{len(kept)} of {len(lines)} entries by {name}, drawn as a graph", words=[*made, "draw", "--dot", *words], given=script, wanted=drawing.graph("".join(lines), part).encode())
    names = "replica 0                         replica 1                         replica 2\n"
    yield dict(name="none of three entries, in columns", words=[*made, "show", "--columns", "--key", "w"], given=PARTED, wanted=(names + "0 of 3 entries\n").encode())
    yield dict(name="none of no entries", words=[*made, "show", "--key", "w"], given=b"replicas 3\n", wanted=b"")
    events = dict(words=[*made, "trace-events", "--key", "y"], given=PARTED, wanted=b'{"traceEvents":[', is_begun=True)
    yield dict(name="trace events by a key", **events, says=["propose swap x y (client 2"])


# Five puts of two keys, each committed by all, and executed but for the last; the third is a swap of both keys. Of the fourth's dependencies 0.3 implies all others.
GRAPHED = b"replicas 3\n" + b"".join(b"propose 0 %d %s\n" % it + b"flush\n" * 3 for it in ((1, b"put x 1"), (2, b"put y 2"), (1, b"swap x y"), (3, b"put x 4"), (3, b"get y"))) + b"execute 0 0.4\n"
NODES = {
    1: '  "0.1" [style=solid, label="0.1 put x 1\\nabsent"];\n',
    2: '  "0.2" [style=solid, label="0.2 put y 2\\nabsent"];\n',
    3: '  "0.3" [style=solid, label="0.3 swap x y\\npresent 1"];\n  "0.3" -> "0.1";\n  "0.3" -> "0.2";\n',
    4: '  "0.4" [style=solid, label="0.4 put x 4\\npresent 2"];\n  "0.4" -> "0.3";\n',
    5: '  "0.5" [style=solid, label="0.5 get y"];\n  "0.5" -> "0.3";\n',
}
# Without 0.3 the dependencies that it implies stand for themselves.
BARE = {4: '  "0.4" [style=solid, label="0.4 put x 4\\npresent 2"];\n  "0.4" -> "0.1";\n  "0.4" -> "0.3";\n', 5: '  "0.5" [style=solid, label="0.5 get y"];\n  "0.5" -> "0.2";\n  "0.5" -> "0.3";\n'}
HEAD = 'digraph dependencies {\n  rankdir=BT;\n  node [shape=box, style=dashed, fontname="monospace"];\n'


def drawn():
    """Parts of a graph, and more than 2,000 entries and instances, which once were too many."""
    made = ["replay", "--emit", "bundle", "|", "draw"]
    for part, lines in (
        ([], NODES.values()),
        (["--key", "x"], [NODES[it] for it in (1, 3, 4)]),
        (["--client", "1"], [NODES[it] for it in (1, 3)]),
        (["--client", "3"], BARE.values()),
        (["--instance", "0.4"], [BARE[4]]),
        (["--key", "y", "--client", "3"], [BARE[5]]),
        (["--replica", "0", "--to", "1"], [NODES[1]]),
        (["--replica", "1"], []),
    ):
        yield dict(name=f"a graph {' '.join(part) or 'of all'}", words=[*made, "--dot", *part], given=GRAPHED, wanted=f"{HEAD}{''.join(lines)}}}\n".encode())
    recoveries = b"replicas 3\n" + b"recover 1 0.1\n" * 2001
    lines = "".join(f"  Note over r1: recover 0.1\n  r1--xr0: Prepare 0.1\n  r1--xr2: Prepare 0.1\n" for _ in range(2001))
    head = "sequenceDiagram\n" + "".join(f"  participant r{it} as replica {it}\n" for it in range(3))
    yield dict(name="2,001 entries, drawn", words=[*made, "--mermaid"], given=recoveries, wanted=(head + lines).encode())
    yield dict(name="two of 2,001 entries, drawn", words=[*made, "--mermaid", "--from", "2000"], given=recoveries, wanted=(head + lines[: 2 * len(lines) // 2001]).encode())
    gets = b"replicas 3\n" + b"propose 0 7 get x\n" * 2000 + b"flush\n" * 3 + flushed(b"propose 1 7 get x")
    names = [*(f"0.{it}" for it in range(1, 2001)), "1.1"]
    nodes = "".join(f'  "{it}" [style=solid, label="{it} get x"];\n' for it in names)
    yield dict(name="2,001 instances, drawn as a graph", words=[*made, "--dot"], given=gets, wanted=f"{HEAD}{nodes}}}\n".encode())


def every():
    """Rows of other kinds, as dictionaries of their parts."""
    for name, subcommand, script, line in refused():
        yield dict(name=name, words=[subcommand], given=script, told=b"script refused at line %d\n" % line, status=2)
    for subcommand in ("replay", "run"):
        yield dict(name=f"{subcommand} refuses lines without an end", words=[subcommand], redirect="< <(yes '')", told=b"script refused at line 100001\n", status=2)
        yield dict(name=f"{subcommand} refuses a line without an end", words=[subcommand], redirect="< /dev/zero", told=b"script refused at line 1\n", status=2)
    for option in ("--capacity=", "--turns=00010000000"):
        yield dict(name=f"words refused: run {option}", words=["run", option], given=b"replicas 3\n", told=REFUSED, rest=HELP, status=2)
    yield from drawn()
    yield from parted()
    for name, script, shown in (("what a flush gives", GIVEN, SHOWN_GIVEN), ("a flush behind a later message", LATE, SHOWN_LATE), ("what a client has seen", SEEN, SHOWN_SEEN)):
        yield dict(name=f"{name}, shown", words=["replay", "--emit", "bundle", "|", "show"], given=script, wanted=shown.encode())
