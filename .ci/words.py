"""Command lines, and runs of the program at its limits, that no file of .ci/rows has: as dictionaries of a row's parts."""

NOTHING = b"verdict accepted\ncommitted 0\nhistory 0\nreceipts 0\nrefused 0\n"
SCRIPT = b"replicas 3\n"
# what a refused command line reports first and last, and what stands between
REFUSED, HELP = b"command line refused\nerror: ", b"\n\nFor more information, try '--help'.\n"
TWO_SECTIONS = b"replicas 3\npropose 0 1 put x 1\nsection\npropose 2 1 get x\nsection\n"
TWO_REPORT = b"""verdict accepted
committed 2
0.1 seq 1 deps - put x 1
2.1 seq 2 deps 0.1 get x
history 2
1 0.1 put x 1 -> absent
2 2.1 get x -> present 1
receipts 2
client 1 request 1 0.1 absent
client 1 request 2 2.1 present 1
refused 0
lost 0
"""
# an empty bundle of three journals, and one proposal's, in version 2
EMPTY = bytes.fromhex("45504a42 02 03 00000000 00 00000000 01 00000000 02 00000000")
PROPOSAL = bytes.fromhex(
    "45504a42 02 03 00000000 00 00000001 01 0000000000000001 00000001 00000001 0000000000000000 03 01 0001 78 31"
    "0001 0000002a 4550 02 01 00 01 0000 00000001 0000000000000001 00 0001 0000 00 00 0000 00 00000001 03 01 0001 0000 78 31"
    "0000 01 00000000 02 00000000"
)
ACCEPTED = NOTHING[: NOTHING.rindex(b"refused ")]


def accepted():
    """Words that have an empty script replayed, or a script run."""
    for words in ("replay --emit report", "replay --emit=report"):
        yield dict(name=f"words: {words}", words=words.split(), given=SCRIPT, wanted=NOTHING)
    for words in ("", "--host lock", "--host ring", "--host=ring", "--emit report", "--capacity 0064", "--capacity=4096", "--turns 10000000"):
        yield dict(name=f"words: run {words}", words=["run", *words.split()], given=TWO_SECTIONS, wanted=TWO_REPORT)


def told():
    """Words that ask for a text, and how it begins."""
    for words, begins in (
        ("-h", b"A replicated key-value core without a leader\n"),
        ("help", b"A replicated key-value core without a leader\n"),
        ("replay -h", b"Reads a script "),
        ("help replay", b"Reads a script "),
        ("run -h", b"Reads a script "),
        ("audit -h", b"Reads a bundle "),
        ("-V", b"epaxos 1.0.0\n"),
    ):
        yield dict(name=f"words: {words}", words=words.split(), wanted=begins, is_begun=True)


def refused():
    """Words that are refused, and how the reason begins; and options of a run with values that are none."""
    for words, begins in (
        ("replay report", "unexpected argument 'report' found"),
        ("replay --emit Report", "invalid value \"Report\" for '--emit <WHAT>'"),
        ("replay --emit report --emit report", "the argument '--emit <WHAT>' cannot be used multiple times"),
        ("--emit report replay", "unexpected argument '--emit' found"),
        ("audit --emit bundle", "invalid value \"bundle\" for '--emit <WHAT>'"),
        ("audit --emit JSON", "invalid value \"JSON\" for '--emit <WHAT>'"),
    ):
        yield dict(name=f"words refused: {words}", words=words.split(), given=SCRIPT, told=REFUSED + begins.encode(), rest=HELP, status=2)
    for option, values in (("--host", ("Ring", "rings")), ("--capacity", ("0", "+5", "00000000064")), ("--turns", ("1e3",))):
        for value in values:
            told = f"{REFUSED.decode()}invalid value \"{value}\" for '{option}"
            yield dict(name=f"words refused: run {option} {value}", words=["run", option, value], given=SCRIPT, told=told.encode(), rest=HELP, status=2)


def scripts():
    """Scripts for `replay`, and their reports, or the line at which they are refused."""
    yield "returns, tabs and comments", b"# one put\r\n\r\n\treplicas\t3\r\npropose 0  1 put x 1\r\nflush\r\nflush\r\n execute 0 0.1 \r", b"""verdict accepted
committed 1
0.1 seq 1 deps - put x 1
history 1
1 0.1 put x 1 -> absent
receipts 1
client 1 request 1 0.1 absent
refused 0
"""
    yield "escaped bytes", b"replicas 3\npropose 0 1 put %78%20 %-\nflush\nflush\npropose 0 1 put x%20 %fF%25%7e\nflush\nflush\nexecute 0 0.2\n", b"""verdict accepted
committed 2
0.1 seq 1 deps - put x%20 %-
0.2 seq 2 deps 0.1 put x%20 %ff%25~
history 2
1 0.1 put x%20 %- -> absent
2 0.2 put x%20 %ff%25~ -> present %-
receipts 2
client 1 request 1 0.1 absent
client 1 request 2 0.2 present %-
refused 0
"""
    nothing = NOTHING[:-2]
    yield "one proposal more than there are numbers", SCRIPT + b"propose 0 1 put x 1\n" * 2001, nothing + b"1\nline 2002 E4 space full\n"
    yield "one recovery more than there are ballots", SCRIPT + b"recover 1 0.1\n" * 60_001, nothing + b"1\nline 60002 E9 ballots exhausted\n"
    yield "an execution before the commit", SCRIPT + b"propose 0 1 put x 1\nexecute 0 0.1\n", nothing + b"1\nline 3 E10 not committed 0.1\n"
    yield "a message that nobody sent", SCRIPT + b"propose 0 1 put x 1\ndeliver 2\n", nothing + b"1\nline 3 E18 no such message 2\n"
    yield "refused: a line after good ones", SCRIPT + b"propose 0 1 put x 1\nflush now\npropose 9 1 put x 1\n", 3


def bundles():
    """Bundles, written and read."""
    yield dict(name="the bundle of nothing, in version 2", words=["replay", "--emit", "bundle"], given=SCRIPT, wanted=EMPTY)
    yield dict(name="the bundle of one proposal, in version 2", words=["replay", "--emit", "bundle"], given=SCRIPT + b"propose 0 1 put x 1\n", wanted=PROPOSAL)
    for name, bundle, ones in (("nothing", EMPTY, (4,)), ("one proposal", PROPOSAL, (4, 54))):
        old = bytes(1 if at in ones else byte for at, byte in enumerate(bundle))
        for version, it in (("2", bundle), ("1", old)):
            yield dict(name=f"an audit of {name}, in version {version}", words=["audit"], given=it, wanted=ACCEPTED)
    for length, place in ((4, 4), (9, 6), (105, 102)):
        yield dict(name=f"an audit of the first {length} bytes", words=["audit"], given=PROPOSAL[:length], told=b"bundle refused E12 at byte %d\n" % place, status=2)
    yield dict(name="an audit of a byte more", words=["audit"], given=PROPOSAL + b"\0", told=b"bundle refused E12 at byte 106\n", status=2)
    other = PROPOSAL[:93] + b"2" + PROPOSAL[94:]
    yield dict(name="an audit of another frame out", words=["audit"], given=other, told=b"bundle refused E11 at replica 0 entry 1\n", status=2)


def every():
    """All of them."""
    yield from accepted()
    yield from told()
    yield from refused()
    for name, script, report in scripts():
        if isinstance(report, int):
            yield dict(name=name, words=["replay"], given=script, told=b"script refused at line %d\n" % report, status=2)
        else:
            yield dict(name=name, words=["replay"], given=script, wanted=report)
            yield dict(name=f"{name}, its bundle audited", words=["replay", "--emit", "bundle", "|", "audit"], given=script, wanted=report[: report.rindex(b"refused ")])
    yield from bundles()
