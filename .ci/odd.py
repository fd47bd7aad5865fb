"""Keys and values of odd bytes, as `show`, `explain`, `draw` and `trace` tell them: as dictionaries of a row's parts.

What is wanted is written out from docs/FORMATS.md, section 2 (the bytes of bundles), and docs/CLI.md, sections 3 (words of bytes) and 11 (entries and traces)."""

import drawing


def worded(held):
    """Bytes as one word, by section 3."""
    return "".join(chr(it) if 0x21 <= it <= 0x7E and it != 0x25 else f"%{it:02x}" for it in held) or "%-"


def escaped(held):
    """The same bytes as a script may spell them too: each one escaped."""
    return "".join(f"%{it:02X}" for it in held) or "%-"


# every byte a key can have, in 255 of them, and a value that has each byte four times
ALL_BUT_NUL, ALL = bytes(range(1, 256)), bytes(range(256)) * 4
# what is odd; a key and its word; a value and its word; and another value, with its word
ODD = (
    ("marks of XML", b"<k>\"&'", "<k>\"&'", b"]]></title><g/>&lt;", "]]></title><g/>&lt;", b"]]></title><g/>&lt&", "]]></title><g/>&lt&"),
    ("bytes that aren't printed", b"\n\t\0\x7f", "%0a%09%00%7f", b"\r\x1f ", "%0d%1f%20", b"\r\x1f!", "%0d%1f!"),
    ("bytes that are no UTF-8", b"\xff\xfe", "%ff%fe", b"\x80\xc3(", "%80%c3(", b"\x80\xc3\xa8", "%80%c3%a8"),
    ("letters of UTF-8", b"\xc3\xa9 ~", "%c3%a9%20~", b"\xe2\x82\xac", "%e2%82%ac", b"\xe2\x82\xad", "%e2%82%ad"),
    ("escapes", b"%41", "%2541", b"%-", "%25-", b"%%", "%25%25"),
    ("no value", b"%", "%25", b"", "%-", b"-", "-"),
    ("every byte", ALL_BUT_NUL, worded(ALL_BUT_NUL), ALL, worded(ALL), ALL[:-1] + b"-", worded(ALL[:-1]) + "-"),
)
OPS = {"get": 2, "put": 3, "del": 4, "swap": 5}


def number(value, size):
    """A number of so many bytes."""
    return value.to_bytes(size, "big")


def asked(op, key, value):
    """A command as a bundle has it: the op, both lengths, the key, and the value or the second key."""
    return number(OPS[op], 1) + number(len(key), 1) + number(len(value), 2) + key + value


def pre_accept(op, key, value, version=2):
    """The frame by which replica 0 asks replica 1 to vote for the command in 0.1; it is sent by entry 1, with stamp 1."""
    head = f"4550 {version:02x} 01 00 01 0000 00000001 0000000000000001 00 0001 0000 00 00 0000 00 00000001"
    command = asked(op, key, value)
    return bytes.fromhex(head) + command[:4] + number(0, 2) + command[4:]


def sized(frame):
    """A frame behind its length."""
    return number(len(frame), 4) + frame


# replica 1 votes for 0.1, with stamp 2
VOTE = bytes.fromhex("4550 02 02 01 00 0000 00000001 0000000000000002 00 0001 0000 00 00 0000 00 00000001 00 00 0000 0000")


def bundle(op, key, value, sent=None, handled=None, version=2):
    """The bundle of three replicas of which 0 proposes a command. Where others are given, its frame out has that value, and replica 1 handles a frame with this one."""
    frame = pre_accept(op, key, value if sent is None else sent, version)
    journals = [bytes.fromhex("01 0000000000000001 00000001 00000001 0000000000000000") + asked(op, key, value) + number(1, 2) + sized(frame) + number(0, 2)]
    if handled is not None:
        vote = number(1, 2) + sized(VOTE) + number(0, 2)
        journals.append(bytes.fromhex("02 0000000000000002") + sized(pre_accept(op, key, handled, version)) + vote)
    whole = bytes.fromhex(f"45504a42 {version:02x} 03 00000000")
    for at in range(3):
        whole += number(at, 1) + (number(1, 4) + journals[at] if at < len(journals) else number(0, 4))
    return whole


def proposed():
    """Bundles of one proposal, written out as bytes, and their scripts: how they are shown, drawn and traced."""
    for what, key, key_word, value, value_word, *_ in ODD:
        commands = [("put", value, f"put {key_word} {value_word}"), ("get", b"", f"get {key_word}"), ("del", b"", f"del {key_word}")]
        if 1 <= len(value) <= 255:
            commands.append(("swap", value, f"swap {key_word} {value_word}"))
        for op, second, command in commands:
            ask = f"PreAccept 0.1 ballot (0, 0) {command} seq 1 deps -"
            event = f"propose {command} (client 1 request 1 seen 0); took 0.1"
            shown = f"stamp 1  replica 0 entry 1  {event}; sends to 1 NEVER HANDLED: {ask}\n"
            for version in (1, 2) if op != "swap" else (2,):
                yield dict(name=f"odd bytes, {what}: {op} in version {version}, shown", words=["show"], given=bundle(op, key, second, version=version), wanted=shown.encode())
            yield dict(name=f"odd bytes, {what}: {op}, drawn", words=["draw", "--mermaid"], given=bundle(op, key, second), wanted=drawing.sequence(shown, 3).encode())
            spelled = f"replicas 3\npropose 0 1 {op} {escaped(key)}" + f" {escaped(second)}" * (op in ("put", "swap"))
            traced = f"""line 2  stamp 1  replica 0 entry 1  {event}; sends #1 to 1: {ask}
never given  #1 from 0 to 1: {ask}
not committed  0.1 at replica 0, which leads it: PreAccepts are out, answers of others so far: 0
next  recover 0.1 at any replica that reaches 1 and 2
"""
            yield dict(name=f"odd bytes, {what}: {op}, traced", words=["trace"], given=spelled.encode(), wanted=traced.encode())


# A put and a get of its key, each committed by all and executed by its leader
PLAYED = "replicas 3\npropose 0 1 put {0} {1}\nflush\nflush\nflush\nexecute 0 0.1\npropose 0 1 get {0}\nflush\nflush\nflush\nexecute 0 0.2\n"


def entries(put, get, value):
    """What is shown of that run."""
    ask, same, commit = f"PreAccept 0.1 ballot (0, 0) {put} seq 1 deps -", "PreAcceptOK 0.1 ballot (0, 0) seq 1 deps -", f"Commit 0.1 {put} seq 1 deps -"
    later, too, known = f"PreAccept 0.2 ballot (0, 0) {get} seq 2 deps 0.1", "PreAcceptOK 0.2 ballot (0, 0) seq 2 deps 0.1", f"Commit 0.2 {get} seq 2 deps 0.1"
    return f"""stamp 1  replica 0 entry 1  propose {put} (client 1 request 1 seen 0); took 0.1; sends to 1: {ask}
stamp 2  replica 1 entry 1  handle 0:1:0 {ask}; sends to 0: {same}
stamp 3  replica 0 entry 2  handle 1:1:0 {same}; sends to 1, to 2: {commit}
stamp 4  replica 0 entry 3  execute 0.1; executed 0.1 -> absent
stamp 4  replica 1 entry 2  handle 0:2:0 {commit}
stamp 4  replica 2 entry 1  handle 0:2:1 {commit}
stamp 5  replica 0 entry 4  propose {get} (client 1 request 2 seen 4); took 0.2; sends to 1: {later}
stamp 6  replica 1 entry 3  handle 0:4:0 {later}; sends to 0: {too}
stamp 7  replica 0 entry 5  handle 1:3:0 {too}; sends to 1, to 2: {known}
stamp 8  replica 0 entry 6  execute 0.2; executed 0.2 -> present {value}
stamp 8  replica 1 entry 4  handle 0:5:0 {known}
stamp 8  replica 2 entry 2  handle 0:5:1 {known}
"""


def events(put, get, value):
    """What is traced of it."""
    ask, same, commit = f"PreAccept 0.1 ballot (0, 0) {put} seq 1 deps -", "PreAcceptOK 0.1 ballot (0, 0) seq 1 deps -", f"Commit 0.1 {put} seq 1 deps -"
    later, too, known = f"PreAccept 0.2 ballot (0, 0) {get} seq 2 deps 0.1", "PreAcceptOK 0.2 ballot (0, 0) seq 2 deps 0.1", f"Commit 0.2 {get} seq 2 deps 0.1"
    return f"""line 2  stamp 1  replica 0 entry 1  propose {put} (client 1 request 1 seen 0); took 0.1; sends #1 to 1: {ask}
line 3  stamp 2  replica 1 entry 1  handle #1 from 0: {ask}; sends #2 to 0: {same}
line 4  stamp 3  replica 0 entry 2  handle #2 from 1: {same}; sends #3 to 1, #4 to 2: {commit}
line 5  stamp 4  replica 1 entry 2  handle #3 from 0: {commit}
line 5  stamp 4  replica 2 entry 1  handle #4 from 0: {commit}
line 6  stamp 4  replica 0 entry 3  execute 0.1; executed 0.1 -> absent
line 7  stamp 5  replica 0 entry 4  propose {get} (client 1 request 2 seen 4); took 0.2; sends #5 to 1: {later}
line 8  stamp 6  replica 1 entry 3  handle #5 from 0: {later}; sends #6 to 0: {too}
line 9  stamp 7  replica 0 entry 5  handle #6 from 1: {too}; sends #7 to 1, #8 to 2: {known}
line 10  stamp 8  replica 1 entry 4  handle #7 from 0: {known}
line 10  stamp 8  replica 2 entry 2  handle #8 from 0: {known}
line 11  stamp 8  replica 0 entry 6  execute 0.2; executed 0.2 -> present {value}
"""


def played():
    """Runs of scripts: how they are shown, explained, drawn, drawn as a graph, and traced."""
    for what, key, key_word, value, value_word, *_ in ODD:
        put, get = f"put {key_word} {value_word}", f"get {key_word}"
        script = PLAYED.format(escaped(key), escaped(value)).encode()
        made = ["replay", "--emit", "bundle", "|"]
        shown = entries(put, get, value_word)
        yield dict(name=f"odd bytes, {what}: a run, shown", words=[*made, "show"], given=script, wanted=shown.encode())
        yield dict(name=f"odd bytes, {what}: a run, explained", words=[*made, "explain"], given=script, wanted=b"verdict accepted\n")
        yield dict(name=f"odd bytes, {what}: a run, drawn", words=[*made, "draw", "--mermaid"], given=script, wanted=drawing.sequence(shown, 3).encode())
        yield dict(name=f"odd bytes, {what}: a run, drawn as a graph", words=[*made, "draw", "--dot"], given=script, wanted=drawing.graph(shown).encode())
        yield dict(name=f"odd bytes, {what}: a run, traced", words=["trace"], given=script, wanted=events(put, get, value_word).encode())


def refused():
    """Bundles that an audit refuses, since replica 1 handled another value than was sent, or doesn't read, since another one was sent than was proposed."""
    for what, key, key_word, value, value_word, other, other_word in ODD:
        handled, sent = (f"0:1:0 to 1 stamp 1 PreAccept 0.1 ballot (0, 0) put {key_word} {it} seq 1 deps -" for it in (other_word, value_word))
        given = bundle("put", key, value, handled=other)
        wanted = b"verdict refused\nA2 changed frame at replica 1 entry 1\n"
        says = [f"\n  handled: {handled}\n", f"\n  sent: {sent}\n"]
        yield dict(name=f"odd bytes, {what}: another value, explained", words=["explain"], given=given, wanted=wanted, is_begun=True, says=says, status=1)
        given = bundle("put", key, value, sent=other)
        line = b"bundle refused E11 at replica 0 entry 1\n"
        says = [f"put {key_word} {value_word}", f"put {key_word} {other_word}"]
        yield dict(name=f"odd bytes, {what}: another frame, explained", words=["explain"], given=given, wanted=line, is_begun=True, says=says, status=2)
        for words in (["show"], ["show", "--columns"], ["draw"], ["draw", "--mermaid"], ["draw", "--dot"]):
            yield dict(name=f"odd bytes, {what}: another frame, {' '.join(words)}", words=words, given=given, told=line, status=2)
        # the last byte is that of the answer to the get, as its receipt has it
        if len(other) == len(value):
            script = PLAYED.format(escaped(key), escaped(value)).encode()
            wanted = b"verdict refused\nA4 unknown receipt 2\n"
            says = [f"client 1 request 2 0.2 present {other_word}", f"propose get {key_word} (client 1 request 2 seen 4)", f"present {value_word}\n"]
            made = dict(words=["replay", "--emit", "bundle", "|", "explain"], given=script, change=[(-1, other[-1])])
            yield dict(name=f"odd bytes, {what}: another answer, explained", **made, wanted=wanted, is_begun=True, says=says, status=1)


# One proposal in columns of 32, broken at the last space that leaves a row no wider, or at its end
COLUMNS = (
    (b"\xff\xfe", b"\x80\xc3(", """stamp 1 entry 1: propose put
%ff%fe %80%c3( (client 1 request
1 seen 0); took 0.1; sends to 1
NEVER HANDLED: PreAccept 0.1
ballot (0, 0) put %ff%fe %80%c3(
seq 1 deps -
"""),
    (b"k", b"\xff" * 12, """stamp 1 entry 1: propose put k
%ff%ff%ff%ff%ff%ff%ff%ff%ff%ff%f
f%ff (client 1 request 1 seen
0); took 0.1; sends to 1 NEVER
HANDLED: PreAccept 0.1 ballot
(0, 0) put k
%ff%ff%ff%ff%ff%ff%ff%ff%ff%ff%f
f%ff seq 1 deps -
"""),
)


def in_columns():
    """A proposal of odd bytes, in columns."""
    for key, value, column in COLUMNS:
        wanted = f"replica 0{' ' * 25}replica 1{' ' * 25}replica 2\n{column}"
        name = f"odd bytes, put {worded(key)} {worded(value)}, in columns"
        yield dict(name=name, words=["show", "--columns"], given=bundle("put", key, value), wanted=wanted.encode())


def every():
    """All of them."""
    yield from proposed()
    yield from played()
    yield from refused()
    yield from in_columns()
