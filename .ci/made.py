"""Scripts that are made from a rule, with the reports that the rule asks for, scripts with weather, and scripts that are refused at a line."""

LIMIT = 2000
NOTHING = ["verdict accepted", "committed 0", "history 0", "receipts 0", "refused 0"]
ONE_PUT = ["verdict accepted", "committed 1", "0.1 seq 1 deps - put x 1", "history 1", "1 0.1 put x 1 -> absent", "receipts 1", "client 1 request 1 0.1 absent", "refused 0"]


def instance(count, size):
    """The instance of put number `count`, from 1, where the replicas propose in turn."""
    return (count - 1) % size, (count - 1) // size + 1


def spelled(it):
    return f"{it[0]}.{it[1]}"


def joined(lines):
    return "".join(f"{it}\n" for it in lines).encode()


def line_of_puts(size, proposers, values, ends):
    """Puts on one key, each proposed and committed everywhere before the next one, all executed by one event at the end.

    Put k depends on every put before it, has the seq k, and is answered what put k - 1 put."""
    places = [instance(count, proposers) for count in range(1, len(values) + 1)]
    script, report = [f"replicas {size}"], ["verdict accepted", f"committed {len(values)}"]
    requests = dict.fromkeys(range(proposers), 0)
    told = ["absent", *[f"present {value}" for value in values]]
    receipts = []
    for at, (place, value) in enumerate(zip(places, values)):
        script += [f"propose {place[0]} {place[0] + 1} put hot {value}", *ends]
        requests[place[0]] += 1
        if place[0] == places[-1][0]:
            receipts.append(f"client {place[0] + 1} request {requests[place[0]]} {spelled(place)} {told[at]}")
    script.append(f"execute {places[-1][0]} {spelled(places[-1])}")
    for place in sorted(places):
        at = places.index(place)
        deps = ",".join(map(spelled, sorted(places[:at]))) or "-"
        report.append(f"{spelled(place)} seq {at + 1} deps {deps} put hot {values[at]}")
    report.append(f"history {len(values)}")
    report += [f"{at + 1} {spelled(place)} put hot {values[at]} -> {told[at]}" for at, place in enumerate(places)]
    return script, [*report, f"receipts {len(receipts)}", *receipts]


def three_hundred():
    """300 puts at one replica of three, executed by one event."""
    script, report = line_of_puts(3, 1, [str(count) for count in range(1, 301)], ["flush"] * 3)
    return script, [*report, "refused 0"]


def all_numbers():
    """As many puts as one replica of three has numbers, and one more, which is refused before the others are executed."""
    script, report = line_of_puts(3, 1, [str(count) for count in range(1, LIMIT + 1)], ["flush"] * 3)
    script.insert(-1, "propose 0 1 put hot more")
    return script, [*report, "refused 1", f"line {len(script) - 1} E4 space full"]


def long_frames():
    """Values of 1,024 bytes on one key at seven replicas in turn, so that frames have hundreds of dependencies. The last put but one is accepted on
    the slow path; the last one is recovered by another replica while its leader commits it, and the answers to Prepare report the whole vote."""
    values = [str(count).rjust(1024, "v") for count in range(1, 211)]
    script, report = line_of_puts(7, 7, values, ["flush"] * 3)
    last = instance(len(values), 7)
    other = (last[0] + 3) % 7
    # its first messages come, and another replica asks before the answers do
    script[-4:] = ["flush", f"recover {other} {spelled(last)}", *["flush"] * 4, script[-1]]
    # of the put before, which 16 messages a put went before, the leader has three answers and gives up on the fast path
    before, sent = instance(len(values) - 1, 7), 16 * (len(values) - 2)
    asked, answers = [" ".join(str(sent + at) for at in places) for places in ((1, 2, 3), (6, 7, 8))]
    at = len(script) - 11
    script[at : at + 3] = [f"deliver {asked}", f"deliver {answers}", f"giveup {before[0]} {spelled(before)}", *["flush"] * 4]
    return script, [*report, "refused 0"]


def every():
    """Names, scripts and their reports."""
    for name, (script, report) in (
        ("300 puts on one key, one execution", three_hundred()),
        ("all 2,000 numbers of a replica, one execution", all_numbers()),
        ("long frames at seven replicas", long_frames()),
        ("the longest line", (["replicas 3", "#" * 8192], NOTHING)),
        ("the longest script", (["replicas 3", *[""] * 99_999], NOTHING)),
    ):
        yield name, joined(script), joined(report)


def weather():
    """Names, words of `run`, scripts, and their reports, of which any one may come."""
    put = "propose 0 1 put x 1"
    held = ["hold 0 1 1", "hold 1 0 1", put]
    narrow = ["--capacity", "1"]
    for name, words, script, report, lost in (
        ("a PreAccept held and put", [], ["hold 0 1 1", put], ONE_PUT, [0]),
        ("a PreAccept and its answer put twice", [], ["repeat 0 1 1", "repeat 1 0 1", put], ONE_PUT, [0]),
        ("a put at capacity 1", narrow, [put], ONE_PUT, [0]),
        ("a PreAccept put twice at capacity 1", narrow, ["repeat 0 1 1", put], ONE_PUT, [0, 1]),
        # the answer is sent while the host settles, and waits for the next section's threads
        ("an answer held while the host settles", [], [*held, "section", "section"], ONE_PUT, [0]),
        ("an answer held in the last section", [], held, NOTHING, [0]),
        ("weather of the section before", [], ["drop 0 1 1", "section", put], ONE_PUT, [0]),
        ("frames counted anew", [], [put, "section", "drop 0 1 1", "propose 0 1 put y 2"], ONE_PUT, [0]),
        ("one frame in two sections", [], ["drop 0 1 1", "section", "hold 0 1 1", "section"], NOTHING, [0]),
    ):
        yield name, words, joined(["replicas 3", *script]), [joined([*report, f"lost {it}"]) for it in lost]


def refused_runs():
    """Names of scripts for a run, the scripts, and the lines at which they are refused."""
    for second in ("drop", "hold", "repeat"):
        yield f"refused: {second} of a frame that is dropped", joined(["replicas 3", "drop 0 1 1", "hold 0 1 2", "hold 0 2 1", f"{second} 0 1 1"]), 5
    for line in ("drop 1 1 1", "hold 0 3 1", "repeat 3 0 1", "drop 0 1 0", "drop 0 1", "drop 0 1 1 1", "hold 0 1 4294967296", "Drop 0 1 1"):
        yield f"refused: {line}", joined(["replicas 3", line]), 2


def refused():
    """Names, scripts, and the lines at which they are refused."""
    yield "a line too long", joined(["replicas 3", "#" * 8193]), 2
    yield "a script too long", joined(["replicas 3", *[""] * 100_000]), 100_001
    for line in ("propose 0 0 get x", "propose 0 4294967296 get x", "propose 0 00000000001 get x", "propose 3 1 get x", "propose 0 1 get %-", "propose 0 1 get %4"):
        yield f"refused: {line}", joined(["replicas 3", line]), 2
    for line in ("drop 0 1 1", "hold 0 1 1", "repeat 0 1 1"):
        yield f"refused in a replay: {line}", joined(["replicas 3", line]), 2
    yield "a key of 256 bytes", joined(["replicas 3", f"propose 0 1 get {'k' * 256}"]), 2
    yield "a value of 1,025 bytes", joined(["replicas 3", f"propose 0 1 put k {'v' * 1025}"]), 2
    yield "replicas again", joined(["replicas 3", "", "replicas 3"]), 3
