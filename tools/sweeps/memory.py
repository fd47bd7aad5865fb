"""Runs a crate's tests, or its program, with each allocation refused in turn, and each start of a thread.

usage: tools/sweep memory CRATE [WORD [MOST]]
       tools/sweep memory CRATE [MOST] -- ARGUMENT..
       tools/sweep memory --dir [MOST]

The first takes the tests whose names have WORD: of those that `tools/tests` left, where CRATE is `tests`, or of those that `rt test`, or
`tools/tests --prove --keep`, left in crates/CRATE/out. Each runs with ample memory, which counts what it asks for, and then once for each of these times, or for MOST of them, spread evenly, with that one refused. A run has to end
well, or to say that memory was wanted, by the test's own result or by an answer that it didn't expect: any other stop is told. The second runs the program
that `rt run` left there so, with these arguments and the standard input, which is read once. A run has to end just as with ample memory, or with status 3,
`out of memory` on the fault output and nothing on standard output. Where the first argument is `run`, it may also end with status 0 and the report of an
accepted run that tells of a loss: of frames, or of a line that was refused as `E1 memory`. Its script has to be one whose report is the same whatever its
threads do. The third is three starts of a node in a folder (docs/FORMATS.md, section 13), by ep_server: with --new, of one that closes a generation, and with
--take. Each begins in a copy of one folder. It has to end as with ample memory, or with status 3 and `out of memory`, where what it has answered has to be
the beginning of what it answers with ample memory; or to refuse the put that it is asked by E1. Then the folder is started again, by the same words as far as they may be repeated: that start has to
serve the generation that the first one would have, and have each frame that was told in its log. One line a test, program or start; fails where a run ended otherwise.
"""

import os
import re
import shutil
import struct
import sys
from dataclasses import dataclass

import sweep

# how often what is asked for is counted: where threads run, it may differ
COUNTS = 3
# the answers that say that memory was wanted
WANT = re.compile(rb"\b(Memory|AllocError|AllocFailed)\b")
WANTED = sweep.Ended(3, b"", b"out of memory\n")
# a report of a run that the audit accepts, as far as it names losses
REPORT = re.compile(rb"verdict accepted\n(?:.*\n)*refused \d+\n(?P<refused>(?:line .*\n)*)lost (?P<lost>\d+)\n")
KINDS = {"well": "ended as with ample memory", "want": "wanted memory", "loss": "told of a loss"}
REFUSER = r"""
#define TRY_AGAIN 11

static void *(*make)(size), *(*remake)(void *, size);
static int (*start)(void *, const void *, void *(*)(void *), void *);
static long refused;

static int is_refused(void) {
    return __atomic_add_fetch(counted, 1, __ATOMIC_SEQ_CST) == refused;
}

__attribute__((constructor)) static void begin(void) {
    make = dlsym(NEXT, "malloc");
    remake = dlsym(NEXT, "realloc");
    start = dlsym(NEXT, "pthread_create");
    refused = number("REFUSED");
    counted[0] = 0;
}

void *malloc(size bytes) {
    if (!make) make = dlsym(NEXT, "malloc");
    return is_refused() ? 0 : make(bytes);
}

void *realloc(void *from, size bytes) {
    if (!remake) remake = dlsym(NEXT, "realloc");
    return is_refused() ? 0 : remake(from, bytes);
}

int pthread_create(void *thread, const void *kind, void *(*work)(void *), void *given) {
    return is_refused() ? TRY_AGAIN : start(thread, kind, work, given);
}
"""


def test_ends(ample, ran):
    """How a test ended: well, when out of memory, or otherwise."""
    return "well" if ran.status == 0 else "want" if ran.status is not None and WANT.search(ran.output + ran.told) else "other"


def program_ends(ample, ran):
    """How the program ended: as with ample memory, when out of memory, or otherwise."""
    return "well" if ran == ample else "want" if ran == WANTED else "other"


def run_ends(ample, ran):
    """How a run in threads ended: as the program does, or with a report that names a loss."""
    report = REPORT.fullmatch(ran.output) if ran.status == 0 and not ran.told else None
    is_loss = report and (int(report["lost"]) or b" E1 memory\n" in report["refused"])
    return "loss" if is_loss else program_ends(ample, ran)


def swept(name, tried, most, ends):
    """Refuses each time, prints a line, and returns whether every run ended as it may."""
    (ample, _), asked = tried.counts(), max(tried.counts()[1][0] for _ in range(COUNTS))
    number = min(asked, most or asked)
    refused = [1 + place * asked // number for place in range(number)]
    ran = sweep.side_by_side(lambda it: tried.run(REFUSED=it), refused)
    found = [(ends(ample, it), f"number {at} of them refused: {(it.output + it.told)[-250:].decode(errors='replace').strip()}") for at, it in zip(refused, ran)]
    kinds = {kind: words for kind, words in KINDS.items() if kind != "loss" or ends == run_ends}
    return sweep.tell(f"{name}: {asked} allocations and starts of threads, {number} tried", kinds, found)


def tests(program, word, most, under):
    """Tries the tests whose names have the word."""
    listed = sweep.run([program, "--list"]).output.decode().split("\n")
    names = [it.removesuffix(": test") for it in listed if it.endswith(": test") and word in it]
    failing = [it for it in names if under([program, it], b"").run().status]
    for it in failing:
        print(f"{it}: FAILED with ample memory")
    well = [swept(it, under([program, it], b""), most, test_ends) for it in names if it not in failing]
    print(f"{well.count(True)} tests ended as they may, {well.count(False) + len(failing)} did not")
    return bool(well) and all(well) and not failing


@dataclass
class Start:
    """A start of replica 0 of three in a copy of a folder, and what it is asked."""

    name: str
    folder: str
    words: list
    generation: int
    given: bytes


class Starts:
    """Starts of a node in folders, with allocations refused."""

    def __init__(self, program, room):
        sys.path.insert(0, f"{sweep.TOP}/.ci")
        import folders
        from disks import shim

        self.program, self.room, self.shim = program, room, shim
        self.library = sweep.preloaded(REFUSER, room)
        # replica 0 has executed a seal in generation 1, or has closed it; replica 2 is in generation 1
        made = folders.Cluster(program, f"{room}/made")
        made.begin()
        made.settle(folders.put(1, b"x", b"1") + folders.put(2, b"y", b"2" * 300) + folders.seal(3, b"next"), 0, 1)
        made.start(0, shim.ADVANCE)
        for name, replica in (("new", None), ("sealed", 0), ("late", 2)):
            os.mkdir(f"{room}/{name}") if replica is None else shutil.copytree(made.place(replica), f"{room}/{name}")
        made.start(0)
        taken, given = f"{made.place(0)}/2/opening", folders.put(9, b"k", b"v") + shim.STATE + shim.SYNC
        self.every = (
            Start("a start with --new", f"{room}/new", ["--new"], 1, given),
            Start("a start that closes a generation", f"{room}/sealed", [], 2, given),
            Start("a start with --take", f"{room}/late", ["--take", taken], 2, given),
        )

    def words(self, place, replica, more):
        return [self.program, "node", "--replicas", "3", "--replica", replica, "--dir", place, *more]

    def tried(self, start, place, **settings):
        """How the start ends in a copy of its folder at this place, and what is wrong with the folder then, or nothing."""
        shutil.copytree(start.folder, place)
        replica = "2" if start.words[:1] == ["--take"] else "0"
        ran = sweep.Under(self.library, self.words(place, replica, start.words), start.given, self.room).run(**settings)
        wrong = self.wrong_with(start, place, replica, ran)
        shutil.rmtree(place)
        return ran, wrong

    def wrong_with(self, start, place, replica, ran):
        """What is wrong with the folder behind a run, as the next start shows, or nothing."""
        answered, whole = self.shim.answers(ran.output, 3)
        if whole != len(ran.output):
            return "an answer is cut"
        words = start.words
        if "--new" in words and os.path.exists(f"{place}/1/log") and os.path.getsize(f"{place}/1/log"):
            words = []
        again = sweep.run(self.words(place, replica, words), self.shim.STATE + self.shim.SYNC)
        state = next((it.body for it in self.shim.answers(again.output, 3)[0] if it.kind == 8), None)
        if again.status or state is None:
            return f"the next start ended with {again.status}: {again.told[-200:].decode(errors='replace').strip()}"
        generation, synced = struct.unpack_from(">II", state)
        told = [entry for it in answered for entry in it.entries]
        with open(f"{place}/{generation}/log", "rb") as log:
            held = log.read()
        if generation != start.generation:
            return f"the next start serves generation {generation}"
        if any(it.number > synced for it in told) or any(frame not in held for it in told for _, frame in it.frames):
            return "what was told isn't in the log"
        return ""

    def swept(self, start, most):
        """Refuses each time, prints a line, and returns whether every run ended as it may."""
        with open(f"{self.room}/counted", "w+", encoding="utf-8") as counted:
            ample, wrong = self.tried(start, f"{self.room}/ample", COUNTED=counted.name)
            asked = int(counted.read().split()[0])
        if wrong or ample.status:
            print(f"{start.name}: with ample memory {wrong or ample}")
            return False
        number = min(asked, most or asked)
        refused = [1 + place * asked // number for place in range(number)]
        ran = sweep.side_by_side(lambda at: self.tried(start, f"{self.room}/at-{at}", REFUSED=at), refused)

        def kind(ended, wrong):
            if wrong:
                return wrong
            if ended == ample:
                return "well"
            is_begun = ended.status == 3 and ended.told.endswith(b"out of memory\n") and ample.output.startswith(ended.output)
            # (or the put was refused for it, by E1)
            refused = [it.body[0] for it in self.shim.answers(ended.output, 3)[0] if it.kind == 2]
            return "want" if is_begun or ended.status == 0 and not ended.told and refused == [1] else "other"

        found = [(kind(*it), f"number {at} of them refused: status {it[0].status}, {it[0].told[-200:]!r}, {it[1]}") for at, it in zip(refused, ran)]
        return sweep.tell(f"{start.name}: {asked} allocations, {number} tried", {kind: words for kind, words in KINDS.items() if kind != "loss"}, found)


def main(words, room):
    if words[:1] == ["--dir"] and len(words) <= 2 and all(it.isdigit() for it in words[1:]):
        starts = Starts(sweep.built("ep_server"), room)
        well = [starts.swept(it, int("".join(words[1:]) or 0)) for it in starts.every]
        return all(well)
    words, given = sweep.command(words)
    asked, most = (words[1:2], words[2:]) if given is None else (given, words[1:])
    if not words or words[0].startswith("-") or len(most) > 1 or not all(it.isdigit() for it in most):
        return None
    program, number = sweep.built(words[0], "_tests" if given is None else ""), int("".join(most) or 0)
    library = sweep.preloaded(REFUSER, room)
    under = lambda words, given: sweep.Under(library, words, given, room)
    if given is None:
        return tests(program, "".join(asked), number, under)
    ends = run_ends if asked[:1] == ["run"] else program_ends
    return swept(" ".join(asked), under([program, *asked], sys.stdin.buffer.read()), number, ends)

