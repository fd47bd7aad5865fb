"""The gate.

  .ci/run             runs the parts that PARTS lists, one after the other; docs/GATE.md tells what each is for and what it takes. Where the first,
                      which looks whether pages and copies are up to date, fails, no other is run
  .ci/run --all       the same, and tries all wrong bodies, not only some that changed and ten more
  .ci/run --built     runs only the parts that go over the programs that an earlier `rt ci` built
  .ci/run --brief     runs what `./epaxos test` does (.ci/brief.py), in minutes, a part on each processor; `./epaxos test --all` is .ci/run
  .ci/run --brief PART    runs this part of that alone

As root on Debian it first installs what tools/needs.txt lists. At its end it says what processor time each part took, and what
it skipped; its last line is 'N passed, M failed', with ', K skipped' where something was. The status is 0 where M is 0.
"""

import os
import re
import signal
import subprocess
import sys
import tempfile
import time
import traceback
from concurrent.futures import ThreadPoolExecutor
from dataclasses import dataclass

sys.dont_write_bytecode = True
TOP = os.path.dirname(os.path.dirname(os.path.abspath(__file__)))
sys.path[:0] = [f"{TOP}/.ci", f"{TOP}/tools"]

import bindings
import brief
import clock
import generations
import growth
import kept
import lanes
import launcher
import library
import needs
import page
import release
import rows
import sim
import store
from disks import runs as disks

# the program by LLVM, and by Rattle's own compiler
PROGRAM = f"{TOP}/crates/ep_main/out/ep_main"
PROGRAMS = {PROGRAM: "", f"{PROGRAM}.by-rattle": " (built by Rattle's own compiler)"}
# the most runs that one test gets so
MOST = "500"
# what the names of tests have that are run with each allocation refused, or MOST of them
TESTS = ("played_on", "a_held_frame_has_its_place", "ep_world_tests::generations", "a_life_with_little_memory")
# scripts that are played, made into a bundle, and audited so
SCRIPTS = ("examples/one_put.script", "examples/crossing_puts.script", "examples/swap.script", ".ci/scripts/seven.script")
# what the names of rows begin with whose last run is made again so
ROWS = (
    "audit-of-one-put",
    "audit-of-another-value",
    "audit-of-an-equal-stamp",
    "audit-of-another-entry",
    "audit-caller-order",
    "upgrade-of-one-proposal",
    "examples/two_sections.run",
    "examples/weather.run",
    "examples/lock.run",
)
# what is run on devices that fail, all but audits and upgrades: the words, and the script
DEVICES = (("replay",), ("replay", "--emit", "bundle"), ("run",), ("run", "--host", "ring"), ("run", "--emit", "bundle"))
PUT = b"replicas 3\npropose 0 1 put x 1\n"
# a script whose bundle has over 16 KiB, so that it takes several reads, and is audited and upgraded, shown and drawn on devices that fail
LONG = b"replicas 3\n" + b"propose 0 1 put x 1\nflush\nflush\n" * 40
# what looks whether something that is written is up to date
LOOKS = (
    ["tools/generate", "--check", "rows", "page", "header", "bindings", "refusals", "pictures", "figures"],
    ["tools/tidy"],
    ["tools/wrong-bodies", "--look"],
)
# how ep_viewer looks at a bundle
VIEWS = (["show"], ["show", "--columns"], ["explain"], ["draw"], ["draw", "--mermaid"], ["draw", "--dot"])
TRACE = ["trace"]
# the script that is traced, and whose bundle is looked at, with allocations refused; and rows of bundles that an audit refuses, or doesn't read
VIEWED = "examples/crossing_puts.script"
ROWS_VIEWED = ("audit-of-another-value", "audit-of-another-entry", "audit-cut", "audit-not-a-run")


# lines on what failed, and warnings, said again at the end: who reads only that finds them
AGAIN = []
# the processes of parts that run by themselves
APART = set()


def looks():
    """Whether what tools write is up to date, and what pages and edits name is there: counts what isn't."""
    return 0, sum(subprocess.run(it).returncode != 0 for it in LOOKS)


def test_command():
    """Runs `rt ci`, shows what it says but for its last line, and returns that line's two numbers."""
    running, last = subprocess.Popen(["rt", "ci"], stdin=subprocess.DEVNULL, stdout=subprocess.PIPE, text=True, errors="replace"), ""
    try:
        for line in running.stdout:
            print(last, end="", flush=True)
            last = line
    finally:
        # (what rt began ends with it)
        if running.poll() is None and sys.exc_info()[0]:
            running.kill()
        status = running.wait()
    counts = re.fullmatch(r"(\d+) passed, (\d+) failed\n", last)
    if not counts:
        print(last, end="", flush=True)
    passed, failed = map(int, counts.groups()) if counts else (0, 0)
    return passed, failed or int(status != 0)


def counted(*words):
    """Runs a tool whose last line counts what it tried, shows what it says, and returns the two numbers."""
    ran = subprocess.run(words, stdin=subprocess.DEVNULL, stdout=subprocess.PIPE, text=True, errors="replace")
    print(f"{words[0]}: {ran.stdout}", end="", flush=True)
    AGAIN.extend(f"{words[0]}: {it}" for it in ran.stdout.splitlines() if it.startswith(("FAILED: ", "warning: ")))
    counts = re.search(r"(\d+) passed, (\d+) failed\n\Z", ran.stdout)
    passed, failed = map(int, counts.groups()) if counts else (0, 0)
    return passed, failed or int(ran.returncode != 0 or not counts)


def tests():
    """The tests that `rt ci` doesn't prove; of two of them the instructions are counted."""
    both = counted("tools/tests"), growth.tried_lives(f"{TOP}/out/tests/ep_all_tests")
    return sum(passed for passed, _ in both), sum(failed for _, failed in both)


def wrong_bodies():
    """The wrong bodies that changed, or stand on what changed, and always the same few; or all."""
    return counted("tools/wrong-bodies", "--all" if sys.argv[1:] == ["--all"] else "--gate")


def swept(kind, words, given=None):
    """Whether the runs of a sweep of this kind all ended as they may."""
    return not subprocess.run([f"{TOP}/tools/sweep", kind, *words], input=given).returncode


def bundle_of(script):
    """The bundle that the program makes of the script."""
    return subprocess.run([PROGRAM, "replay", "--emit", "bundle"], input=script, stdout=subprocess.PIPE).stdout


def read(name):
    """The bytes of a file of the repository."""
    with open(f"{TOP}/{name}", "rb") as it:
        return it.read()


def last_run(row):
    """The words of a row's last run, and what it reads."""
    given, runs = row.given, rows.runs_of(row.words)
    for words in runs[:-1]:
        given = bytearray(row.one(PROGRAM, words, given, "")[1])
    for place, byte in row.change:
        given[place] = byte
    return runs[-1], bytes(given)


def rows_named(name):
    """The stored rows whose names begin so; none is reported."""
    named = [row for row in (*rows.stored(), *rows.written()) if row.name.startswith(name)]
    if not named:
        print(f"there is no row {name}", flush=True)
    return named


def refused_memory():
    """Refuses allocations, and says of each of these sweeps whether it passed."""
    for word in TESTS:
        yield swept("memory", ["tests", word, MOST])
    for name in SCRIPTS:
        script = read(name)
        print(f"{name}, with each allocation refused:", flush=True)
        runs = ((["replay"], script), (["replay", "--emit", "json"], script), (["replay", "--emit", "bundle"], script), (["audit"], bundle_of(script)))
        for words, given in runs:
            yield swept("memory", ["ep_main", "--", *words], given)
    for name in ROWS:
        named = rows_named(name)
        if not named:
            yield False
        for row in named:
            words, given = last_run(row)
            print(f"row {row.name}, with each allocation refused:", flush=True)
            yield swept("memory", ["ep_main", "--", *words], given)

    print("chains of two generations, in their order and the other way round, with each allocation refused:", flush=True)
    with tempfile.TemporaryDirectory() as folder:
        names = [f"{folder}/{it}" for it in ("one.bundle", "two.bundle")]
        for name, it in zip(names, (generations.ONE, generations.TWO)):
            with open(name, "wb") as file:
                file.write(it.bundle())
        for chain in (names, names[::-1]):
            for form in ([], ["--emit", "json"]):
                yield swept("memory", ["ep_main", "--", "audit", "--chain", *chain, *form], b"")


def refused_starts():
    """Refuses allocations in starts of a node in a folder, and says whether they passed."""
    print("a node's starts in a folder, with each allocation refused:", flush=True)
    yield swept("memory", ["--dir", MOST])


def refused_views():
    """Refuses allocations where runs are shown, and says of each of these sweeps whether it passed."""
    script = read(VIEWED)
    print(f"{VIEWED}, shown, explained, drawn and traced with each allocation refused:", flush=True)
    for words, given in (*((it, bundle_of(script)) for it in VIEWS), (TRACE, script)):
        yield swept("memory", ["ep_viewer", MOST, "--", *words], given)
    for name in ROWS_VIEWED:
        named = rows_named(name)
        if not named:
            yield False
        for row in named:
            print(f"row {row.name}, explained and drawn with each allocation refused:", flush=True)
            for words in (["explain"], ["draw"]):
                yield swept("memory", ["ep_viewer", MOST, "--", *words], last_run(row)[1])


def failing_devices():
    """Fails reads and writes, and says of each of these sweeps whether it passed."""
    print("with each read and each write failed:", flush=True)
    for words in DEVICES:
        yield swept("devices", ["ep_main", "--", *words], PUT)
    for words in (["audit"], ["upgrade"]):
        yield swept("devices", ["ep_main", "--", *words], bundle_of(LONG))
    # (a script that is refused, so that the fault output is written on)
    yield swept("devices", ["ep_main", "--", "replay"], b"replicas 4\n")
    bundle = bundle_of(LONG)
    for words in VIEWS:
        yield swept("devices", ["ep_viewer", "--", *words], bundle)
    # (and a bundle that isn't read, which `show` reports on the fault output, `explain` on standard output)
    for words in (["show"], ["explain"]):
        yield swept("devices", ["ep_viewer", "--", *words], bundle[:-1])
    # (a script that is shorter than what `explain` looks at first: after its end nothing is read again)
    yield swept("devices", ["ep_viewer", "--", "explain"], PUT)
    yield swept("devices", ["ep_viewer", "--", *TRACE], LONG + b"#\n" * 8192)
    yield swept("devices", ["ep_viewer", "--", *TRACE], b"replicas 4\n")


def both_programs():
    """The rows, by both compilers."""
    passed = failed = 0
    for program, by in PROGRAMS.items():
        if not os.path.isfile(program):
            # (where Rattle's own compiler does not compile a program, `rt ci` says so, and the LLVM build alone is run)
            needs.skip(f"rows{by}", f"there is no {os.path.relpath(program, TOP)}")
            failed += program == PROGRAM
            continue
        counts = rows.tried(program, by=by)
        passed, failed = passed + counts[0], failed + counts[1]
    return passed, failed


def sweeps(*sweeps):
    """How many of the sweeps passed, and how many failed: none where there is no program, which the rows count."""
    well = [it for sweep in sweeps for it in sweep()] if os.path.isfile(PROGRAM) else []
    return well.count(True), well.count(False)


def lives():
    """Two short lives of nodes that are killed, through generations; in one of them most kills are power losses."""
    node, program = store.BUILT
    if not store.has_programs(node, program, "lives"):
        return 0, 0
    with tempfile.TemporaryDirectory(prefix="epaxos-lives-") as scratch:
        words = ["tools/lives", "--seed", "1", "--short", "--epaxos", store.joined(scratch, node, program)]
        return [sum(it) for it in zip(counted(*words), counted(*words, "--power"))]


@dataclass
class Part:
    """A part of the gate: what it is, what runs it and gives how many passed and how many failed, and whether it goes over the programs that `rt ci` built."""

    name: str
    call: object
    is_of_built: bool = True


PARTS = (
    Part("pages and copies", looks, is_of_built=False),
    Part("rt ci", test_command, is_of_built=False),
    Part("wrong bodies", wrong_bodies, is_of_built=False),
    Part("tests/", tests, is_of_built=False),
    Part("kept proofs", kept.tried, is_of_built=False),
    Part("rows", both_programs),
    Part("growth", lambda: growth.tried(PROGRAM)),
    Part("launcher", launcher.tried),
    Part("disks", disks.tried),
    Part("page", lambda: page.tried(PROGRAM)),
    Part("refused memory", lambda: sweeps(refused_memory, refused_starts, refused_views)),
    Part("failing devices", lambda: sweeps(failing_devices)),
    Part("turned bundles", lambda: sweeps(lambda: [swept("bytes", [])])),
    Part("lives", lives),
    Part("library", library.tried),
    Part("hosts/store", store.tried),
    Part("bindings", bindings.tried),
    Part("simulated hosts", sim.tried),
    Part("release", release.of_gate),
)
# (what takes longest comes first, behind the build)
BRIEF = (
    Part("build", brief.build),
    Part("tests/", brief.tests),
    Part("rows", brief.worked_rows),
    Part("hosts/store", brief.hosts),
    Part("bindings/rust", brief.crate),
    Part("simulated hosts", brief.simulator),
    Part("pages and copies", brief.looks),
)


def processor_time():
    """The processor time of this process and of those that it has waited for, in seconds."""
    return sum(os.times()[:4])


def run(part):
    """Runs a part: how many passed, how many failed, and the lines on it."""
    processor, began, lines = processor_time(), time.monotonic(), []
    try:
        counts = part.call()
    except Exception:
        # (what a part's own code can't do is one that failed: the others are run)
        said = traceback.format_exc()
        print(said, end="", flush=True)
        lines.append(f"{part.name}: {said.splitlines()[-1]}")
        counts = 0, 1
    minutes = (processor_time() - processor) / 60, (time.monotonic() - began) / 60
    counted = "%s: %d passed, %d failed" % (part.name, *counts)
    told = counted + ", %.1f minutes of processor time, %.1f by the clock" % minutes
    return *counts, [*lines, told]


def run_apart(part):
    """The same in a process of its own, whose output is shown once it has ended."""
    with tempfile.TemporaryFile("w+", encoding="utf-8", errors="replace") as file:
        words = [sys.executable, __file__, "--brief", part.name]
        running = subprocess.Popen(words, stdin=subprocess.DEVNULL, stdout=file)
        APART.add(running)
        running.wait()
        APART.discard(running)
        file.seek(0)
        wrote, _, told = file.read().rpartition(f"{part.name}: ")
    counts = re.match(r"(\d+) passed, (\d+) failed, ", told)
    if not counts:
        return 0, 1, [f"{wrote}{part.name}: {told or 'it ended without a word'}"]
    print(wrote, end="", flush=True)
    return int(counts[1]), int(counts[2]), [f"{part.name}: {told.splitlines()[0]}"]


def side_by_side(parts):
    """Runs parts, the first of them alone, since the others need what it builds: of each what `run` gives."""
    yield run(parts[0])
    with ThreadPoolExecutor(lanes.processors()) as room:
        yield from room.map(run_apart, parts[1:])


def in_turn(parts):
    """Runs parts one after the other, but none behind one on pages and copies that fails."""
    for part in parts:
        passed, failed, lines = run(part)
        yield passed, failed, lines
        if part.call is looks and failed:
            return


def stop(*_):
    """Ends this process, and those of parts."""
    for it in [*APART]:
        it.terminate()
    sys.exit(143)


def chosen(words):
    """The parts that are to run, and how."""
    if words[:1] == ["--brief"]:
        named = [it for it in BRIEF if it.name in words[1:]]
        return in_turn(named) if named else side_by_side(BRIEF)
    return in_turn([it for it in PARTS if it.is_of_built or words != ["--built"]])


def main(words):
    if words in (["--help"], ["-h"]):
        print(__doc__, end="")
        return 0
    if words not in ([], ["--all"], ["--built"], ["--brief"], *(["--brief", it.name] for it in BRIEF)):
        print(__doc__, end="", file=sys.stderr)
        return 2
    os.chdir(TOP)
    signal.signal(signal.SIGTERM, stop)
    lanes.one_processor_a_check()
    told, passed, failed = [], 0, 0
    if len(words) < 2:
        needs.install(needs.lacking("test" if words == ["--brief"] else "gate"))
    with clock.Clock() as spent, needs.noting() as skipped:
        for one, other, lines in chosen(words):
            passed, failed, told = passed + one, failed + other, told + lines
    print(*AGAIN, *told, *spent.lines(), *skipped, sep="\n")
    print(f"{passed} passed, {failed} failed{f', {len(skipped)} skipped' * bool(skipped)}", flush=True)
    return 1 if failed else 0


if __name__ == "__main__":
    sys.exit(main(sys.argv[1:]))
