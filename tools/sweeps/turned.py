"""Turns one byte in each of 500 bundles, and looks whether `show`, `explain` and `draw` say of it what `audit` says.

usage: tools/sweep bytes [SEED]          all of them; SEED is a number, 1 where there is none
       tools/sweep bytes SEED NUMBER     writes that one of them, from 1, on standard output

The bundles are of worked scripts, as ep_main plays them: of three, five and seven replicas, with slow paths, recoveries and swaps, one with values of
1,024 bytes, and one of version 1. Which byte is turned, and into which one, a generator draws from the seed. The programs are those that `rt run` left
in crates/ep_main/out and crates/ep_viewer/out. Each bundle is audited, shown, shown in columns, explained, and drawn as a page, a diagram and a graph; by
docs/CLI.md, sections 5, 6 and 11:
- `audit` has to accept it (status 0), to refuse it by a fault (1), or not to read it (2, one line on the fault output and nothing else);
- where `audit` reads it, so has every other (status 0, but 1 for `explain` where `audit` has it): `show` in lines that are an entry each, `draw` in a page, or in
  lines that Mermaid or Graphviz reads;
- where `audit` doesn't read it, no other may: status 2, the same line on the fault output and nothing on standard output;
- `explain` has `audit`'s status and its line, on standard output alone, with reasons under each fault.
Before its byte is turned, each bundle has to be accepted. One line counts how the audits ended; fails where a run ended otherwise, and tells the first such.
"""

import functools
import itertools
import random
import re
import sys
from dataclasses import dataclass

import sweep

COUNT = 500
# whose bundles are taken, in turn
SCRIPTS = (
    "examples/one_put.script",
    "examples/slow_path.script",
    "examples/recovery.script",
    "examples/crossing_puts.script",
    "examples/stale_answer_then_chosen.script",
    "examples/two_ballots.script",
    "examples/two_swaps.script",
    ".ci/scripts/storm-5.script",
    "examples/cycle.script",
    ".ci/scripts/seven.script",
)
# whose bundle is put in version 1, and whose values are made so long
OLD, LONG, LENGTH = "examples/cycle.script", ".ci/scripts/seven.script", 1024
# what a bundle that isn't read has on the fault output, and a fault of an audit
UNREAD = re.compile(rb"bundle refused (?P<name>E12) at byte \d+\n|bundle refused (?P<other>E11) at replica [0-6] entry [1-9]\d*\n")
FAULT = rb"A[123] (?:unsent frame|changed frame|stamp order) at replica [0-6] entry [1-9]\d*|A[45] (?:unknown receipt|caller order at receipt) [1-9]\d*"
REFUSED = re.compile(rb"verdict refused\n(?P<fault>" + FAULT + rb")\n")
# what they are answered with: each a line, and under it reasons
REASONS = rb"(?:  [ -~]+\n)+"
EXPLAINED = re.compile(rb"verdict refused\n(?:(?:" + FAULT + rb")\n" + REASONS + rb")+")
SHOWN = re.compile(rb"(?:stamp \d+  replica [0-6] entry \d+  (?:propose|handle|give up|recover|execute) [ -~]+\n)*")
WORDS = rb"(?:[A-Za-z0-9 (),._-]|#\d{1,3};|<br/>)+"
DIAGRAM = re.compile(rb"sequenceDiagram\n(?:  (?:participant r\d as replica \d|Note over r\d: " + WORDS + rb"|r\d(?:->>|--x)r\d: " + WORDS + rb")\n)+")
NAME, LABEL = rb'"[0-6]\.\d{1,4}"', rb"(?:[A-Za-z0-9 (),._-]|&#\d{1,3};|\\\\|\\n)+"
GRAPH = re.compile(rb"digraph dependencies \{\n  rankdir=BT;\n  node [^\n]*;\n(?:  " + NAME + rb"(?: \[style=solid, label=\"" + LABEL + rb"\"\]| -> " + NAME + rb");\n)*\}\n")
PAGE = re.compile(rb"<!doctype html>\n.*</html>\n", re.S)
COLUMNS = re.compile(rb"replica 0 +replica 1 +replica 2[ -~]*\n(?:[ -~]*\n)*")


@dataclass
class Turned:
    """A bundle with one byte turned: whose it is, at which place, from what and to what."""

    script: str
    place: int
    was: int
    byte: int
    bundle: bytes

    def name(self):
        return f"{self.script}, byte {self.place} turned from {self.was:02x} to {self.byte:02x}" if self.byte != self.was else f"{self.script} as it is"


def run(words, given):
    """How the program ends that is called so."""
    return sweep.run([built("ep_main" if words[0] in ("audit", "replay") else "ep_viewer"), *words], given)


built = functools.cache(sweep.built)


def bundle_of(name):
    """The bundle of a script, or nothing where it can't be played."""
    with open(f"{sweep.TOP}/{name}", "rb") as it:
        script = it.read()
    if name == LONG:
        script = re.sub(rb"(put \S+ )(\S)", lambda found: found[1] + found[2] * LENGTH, script)
    played = run(["replay", "--emit", "bundle"], script)
    if played.status or played.told:
        return b""
    if name == OLD:
        # (no key or value has these bytes)
        return played.output.replace(b"EPJB\2", b"EPJB\1").replace(b"EP\2", b"EP\1")
    return played.output


def turned(bundles, seed):
    """The bundles with one byte turned."""
    drawn = random.Random(seed)
    for name, bundle in itertools.islice(itertools.cycle(bundles.items()), COUNT):
        # (of what a generator gives, this alone stays the same from one Python to another)
        place, more = int(drawn.random() * len(bundle)), 1 + int(drawn.random() * 255)
        byte = (bundle[place] + more) % 256
        yield Turned(name, place, bundle[place], byte, bundle[:place] + bytes([byte]) + bundle[place + 1 :])


# how each command writes what it reads
WAYS = {
    "show": SHOWN.fullmatch,
    "show --columns": COLUMNS.fullmatch,
    "draw": PAGE.fullmatch,
    "draw --mermaid": DIAGRAM.fullmatch,
    "draw --dot": GRAPH.fullmatch,
}


def finding(audited):
    """What an audit found: that it accepts, the name of a fault, or of why the bundle isn't read; nothing where it ended as it may not."""
    if audited.status == 0 and audited.output.startswith(b"verdict accepted\n") and not audited.told:
        return "accepted"
    refused, unread = REFUSED.fullmatch(audited.output), UNREAD.fullmatch(audited.told)
    if audited.status == 1 and refused and not audited.told:
        return refused["fault"][:2].decode()
    if audited.status == 2 and unread and not audited.output:
        return (unread["name"] or unread["other"]).decode()
    return ""


def is_explained(audited, ended):
    """Whether a bundle is explained as it was audited."""
    if ended.status != audited.status or ended.told:
        return False
    if audited.status == 0:
        return re.fullmatch(rb"verdict accepted\n((next|then|more)  .*\n)*", ended.output)
    if audited.status == 1:
        return ended.output.startswith(audited.output) and EXPLAINED.fullmatch(ended.output)
    return ended.output.startswith(audited.told) and re.fullmatch(REASONS, ended.output[len(audited.told) :])


def is_viewed(way, audited, ended):
    """Whether a bundle is shown, or drawn, that an audit reads, or refused as it refuses to read it."""
    if audited.status == 2:
        return ended == audited
    return ended.status == 0 and not ended.told and WAYS[way](ended.output)


def looked_at(it):
    """What an audit finds of a bundle, and each run that ended otherwise than it had to."""
    audited = run(["audit"], it.bundle)
    found, wrong = finding(audited), []
    if not found:
        return found, [("audit", audited)]
    explained = run(["explain"], it.bundle)
    if not is_explained(audited, explained):
        wrong.append(("explain", explained))
    for way in WAYS:
        ended = run(way.split(), it.bundle)
        if not is_viewed(way, audited, ended):
            wrong.append((way, ended))
    return found, wrong


def whole(bundles):
    """The bundles as they are."""
    return [Turned(name, 0, bundle[0], bundle[0], bundle) for name, bundle in bundles.items()]


def swept(seed, bundles):
    """Looks at all bundles, prints a line of it, and returns whether each run ended as it had to."""
    both = [*whole(bundles), *turned(bundles, seed)]
    looked = sweep.side_by_side(looked_at, both)
    found = []
    for number, (it, (name, wrong)) in enumerate(zip(both, looked), 1 - len(bundles)):
        wrong = [*wrong, *[("audit", name)] * (number < 1 and name != "accepted")]
        found.append(("" if wrong else name if number > 0 else "whole", f"number {number}, {it.name()}: {wrong}"))
    names = sorted({name for name, _ in found if name not in ("", "whole")}, key=lambda name: (name != "accepted", name))
    kinds = {"whole": "whole ones accepted", **{name: name for name in names}}
    return sweep.tell(f"seed {seed}: {COUNT} bundles with one byte turned, of {len(bundles)} scripts", kinds, found)


def main(words, room):
    if len(words) > 2 or not all(it.isdigit() for it in words) or not 1 <= int("".join(words[1:]) or 1) <= COUNT:
        return None
    bundles = {name: bundle_of(name) for name in SCRIPTS}
    for name, bundle in bundles.items():
        if not bundle:
            print(f"{name}: it isn't played", file=sys.stderr)
            return False
    seed = int("".join(words[:1]) or 1)
    if words[1:]:
        sys.stdout.buffer.write(next(itertools.islice(turned(bundles, seed), int(words[1]) - 1, None)).bundle)
        return True
    return swept(seed, bundles)

