#!/usr/bin/env python3
"""Runs of the built program: words and input against the output, the fault output and the status that are wanted.

  .ci/rows.py PROGRAM [WORD]              the rows whose names have the word, of that program
  .ci/rows.py --rewrite PROGRAM [NAME..]  writes what the program gives into .ci/rows/NAME.row, or into all, in the place
                                          of what was wanted, and names those that changed. What is wanted stands there
                                          since a reader has found it otherwise: so each is read before it is committed

A row is a file .ci/rows/NAME.row. Each of its blocks begins with a line `-- NAME --`, and may lack:
  words      as in a shell: the words of the run; behind '|' those of a second run, which reads what the first one wrote;
             redirections of the last run
  change     lines 'PLACE BYTE', in decimal and hexadecimal: bytes that are others where the second run reads them
  files/F    a file F that lies where the runs are
  input
  output errors status     what is wanted: nothing, nothing and 0 where there is no such block
A block `-- NAME.hex --` is in hexadecimal; a line of it from '#' on is a comment.

PROGRAM is ep_main as it was built; what begins with a command of another program (commands.txt) is run by that, which
was built as it was. Runs of `epaxos node`, and of `collect` on its logs, are in .ci/nodes.py.
More rows are made of the scripts and reports in examples/ and .ci/scripts/ (NAME.script is played, NAME.run is run
by both hosts, and where there is a NAME.trace, a NAME.mmd or a NAME.dot, NAME.script is traced
or drawn), and by .ci/made.py, .ci/words.py, .ci/cases.py, .ci/odd.py, .ci/faults.py, .ci/generations.py, .ci/collected.py
and .ci/looks.py; those of reports as JSON of the reports in text, by .ci/as_json.py. What .ci/drawn.py draws by
chance is looked at too.
"""

import functools
import gzip
import os
import re
import subprocess
import sys
import tempfile
from dataclasses import dataclass, field, replace

sys.dont_write_bytecode = True
TOP = os.path.dirname(os.path.dirname(os.path.abspath(__file__)))
# a run that takes longer, in seconds, hangs, even on a machine with a load of 50
SECONDS = 600


def program_of(program, words):
    """The program that is run with these words, as ep_main was built: that of the command, or else ep_main."""
    return program.replace("ep_main", commands().get(words[0], "ep_main") if words else "ep_main")


@functools.cache
def commands():
    """The commands, in the order of use, and the program of each."""
    with open(f"{TOP}/commands.txt", encoding="utf-8") as lines:
        return dict(re.findall(r"(?m)^([a-z-]+) (\w+): ", lines.read()))


def runs_of(words):
    """The words of each run, of those of a row."""
    return [it.split("\n") for it in "\n".join(words).split("\n|\n")]


def is_passed_over(program, words):
    """Whether the words of a run are another program's, and Rattle's own compiler, which made ep_main, made no such program (`rt ci` says so then)."""
    return program.endswith(".by-rattle") and not all(os.path.isfile(program_of(program, it)) for it in runs_of(words))


@dataclass
class Row:
    name: str
    words: list
    given: bytes = b""
    wanted: bytes = b""
    told: bytes = b""
    status: int = 0
    redirect: str = ""
    change: list = field(default_factory=list)
    files: dict = field(default_factory=dict)
    # outputs that are as good as the one that is wanted
    others: list = field(default_factory=list)
    # whether the output has only to begin so, and how the fault output has to end behind what is reported, where it may say more
    is_begun: bool = False
    rest: bytes | None = None
    # what printed lines have to have in them too
    says: list = field(default_factory=list)

    def ran(self, program):
        """The last run's status, output and fault output, in a folder with the row's files, or else in the caller's."""
        if not self.files:
            return self.ran_in(None, program)
        with tempfile.TemporaryDirectory() as folder:
            for name, held in self.files.items():
                os.makedirs(os.path.dirname(f"{folder}/{name}"), exist_ok=True)
                with open(f"{folder}/{name}", "wb") as it:
                    it.write(held)
            return self.ran_in(folder, program)

    def ran_in(self, folder, program):
        """The same in this folder. There is no status where an earlier run didn't end well."""
        given, runs = self.given, runs_of(self.words)
        for words in runs[:-1]:
            status, wrote, told = self.one(program, words, given, "", folder)
            if status or told:
                return None, b"", b"the first run ended with status %s: %s" % (str(status).encode(), told)
            given = bytearray(wrote)
        for place, byte in self.change:
            given[place] = byte
        return self.one(program, runs[-1], bytes(given), self.redirect, folder)

    def run(self, program):
        """Returns what is wrong with a run of the program, or nothing."""
        status, wrote, told = self.ran(program)
        if status != self.status:
            return f"status {status} and not {self.status}; on standard error {told[:200]!r}"
        is_told = told == self.told if self.rest is None else told.startswith(self.told) and told.endswith(self.rest)
        if not is_told:
            return f"standard error has {told[:200]!r} and not {self.told[:200]!r}"
        unsaid = self.unsaid(wrote)
        if unsaid:
            return unsaid
        if wrote != self.wanted and wrote not in self.others and not (self.is_begun and wrote.startswith(self.wanted)):
            at = next((place for place, (a, b) in enumerate(zip(wrote, self.wanted)) if a != b), min(len(wrote), len(self.wanted)))
            return f"standard output has {len(wrote)} bytes and not {len(self.wanted)}, or differs first in line {wrote[:at].count(10) + 1}: {wrote[at : at + 80]!r} and not {self.wanted[at : at + 80]!r}"
        return ""

    def unsaid(self, wrote):
        """Returns what the output has to say and doesn't, or nothing."""
        if self.says and not re.fullmatch(rb"[ -~\n]*\n", wrote):
            return "standard output has bytes that aren't printed, or doesn't end its last line"
        for words in self.says:
            if words.encode() not in wrote:
                return f"standard output doesn't say {words[:200]!r}"
        return ""

    def one(self, program, words, given, redirect, folder=None):
        """Runs the program as epaxos, and gives its status, its output and its fault output."""
        script = 'program=$1; shift; exec -a epaxos "$program" "$@" ' + redirect
        words = ["bash", "-c", script, "", os.path.abspath(program_of(program, words)), *[it for it in words if it]]
        try:
            ran = subprocess.run(words, input=given, capture_output=True, timeout=SECONDS, cwd=folder)
        except subprocess.TimeoutExpired:
            return None, b"", b"it had not ended after %d seconds" % SECONDS
        return ran.returncode, ran.stdout, ran.stderr


def text(folder, name):
    """The bytes of a file, which may be packed, or nothing."""
    path = f"{folder}/{name}"
    if os.path.isfile(f"{path}.gz"):
        with gzip.open(f"{path}.gz") as it:
            return it.read()
    if not os.path.isfile(path):
        return b""
    with open(path, "rb") as it:
        return it.read()


BLOCK = re.compile(r"words|change|status|(?:files/\S+?|input|output|errors)(?:\.hex)?")
PLAIN = rb"(?:(?!-- )[ -~]*\n)*"


def file_of(name):
    """The path of a row's file."""
    return f"{TOP}/.ci/rows/{name}.row"


def blocks_of(name):
    """The blocks of a row's file, as they stand there, by their names."""
    with open(file_of(name), encoding="utf-8", newline="") as it:
        text = it.read()
    before, *parts = re.split(r"(?m)^-- (.*) --\n", text)
    called = [it.removesuffix(".hex") for it in parts[::2]]
    odd = [it for it in parts[::2] if not BLOCK.fullmatch(it) or called.count(it.removesuffix(".hex")) > 1]
    if before or odd or not text.endswith("\n"):
        why = f"no block is called so, or two are: {odd[0]}" if odd else "a line is in no block, or has no end"
        raise ValueError(f"row {name}: {why}")
    return dict(zip(parts[::2], parts[1::2]))


def held(blocks, name):
    """The bytes of a block, or nothing where there is none."""
    if f"{name}.hex" in blocks:
        return bytes.fromhex("".join(line.partition("#")[0] for line in blocks[f"{name}.hex"].splitlines()))
    return blocks.get(name, "").encode()


def row_of(name):
    """The row of a file."""
    blocks = blocks_of(name)
    words, *redirect = re.split(r"\s(?=\d?[<>])", blocks.get("words", "").strip(), maxsplit=1)
    change = [line.split() for line in blocks.get("change", "").splitlines()]
    files = [it.removesuffix(".hex") for it in blocks if it.startswith("files/")]
    return Row(
        name,
        words.split(),
        held(blocks, "input"),
        held(blocks, "output"),
        held(blocks, "errors"),
        int(blocks.get("status", 0)),
        "".join(redirect),
        [(int(place), int(byte, 16)) for place, byte in change],
        {it.removeprefix("files/"): held(blocks, it) for it in files},
    )


def names():
    """The names of the rows in .ci/rows."""
    return sorted(it.removesuffix(".row") for it in os.listdir(f"{TOP}/.ci/rows"))


def stored():
    """The rows of .ci/rows."""
    return map(row_of, names())


def rewrite(program, name):
    """Writes what the program gives into a row's file, in the place of what was wanted where that was another."""
    blocks, (status, wrote, told) = blocks_of(name), row_of(name).ran(program)
    if status is None:
        raise ValueError(f"row {name}: {told.decode(errors='replace')}")
    before = {**blocks}
    for block, gives in (("output", wrote), ("errors", told), ("status", b"%d\n" % status if status else b"")):
        was = {it: blocks.pop(it) for it in (block, f"{block}.hex") if it in blocks}
        if gives and held(was, block) == gives:
            blocks.update(was)
        elif re.fullmatch(PLAIN, gives):
            blocks.update({block: gives.decode()} if gives else {})
        else:
            blocks[f"{block}.hex"] = "".join(f"{gives[at : at + 32].hex(' ', -4)}\n" for at in range(0, len(gives), 32))
    if blocks != before:
        print(f"{file_of(name)} is another", flush=True)
        with open(file_of(name), "w", encoding="utf-8", newline="") as it:
            it.writelines(f"-- {block} --\n{text}" for block, text in blocks.items())


def played(name, script, report):
    """A script's row, and that of its bundle, audited to the same lines."""
    yield Row(name, ["replay"], script, report)
    yield Row(f"{name}, its bundle audited", ["replay", "--emit", "bundle", "|", "audit"], script, report[: report.rindex(b"refused ")])


def hosted(name, words, script, reports):
    """The rows of a script for a run, by each host."""
    for host in ("lock", "ring"):
        yield Row(f"{name}, by the {host} host", ["run", "--host", host, *words], script, reports[0], others=reports[1:])


def written():
    """The rows of scripts and reports that stand as files."""
    for folder in ("examples", ".ci/scripts"):
        for name in sorted(os.listdir(f"{TOP}/{folder}")):
            stem, kind = os.path.splitext(name)
            if kind in (".script", ".run"):
                script, report = text(f"{TOP}/{folder}", name), text(f"{TOP}/{folder}", f"{stem}.report")
                name = f"{folder}/{name}"
                yield from played(name, script, report) if kind == ".script" else hosted(name, [], script, [report])
                if os.path.isfile(f"{TOP}/{folder}/{stem}.trace"):
                    yield Row(f"{name}, traced", ["trace"], script, text(f"{TOP}/{folder}", f"{stem}.trace"))
                for ending, way in (("mmd", "--mermaid"), ("dot", "--dot")):
                    if os.path.isfile(f"{TOP}/{folder}/{stem}.{ending}"):
                        yield Row(f"{name}, drawn by {way}", ["replay", "--emit", "bundle", "|", "draw", way], script, text(f"{TOP}/{folder}", f"{stem}.{ending}"))


def in_json(rows):
    """The rows, and for each that asks for a report in text that of the same report as JSON."""
    from as_json import is_told, wanted

    for row in rows:
        yield row
        if is_told(row):
            yield replace(row, name=f"{row.name}, as JSON", words=[*row.words, "--emit", "json"], wanted=wanted(row.wanted), others=[wanted(it) for it in row.others])


def every():
    """All rows."""
    sys.path.insert(0, f"{TOP}/.ci")
    import cases
    import collected
    import faults
    import generations
    import looks
    import made
    import odd
    import words

    yield from in_json(stored())
    yield from in_json(Row(**it) for it in generations.every())
    yield from (Row(**it) for it in (*words.every(), *cases.every(), *odd.every(), *faults.every(), *collected.every(), *looks.every()))
    yield from in_json(written())
    for name, script, report in (*made.every(), *cases.played(), *generations.played()):
        yield from played(name, script, report)
    for name, words, script, reports in (*made.weather(), *cases.hosted(), *generations.hosted()):
        yield from hosted(name, words, script, reports)
    for subcommand, scripts in (("replay", made.refused()), ("run", made.refused_runs())):
        for name, script, line in scripts:
            yield Row(name, [subcommand], script, told=b"script refused at line %d\n" % line, status=2)


def noded(program):
    """The runs of .ci/nodes.py: the name of each, and what is wrong with it, or nothing."""
    sys.path.insert(0, f"{TOP}/.ci")
    import nodes

    return nodes.every(program_of(program, ["node"]))


def foldered(program):
    """The runs of .ci/folders.py, likewise."""
    sys.path.insert(0, f"{TOP}/.ci")
    import folders

    return folders.every(program_of(program, ["node"]))


def drawn(program):
    """The chains of .ci/drawn.py, likewise."""
    sys.path.insert(0, f"{TOP}/.ci")
    import drawn as chains

    return chains.every(program)


def tried(program, word="", by=""):
    """Runs the program on the rows, prints a line for each that fails, and returns how many passed and how many failed."""
    passed = failed = 0
    for row in every():
        if word in row.name and not is_passed_over(program, row.words):
            wrong = row.run(program)
            passed, failed = passed + (not wrong), failed + bool(wrong)
            if wrong:
                print(f"row {row.name}{by}: {wrong}", flush=True)
    nodes = () if is_passed_over(program, ["node"]) else (noded(program), foldered(program))
    for others in (*nodes, drawn(program)):
        for name, wrong in others:
            if word in name:
                passed, failed = passed + (not wrong), failed + bool(wrong)
                if wrong:
                    print(f"row {name}{by}: {wrong}", flush=True)
    print(f"rows{by}: {passed} passed, {failed} failed", flush=True)
    return passed, failed


def main(words):
    if words in (["--help"], ["-h"]):
        print(__doc__, end="")
        return 0
    if words[:1] == ["--rewrite"] and os.path.isfile("".join(words[1:2])) and {*words[2:]} <= {*names()}:
        for name in words[2:] or names():
            rewrite(os.path.abspath(words[1]), name)
        return 0
    if not 1 <= len(words) <= 2 or not os.path.isfile(words[0]):
        print(__doc__, end="", file=sys.stderr)
        return 2
    passed, failed = tried(os.path.abspath(words[0]), "".join(words[1:]))
    return 0 if passed and not failed else 1


if __name__ == "__main__":
    sys.exit(main(sys.argv[1:]))
