"""Scripts of version 3 that are drawn by chance, over up to four generations of three, five or seven replicas, each of which opens with the map that the
one before left.

  .ci/drawn.py PROGRAM SEED..     those of these seeds alone

Replicas give up and recover at any time, messages are given in any order, and seals are proposed among all other commands. The report of each is read
by docs/CLI.md, section 5: every reply, the seal and the contents have to be those of a plain map, and of two committed commands that interfere one
depends on the other. An audit of the bundle has to say the same, an upgrade to hand it on as it is, `show`, `explain` and `draw` to take it, and an audit
of the chain to accept all generations, and to refuse them the other way round. A script for a run is drawn from the same opening, for both hosts.
"""

import os
import random
import re
import subprocess
import sys
import tempfile

sys.dont_write_bytecode = True
TOP = os.path.dirname(os.path.dirname(os.path.abspath(__file__)))
sys.path.insert(0, f"{TOP}/.ci")

import generations

SECONDS = 600
# how many seeds a gate tries, from 0 on
SEEDS = 30
KEYS = ("a", "aa", "b", "%00", "%ff")
VALUES = ("1", "2", "%-", "%25%0a")
LOOKS = (["show"], ["explain"], ["draw"], ["draw", "--mermaid"], ["draw", "--dot"], ["trace-events"])


class Wrong(Exception):
    """What isn't as it has to be."""


def require(holds, *words):
    """Stops where it doesn't hold."""
    if not holds:
        raise Wrong(" ".join(str(it)[:300] for it in words))


class Life:
    """A generation that scripts are drawn for: its size, number, stamp and opening."""

    def __init__(self, chance, number, since, opening):
        self.chance, self.number, self.since, self.opening = chance, number, since, opening
        self.size = chance.choice((3, 3, 5, 7))

    def head(self):
        """The first lines of its scripts."""
        rest = [f"since {self.since}"] * (self.since > 0) + [f"opening {generations.worded(key)} {generations.worded(it)}" for key, it in self.opening.items()]
        self.chance.shuffle(rest)
        return [f"replicas {self.size}", f"generation {self.number}", *rest]

    def proposal(self, replica):
        """A line that proposes something there."""
        chance = self.chance
        key, other = chance.sample(KEYS, 2)
        value, expected, new = chance.choice(VALUES), chance.choice((*VALUES, "%!", "%!")), chance.choice((*VALUES, "%!"))
        opaque = [f"{name} {keys} {value}" for name in ("ask", "act") for keys in (key, f"{key} {other}")]
        others = [self.many(), self.many(), f"get {key}", f"put {key} {value}", f"del {key}", f"swap {key} {other}", f"cas {key} {expected} {new}", *opaque]
        # (half of them name another replica as the spared one)
        spared = chance.choice([it for it in range(self.size) if it != replica])
        named = f"sparing {spared} " if chance.random() < 0.5 else ""
        return f"{named}propose {replica} {chance.randrange(1, 4)} {f'seal {value}' if chance.random() < 0.06 else chance.choice(others)}"

    def many(self):
        """A command over many keys, its items in any order."""
        chance, items = self.chance, []
        for key in chance.sample(KEYS, chance.randrange(1, 5)):
            of = [f"if {key} {chance.choice((*VALUES, '%!'))}"] * (chance.random() < 0.3) + [f"get {key}"] * (chance.random() < 0.5)
            of += chance.choice(([], [f"put {key} {chance.choice(VALUES)}"], [f"del {key}"]))
            items += of or [f"get {key}"]
        chance.shuffle(items)
        return " ".join(["tx", *items])

    def script(self):
        """A script for a replay, which all replicas end by executing what they can."""
        chance, lines, taken = self.chance, self.head(), []

        def propose(line, replica):
            lines.append(line)
            taken.append(f"{replica}.{1 + sum(it.startswith(f'{replica}.') for it in taken)}")

        for _ in range(chance.randrange(4, 25)):
            kind, replica = chance.random(), chance.randrange(self.size)
            if kind < 0.45 or not taken:
                propose(self.proposal(replica), replica)
            elif kind < 0.6:
                lines.append("flush")
            elif kind < 0.8:
                lines.append("deliver " + " ".join(str(chance.randrange(1, 60)) for _ in range(chance.randrange(1, 9))))
            elif kind < 0.9:
                lines.append(f"{chance.choice(('recover', 'recover', 'giveup'))} {replica} {chance.choice(taken)}")
            else:
                lines.append(f"execute {replica} {chance.choice(taken)}")
        replica = chance.randrange(self.size)
        propose(f"propose {replica} 1 seal s", replica)
        lines += ["flush"] * 4
        for _ in range(2):
            lines += [f"recover {chance.randrange(self.size)} {it}" for it in taken] + ["flush"] * 8
        lines += [f"execute {at} {it}" for at in range(self.size) for it in taken]
        return generations.joined(lines).encode()

    def agenda(self):
        """A script for a run."""
        chance, lines = self.chance, self.head()
        for _ in range(chance.randrange(1, 4)):
            lines += [self.proposal(chance.randrange(self.size)) for _ in range(chance.randrange(1, 12))]
            weather = {(*chance.sample(range(self.size), 2), chance.randrange(1, 4)) for _ in range(chance.randrange(4))}
            lines += [f"{chance.choice(('drop', 'hold', 'repeat'))} {a} {b} {place}" for a, b, place in sorted(weather)]
            lines.append("section")
        return generations.joined(lines).encode()


class Report:
    """A report of version 3, read line by line; what it says has to hold of the plain map."""

    def __init__(self, life, wrote, is_run):
        self.lines, self.held, self.closing, self.stamp = iter(wrote.decode().split("\n")), {**life.opening}, None, None
        self.want("verdict accepted")
        self.want(f"generation {life.number} since {life.since}")
        self.committed = dict(self.instance(*it) for it in self.part("committed", r"(\S+) seq \d+ deps (\S+) (.*)"))
        self.interfering()
        self.replies = {}
        for place, (at, name, text, said) in enumerate(self.part("history", r"(\d+) (\S+) (.*?) -> (.*)"), 1):
            require(int(at) == place and name in self.committed and name not in self.replies, "place", at, name)
            self.replies[name] = self.reply(name, text)
            require(said == self.replies[name], name, text, "is told", said, "and not", self.replies[name])
        self.ending()
        for _, _, name, said in self.part("receipts", r"client (\d+) request (\d+) (\S+) (.*)"):
            require(said == self.replies.get(name, "lost") and (said == "lost") == (self.committed[name][1] is None), "receipt", name, said)
        self.part("refused", r"line \d+ E.*")
        if is_run:
            require(next(self.lines).startswith("lost "), "no part lost")
        require([*self.lines] == [""], "lines behind the last one")

    def want(self, line):
        found = next(self.lines)
        require(found == line, "line", found, "and not", line)

    def part(self, name, form):
        """The lines of a part, each as the form takes it apart."""
        count = re.fullmatch(rf"{name} (\d+)", next(self.lines))
        require(count, "no part", name)
        lines = [next(self.lines) for _ in range(int(count[1]))]
        taken = [re.fullmatch(form, it) for it in lines]
        require(all(taken), "lines of", name, lines)
        return [it.groups() for it in taken]

    def instance(self, name, deps, text):
        return name, (deps.split(","), None if text == "noop" else generations.Command(text))

    def interfering(self):
        """Of two commands that interfere one depends on the other."""
        for name, (deps, command) in self.committed.items():
            for other, (others, it) in self.committed.items():
                if command and it and name != other and command.meets(it):
                    require(other in deps or name in others, name, "and", other, "don't depend on one another")

    def reply(self, name, text):
        """What the plain map says to the command, which it does."""
        command = self.committed[name][1]
        require(command and command.text == text, name, "has another command in the history:", text)
        if self.closing:
            return "closed"
        said = command.reply(self.held)
        if command.name == "seal":
            self.closing = f"closed {name} {text.split(' ')[1]}"
        return generations.replied(said)

    def ending(self):
        line = next(self.lines)
        closing, _, stamp = line.rpartition(" stamp ")
        require(closing == self.closing if self.closing else line == "open", "line", line, "and not", self.closing)
        self.stamp = int(stamp) if self.closing else None
        self.want(generations.told(self.held))


def called(program, words, given=b"", status=0):
    """What the program writes, where it ends with this status and says nothing on its fault output."""
    ran = subprocess.run([program, *words], input=given, stdout=subprocess.PIPE, stderr=subprocess.PIPE, timeout=SECONDS)
    require((ran.returncode, ran.stderr) == (status, b""), words, "ended with", ran.returncode, ran.stderr)
    return ran.stdout


def generation(program, life):
    """Plays and runs scripts of the generation, and gives the report of the replay and its bundle."""
    script, viewer = life.script(), program.replace("ep_main", "ep_viewer")
    wrote, bundle = called(program, ["replay"], script), called(program, ["replay", "--emit", "bundle"], script)
    report = Report(life, wrote, False)
    require(wrote[: wrote.rindex(b"refused ")] == called(program, ["audit"], bundle), "the audit says something else")
    require(called(program, ["upgrade", "--to", "3"], bundle) == bundle, "the upgrade isn't the bundle")
    if os.path.isfile(viewer):
        for words in LOOKS:
            require(called(viewer, words, bundle), words, "writes nothing")
        called(viewer, ["trace"], script)
    for host in ("lock", "ring"):
        Report(life, called(program, ["run", "--host", host], life.agenda()), True)
    return report, bundle


def chain(program, seed):
    """Up to four generations, one behind the other."""
    chance = random.Random(seed)
    opening = {generations.spelled(it): generations.spelled(chance.choice(VALUES)) for it in KEYS if chance.random() < 0.3}
    life, names = Life(chance, chance.choice((1, 7, 2**32 - 5)), chance.choice((0, 5, 2**40)), opening), []
    with tempfile.TemporaryDirectory() as folder:
        for at in range(chance.randrange(1, 5)):
            report, bundle = generation(program, life)
            names.append(f"{folder}/{at}.bundle")
            with open(names[-1], "wb") as file:
                file.write(bundle)
            if not report.closing:
                break
            life = Life(chance, life.number + 1, report.stamp + chance.choice((0, 0, 3)), report.held)
        accepted = called(program, ["audit", "--chain", *names])
        require(accepted.startswith(b"verdict accepted\n") and accepted.count(b"\n") == 1 + len(names), "the chain:", accepted)
        if len(names) > 1:
            turned = called(program, ["audit", "--chain", *names[::-1]], status=1)
            require(turned.endswith(b"\nA6 not consecutive\n"), "the chain, the other way round:", turned)


def every(program, seeds=None):
    """The name of each chain that is drawn, and what is wrong with it, or nothing."""
    for seed in seeds or range(SEEDS):
        try:
            chain(program, seed)
            wrong = ""
        except (Wrong, subprocess.TimeoutExpired, StopIteration) as fault:
            wrong = f"{type(fault).__name__}: {fault}"
        yield f"drawn by chance, seed {seed}", wrong


if __name__ == "__main__":
    found = [(name, wrong) for name, wrong in every(os.path.abspath(sys.argv[1]), [int(it) for it in sys.argv[2:]])]
    for name, wrong in found:
        print(f"{name}: {wrong or 'well'}")
    sys.exit(int(any(wrong for _, wrong in found)))
