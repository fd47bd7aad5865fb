"""What `draw --mermaid` and `draw --dot` write, worked out of the lines that `show` prints, by docs/CLI.md, 11.2."""

import re

INSTANCE = r"[0-6]\.[1-9][0-9]{0,3}"
LINE = re.compile(r"stamp (\d+)  replica (\d) entry \d+  (.*)")
# (a word of bytes has no space, so none of these stands in a command or an answer)
SENT = re.compile(rf"; sends ((?:to \d(?: NEVER HANDLED)?(?:, )?)+): (\w+ {INSTANCE})")
COMMIT = re.compile(rf"Commit ({INSTANCE}) (.*?) seq (\d+) deps ([0-9.,]+|-)(?=;|$)")
PLAIN = "abcdefghijklmnopqrstuvwxyzABCDEFGHIJKLMNOPQRSTUVWXYZ0123456789 (),-._"
# a line of a diagram, whatever its words
WORDS = r"(?:[A-Za-z0-9 (),._-]|#[0-9]{1,3};|<br/>)+"
DRAWN = re.compile(rf"  (?:participant r\d as replica \d|Note over r\d: {WORDS}|r\d(?:->>|--x)r\d: {WORDS})")


def mermaid(words):
    """Words as Mermaid has them in a line."""
    return "".join(it if it in PLAIN else f"#{ord(it)};" for it in words)


def dot(words):
    """Words as Graphviz has them in a label."""
    return "".join(it if it in PLAIN else r"\\" if it == "\\" else f"&#{ord(it)};" for it in words)


def parted(shown):
    """The words of the edition, if there are any, and the lines of entries."""
    lines = shown.splitlines()
    return "".join(it for it in lines if it.startswith("version ")), [it for it in lines if it.startswith("stamp ")]


class Entry:
    """An entry as a line reports it."""

    def __init__(self, line):
        found = LINE.fullmatch(line)
        self.stamp, self.replica, words = int(found[1]), int(found[2]), found[3]
        self.event = re.split("; (?:took|sends|executed) ", words)[0]
        took = re.search(rf"; took ({INSTANCE})", words)
        self.took = took and took[1]
        self.sent = [(int(to[3]), bool(re.search(f"{re.escape(to)} NEVER", receivers)), message) for receivers, message in SENT.findall(words) for to in re.findall(r"to \d", receivers)]
        done = words.partition("; executed ")[2]
        self.done = [tuple(it.split(" -> ")) for it in done.split(", ")] if done else []
        self.commits = COMMIT.findall(words)

    def begun(self):
        """The instance that it proposes or recovers, or nothing."""
        return self.took or (self.event.removeprefix("recover ") if self.event.startswith("recover ") else None)

    def lines(self):
        """Its lines in a diagram."""
        answers = "".join(f"<br/>{name} answers {mermaid(said)}" for name, said in self.done)
        if self.event.startswith("handle "):
            origin, kind, instance = self.event.split(" ")[1:4]
            yield f"  r{origin[0]}->>r{self.replica}: {kind} {instance}{answers}"
        elif self.took:
            command, spared = re.fullmatch(r"propose (.*) \(client \d+ request \d+ seen \d+\)( sparing \d)?", self.event).groups()
            yield f"  Note over r{self.replica}: propose {mermaid(command)}{spared or ''} as {self.took}{answers}"
        else:
            yield f"  Note over r{self.replica}: {self.event}{answers}"
        for to, is_lost, message in self.sent:
            if is_lost:
                yield f"  r{self.replica}--xr{to}: {message}"


def sequence(shown, replicas):
    """The diagram of what is shown."""
    edition, lines = parted(shown)
    whole = ["sequenceDiagram", *(f"  participant r{it} as replica {it}" for it in range(replicas))] + [f"  Note over r0: {mermaid(edition)}"] * bool(edition)
    for line in lines:
        whole += Entry(line).lines()
    return "".join(f"{it}\n" for it in whole)


def number(name):
    """An instance's replica and number, by which instances stand in order."""
    return tuple(map(int, name.split(".")))


def graph(shown, kept=None):
    """The graph of what is shown, or of what these lines of it propose and recover."""
    edition, lines = parted(shown)
    entries = [Entry(it) for it in lines]
    committed, replies = {}, {}
    for it in entries:
        for name, command, seq, deps in it.commits:
            committed.setdefault(name, (command, int(seq), [] if deps == "-" else deps.split(",")))
        for name, said in it.done:
            if said != "lost":
                replies.setdefault(name, said)
    begun = {it.begun() for it in ([Entry(line) for line in parted(kept)[1]] if kept is not None else entries)}
    whole = ["digraph dependencies {", "  rankdir=BT;", '  node [shape=box, style=dashed, fontname="monospace"];']
    whole += ["  labelloc=t;", f'  label="{dot(edition)}";'] * bool(edition)
    for name in sorted(begun & {*committed}, key=number):
        command, seq, deps = committed[name]
        said = rf"\n{dot(replies[name])}" if name in replies else ""
        whole.append(f'  "{name}" [style=solid, label="{name} {dot(command)}{said}"];')
        for dep in deps:
            near = [committed[it] for it in deps if it in begun and it in committed]
            if not (dep in committed and any(committed[dep][1] < one[1] < seq and dep in one[2] for one in near)):
                whole.append(f'  "{name}" -> "{dep}";')
    return "".join(f"{it}\n" for it in [*whole, "}"])
