"""What a command's work takes: processor time and time by the clock, by kind."""

import os
import tempfile
import threading
import time

KINDS = ("proofs", "tests", "edits")
TICK = os.sysconf("SC_CLK_TCK")
SECONDS = 0.5


def read(pid, name):
    try:
        with open(f"/proc/{pid}/{name}", "rb") as it:
            return it.read()
    except OSError:
        return b""


def crate_of(words):
    """The crate that a check is of."""
    named = [after for word, after in zip(words, words[1:]) if word == b"--crate-name"]
    return named[0].decode() if named else ""


def kind_of(pid, words):
    """The kind of work that the process, which was begun by these words, does: a check of a must-fail edit, one of tests or their run, another check; or none."""
    name = os.path.basename(words[0])
    try:
        cwd = os.readlink(f"/proc/{pid}/cwd")
    except OSError:
        cwd = ""
    if cwd.startswith(f"{tempfile.gettempdir()}/rt-edit-"):
        return "edits"
    if name == b"rattle-test" or name == b"rattle" and b"--test" in words:
        return "tests"
    return "proofs" if name == b"rattle" and words[1:2] in ([b"check"], [b"build"]) else None


class Clock:
    """Looks at the processes below this one twice a second. The total is exact, a kind's time is what was seen of it."""

    def __init__(self):
        self.processor, self.clock, self.seen, self.crates = dict.fromkeys(KINDS, 0.0), dict.fromkeys(KINDS, 0.0), {}, {}
        self.ended, self.began, self.spent = threading.Event(), time.monotonic(), self.total()
        self.looking = threading.Thread(target=self.look_on, daemon=True)

    def __enter__(self):
        self.looking.start()
        return self

    def __exit__(self, *_):
        self.ended.set()
        self.looking.join()
        self.spent, self.began = self.total() - self.spent, time.monotonic() - self.began
        for kind, crate, ticks in self.seen.values():
            self.processor[kind] += ticks / TICK
            if kind == "proofs" and crate:
                self.crates[crate] = self.crates.get(crate, 0.0) + ticks / TICK

    def total(self):
        return sum(os.times()[:4])

    def look_on(self):
        before = time.monotonic()
        while not self.ended.wait(SECONDS):
            now = time.monotonic()
            for kind in self.look():
                self.clock[kind] += now - before
            before = now

    def look(self):
        """Notes what each process of a kind, with those below it, has taken so far; returns the kinds that there are now."""
        below, ticks = {}, {}
        for pid in filter(str.isdigit, os.listdir("/proc")):
            stat = read(pid, "stat").rpartition(b")")[2].split()
            if len(stat) > 19:
                below.setdefault(int(stat[1]), []).append(int(pid))
                # (its own time, that of its children that have ended, and when it began, since numbers are given again)
                ticks[int(pid)] = sum(map(int, stat[11:15])), stat[19]
        found, todo = set(), [(it, None) for it in below.get(os.getpid(), [])]
        while todo:
            pid, root = todo.pop()
            words = [] if root else read(pid, "cmdline").split(b"\0")
            kind = None if root else kind_of(pid, words)
            if kind:
                root = pid, ticks[pid][1]
                found.add(kind)
                self.seen[root] = kind, crate_of(words), 0
            if root:
                *of, so_far = self.seen[root]
                self.seen[root] = *of, so_far + ticks[pid][0]
            todo += [(it, root) for it in below.get(pid, [])]
        return found

    def lines(self):
        """What was taken, in minutes."""
        other = max(self.spent - sum(self.processor.values()), 0.0)
        parts = [f"{it} {self.processor[it] / 60:.1f}" for it in KINDS]
        times = [f"{it} {self.clock[it] / 60:.1f}" for it in KINDS]
        crates = sorted(self.crates.items(), key=lambda it: -it[1])
        return [
            f"seconds of processor time of proofs (what an earlier run kept takes none): {', '.join(f'{it} {seconds:.0f}' for it, seconds in crates)}",
            f"minutes of processor time: {self.spent / 60:.1f} ({', '.join(parts)}, other {other / 60:.1f})",
            f"minutes by the clock: {self.began / 60:.1f} (with {', with '.join(times)}: these run side by side)",
        ]
