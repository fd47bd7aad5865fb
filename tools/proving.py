"""How a build has its crates proved."""

import contextlib
import os
import signal
import sys
import tempfile

import archive
from kit import KIT, crates_of, note_of
from verdicts import Verdicts

FAILED = 70
# what would have a proof be another than that of `rt ci`
VARIABLES = ("RT_ALLOW_C", "RT_BACKEND", "RT_SECONDS")


class Proving:
    """The proofs of a build. `logs`: a folder for what is said of each crate; `archives`: the files of the C library."""

    def __init__(self, top, progress, logs, archives):
        for it in VARIABLES:
            os.environ.pop(it, None)
        # as under `rt ci`: the crates above a library load its statements
        KIT.Crate.cuts_libraries = True
        self.crates, self.verdicts = crates_of(top), Verdicts(top)
        self.progress, self.logs, self.archives = progress, logs, archives

    def compile_library(self, crate, jobs):
        """Proves the crate of the C library, compiles what that proved, and makes both files. Returns the status."""
        kit, to = KIT.KIT, f"out/lib{crate.name}.a"
        words = crate.words(["--jobs", str(jobs)], keeps=False)
        with tempfile.TemporaryDirectory(prefix=f"rt-proved-{os.getpid()}-") as room:
            status = crate.prove(["check", *words, "-o", f"{room}/checked"])
            for flag in ("--logic-built", "--jobs"):
                at = words.index(flag)
                words = [*words[:at], *words[at + 2 :]]
            words += ["--crate-checked", f"{room}/checked", "--toolchain", f"{kit}/toolchain", "--backend", "llvm"]
            status = status or crate.call(KIT.rtlib.RATTLE, "build", *words, "-o", to)
        if status:
            return status
        out = os.path.dirname(self.archives[0])
        with tempfile.TemporaryDirectory(dir=out, prefix="library.") as folder:
            new = [f"{folder}/{os.path.basename(it)}" for it in self.archives]
            said = archive.make_archive(kit, f"{crate.folder}/{to}", new[0]) or archive.make_shared(kit, *new)
            print(said, end="", file=crate.out)
            for one, other in () if said else zip(new, self.archives):
                os.replace(one, other)
        return FAILED if said else 0

    def build(self, crate, jobs):
        """Proves a crate from nothing, and makes what is made of it. Returns the status."""
        if crate.is_static:
            return self.compile_library(crate, jobs)
        return crate.ci(["--jobs", str(jobs)], False)

    def prove(self, crate, jobs):
        """Proves a crate as `rt ci` does, and returns the proof's last line, or nothing where it isn't proved."""
        os.makedirs(f"{crate.folder}/out", exist_ok=True)
        with contextlib.suppress(FileNotFoundError):
            os.remove(note_of(crate))
        with open(f"{self.logs}/{crate.name}", "w+", encoding="utf-8", errors="replace") as crate.out:
            try:
                KIT.rtlib.stop_on_text(crate, "verdict")
                KIT.stop_on_words(crate)
                status = self.build(crate, jobs)
                # (killed, most likely for memory)
                status = self.build(crate, 1) if status == -signal.SIGKILL else status
            except SystemExit:
                # (it has said why)
                status = FAILED
            crate.out.seek(0)
            said = [it.rstrip("\n") for it in crate.out if it.startswith("logic=proved ")]
        # (what compiles what was proved says so again)
        return "" if status or not said else said[0]

    def take(self, crate, read, own):
        """Takes what is kept of a crate, also by whoever proves the same just now, and returns whether something is."""
        if self.verdicts.take(crate, read, own):
            return True
        return not own and self.verdicts.waited(crate, read) and self.verdicts.take(crate, read)

    def work(self, crate, given, jobs):
        """Has a crate proved, and returns whether it is."""
        if not all(given[it.name, "proof"] for it in crate.below()):
            return False
        own, read = self.archives if crate.is_static else (), self.verdicts.read(crate)
        if self.take(crate, read, own):
            self.progress.add()
            return True
        self.progress.begin(crate.name)
        self.verdicts.drop(crate)
        said = self.prove(crate, jobs)
        is_well = bool(said) and self.verdicts.note(crate, read, said, own)
        if said and not is_well:
            with open(f"{self.logs}/{crate.name}", "a", encoding="utf-8") as log:
                log.write("a file of it was touched meanwhile, or a library below it\n")
        self.progress.end(crate.name, is_well)
        return is_well

    def run(self, names):
        """Has the crates of these names proved, with all below them, and returns one that isn't proved, or none."""
        tops = [self.crates[it] for it in names]
        below = {it.name: it for top in tops for it in (*top.below(), top)}
        crates, tasks = sorted(below.values(), key=lambda it: len(it.below())), {}
        self.verdicts.drop_others(below)
        self.progress.count = len(crates)
        what = "what is proved of them is taken, the others are proved now"
        self.progress.line(f"{len(crates)} crates: {what}")
        self.progress.start()
        # (its first call sets a signal's handler, which only the main thread may)
        KIT.rtlib.guarded()
        held = KIT.rtlib.lock(crates)
        for crate in crates:
            waits = [(it.name, "proof") for it in crate.below()]
            call = lambda given, jobs, it=crate: self.work(it, given, jobs)
            tasks[crate.name, "proof"] = waits, crate.count(rb"\n"), KIT.need(crate), call
        # (it says there whom it waits for)
        with contextlib.redirect_stdout(sys.stderr):
            given = KIT.in_lanes(tasks)
        for it in held:
            os.close(it)
        return next((name for (name, _), is_well in given.items() if not is_well), None)

    def told(self):
        """Where the verdicts come from."""
        told = self.verdicts.told().values()
        own = sum(it.startswith("logic=") for it in told)
        return f"{len(told) - own} crates as `rt ci` proved them, {own} as ./epaxos --build did (out/verdicts)"
