"""The kit's command rt as a module."""

import contextlib
import functools
import hashlib
import os
import shutil
import subprocess

from loaded import loaded


def rt():
    """The module of the command rt, whose rules say what an edit is, and how a crate is checked with one."""
    kit = os.path.dirname(subprocess.run(["rt", "doc"], stdout=subprocess.PIPE, text=True, check=True).stdout)
    made = loaded("rt", f"{kit}/bin/rt")
    made.rtlib.Crate = made.Crate
    # (rt sums a crate's sources once for each way down to it, which takes minutes for an upper crate; what is summed here isn't edited meanwhile)
    made.Crate.stamp = functools.cache(made.Crate.stamp)
    return made


KIT = rt()


def crates_of(top):
    """The crates of a folder like the repository's, lowest first, held to its HANDLES."""
    KIT.Crate.allowed = KIT.handles_of(top)
    return {it.name: it for it in KIT.rtlib.crates_below(f"{top}/crates")}


def files_of(crate):
    """The files that a check of the crate reads."""
    parts = (f"{crate.folder}/{it}" for it in KIT.rtlib.PARTS)
    return sorted(f"{at}/{it}" for part in parts for at, _, names in os.walk(part) for it in names)


def touched(crate):
    """What says whether a file of the crate is touched later."""
    return [(it, os.stat(it).st_mtime_ns) for it in files_of(crate)]


@functools.cache
def sum_of_kit():
    return [KIT.rtlib.text_of(f"{KIT.KIT}/KIT-ID"), KIT.rtlib.sum_of(KIT.rtlib.RATTLE)]


class NoStore:
    """What stands in for the store of proofs of a kit that has none: nothing is kept, and the sums are made here."""

    at = None

    def __init__(self):
        self.built = {}

    def key(self, crate):
        """The sum of all that its proof reads: the kit, HANDLES, its line and files, and the libraries below."""
        files = [(os.path.relpath(it, crate.folder), KIT.rtlib.sum_of(it)) for it in files_of(crate)]
        below = [(it.name, self.built.get(it.name)) for it in crate.below()]
        read = (sum_of_kit(), crate.allowed, sorted(crate.said.items()), files, below)
        return hashlib.sha256(repr(read).encode()).hexdigest()

    def made(self, crate, _):
        """The files of out/ that are made of the crate, but for the C library."""
        if crate.is_program:
            both = (crate.name, f"{crate.name}.by-rattle")
            return [it for it in both if os.path.isfile(f"{crate.folder}/out/{it}")]
        walk = os.walk(crate.rlib)
        return sorted(os.path.relpath(f"{at}/{it}", f"{crate.folder}/out") for at, _, names in walk for it in names)

    def is_built(self, crate):
        """Takes what stands in out/ for what the crates above are proved over."""
        self.built[crate.name] = [KIT.rtlib.sum_of(f"{crate.folder}/out/{it}") for it in self.made(crate, False)]

    @contextlib.contextmanager
    def in_turn(self, *_):
        """Nobody else's proof is waited for."""
        yield False


def store():
    """The kit's store of proofs, or what stands in for it."""
    return KIT.Kept([]) if hasattr(KIT, "Kept") else NoStore()


def is_left(crate):
    """Whether `rt ci` left a library in this clone of the crate as it is: some kits keep nothing else."""
    made = f"{crate.rlib}/format"
    walks = (os.walk(f"{crate.folder}/{part}") for part in ("src", "specs", "proofs"))
    files = (f"{at}/{it}" for walk in walks for at, _, names in walk for it in names)
    return os.path.isfile(made) and all(os.path.getmtime(it) <= os.path.getmtime(made) for it in files)


def note_of(crate):
    """The file that says of which key the library in the crate's out/ is."""
    return f"{crate.folder}/out/kept"


def give(kept, crate, key):
    """Gives the crate what `rt ci` kept of it under this key, and returns whether it kept that."""
    if not kept.at or not os.path.isdir(kept.place(crate, False, key)):
        return False
    # (beside another build's files the kept ones would count as damaged)
    shutil.rmtree(f"{crate.folder}/out/rlib", ignore_errors=True)
    if not kept.give(crate, False, key):
        return False
    with open(note_of(crate), "w", encoding="utf-8") as to:
        to.write(key)
    return True


def give_kept(crates):
    """Gives each of the crates the library that `rt ci` kept on this machine of the same files over the same libraries, and returns the names of those of
    which it kept none. The crates stand lowest first, with all that they stand on. Such a library has its statements alone, which a check by `rattle` takes
    and `rt check` doesn't: so it has no stamp."""
    kept, lacking = KIT.Kept([]) if hasattr(KIT, "Kept") else None, []
    for it in crates:
        if any(dep.name in lacking for dep in it.deps) or kept is None and not is_left(it):
            lacking.append(it.name)
        if kept is None or it.name in lacking:
            continue
        key = kept.key(it)
        # (a library with a stamp is one that `rt check` built meanwhile)
        is_own = os.path.isfile(f"{os.path.dirname(it.rlib)}/stamp")
        is_there = os.path.isfile(f"{it.rlib}/format") and not is_own and KIT.rtlib.text_of(note_of(it)) == key
        if not is_there and not give(kept, it, key):
            lacking.append(it.name)
            continue
        kept.is_built(it)
    return lacking
