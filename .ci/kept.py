"""What a proved build takes of an earlier build, and of what `rt ci` kept, where the kit keeps something: in a few
crates without proofs; files stand in for what a proof makes. Runs alone too: python3 .ci/kept.py
"""

import os
import shutil
import sys
import tempfile

sys.dont_write_bytecode = True
TOP = os.path.dirname(os.path.dirname(os.path.abspath(__file__)))
sys.path.insert(0, f"{TOP}/tools")

import needs

CRATES = "low:\nhigh: low\napp: high\nffi staticlib: high\n"
PROVED = "logic=proved functions=1"


class Room:
    """A repository, what stands in for proofs in it, and the verdicts of a build."""

    def __init__(self, top, kit, verdicts, has_store):
        self.top, self.kit, self.verdicts, self.has_store = top, kit, verdicts, has_store
        for name, handles in (("crates.txt", CRATES), ("HANDLES", "Handles allowed: none.\n")):
            self.write(name, handles)
        for it in ("low", "high", "app", "ffi"):
            self.write(self.source(it), f"// {it}\n")
        self.begin()

    def source(self, name):
        return f"crates/{name}/src/{'main' if name == 'app' else 'lib'}.rt"

    def write(self, name, text):
        os.makedirs(os.path.dirname(f"{self.top}/{name}"), exist_ok=True)
        with open(f"{self.top}/{name}", "w", encoding="utf-8") as file:
            file.write(text)

    def begin(self):
        """Begins a build."""
        self.crates, self.held = self.kit.crates_of(self.top), self.verdicts.Verdicts(self.top)
        if not self.has_store:
            self.held.kept = self.kit.NoStore()
        self.held.drop_others(self.crates)

    def prove(self, name, more=""):
        """Makes what a proof of the crate would; of other sources it is another."""
        with open(f"{self.top}/{self.source(name)}", encoding="utf-8") as file:
            text = file.read() + more
        out = f"crates/{name}/out"
        shutil.rmtree(f"{self.top}/{out}", ignore_errors=True)
        if name == "app":
            for it in ("app", "app.by-rattle"):
                self.write(f"{out}/{it}", text)
        elif name != "ffi":
            for it in ("format", "toolchain/checked.a"):
                self.write(f"{out}/rlib/{name}.rlib/{it}", f"{it} of {text}")

    def ci(self):
        """Keeps all, as `rt ci` does."""
        kept = self.kit.KIT.Kept([*self.crates.values()])
        for name, crate in self.crates.items():
            self.prove(name)
            key = kept.key(crate)
            kept.is_built(crate)
            kept.keep(crate, False, key)

    def build(self, own=(), failing=""):
        """Which crates a build takes; what it proves itself is noted, up to one that isn't proved."""
        self.begin()
        for name, crate in self.crates.items():
            files = [f"{self.top}/{it}" for it in own if crate.is_static]
            read = self.held.read(crate)
            if self.held.take(crate, read, files):
                yield name
                continue
            self.held.drop(crate)
            if name == failing:
                return
            self.prove(name)
            for it in files:
                with open(it, "w", encoding="utf-8") as file:
                    file.write(name)
            self.held.note(crate, read, PROVED, files)

    def told(self):
        return {name: it == self.verdicts.KEPT for name, it in self.held.told().items()}


ALL = ["low", "high", "app", "ffi"]


def noted(room):
    """What an earlier build made stands, or is another."""
    yield "nothing is there", [*room.build(["ffi.a"])], []
    yield "a second build", [*room.build(["ffi.a"])], ALL
    yield "what is told of that", room.told(), dict.fromkeys(ALL, False)
    os.remove(f"{room.top}/ffi.a")
    yield "the C library is gone", [*room.build(["ffi.a"])], ["low", "high", "app"]
    room.write("crates/app/out/app", "another")
    yield "another program in its place", [*room.build(["ffi.a"])], ["low", "high", "ffi"]
    with open(f"{room.top}/crates/app/out/app", encoding="utf-8") as file:
        yield "the program that is proved", file.read(), "// app\n"


def kept(room):
    """What `rt ci` kept is taken."""
    room.ci()
    shutil.rmtree(f"{room.top}/crates/low/out")
    yield "all is kept", [*room.build(["ffi.a"])], ALL
    yield "what is told of that", room.told(), {"low": True, "high": True, "app": True, "ffi": False}
    room.write("crates/app/out/app", "another")
    yield "another program in the place of a kept one", [*room.build(["ffi.a"])], ALL
    with open(f"{room.top}/crates/app/out/app", encoding="utf-8") as file:
        yield "the program that was kept", file.read(), "// app\n"


def not_taken(room):
    """Where a source, or what a library below was built of, is another."""
    for name, left in (("app", ["low", "high", "ffi"]), ("high", ["low"]), ("low", [])):
        room.write(room.source(name), "// another\n")
        yield f"another source of {name}", [*room.build(["ffi.a"])], left
        yield f"and again, of {name}", [*room.build(["ffi.a"])], ALL
        room.write(room.source(name), f"// {name}\n")
        as_it_was = ["low", "high", "app"] + ["ffi"] * (name == "app") if room.has_store else left
        yield f"the source of {name} as it was", [*room.build(["ffi.a"])], as_it_was
    room.write("HANDLES", "Handles allowed: Wait.\n")
    yield "a crate that isn't proved", [*room.build(["ffi.a"], failing="high")], []
    yield "what is told of that", "high" in room.told(), False
    yield "other handles", [*room.build(["ffi.a"])], ["low"]
    room.prove("low", "what nobody noted")
    # (proved again it is what it was)
    yield "another library in the place of a noted one", [*room.build(["ffi.a"])], ["high", "app", "ffi"]
    room.write("HANDLES", "Handles allowed: none.\n")


def touched(room):
    """Where a source is touched while its crate is proved."""
    room.begin()
    low = room.crates["low"]
    read = room.held.read(low)
    room.prove("low")
    room.write(room.source("low"), "// low\n")
    yield "a source that was written again", room.held.note(low, read, PROVED), False


def damaged(room):
    """Where what was kept is damaged."""
    low = room.crates["low"]
    place = room.held.kept.place(low, False, room.held.read(low)[0])
    with open(f"{place}/0", "a", encoding="utf-8") as file:
        file.write("damaged")
    yield "a file that was damaged", [*room.build(["ffi.a"])], ["high", "app"]
    yield "what is told of that", room.told(), {"low": False, "high": True, "app": True, "ffi": False}


def played(folder, has_store):
    """The rows of a repository, with the kit's store or without one."""
    import kit
    import verdicts

    room = Room(f"{folder}/{has_store}", kit, verdicts, has_store)
    for part in (noted, kept, not_taken, touched, damaged) if has_store else (noted, not_taken, touched):
        for row in part(room):
            yield "with a store" if has_store else "without a store", *row


def rows(folder):
    """All rows; those of the kit's store where it has one, which is another one meanwhile."""
    from kit import KIT

    yield from played(folder, False)
    if not hasattr(KIT, "STORE"):
        needs.skip("kept proofs, what `rt ci` keeps", "this kit keeps nothing")
        return
    store, leaves = KIT.STORE, KIT.STORE_LEAVES
    # (however little room the disk has)
    KIT.STORE, KIT.STORE_LEAVES = f"{folder}/store", 0
    try:
        yield from played(folder, True)
    finally:
        KIT.STORE, KIT.STORE_LEAVES = store, leaves


def tried():
    """Makes all builds, prints a line for each that goes wrong, and returns how many passed and how many failed."""
    if not shutil.which("rt"):
        needs.skip("kept proofs", "there is no kit")
        return 0, 0
    passed = failed = 0
    with tempfile.TemporaryDirectory(prefix="epaxos-kept-") as folder:
        for where, name, found, wanted in rows(folder):
            is_well = found == wanted
            passed, failed = passed + is_well, failed + (not is_well)
            if not is_well:
                print(f"kept proofs, {where}, {name}: {found!r} and not {wanted!r}", flush=True)
    print(f"kept proofs: {passed} passed, {failed} failed", flush=True)
    return passed, failed


if __name__ == "__main__":
    sys.exit(int(tried()[1] > 0))
