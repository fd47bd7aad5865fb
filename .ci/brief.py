"""What `./epaxos test` runs: all is built without proofs and unoptimised, and passes the tests, in at most ten minutes
on two processors."""

import os
import subprocess
import sys
import tempfile

import needs
import rows
import store

TOP = os.path.dirname(os.path.dirname(os.path.abspath(__file__)))
BUILT = f"{TOP}/out/unproved"
PROGRAM, NODE = f"{BUILT}/ep_main", f"{BUILT}/ep_server"
CRATE = f"{TOP}/bindings/rust/epaxos"
WRITTEN = ("rows", "page", "header", "bindings", "refusals", "pictures", "figures")
LOOKS = (["tools/generate", "--check", *WRITTEN], ["tools/tidy"])
# seeds of the simulator
SEEDS = "20"


def looks():
    """Whether what tools write is up to date, and pages, lines and words are in order."""
    return counted(store.is_well(it) for it in LOOKS)


def counted(well):
    """How many are well, and how many aren't; the first that isn't is the last that is tried."""
    passed = 0
    for it in well:
        if not it:
            return passed, 1
        passed += 1
    return passed, 0


def build():
    """Builds the programs and the library, where the kit is there. (Rows and tests of hosts take long.)"""
    return counted([store.is_well([f"{TOP}/tools/unproved", "--quick", "--but", "ep_main,ep_library"])])


def is_built(what):
    """Whether programs and library were built; where they weren't, says what isn't tried."""
    is_there = os.path.isfile(PROGRAM) and os.path.isfile(f"{BUILT}/libepaxos.a")
    if not is_there:
        needs.skip(what, "programs and library aren't built")
    return is_there


def worked_rows():
    """The rows, by one compiler."""
    return rows.tried(PROGRAM) if is_built("rows") else (0, 0)


def tests():
    """The tests in tests/."""
    ran = subprocess.run(["tools/tests"], stdin=subprocess.DEVNULL, stdout=subprocess.PIPE, text=True)
    print(ran.stdout, end="", flush=True)
    passed, _, failed, *_ = ran.stdout.splitlines()[-1].split() if ran.stdout else ("0", "", "1")
    return int(passed), int(failed)


def cargo(folder, *runs):
    """Whether each of these runs of cargo in the folder ends well, over the library that was built."""
    with tempfile.TemporaryDirectory(prefix="epaxos-test-") as scratch:
        epaxos = store.joined(scratch, NODE, PROGRAM)
        own = {"CARGO_TARGET_DIR": f"{TOP}/out/target", "EPAXOS_LIBRARY": BUILT, "EPAXOS": epaxos}
        how = {"cwd": folder, "env": {**os.environ, **store.CHEAP, **own}}
        return counted(store.is_well(it, **how) for it in runs)


def crate():
    """The tests of the Rust crate."""
    if not (is_built("bindings/rust") and needs.has("cargo", "bindings/rust")):
        return 0, 0
    return cargo(CRATE, ["cargo", "test", "--offline", "--quiet", "--all-features"])


def hosts():
    """The tests of the store."""
    if not (is_built("hosts/store") and needs.has("cargo", "hosts/store")):
        return 0, 0
    return cargo(store.STORE, ["cargo", "test", *store.source(), "--workspace", "--quiet"])


def simulator():
    """Simulated clusters of hosts, by fixed seeds."""
    if not (is_built("simulated hosts") and needs.has("cargo", "simulated hosts")):
        return 0, 0
    # (with all features, as the crate's tests have been built)
    words = ["cargo", "run", "--offline", "--quiet", "--all-features", "--example", "sim", "--", "--seeds", SEEDS]
    return cargo(CRATE, words)
