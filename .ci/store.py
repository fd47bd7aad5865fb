"""The host in hosts/store, where cargo and the library are there: builds it, and runs its tests, some of them over the programs
that `rt ci` built, then the client for Go, clients that others have written and strangers at its ports, and then plays a trial of 30 seconds over several generations, with 3 kills and a machine replaced, whose chain the audit judges; and five of some
seconds: of a bank, of a map that grows, of floods, over distance and on a fifth of a processor. Runs alone too: python3 .ci/store.py [NODE PROGRAM [FOLDER]], of other builds, with the folder that libepaxos.a and
libepaxos.so are in.

It is built without optimisation and without what debuggers need, which takes less than a release build; and a slow store shows sooner what does work twice.
"""

import os
import subprocess
import sys
import tempfile

TOP = os.path.dirname(os.path.dirname(os.path.abspath(__file__)))
sys.path.insert(0, f"{TOP}/tools")

import needs

STORE = f"{TOP}/hosts/store"
GO = f"{TOP}/clients/go"
# what `rt ci` built: the program of `node` and `collect`, and that of all else
BUILT = (f"{TOP}/crates/ep_server/out/ep_server", f"{TOP}/crates/ep_main/out/ep_main")
# where builds put the library: first the proved one
LIBRARIES = (f"{TOP}/out", f"{TOP}/out/unproved")
# for so many seconds strangers come, and half as long before and after it is looked how clients do without them
STRANGERS = "6"
# what is asked of the client for Go: that it is formatted and vetted, and passes its tests within five minutes
GO_LOOKS = (["sh", "-c", '! gofmt -l . | grep .'], ["go", "vet", "./..."])
GO_TESTS = ["go", "test", "-count=1", "-timeout", "300s", "./..."]
# how long each trial plays, and how many of its stores are killed
TRIAL = ("--seed", "1", "--short", "--seconds", "30", "--kills", "3", "--audit")
# money goes between accounts by transactions of all kinds
BANK = ("--seed", "1", "--bank", "--seconds", "10", "--kills", "2", "--replaced", "0", "--changes", "1", "--audit")
# the stores write the whole map now and then, so that some are killed in that, and some come by logs
CHECKPOINTS = ("--checkpoint", "20000")
# a trial over links as long as those between regions, with a region lost, where other work may take a quarter, and one of stores that have little of a processor
DISTANCE = ("--seed", "1", "--sites", "CA,VA,EU", "--reads", "50", "--seconds", "9", "--most", "125")
DISTANCE += ("--trouble", "kill", "--at", "VA")
STARVED = ("--seed", "1", "--starved")
# a map that grows over a change of generation, all of which a machine 20 ms away then gets
GROWING = ("--seed", "1", "--growing", "6000", "--replaced", "1", "--delay", "20")
# ever more clients, of whom each level has to be as fast as the others, but for what other work on the machine takes
FLOOD = ("--seed", "1", "--flood", "15000", "--least", "25")
CHEAP = {"CARGO_INCREMENTAL": "0", "CARGO_PROFILE_DEV_DEBUG": "0"}
# as ./epaxos goes about it
EPAXOS = """#!/bin/sh
case "$1" in node | collect | contents) exec {} "$@" ;; esac
exec {} "$@"
"""


def is_well(words, **how):
    """Whether the command ended with status 0."""
    print(" ".join(os.path.relpath(it, TOP) if it.startswith(TOP) else it for it in words), flush=True)
    return not subprocess.run(words, stdin=subprocess.DEVNULL, **how).returncode


def source():
    """The words by which cargo takes the crates of Debian's packages; none where one isn't there, and they are crates.io's."""
    crates = [it for it in needs.every().values() if it.name.startswith("crate:")]
    return ["--config", "debian.toml", "--offline"] if all(it.is_there() for it in crates) else []


def has_programs(node, program, what):
    """Whether `rt ci` built both programs; where it didn't, says that what takes them isn't tried."""
    are_there = os.path.isfile(node) and os.path.isfile(program)
    if not are_there:
        needs.skip(what, "`rt ci` has not built both programs")
    return are_there


def has_library(library, what):
    """The same of the library."""
    if not library:
        needs.skip(what, "there is no library")
    return bool(library)


def joined(scratch, node, program):
    """Both programs as one."""
    epaxos = f"{scratch}/epaxos"
    with open(epaxos, "w", encoding="utf-8") as file:
        file.write(EPAXOS.format(node, program))
    os.chmod(epaxos, 0o755)
    return epaxos


def is_go_well(store, environment):
    """Whether the client for Go is well, also at clusters of this store."""
    how = {"cwd": GO, "env": {**environment, "EPAXOS_STORE": store}}
    # (its tests get a second chance, as a lock may be lost where the machine stands still)
    return all(is_well(it, **how) for it in GO_LOOKS) and (is_well(GO_TESTS, **how) or is_well(GO_TESTS, **how))


def library_there():
    """The folder of the library that a build made, or none."""
    return next((it for it in LIBRARIES if os.path.isfile(f"{it}/libepaxos.a") and os.path.isfile(f"{it}/libepaxos.so")), None)


def tried(node=BUILT[0], program=BUILT[1], library=None):
    """How many of these passed, and how many failed."""
    library = library or library_there()
    if not (has_library(library, "hosts/store") and needs.has("cargo", "hosts/store")):
        return 0, 0
    with tempfile.TemporaryDirectory(prefix="epaxos-store-") as scratch:
        environment = {**os.environ, **CHEAP, "CARGO_TARGET_DIR": f"{scratch}/target", "EPAXOS_LIBRARY": library}
        epaxos = joined(scratch, node, program) if has_programs(node, program, "clusters of hosts/store") else None
        if epaxos:
            # (it judges what clusters leave)
            environment["EPAXOS"] = epaxos
        # (the tests run the programs, so that this builds them too)
        well = [is_well(["cargo", "test", *source(), "--workspace", "--quiet"], cwd=STORE, env=environment)]
        if epaxos and all(well):
            well.append(is_well([sys.executable, f"{TOP}/.ci/folders.py", node, f"{scratch}/target/debug/folder"], env=environment))
        if all(well):
            change = f"{scratch}/target/debug/examples/change"
            well.append(is_well([sys.executable, f"{TOP}/.ci/growth.py", "--change", change]))
        if needs.has("go", "clients/go") and epaxos and all(well):
            well.append(is_go_well(f"{scratch}/target/debug/store", environment))
        python = needs.PYTHON if os.path.exists(needs.PYTHON) else sys.executable
        if epaxos and all(well):
            well.append(is_well([python, f"{STORE}/tests/libraries.py", f"{scratch}/target/debug/store"]))
        if epaxos and all(well) and needs.has("python:redis", "strangers at a store's ports"):
            well.append(is_well([python, f"{STORE}/tests/strangers.py", f"{scratch}/target/debug/store", STRANGERS]))
        trial = [f"{scratch}/target/debug/trial", "--node", epaxos]
        if epaxos and all(well):
            well.append(is_well([*trial, *TRIAL, *CHECKPOINTS, "--dir", f"{scratch}/trial"]))
            well.append(is_well([*trial, *BANK, "--dir", f"{scratch}/bank"]))
            well.append(is_well([*trial, *GROWING, "--dir", f"{scratch}/growing"]))
            # (it judges waits by what the machine adds: it is played again over longer links, as that counts less there)
            distance = [*trial, *DISTANCE, "--dir"]
            times = enumerate(("1", "4", "4"))
            well.append(any(is_well([*distance, f"{scratch}/{turn}", "--times", it]) for turn, it in times))
            # (it judges rates, which a machine may spoil that has other work at one of them)
            flood = [*trial, *FLOOD, "--dir"]
            well.append(is_well([*flood, f"{scratch}/flood"]) or is_well([*flood, f"{scratch}/flood-again"]))
            # (it judges how long logs get, which a machine may spoil that stands still for a tenth of a second)
            starved = [*trial, *STARVED, "--dir"]
            well.append(is_well([*starved, f"{scratch}/starved"]) or is_well([*starved, f"{scratch}/starved-again"]))
    return well.count(True), well.count(False)


if __name__ == "__main__":
    counts = tried(*map(os.path.abspath, sys.argv[1:4]))
    print("{} passed, {} failed".format(*counts))
    sys.exit(1 if counts[1] else 0)
