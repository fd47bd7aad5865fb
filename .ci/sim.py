"""Simulated clusters of hosts (`epaxos::sim` of bindings/rust/epaxos), over the library: the first 600 seeds; the first
20 once more, whose logs and receipts are audited, as chains; and all planted faults: one of the first 2,000 seeds has
to find each. The seed of a run that fails is printed, with the run shrunk. Then a host's folder, as the
power is lost (.ci/disks/hosts.py). Runs alone too: python3 .ci/sim.py [NODE PROGRAM [FOLDER [SEEDS]]], of other builds,
with the folder that libepaxos.a is in.
"""

import os
import sys
import tempfile

sys.dont_write_bytecode = True

from disks import hosts

import needs
from store import BUILT, TOP, has_library, has_programs, is_well, joined, library_there

CRATE = f"{TOP}/bindings/rust/epaxos"
SEEDS, AUDITED = 600, 20
# (link-time optimisation takes longer than it saves here)
QUICK = {"CARGO_INCREMENTAL": "0", "CARGO_PROFILE_RELEASE_LTO": "off", "CARGO_PROFILE_RELEASE_CODEGEN_UNITS": "16"}


def built(folder, library):
    """The examples `sim` and `power`, built in the folder; None in their place where they aren't."""
    environment = {**os.environ, **QUICK, "CARGO_TARGET_DIR": f"{folder}/target", "EPAXOS_LIBRARY": library}
    build = ["cargo", "build", "--release", "--offline", "--quiet", "--features", "plants"]
    examples = [f"{folder}/target/release/examples/{it}" for it in ("sim", "power")]
    is_there = is_well([*build, "--example", "sim", "--example", "power"], cwd=CRATE, env=environment)
    return examples if is_there else (None, None)


def tried(node=BUILT[0], program=BUILT[1], library=None, seeds=SEEDS):
    """How many of these passed, and how many failed."""
    library = library or library_there()
    if not (has_library(library, "simulated hosts") and needs.has("cargo", "simulated hosts")):
        return 0, 0
    with tempfile.TemporaryDirectory(prefix="epaxos-sim-") as scratch:
        example, power = built(scratch, library)
        well = [bool(example)]
        if example:
            sim = [example, "--threads", str(max(1, len(os.sched_getaffinity(0)) // 2))]
            well.append(is_well([*sim, "--seeds", str(seeds)]))
            if has_programs(node, program, "audits of simulated hosts"):
                audit = ["--audit", joined(scratch, node, program)]
                well.append(is_well([*sim, "--seeds", str(AUDITED), *audit]))
            well.append(is_well([*sim, "--seeds", "2000", "--plant", "all"]))
            passed, failed = hosts.tried(power)
            well += [True] * passed + [False] * failed
    return well.count(True), well.count(False)


if __name__ == "__main__":
    words = sys.argv[1:]
    counts = tried(*map(os.path.abspath, words[:3]), **({"seeds": int(words[3])} if words[3:] else {}))
    print("{} passed, {} failed".format(*counts))
    sys.exit(1 if counts[1] else 0)
