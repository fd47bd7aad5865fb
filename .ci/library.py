"""The C library, whose crate `rt ci` proved: makes an archive without its proofs, since `rt lib` would prove all below it once more, and builds and runs the
programs of bindings/c with it, by each of two compilers. The logs that the example leaves are audited by the programs that `rt ci` built. Runs alone
too: python3 .ci/library.py [ARCHIVE [NODE PROGRAM]], of other builds.
"""

import hashlib
import os
import re
import shutil
import subprocess
import sys
import tempfile

sys.dont_write_bytecode = True
sys.path.insert(0, f"{os.path.dirname(os.path.dirname(os.path.abspath(__file__)))}/tools")

import needs
from store import BUILT, TOP, has_programs, is_well

FOLDER = f"{TOP}/bindings/c"
ARCHIVE = f"{TOP}/out/unproved/libepaxos.a"
COMPILERS = ("gcc", "clang")
STRICT = ["-std=c11", "-O2", "-Wall", "-Wextra", "-Wpedantic", "-Werror", "-D_POSIX_C_SOURCE=200809L"]
# the allocations of the program go by what oom.c has in their place
WRAPPED = "-Wl,--wrap=malloc,--wrap=realloc,--wrap=free"
VALGRIND = ["valgrind", "--quiet", "--leak-check=full", "--errors-for-leak-kinds=all", "--error-exitcode=9"]
REPLICAS = 3


def first_opening():
    """The file that generation 1 opens with, by docs/FORMATS.md, section 12."""
    body = b"EPOP" + bytes([3, REPLICAS]) + (1).to_bytes(4, "big") + (0).to_bytes(8, "big") + bytes([0]) + (0).to_bytes(4, "big") + (0).to_bytes(4, "big")
    return body + hashlib.sha256(body).digest()


def lines(words):
    """What a program writes, where it ends well."""
    print(" ".join(os.path.relpath(it, TOP) if it.startswith(TOP) else it for it in words), flush=True)
    ran = subprocess.run(words, stdin=subprocess.DEVNULL, stdout=subprocess.PIPE, text=True)
    return None if ran.returncode else ran.stdout


def agrees(said, client):
    """Whether the example says that three replicas agree, and that each key has the last value of one of the clients from this one on."""
    *told, last = (said or "").splitlines() or [""]
    values = [re.fullmatch(r"key (\d) (\d+)\.(\d+)", it) for it in told]
    found = [(it[1], it[3]) for it in values if it and client <= int(it[2]) < client + REPLICAS]
    return found == [("0", "18"), ("1", "19"), ("2", "20")] and last == "three replicas agree"


def keeps_opening(logs):
    """Whether the example has kept what generation 1 opens with."""
    with open(f"{logs}/1.opening", "rb") as file:
        return file.read() == first_opening()


def is_audited(logs, scratch, node, program):
    """Whether an audit accepts what these logs say."""
    for me in range(REPLICAS):
        os.makedirs(f"{scratch}/{me}/1")
        shutil.copy(f"{logs}/{me}.log", f"{scratch}/{me}/1/log")
        shutil.copy(f"{logs}/1.opening", f"{scratch}/{me}/1/opening")
    words = [node, "collect", "--generation", "1", *(f"{scratch}/{me}" for me in range(REPLICAS))]
    bundle = subprocess.run(words, stdin=subprocess.DEVNULL, stdout=subprocess.PIPE)
    report = subprocess.run([program, "audit"], input=bundle.stdout, stdout=subprocess.PIPE)
    return not bundle.returncode and not report.returncode and report.stdout.startswith(b"verdict accepted\n")


def built(compiler, scratch, archive):
    """Whether each program is built and runs by the compiler, and the logs of the example are audited."""
    for name, flags in (("example", []), ("generations", []), ("misuse", []), ("told", []), ("oom", [WRAPPED])):
        yield is_well([compiler, *STRICT, *flags, f"{FOLDER}/{name}.c", archive, "-o", f"{scratch}/{compiler}-{name}"])
    yield lines([f"{scratch}/{compiler}-misuse"]) == "each mistake is a status\n"
    yield lines([f"{scratch}/{compiler}-told"]) == "all is told as the formats say\n"
    yield is_well([f"{scratch}/{compiler}-oom"])
    yield lines([f"{scratch}/{compiler}-generations"]) == "generation 4, and each start is in it\n"


def of_page(compiler, scratch, archive):
    """Whether the program that the page begins with is built and prints what the page says."""
    with open(f"{FOLDER}/README.md", encoding="utf-8") as file:
        program, wanted = re.search(r"(?ms)^```c\n(.*?)^```\n.*?`(to replica .*?)`", file.read()).groups()
    with open(f"{scratch}/put.c", "w", encoding="utf-8") as file:
        file.write(program.replace("/tmp/", f"{scratch}/"))
    is_built = is_well([compiler, *STRICT, f"-I{FOLDER}", f"{scratch}/put.c", archive, "-o", f"{scratch}/put"])
    return is_built and lines([f"{scratch}/put"]) == f"{wanted}\n"


def example(compiler, scratch, node, program):
    """Whether the example runs, goes on with what it left, and is audited."""
    logs = f"{scratch}/{compiler}-logs"
    os.mkdir(logs)
    for client in (1, 4):
        yield agrees(lines([f"{scratch}/{compiler}-example", logs]), client) and keeps_opening(logs)
    if has_programs(node, program, "the audit of what bindings/c leaves"):
        yield is_audited(logs, f"{scratch}/{compiler}-nodes", node, program)


def tried(archive=None, node=BUILT[0], program=BUILT[1]):
    """How many of these passed, and how many failed."""
    well = []
    if archive is None:
        # (hosts/store and the other bindings take it too)
        archive = ARCHIVE
        well.append(is_well(["tools/unproved", "--library"], cwd=TOP))
    well.append(is_well(["tools/generate", "--check", "header"], cwd=TOP))
    compilers = [it for it in COMPILERS if needs.has(it, f"bindings/c by {it}")]
    if compilers and os.path.isfile(archive):
        with tempfile.TemporaryDirectory(prefix="epaxos-library-") as scratch:
            for compiler in compilers:
                well += [*built(compiler, scratch, archive), of_page(compiler, scratch, archive)]
                well += example(compiler, scratch, node, program)
            if needs.has("g++", "the C header in C++"):
                with open(f"{scratch}/header.cc", "w", encoding="ascii") as file:
                    file.write('#include "epaxos.h"\n#include "epaxos_answers.h"\nint main() { return ep_version() != EP_VERSION; }\n')
                well.append(is_well(["g++", "-Wall", "-Wextra", "-Wpedantic", "-Werror", f"-I{FOLDER}", f"{scratch}/header.cc", archive, "-o", f"{scratch}/header"]) and is_well([f"{scratch}/header"]))
            if needs.has("valgrind", "bindings/c under valgrind"):
                os.mkdir(f"{scratch}/looked")
                looked = ("misuse", "generations", "told")
                well += [is_well([*VALGRIND, f"{scratch}/{compilers[0]}-{it}"]) for it in looked]
                well.append(is_well([*VALGRIND, f"{scratch}/{compilers[0]}-example", f"{scratch}/looked"]))
    return well.count(True), well.count(False)


if __name__ == "__main__":
    counts = tried(*map(os.path.abspath, sys.argv[1:4]))
    print("{} passed, {} failed".format(*counts))
    sys.exit(1 if counts[1] else 0)
