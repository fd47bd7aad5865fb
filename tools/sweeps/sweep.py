"""A sweep: one program, run once for each of many faults, side by side; each run has to end as it may.

memory.py, devices.py and turned.py are made of it: each says which faults there are, and how a run may end. tools/sweep calls them.
"""

import os
import re
import subprocess
import sys
import tempfile
from collections import Counter
from concurrent.futures import ThreadPoolExecutor
from dataclasses import dataclass

TOP = os.path.dirname(os.path.dirname(os.path.dirname(os.path.abspath(__file__))))
# how long a run may take
SECONDS = 600


@dataclass
class Ended:
    """How a run ended. The status is None where it didn't end in time."""

    status: int
    output: bytes
    told: bytes


def run(words, given=b"", output=subprocess.PIPE, room=None, **settings):
    """Runs it once. What it is given is bytes, or an open file; the settings are all that its environment has beside PATH."""
    source = {"input": given} if isinstance(given, bytes) else {"stdin": given}
    env = {"PATH": os.environ["PATH"], **{name: str(it) for name, it in settings.items()}}
    try:
        ran = subprocess.run(words, cwd=room, env=env, stdout=output, stderr=subprocess.PIPE, timeout=SECONDS, **source)
    except subprocess.TimeoutExpired:
        return Ended(None, b"", b"not ended after %d seconds" % SECONDS)
    return Ended(ran.returncode, ran.stdout or b"", ran.stderr)


def side_by_side(call, cases):
    """What the call gives of each case, in their order."""
    with ThreadPoolExecutor(len(os.sched_getaffinity(0))) as pool:
        return [*pool.map(call, cases)]


def tell(head, kinds, found):
    """Prints a line that counts the kinds in which the runs ended, then the first run that ended in none of them, and returns whether none did.
    Each run that was found is a kind, and what to say of it where it is none of them."""
    counts = Counter(kind for kind, _ in found)
    other = [said for kind, said in found if kind not in kinds]
    ends = [f"{counts[kind]} {words}" for kind, words in kinds.items()]
    print(f"{head}: {', '.join([*ends, f'{len(other)} otherwise'])}", flush=True)
    if other:
        print(f"  the first: {other[0][:300]}", flush=True)
    return not other


# what `tools/tests` left, and how it is called here
TESTS = {"tests": f"{TOP}/out/tests/ep_all_tests"}


def built(crate, ending=""):
    """The program, or the tests, of a crate that rt left in its out/, or what `tools/tests` left; without it the sweep ends."""
    program = TESTS.get(crate) or f"{TOP}/crates/{crate}/out/{crate}{ending}"
    if not os.path.isfile(program):
        how = "tools/tests" if crate in TESTS else f"`rt {'test' if ending else 'run'}` in crates/{crate}"
        print(f"there is no {os.path.relpath(program, TOP)}: run {how} first", file=sys.stderr)
        sys.exit(2)
    return program


# what each library begins with that stands before the C library: up to three counts of what was asked for, reported where COUNTED names a file
HEAD = r"""
typedef unsigned long size;
extern void *dlsym(void *, const char *), *fopen(const char *, const char *);
extern char *getenv(const char *);
extern long atol(const char *);
extern int *__errno_location(void), fprintf(void *, const char *, ...), fclose(void *);
#define NEXT ((void *)-1l)

static long counted[3];

static long number(const char *name) {
    return getenv(name) ? atol(getenv(name)) : 0;
}

__attribute__((destructor)) static void end(void) {
    // (opening the file may ask for more)
    long all[3] = {counted[0], counted[1], counted[2]};
    void *out = getenv("COUNTED") ? fopen(getenv("COUNTED"), "w") : 0;
    if (out) fprintf(out, "%ld %ld %ld\n", all[0], all[1], all[2]), fclose(out);
}

// (a program that may start threads ends so, and no destructor is called)
void _exit(int status) {
    void (*leave)(int) = dlsym(NEXT, "_exit");
    end();
    leave(status);
    for (;;);
}
"""


def preloaded(source, room):
    """A library that stands before the C library: HEAD and this C text, without any header, compiled by the kit's own clang."""
    page = subprocess.run(["rt", "doc"], stdout=subprocess.PIPE, text=True, check=True).stdout
    folder, made = f"{os.path.dirname(page)}/toolchain/bin", f"{room}/preloaded.so"
    with open(f"{room}/preloaded.c", "w", encoding="utf-8") as it:
        it.write(HEAD + source)
    words = [f"{folder}/clang", f"--ld-path={folder}/ld.lld", "-w", "-O2", "-shared", "-fPIC", "-nostdlib", "-o", made, f"{room}/preloaded.c"]
    subprocess.run(words, check=True)
    return made


class Under:
    """A command under a preloaded library, in a folder of its own."""

    def __init__(self, library, words, given, room):
        self.library, self.words, self.given, self.room = library, words, given, room

    def run(self, output=subprocess.PIPE, **settings):
        """Runs it once, with these settings for the library."""
        # (a file, since a pipe may give less than is asked for)
        with tempfile.TemporaryFile(dir=self.room) as given:
            given.write(self.given)
            given.seek(0)
            return run(self.words, given, output, self.room, LD_PRELOAD=self.library, **settings)

    def counts(self):
        """How it ends where nothing fails, and the library's counts."""
        with tempfile.NamedTemporaryFile(dir=self.room) as counted:
            ended = self.run(COUNTED=counted.name)
            return ended, [*map(int, counted.read().split())]


def command(words):
    """The words before `--`, and those behind it, or None where there is no `--`."""
    at = words.index("--") if "--" in words else len(words)
    return words[:at], words[at + 1 :] if "--" in words else None


def main(kind, words):
    """Runs the sweep of this module with these words. The status is 0 where it gives true, 1 where it gives false, and 2, with the module's page, where it
    gives None."""
    if words in (["--help"], ["-h"]):
        print(kind.__doc__, end="")
        return 0
    with tempfile.TemporaryDirectory(prefix="sweep-") as room:
        well = kind.main(words, room)
    if well is None:
        print(kind.__doc__, end="", file=sys.stderr)
    return 2 if well is None else 0 if well else 1
