"""What the built program takes for n and for twice n of a kind of work: instructions, counted by valgrind.

  .ci/growth.py PROGRAM           a line for each kind of work; the status is 1 where one takes too many for twice n
  .ci/growth.py --change CHANGE   the same of changes of generation, by the example `change` of hosts/store
  .ci/growth.py --tests PROGRAM   the same of a map through generations, by the tests that tools/tests has built

What takes time that grows by the square takes four times as many.
"""

import os
import re
import subprocess
import sys

TOP = os.path.dirname(os.path.dirname(os.path.abspath(__file__)))
sys.path.insert(0, f"{TOP}/tools")

import needs

# How many pieces of work n is, how many replicas do them in turn, and how many times as many instructions twice n may
# take.
MANY, REPLICAS, MOST = 600, 3, 2.2
VALGRIND = ["valgrind", "--tool=callgrind", "--callgrind-out-file=/dev/null"]
HEAD = f"replicas {REPLICAS}\ngeneration 1\n"


def committed(many, command):
    """The lines by which so many commands are committed, one after the other, each proposed by the next replica."""
    for it in range(many):
        yield f"propose {it % REPLICAS} 1 {command(it, many)}\n" + "flush\n" * 3


def execution(many):
    """The line that executes the last of so many instances at its leader."""
    leader, before = (many - 1) % REPLICAS, (many - 1) // REPLICAS
    return f"execute {leader} {leader}.{before + 1}\n"


def swap(it, many):
    """Each command depends on the one before it."""
    return f"swap k{it} k{it + 1}"


def get(it, many):
    return "get x"


def gets_and_put(it, many):
    """The last command depends on all others, and they on none."""
    return "get x" if it < many - 1 else "put x 1"


def put(it, many):
    return f"put {it:x} 1"


def seal(many):
    return "propose 0 1 seal next\n"


def tx(many):
    """A command over five sixths of the keys that were put, so that twice as many are no more than it may have."""
    return f"propose 0 1 tx {' '.join(f'del {it:x}' for it in range(5 * many // 6))}\n" + "flush\n" * 3


# kinds of work: what it is, the commands, the line that is counted (where there is none, the commands are), and the
# program's command that does it (an audit, where a script's reader takes longer than the work)
KINDS = (
    ("one execution of a chain of commands", swap, execution, "replay"),
    ("one execution of a command that waits for many", gets_and_put, execution, "replay"),
    ("a seal", put, seal, "replay"),
    ("a command over many keys", put, tx, "audit"),
    ("reads of one key", get, None, "replay"),
    ("keys apart", put, None, "replay"),
)

# of changes of generation: two functions of the library, each with words for the example `change` (keys, commands and
# changes), and how many times the instructions of the first the second may take
CHANGES = (
    ("a change, where the map is twice as long", ("ep_succeed", "8000 300 2"), ("ep_succeed", "16000 300 2"), 1.2),
    ("what is left, once all was let go", ("ep_checkpoint_rest", "9 300 2"), ("ep_checkpoint_free", "9 300 2"), 0.1),
)

# of a test of ep_exec: two of its functions, and how many times the instructions of the first the second may take
LIVES = ("layers beside the listing", "eight_generations", ("listing::Listing::get", "layers::reported"), 0.5)


def counted(words, more=(), given=None):
    """How many instructions these words take, or with more words of valgrind's a part of them."""
    words = [*VALGRIND, *more, *words]
    ran = subprocess.run(words, input=given, stdout=subprocess.DEVNULL, stderr=subprocess.PIPE, check=True)
    return int(re.search(rb"Collected : (\d+)", ran.stderr)[1])


def instructions(program, word, script):
    """How many instructions a replay of the script takes, or an audit of its bundle."""
    given = script.encode()
    if word == "audit":
        words = [program, "replay", "--emit", "bundle"]
        given = subprocess.run(words, input=given, stdout=subprocess.PIPE, check=True).stdout
    return counted([program, word], given=given)


def taken(program, many, command, counted, word):
    """How many instructions so many pieces of work take."""
    count = lambda lines: instructions(program, word, HEAD + lines)
    script = "".join(committed(many, command))
    return count(script) - count("") if counted is None else count(script + counted(many)) - count(script)


def is_counted(program):
    """Whether something is counted. (Where there is no program the rows count that.)"""
    return os.path.isfile(program) and needs.has("valgrind", f"growth of {os.path.basename(program)}")


def judged(name, sizes, took, most):
    """Whether the second number of instructions is so many times the first at most."""
    (small, large), (few, many) = sizes, took
    is_well = many <= most * few
    told = f"{few:,} instructions for {small}, {many / max(few, 1):.2f} times as many for {large}"
    print(f"{'' if is_well else 'FAILED: '}{name}: {told}", flush=True)
    return is_well


def tried(program):
    """How many kinds of work grow as they may, and how many don't."""
    sizes, well = (MANY, 2 * MANY), []
    for name, *work in KINDS if is_counted(program) else ():
        well.append(judged(name, sizes, [taken(program, it, *work) for it in sizes], MOST))
    return well.count(True), well.count(False)


def tried_changes(change):
    """The same of changes of generation."""
    well = []
    for name, *both, most in CHANGES if is_counted(change) else ():
        took = [counted([change, *run.split()], [f"--toggle-collect={function}"]) for function, run in both]
        well.append(judged(name, [" ".join(it) for it in both], took, most))
    return well.count(True), well.count(False)


def tried_lives(tests):
    """The same of a map through generations."""
    name, test, both, most = LIVES
    if not is_counted(tests):
        return 0, 0
    words = [tests, f"ep_exec_tests::growing::{test}"]
    took = [counted(words, [f"--toggle-collect=*ep_exec::{function}"]) for function in both]
    # (nothing is counted of a function that has become a part of another one)
    is_well = judged(name, both, took, most) and all(took)
    return int(is_well), int(not is_well)


if __name__ == "__main__":
    kinds = {"--change": tried_changes, "--tests": tried_lives}
    counts = kinds.get(sys.argv[1], tried)(sys.argv[-1])
    print("{} passed, {} failed".format(*counts))
    sys.exit(1 if counts[1] else 0)
