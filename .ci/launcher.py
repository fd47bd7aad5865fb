"""Runs of ./epaxos itself: what it says without a program, which program it takes, and what it adds on a terminal.

They are made in a folder of their own, which has the launcher, its tools and the sources, and built programs in the places of proved and unproved ones.
"""

import os
import pty
import re
import shutil
import subprocess
import sys
import tempfile
import threading
import time

import rows

sys.path.insert(0, f"{rows.TOP}/tools")

import needs

TOP = os.path.dirname(os.path.dirname(os.path.abspath(__file__)))
PROGRAMS = ("ep_main", "ep_viewer", "ep_server")
UNPROVED = "not proved: built with --unproved\n"
STALE = "not proved: built with --unproved, before a source was changed; ./epaxos --build --unproved builds it again\n"
REFUSED = "command line refused\nerror: "
MORE = "\n\nFor more information, try '--help'.\n"
SCRIPT = "replicas 3\npropose 0 1 put x 1\nflush\nflush\nexecute 0 0.1\n"
REPORT = "verdict accepted\ncommitted 1\n0.1 seq 1 deps - put x 1\nhistory 1\n1 0.1 put x 1 -> absent\nreceipts 1\nclient 1 request 1 0.1 absent\nrefused 0\n"
FOUR = "replicas 4\n"
CUT = b"EPJB\2\3"
# a bundle in which replica 1 handled a frame that nobody sent
UNSENT = rows.row_of("audit-unsent-frame").given
COMMANDS = rows.commands()
# those that commands.txt lists, also of tools
with open(f"{TOP}/commands.txt", encoding="utf-8") as file:
    LISTED = re.findall(r"(?m)^([a-z-]+) \S+: ", file.read())
# what a terminal adds to the refusal of a script, and of a bundle
FOUR_WHY = "  line 1, word 2: 4 is out of range: how many replicas there are, 3, 5 or 7\n"
CUT_WHY = "  do: copy the bundle again from where it was made, or make it anew from the logs by `epaxos collect`\n"
# the commands of tools, and a word that each doesn't take
OF_TOOLS = {"up": "now", "status": "now", "kill": "3", "replace": "", "down": "1", "test": "now"}
OLD = "epaxos {}: it is `epaxos trace` now, and these words go with the next version\n"

# In the place of the build: leaves the program that is asked for, and notes the words.
BUILDS_ONE = """#!/bin/bash
[[ $* != *--behind* ]] || exit 0
echo "$@" >> '{top}/it.built'
mkdir -p '{top}/out/unproved' && cp '{top}/built/'"$2" '{top}/out/unproved' && touch '{top}/out/unproved/'"$2.stamp"
"""


class Room:
    """A folder with the launcher."""

    def __init__(self, top):
        self.top, self.places = top, {}
        for name in ("epaxos", "crates.txt", "commands.txt"):
            shutil.copy2(f"{TOP}/{name}", f"{top}/{name}")
        shutil.copytree(f"{TOP}/tools", f"{top}/tools", ignore=shutil.ignore_patterns("target", "__pycache__"))
        for name in os.listdir(f"{TOP}/crates"):
            for part in ("src", "specs"):
                if os.path.isdir(f"{TOP}/crates/{name}/{part}"):
                    shutil.copytree(f"{TOP}/crates/{name}/{part}", f"{top}/crates/{name}/{part}")
        os.makedirs(f"{top}/crates/ep_base/proofs")
        shutil.copy2(f"{TOP}/crates/ep_base/proofs/Lib.antt", f"{top}/crates/ep_base/proofs")
        for name, held in (("put.script", SCRIPT.encode()), ("four.script", FOUR.encode()), ("cut.bundle", CUT), ("unsent.bundle", UNSENT), ("no.run", SCRIPT.encode())):
            with open(f"{top}/{name}", "wb") as file:
                file.write(held)

    def place(self, *kinds):
        """Has the programs stand where proved or unproved ones do, and nowhere else."""
        shutil.rmtree(f"{self.top}/out", ignore_errors=True)
        for name in PROGRAMS:
            shutil.rmtree(f"{self.top}/crates/{name}/out", ignore_errors=True)
        if "unproved" in kinds:
            os.makedirs(f"{self.top}/out/unproved")
            for name in PROGRAMS:
                shutil.copy2(f"{TOP}/crates/{name}/out/{name}", f"{self.top}/out/unproved")
                self.write(f"out/unproved/{name}.stamp", "")
            self.write("out/unproved/kit", "the kit of the unproved\n")
        if "proved" in kinds:
            for name in PROGRAMS:
                out = f"{self.top}/crates/{name}/out"
                os.makedirs(out)
                shutil.copy2(f"{TOP}/crates/{name}/out/{name}", out)
                self.write(f"crates/{name}/out/{name}.stamp", "")
                self.write(f"crates/{name}/out/{name}.kit", "the kit of the proved\n")

    def write(self, name, text):
        with open(f"{self.top}/{name}", "w", encoding="utf-8") as file:
            file.write(text)

    def text(self, name):
        with open(f"{self.top}/{name}", encoding="utf-8") as file:
            return file.read()

    def edit(self, name):
        """Has this file be newer than all that is built."""
        later = time.time() + 60
        os.utime(f"{self.top}/{name}", (later, later))

    def restore(self, name):
        earlier = time.time() - 3600
        os.utime(f"{self.top}/{name}", (earlier, earlier))

    def run(self, words, given="", redirect="", quiet=None, under=""):
        """The status, the output and the fault output of a call in the shell."""
        how = {"shell": True, "executable": "/bin/bash", "cwd": self.top, "timeout": rows.SECONDS, "stdout": subprocess.PIPE, "stderr": subprocess.PIPE}
        environment = {it: value for it, value in os.environ.items() if it != "EPAXOS_QUIET"}
        if quiet is not None:
            environment["EPAXOS_QUIET"] = quiet
        ran = subprocess.run(f"{under} ./epaxos {words} {redirect}", input=given.encode(), env=environment, **how)
        return ran.returncode, ran.stdout.decode(errors="replace"), ran.stderr.decode(errors="replace")

    def seen(self, command, typed=b"", hear=lambda shown: None):
        """The status, and what a terminal shows, on which the fault output of the command comes; `hear` gets all of it
        that has come so far."""
        child, terminal = pty.fork()
        if not child:
            os.chdir(self.top)
            os.environ.pop("EPAXOS_QUIET", None)
            os.environ["NO_COLOR"] = "1"
            os.execv("/bin/bash", ["bash", "-c", command])
        if typed:
            os.write(terminal, typed)
        shown = b""
        while True:
            try:
                part = os.read(terminal, 4096)
            except OSError:
                break
            if not part:
                break
            shown += part
            hear(shown)
        status = os.waitstatus_to_exitcode(os.waitpid(child, 0)[1])
        os.close(terminal)
        return status, shown.decode(errors="replace").replace("\r\n", "\n")

    def seen_briefly(self, command, typed=b""):
        """The same but for how far the command is, which it reports where it takes long, as on a machine that is slow."""
        status, shown = self.seen(command, typed)
        return status, re.sub(r"epaxos \w+: \d+ s so far.*\n", "", shown)

    def seen_long(self):
        """The status of a replay whose input ends once it has reported something, or after a minute; what that was."""
        reading, writing = os.pipe()
        os.set_inheritable(reading, True)
        with open(reading, "rb"), open(writing, "wb", buffering=0) as script:
            script.write(SCRIPT.encode())
            end = threading.Timer(60, script.close)
            end.start()
            ends = lambda shown: b"\n" in shown and script.close()
            status, shown = self.seen(f"./epaxos replay <&{reading} > it.out", hear=ends)
            end.cancel()
        return status, shown.partition("\n")[0]


def refused(reason, tip=""):
    """A refusal of the first word."""
    more = f"\n  tip: {tip}" if tip else f"  [subcommands: {', '.join(LISTED)}, help]"
    return 2, "", f"{REFUSED}{reason}\n{more}\n\nUsage: epaxos <COMMAND>{MORE}"


def fixed(room):
    """Where nothing is built: the words, what came of them, and what is wanted."""
    room.place()
    for words in ("--help", "-h", "help", "help help"):
        status, wrote, told = room.run(words)
        yield words, (status, re.findall(r"(?m)^  ([a-z][\w-]+)  ", wrote), told), (0, [*LISTED, "help"], "")
    for words, wanted in (
        ("", refused("'epaxos' requires a subcommand but one was not provided")),
        ("frob", refused("unrecognized subcommand 'frob'")),
        ("help frob", refused("unrecognized subcommand 'frob'")),
        ("--biuld", refused("unexpected argument '--biuld' found")),
        ("build --unproved", refused("unrecognized subcommand 'build'")),
        ("--build now", (2, "", "epaxos: --build takes at most --unproved and --jobs N, with N from 1 to 99\n")),
        ("--build --unproved now", (2, "", "epaxos: --build --unproved takes at most --library, --no-checks and --jobs N, with N from 1 to 99\n")),
        ("put.script", refused("unrecognized subcommand 'put.script'", "epaxos reads a file so: epaxos replay put.script")),
        ("no.run", refused("unrecognized subcommand 'no.run'", "epaxos reads a file so: epaxos run no.run")),
        ("cut.bundle", refused("unrecognized subcommand 'cut.bundle'", "epaxos reads a file so: epaxos audit cut.bundle")),
        ("relpay", refused("unrecognized subcommand 'relpay'", "a similar subcommand exists: 'replay'")),
        ("upp", refused("unrecognized subcommand 'upp'", "a similar subcommand exists: 'up'")),
    ):
        yield words, room.run(words), wanted
    yield "--help to a full device", room.run("--help", redirect="> /dev/full"), (4, "", "writing failed\n")
    yield "--help with the output closed", room.run("--help", redirect=">&-"), (4, "", "writing failed\n")
    # (in the place of the build stands what leaves the program that it would, or fails)
    os.rename(f"{room.top}/tools/unproved", f"{room.top}/tools/unproved.kept")
    room.write("tools/unproved", "#!/bin/bash\necho \"$@\" >> it.built\nexit 70\n")
    os.chmod(f"{room.top}/tools/unproved", 0o755)
    status, wrote, told = room.run("replay", SCRIPT)
    yield "replay, which can't be built", (status, wrote, told.endswith("epaxos: no answer: the program isn't built\n")), (70, "", True)
    os.remove(f"{room.top}/it.built")
    os.makedirs(f"{room.top}/built")
    for name in PROGRAMS:
        shutil.copy2(f"{TOP}/crates/{name}/out/{name}", f"{room.top}/built")
    room.write("tools/unproved", BUILDS_ONE.format(top=room.top))
    for words, built in (("replay", "ep_main"), ("collect one.log", "ep_server"), ("trace --help", "ep_viewer")):
        for turn in ("first", "second"):
            status, wrote, told = room.run(words, SCRIPT)
            wanted = {"ep_main": (0, REPORT, UNPROVED), "ep_server": (4, "", f"{UNPROVED}reading one.log failed: no such file or directory\n"), "ep_viewer": (0, wrote, UNPROVED)}[built]
            yield f"{words}, not built, {turn} call", (status, wrote, told[-len(wanted[2]) :], ("is built now" in told) == (turn == "first")), (*wanted, True)
    yield "each program is built once, alone", room.text("it.built"), "--program ep_main --quick\n--program ep_server --quick\n--program ep_viewer --quick\n"
    os.rename(f"{room.top}/tools/unproved.kept", f"{room.top}/tools/unproved")
    room.place()
    yield "--version, not built", room.run("--version")[1].splitlines()[0::2], ["epaxos 1.0.0", "nothing is built: ./epaxos --build --unproved, or --build"]


def chosen(room):
    """Which program is taken."""
    room.place("unproved")
    yield "unproved", room.run("replay", SCRIPT), (0, REPORT, UNPROVED)
    yield "--quiet behind the command", room.run("replay --quiet", SCRIPT), (0, REPORT, "")
    yield "a file behind the command", room.run("replay put.script --quiet"), (0, REPORT, "")
    yield "a file behind an option", room.run("--quiet replay --emit report put.script"), (0, REPORT, "")
    yield "a file behind an option that takes none", (room.run("--quiet show --columns unsent.bundle")[0], room.run("--quiet show --columns", redirect="< unsent.bundle")[0]), (0, 0)
    room.write("report", SCRIPT)
    yield "an option's value that is a file", room.run("--quiet replay --emit report", "replicas 4\n")[0], 2
    yield "no file behind the command", room.run("--quiet replay no.script", SCRIPT)[0], 2
    room.write("out/unproved/ep_main.quick", "")
    yield "unoptimised", room.run("replay", SCRIPT), (0, REPORT, UNPROVED.replace("\n", " --quick\n"))
    os.remove(f"{room.top}/out/unproved/ep_main.quick")
    yield "--quiet", room.run("--quiet replay", SCRIPT), (0, REPORT, "")
    yield "EPAXOS_QUIET=1", room.run("replay", SCRIPT, quiet="1"), (0, REPORT, "")
    yield "unproved, no words", room.run(""), refused("'epaxos' requires a subcommand but one was not provided")
    yield "unproved, --version", room.run("--version"), (0, "epaxos 1.0.0\nthe kit of the unproved\nnot proved: built with --unproved\n", "")
    yield "unproved, a trace", room.run("--quiet trace", FOUR), (2, "", "script refused at line 1\n")
    yield "unproved, a file as a word", room.run("--quiet replay put.script"), (0, REPORT, "")
    yield "unproved, a bundle as a word", room.run("--quiet audit cut.bundle"), (2, "", "bundle refused E12 at byte 6\n")
    for words in ("frob", "", "cut.bundle"):
        yield f"unproved, {words or 'no words'}, from a folder", room.run(words, redirect="< .")[0], 2
    yield "unproved, a chain, from a folder", room.run("--quiet audit --chain cut.bundle", redirect="< ."), (2, "", "bundle refused E12 at byte 4 in cut.bundle\n")
    yield "unproved, a file as a word, from a folder", room.run("--quiet audit cut.bundle", redirect="< .")[0], 2
    yield "unproved, a chain", room.run("--quiet audit --chain cut.bundle"), (2, "", "bundle refused E12 at byte 4 in cut.bundle\n")
    yield "unproved, a node", room.run("--quiet node --replicas 3 --replica 0 --log it.log --new"), (0, "", "")
    room.edit("crates/ep_base/src/lib.rt")
    yield "unproved, a source is newer", room.run("replay", SCRIPT), (0, REPORT, STALE)
    yield "unproved, a source is newer, --quiet", room.run("--quiet replay", SCRIPT), (0, REPORT, STALE)
    room.restore("crates/ep_base/src/lib.rt")
    room.edit("crates/ep_server/src/main.rt")
    yield "unproved, a source of another program is newer", room.run("replay", SCRIPT), (0, REPORT, UNPROVED)
    room.restore("crates/ep_server/src/main.rt")
    room.place("proved", "unproved")
    yield "proved", room.run("replay", SCRIPT), (0, REPORT, "")
    yield "proved, --version", room.run("--version"), (0, "epaxos 1.0.0\nthe kit of the proved\nproved\n", "")
    room.edit("crates/ep_base/specs/Lib.antt")
    yield "both, a definition is newer", room.run("replay", SCRIPT), (0, REPORT, UNPROVED)
    room.restore("crates/ep_base/specs/Lib.antt")
    room.edit("crates/ep_base/proofs/Lib.antt")
    yield "proved, a proof is newer", room.run("replay", SCRIPT), (0, REPORT, "")
    room.edit("crates.txt")
    yield "both, crates.txt is newer", room.run("replay", SCRIPT), (0, REPORT, STALE)
    room.restore("crates.txt")


def belonging(room):
    """Each command belongs to one program, which has its help; words of an earlier version are put into those of this one."""
    room.place("unproved")
    for program in PROGRAMS:
        listed = subprocess.run([f"{room.top}/out/unproved/{program}", "--help"], stdout=subprocess.PIPE, text=True).stdout.partition("\nOptions:")[0]
        own = {it for it, name in COMMANDS.items() if name == program}
        yield f"the commands of {program}", {*re.findall(r"(?m)^  ([a-z][\w-]+)  ", listed)} - {"help"}, own
    for command in COMMANDS:
        helped = room.run(f"--quiet {command} --help")
        yield f"{command} --help", (helped[0], bool(re.search(rf"(?m)^Usage: epaxos {command}( |$)", helped[1])), helped[2]), (0, True, "")
        for words in (f"help {command}", f"{command} -h"):
            yield words, room.run(f"--quiet {words}"), helped
    yield "help show now", room.run("--quiet help show now")[:2], (2, "")
    yield "--version of the launcher", {subprocess.run([f"{room.top}/out/unproved/{it}", "--version"], stdout=subprocess.PIPE, text=True).stdout for it in PROGRAMS}, {room.run("--version")[1].partition("\n")[0] + "\n"}
    for old, new, said in (
        ("replay --emit trace", "trace", "replay --emit trace"),
        ("replay --emit=trace", "trace", "replay --emit=trace"),
        ("replay --emit trace --help", "trace --help", "replay --emit trace"),
    ):
        status, wrote, told = room.run(f"--quiet {new}", SCRIPT)
        yield f"{old}, of an earlier version", room.run(f"--quiet {old}", SCRIPT), (status, wrote, OLD.format(said) + told)
    for words in ("replay --emit report", "replay --emit bundle", "upgrade --to 3"):
        yield f"{words}, of this version", "goes with" in room.run(f"--quiet {words}", SCRIPT)[2], False


def cheap(room):
    """What a call costs beside its program: no process, and few calls of the system. (Time is too unsteady for a row; strace counts.)"""
    if not needs.has("strace", "launcher: what a call costs"):
        return
    for kinds in (("unproved",), ("proved",)):
        room.place(*kinds)
        room.run("--quiet replay", SCRIPT)
        _, _, told = room.run("--quiet replay", SCRIPT, redirect="> it.out", under="strace -f -qq -e signal=none -o it.calls")
        with open(f"{room.top}/it.calls", encoding="utf-8") as file:
            calls = file.read().splitlines()
        started, begun = sum("fork(" in it or "clone(" in it or "clone3(" in it for it in calls), next(at for at, it in enumerate(calls) if f"/ep_main\"" in it and "execve(" in it)
        yield f"what a call costs, {kinds[0]}", (room.text("it.out"), told, started, begun < 4000), (REPORT, "", 0, True)


def shown(room):
    """What a terminal shows."""
    room.place("proved")
    for words, given, status, said in (
        ("replay", "four.script", 2, f"script refused at line 1\n{FOUR_WHY}see: epaxos explain four.script\n"),
        ("audit", "cut.bundle", 2, f"bundle refused E12 at byte 6\n{CUT_WHY}see: epaxos explain cut.bundle\n"),
        ("show", "cut.bundle", 2, f"bundle refused E12 at byte 6\n{CUT_WHY}see: epaxos explain cut.bundle\n"),
        ("replay put.script", "/dev/null", 0, ""),
        ("replay four.script", "put.script", 2, f"script refused at line 1\n{FOUR_WHY}see: epaxos explain four.script\n"),
        ("replay", "put.script", 0, ""),
    ):
        seen = room.seen_briefly(f"./epaxos {words} < {given} > it.out")
        yield f"{words} {given}, on a terminal", seen, (status, said)
        status_elsewhere, _, told = room.run(words, redirect=f"< {given}")
        yield f"{words} {given}, not on a terminal", (status_elsewhere, told), (status, "".join(line for line in said.splitlines(True) if not line.startswith(("see: ", "  "))))
    yield "a chain, on a terminal", room.seen_briefly("./epaxos audit --chain cut.bundle"), (2, "bundle refused E12 at byte 4 in cut.bundle\n")
    yield "from a pipe, on a terminal", room.seen_briefly("cat four.script | ./epaxos replay"), (2, "script refused at line 1\nsee: epaxos explain FILE\n")
    yield "long work, on a terminal", room.seen_long(), (0, "epaxos replay: 2 s so far")
    yield "long work, --quiet", room.seen("(cat put.script; sleep 3.6) | ./epaxos --quiet replay > it.out"), (0, "")
    status, seen = room.seen("./epaxos replay > it.out", (SCRIPT + "\4").encode())
    yield "a script from the terminal", (status, "reading from the terminal; Ctrl-D ends the input\n" in seen), (0, True)
    # (nobody reads this pipe)
    reading, writing = os.pipe()
    os.close(reading)
    os.set_inheritable(writing, True)
    closed = f"./epaxos {{}} < {{}} >&{writing}; echo $?"
    for words, given in (("replay", "put.script"), ("show", "unsent.bundle"), ("help replay", "/dev/null"), ("help", "/dev/null")):
        yield f"{words}, its pipe closed, on a terminal", room.seen_briefly(closed.format(words, given)), (0, "4\n")
        how = {"cwd": room.top, "pass_fds": [writing], "stdout": subprocess.PIPE, "stderr": subprocess.PIPE}
        told = subprocess.run(["bash", "-c", closed.format(words, given)], **how)
        yield f"{words}, its pipe closed", (told.stdout, told.stderr), (b"4\n", b"")
    os.close(writing)
    yield "replay to a full device, on a terminal", room.seen_briefly("./epaxos replay < put.script > /dev/full"), (4, "writing failed\n")


# What a build does that has one thing to do, of which nothing is heard until it has reported so three times more, or for a
# minute; its output is how often it may have reported so by then.
BUILD = """
import time
from progress import Progress
told = []
class Counted(Progress):
    def write(self, text):
        told.append(text)
        super().write(text)
progress, begun = Counted("crates proved", silence=0.1), time.monotonic()
progress.count = 2
progress.start()
progress.begin("ep_base")
while len(told) < 4 and time.monotonic() < begun + 60:
    time.sleep(0.01)
progress.end("ep_base", True)
print(1 + int((time.monotonic() - begun) / 0.1))
"""


def coloured(room):
    """What a terminal shows in colour, and a hint."""
    red = "\033[31mscript refused at line 1\033[0m\n"
    yield "colours", room.seen("env -u NO_COLOR TERM=xterm ./epaxos --quiet replay four.script")[1].startswith(red), True
    for words in ("NO_COLOR=1 TERM=xterm", "-u NO_COLOR TERM=dumb"):
        yield f"no colours, {words}", "\033" in room.seen(f"env {words} ./epaxos --quiet replay four.script")[1], False
    room.write("quotes.script", SCRIPT.replace("put x 1", 'put x "1"'))
    yield "quotes", room.seen_briefly("./epaxos replay quotes.script > it.out"), (0, "hint: quotes in a script are bytes of the value\n")
    room.write("quotes.script", SCRIPT.replace("put x 1", "put x 1 # it's here, isn't it"))
    yield "quotes in no value", room.seen_briefly("./epaxos replay quotes.script > it.out")[1].count("hint"), 0


def without_python(room):
    """Where Python isn't on the PATH, and can't be installed."""
    room.place()
    said = "epaxos: {} needs python3, which isn't on the PATH; to install it on Debian, as root: apt-get install python3\n"
    for words, what in (("up", "`epaxos up`"), ("test", "`epaxos test`"), ("--build", "the build")):
        yield f"{words}, without Python", room.run(words, under="PATH=/nowhere /bin/bash"), (69, "", said.format(what))


def of_tools(room):
    """The tools' commands have help, each its own, and refuse other words."""
    for name in (".ci/test", "hosts/store/cluster"):
        os.makedirs(os.path.dirname(f"{room.top}/{name}"))
        shutil.copy2(f"{TOP}/{name}", f"{room.top}/{name}")
    for command, word in OF_TOOLS.items():
        helped = room.run(f"{command} --help")
        is_named = f"epaxos {command}" in helped[1].partition("\n")[0]
        yield f"{command} --help", (helped[0], is_named, helped[2]), (0, True, "")
        for words in (f"help {command}", f"{command} -h"):
            yield words, room.run(words), helped
        status, wrote, told = room.run(f"{command} {word}")
        yield f"{command} {word}", (status, wrote, told.endswith(helped[1])), (2, "", True)


def builds(room):
    """How a build says how far it is."""
    line = r"epaxos: 0 of 2 crates proved, at ep_base \(0 min \d\d s\)"
    told = subprocess.run([sys.executable, "-Bc", BUILD], cwd=f"{room.top}/tools", stdout=subprocess.PIPE, stderr=subprocess.PIPE, text=True)
    lines = told.stderr.splitlines()
    are_lines = all(re.fullmatch(line, it) for it in lines)
    are_few = 4 <= len(lines) <= int(told.stdout)
    yield "a long build, not on a terminal", (told.returncode, are_lines, are_few), (0, True, True)
    status, seen = room.seen(f"cd tools && {sys.executable} -Bc '{BUILD}' > ../it.out")
    yield "a long build, on a terminal", (status, bool(re.fullmatch(rf"(\r\033\[K{line}){{4,}}", seen))), (0, True)


PARTS = (fixed, chosen, belonging, cheap, shown, coloured, without_python, of_tools, builds)


def tried():
    """Makes all runs, prints a line for each that fails, and returns how many passed and how many failed."""
    passed = failed = 0
    with tempfile.TemporaryDirectory() as top:
        room = Room(top)
        for part in PARTS:
            for name, found, wanted in part(room):
                is_well = found == wanted
                passed, failed = passed + is_well, failed + (not is_well)
                if not is_well:
                    print(f"launcher, {name}: {found!r} and not {wanted!r}", flush=True)
    print(f"launcher: {passed} passed, {failed} failed", flush=True)
    return passed, failed


if __name__ == "__main__":
    sys.exit(int(tried()[1] > 0))
