#!/usr/bin/env python3
"""What a command needs of this machine beside the kit, by tools/needs.txt.

usage: tools/needs.py up|test|gate

As root on Debian it installs what is missing, and says so; elsewhere it prints the line to run. The status is 0 where
all is there then, and 69 where something isn't.
"""

import contextlib
import functools
import glob
import os
import shutil
import subprocess
import sys
import tempfile
from dataclasses import dataclass

LIST = f"{os.path.dirname(os.path.realpath(__file__))}/needs.txt"
REGISTRY, PYTHON = "/usr/share/cargo/registry", "/usr/bin/python3"
APT = ["apt-get", "-qq", "-o", "DPkg::Lock::Timeout=300"]
LACKING = 69
# the file that lists what was skipped, a line each, where a gate runs
SKIPS = "EPAXOS_SKIPS"


@dataclass
class Need:
    name: str
    packages: list
    commands: list
    purpose: str

    def is_there(self):
        kind, _, name = self.name.rpartition(":")
        if kind == "crate":
            return bool(glob.glob(f"{REGISTRY}/{name}-[0-9]*"))
        if kind == "python":
            how = {"stdout": subprocess.DEVNULL, "stderr": subprocess.DEVNULL}
            return os.path.exists(PYTHON) and not subprocess.run([PYTHON, "-c", f"import {name}"], **how).returncode
        return bool(shutil.which(name))

    def __str__(self):
        return f"{self.name} ({' '.join(self.packages) or 'no package of Debian'}): {self.purpose}"


@functools.cache
def every():
    """All that any command needs, by name."""
    with open(LIST, encoding="utf-8") as lines:
        rows = [[it.strip() for it in line.split("|")] for line in lines if not line.startswith("#")]
    of = lambda packages: packages.split() if packages != "-" else []
    found = {name: Need(name, of(packages), commands.split(), purpose) for name, packages, commands, purpose in rows}
    if len(found) != len(rows):
        raise ValueError(f"{LIST} names something twice")
    return found


def lacking(command):
    """What the command needs and isn't there."""
    return [it for it in every().values() if command in it.commands and not it.is_there()]


def may_install():
    return bool(shutil.which("apt-get")) and not os.geteuid()


def installed(packages):
    """Whether these packages could be installed."""
    return is_quiet("install", "-y", "--no-install-recommends", *packages)


def is_quiet(*words):
    """Whether apt-get ended well; nothing of what it says is shown."""
    how = {name: subprocess.DEVNULL for name in ("stdin", "stdout", "stderr")}
    return not subprocess.run([*APT, *words], env={**os.environ, "DEBIAN_FRONTEND": "noninteractive"}, **how).returncode


def install(needs):
    """Installs what it can of these."""
    packages = [it for need in needs for it in need.packages]
    if not packages or not may_install():
        return
    print("installing", *packages, file=sys.stderr, flush=True)
    is_quiet("update")
    if not installed(packages):
        # (one that can't be had keeps no other away)
        for it in needs:
            if it.packages and not installed(it.packages):
                print("not installed:", *it.packages, file=sys.stderr, flush=True)


def skip(what, why):
    """Says that something isn't tried, and notes it for the gate's last lines."""
    line = f"skipped: {what}: {why}"
    print(line, flush=True)
    if SKIPS in os.environ:
        with open(os.environ[SKIPS], "a", encoding="utf-8") as file:
            file.write(f"{line}\n")


@contextlib.contextmanager
def noting():
    """Gives a list that has, behind it, each line on what was skipped here and in the processes below."""
    lines = []
    if SKIPS in os.environ:
        # (whoever began this process lists them)
        yield lines
        return
    with tempfile.NamedTemporaryFile("r", encoding="utf-8") as file:
        os.environ[SKIPS] = file.name
        yield lines
        del os.environ[SKIPS]
        lines += dict.fromkeys(file.read().splitlines())


def has(name, what):
    """Whether a need is there; where it isn't, says that what takes it isn't tried."""
    need = every()[name]
    if not need.is_there():
        skip(what, f"there is no {name}" + (f"; Debian has it in {' '.join(need.packages)}" if need.packages else ""))
    return need.is_there()


def main(words):
    if len(words) != 1 or not any(words[0] in it.commands for it in every().values()):
        print(__doc__, end="", file=sys.stderr)
        return 2
    install(lacking(words[0]))
    left = lacking(words[0])
    for it in left:
        print(f"missing: {it}", file=sys.stderr)
    if packages := [it for need in left for it in need.packages]:
        print("to install it on Debian, as root: apt-get install", *packages, file=sys.stderr)
    return LACKING if left else 0


if __name__ == "__main__":
    sys.exit(main(sys.argv[1:]))
