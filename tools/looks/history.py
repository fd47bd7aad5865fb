"""Whether the commits since the last green one, which .ci/green names, say of nothing that it isn't proved; and whether unfinished work has its line.

A commit's subject that says "not proved" fails: what isn't proved is a patch or a script in wip/, whose first line says
what is missing, and which the last commit of the work removes. Where this clone doesn't have the green commit, only the
last 100 commits are looked at.
"""

import glob
import os
import re
import subprocess



def git(*words):
    """What git says, or None where it fails."""
    ran = subprocess.run(["git", *words], stdout=subprocess.PIPE, stderr=subprocess.DEVNULL, text=True)
    return None if ran.returncode else ran.stdout


def faults(_):
    """Commits and files of which this isn't so."""
    with open(".ci/green", encoding="utf-8") as file:
        commit = file.read().split()[0]
    log = git("log", "--format=%h %s", f"{commit}..HEAD")
    log = git("log", "--format=%h %s", "-100") if log is None else log
    for it in (log or "").splitlines():
        if re.search(r"(?i)\bnot proved\b", it):
            yield f"{it}: its subject says that something isn't proved"
    for path in sorted(glob.glob("wip/*")):
        with open(path, encoding="utf-8", errors="replace") as file:
            first = file.readline()
        if not path.endswith((".patch", ".py")) or first.startswith(("diff ", "--- ", "From ", "#!")):
            yield f"{path}: wip/ has NAME.patch and NAME.py, which makes a change; the first line says what is missing"
