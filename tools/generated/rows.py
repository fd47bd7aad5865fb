"""Writes crates/ep_laws/specs/Rows: the rule book's definitions of states, steps, worlds, histories and journals, those of reads, and those of lives of nodes that
crash, word for word, over maps that are plain lists, so that worked runs compute. Of the nodes' modules it leaves out what laws say of them.
"""

import os
import re

CRATES = f"{os.path.dirname(os.path.dirname(os.path.dirname(os.path.realpath(__file__))))}/crates"
MODULES = {
    "ep_rules": ("InterferenceSet", "OneMap", "States", "Steps", "Worlds", "Operations", "Closing", "Generations", "Journals"),
    "ep_laws": ("Reads", "LifeReads", "LifeOrder"),
    "ep_node": ("Crashes", "CrashLives"),
    "ep_crash_laws": ("CrashReads", "CrashLifeReads"),
}
# what laws say of nodes: from a line to one, which are left out too, or to the end
LAWS = (
    r"^-- What holds whatever crashed\.$.*?^-- In the order of real time\.$",
    r"^-- the entries, in this order, are the nodes', and a linearizable run$.*",
    r"^-- what stands is a life$.*",
)
# and what only that needs
NEEDED = r"^use Rattle\.ep_rules\.specs\.(?:Audits|Linearizable|Merging|Verdicts|Chains|declared\.receipt\.Receipt)\..*\n"


def without_laws(text):
    """The text of a module of nodes without its laws."""
    for law in LAWS:
        text = re.sub(rf"(?ms){law}", "", text)
    text = re.sub(rf"(?m){NEEDED}", "", text.replace(", IsOneRun}", "}"))
    return re.sub(r"\n{3,}", "\n\n", text).rstrip("\n") + "\n"


def files():
    """The path of each module, and what it has to hold."""
    moved = "|".join(["Maps", *(name for names in MODULES.values() for name in names)])
    for crate, name in ((crate, name) for crate, names in MODULES.items() for name in names):
        with open(f"{CRATES}/{crate}/specs/{name}.antt", encoding="utf-8") as file:
            text = file.read()
        text = re.sub(r"(?m)^unfoldable pub", "abbrev pub", text)
        text = text.replace("Rattle.std.specs.FinMap as map", "Rattle.ep_laws.specs.Rows.KeyMaps as map")
        text = re.sub(rf"Rattle\.ep_(?:rules|laws|node|crash_laws)\.specs\.({moved})\.", r"Rattle.ep_laws.specs.Rows.\1.", text)
        if crate == "ep_node":
            text = without_laws(text)
        head = f"-- tools/generate writes this file, from crates/{crate}/specs/{name}.antt.\n"
        yield f"{CRATES}/ep_laws/specs/Rows/{name}.antt", (head + text).encode()
