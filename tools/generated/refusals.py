"""The refusals of a replica, by the sources of crates/: codes, names and comments, which Rust, Python and pages have
from here.

A refusal is a variant of StepFault (ep_journal), which has the table of codes and words: `SpaceFull => (4, "space
full")`. These words as one are its name, SpaceFull, and the name of its status (ep_library), SPACE_FULL, whose number
is the code's. Looked at, too: that all crates print a code with the same words; and that pages name each refusal and
say something of it. What they say is written by hand.
"""

import glob
import re
from typing import NamedTuple

import header

CRATES = f"{header.TOP}/crates"
FORMATS, EMBEDDING, PROTOCOL = (f"docs/{it}.md" for it in ("FORMATS", "EMBEDDING", "PROTOCOL"))


class Refusal(NamedTuple):
    """A refusal: its code's number, its name, whether it names an instance, and what it means."""

    number: int
    name: str
    has_instance: bool
    about: str


def check(is_so, what):
    if not is_so:
        raise header.Unknown(what)


def rows():
    """The table: each variant of StepFault, whether it has an instance, its code and its words."""
    text = header.read(f"{CRATES}/ep_journal/src/step_fault.rt")
    found = re.findall(r'StepFault::(\w+)(\(_\))? => \((\d+), "([a-z ]+)"\),', text)
    variants = re.findall(r"^    (\w+)(?:\(InstanceId\))?,$", text, re.M)
    check({it[0] for it in found} == {*variants}, "the table of StepFault doesn't have its variants")
    return found


def words_of_codes():
    """The words of each code: those of the table, and those that the text of a fault begins with."""
    words = {f"E{code}": said for _, _, code, said in rows()}
    for path in sorted(glob.glob(f"{CRATES}/*/src/*.rt")):
        for code, said in re.findall(r'"(E\d+) ([a-z]+(?: [a-z]+)*)', header.read(path)):
            known = words.setdefault(code, said)
            check(known == said, f"{path}: {code} is `{said}` here, and `{known}` elsewhere")
    check(len({*words.values()}) == len(words), "two codes have the same words")
    return words


def table():
    """The refusals, by rising numbers."""
    words, statuses, known = words_of_codes(), {it[1]: it for it in header.found_statuses()}, {}
    for _, has_instance, code, _ in rows():
        said = words[f"E{code}"]
        about, _, number = statuses.get(said.upper().replace(" ", "_"), ("", "", None))
        check(number == code, f"E{code} {said}: no status of ep_library has this name and this number")
        known[int(code)] = Refusal(int(code), said.title().replace(" ", ""), bool(has_instance), header.doc(about))
    return [known[it] for it in sorted(known)]


def read_page(path):
    return header.read(f"{header.TOP}/{path}")


def section(page, title):
    """A part of a page: what stands before it, it, and what stands behind it."""
    before, head, rest = page.partition(f"\n## {title}\n")
    return before + head, *re.fullmatch(r"(.*?)((?:^## .*)?)", rest, re.M | re.S).groups()


def names_of(rows):
    """The part of docs/FORMATS.md that has codes and names, with the name of each refusal, and a row for each."""
    # (statuses below 16 are the numbers of names, also of those that no replica refuses by)
    statuses = ((int(number), name.title().replace("_", "")) for _, name, number in header.found_statuses())
    known = {f"E{number}": name for number, name in statuses if 0 < number < 16}
    known |= {f"E{it.number}": it.name for it in table()}

    def named(row):
        codes, names = row[1].split(", "), re.findall(r"`(\w+)(.*?)`", row[2])
        check(len(codes) == len(names), f"{FORMATS}: {row[0]}")
        made = ", ".join(f"`{known.pop(code, name)}{rest}`" for code, (name, rest) in zip(codes, names))
        return f"| {row[1]} | {made} |{row[3]}"

    made = re.sub(r"^\| (E\d+(?:, E\d+)*) \| (.*?) \|(.*)$", named, rows, flags=re.M)
    more = "".join(f"| {code} | `{name}` | |\n" for code, name in known.items())
    return made.replace("\n| F1", f"\n{more}| F1", 1)


def advice_on(rows):
    """The part of docs/EMBEDDING.md that says what to do, with a row for each refusal."""
    cells = re.findall(r"^\| (`.*?) \|", rows, re.M)
    found, known = re.findall(r"`(\w+)", " ".join(cells)), [it.name for it in table()]
    check({*found} <= {*known}, f"{EMBEDDING}: there is no {', '.join(it for it in found if it not in known)}")
    last = rows.rindex("\n| `")
    end = rows.index("\n", last + 1) + 1
    return rows[:end] + "".join(f"| `{name}` | |\n" for name in known if name not in found) + rows[end:]


def files():
    """The path of each page, and what it has to hold; behind them, whether pages say something of each refusal."""
    lacking = []
    for path, title, change in ((FORMATS, "7. Names of faults", names_of), (EMBEDDING, "4. Refusals", advice_on)):
        before, part, behind = section(read_page(path), title)
        made = change(part)
        yield f"{header.TOP}/{path}", (before + made + behind).encode()
        rows = re.findall(r"^\| (.*) \| \|$", made, re.M)
        lacking += [f"{path}, section {title}: nothing is said of {row}" for row in rows]
    rules = section(read_page(PROTOCOL), "10. Refusals")[1]
    for it in table():
        if not re.search(rf"`{it.name}` \(E{it.number}\b", rules):
            lacking.append(f"{PROTOCOL}, section 10. Refusals: nothing is said of `{it.name}` (E{it.number})")
    check(not lacking, "\n  ".join(["", *lacking]))
