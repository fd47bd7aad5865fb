"""Reports as JSON, made of their lines by docs/CLI.md, section 5.3, and the rows that ask for them.

The lines of a row are what is wanted of the program in text, so they don't come from the program either."""

import json
import re

# what a run that writes no report says: the same, whichever form was asked for
FAULTS = (b"script refused ", b"bundle refused ", b"reading ", b"writing ")
# longer reports have a row in text alone
LONGEST = 1 << 16


def escaped(made):
    """An object as the program spells it."""
    text = json.dumps(made, separators=(",", ":")) + "\n"
    for spelled, byte in (("\\\\", "\\"), ('\\"', '"'), ("<", "<"), (">", ">"), ("&", "&")):
        text = text.replace(spelled, f"\\u{ord(byte):04x}")
    return text.encode()


def fault(line):
    """The members of a fault or a cause."""
    return {"code": line.split(" ")[0], "message": line}


def closing(line):
    """The value of a line `open` or `closed I V stamp T`."""
    if line == "open":
        return None
    _, instance, value, _, stamp = line.split(" ")
    return {"instance": instance, "value": value, "stamp": int(stamp)}


def contents(keys, digest):
    return {"keys": int(keys), "digest": digest}


def committed(line):
    instance, _, seq, _, deps, command = line.split(" ", 5)
    return {"instance": instance, "seq": int(seq), "deps": [] if deps == "-" else deps.split(","), "command": command}


def happened(line):
    place, instance, rest = line.split(" ", 2)
    command, _, reply = rest.rpartition(" -> ")
    return {"place": int(place), "instance": instance, "command": command, "reply": reply}


def told(line):
    _, client, _, request, instance, answer = line.split(" ", 5)
    return {"client": int(client), "request": int(request), "instance": instance, "answer": answer}


def refused(line):
    _, number, cause = line.split(" ", 2)
    return {"line": int(number), **fault(cause)}


LISTS = {"committed": committed, "history": happened, "receipts": told, "refused": refused}
LINK = re.compile(r"generation (\d+) since (\d+) committed (\d+) history (\d+) (open|closed .*) contents (\d+) ([0-9a-f]{64})")


def linked(line):
    """The item of a generation of a chain."""
    generation, since, instances, commands, end, keys, digest = LINK.fullmatch(line).groups()
    counts = {"committed": int(instances), "history": int(commands)}
    return {"generation": int(generation), "since": int(since), **counts, "closed": closing(end), "contents": contents(keys, digest)}


def accepted(lines):
    """The members behind the verdict, of the lines behind its line."""
    made, lines = {}, iter(lines)
    for line in lines:
        name, *words = line.split(" ")
        if name == "generation":
            made |= {"generation": int(words[0]), "since": int(words[2])}
        elif name in LISTS:
            made[name] = [LISTS[name](next(lines)) for _ in range(int(words[0]))]
        elif name == "contents":
            made[name] = contents(*words)
        elif name == "lost":
            made[name] = int(words[0])
        else:
            made["closed"] = closing(line)
    return made


def as_json(report):
    """A report, of its lines."""
    verdict, *lines = report.decode().splitlines()
    made = {"verdict": verdict.removeprefix("verdict ")}
    if verdict == "verdict refused":
        generation = {"generation": int(lines[0].split(" ")[1])} if len(lines) == 2 else {}
        return escaped(made | generation | fault(lines[-1]))
    if lines and LINK.fullmatch(lines[0]):
        return escaped(made | {"generations": [linked(it) for it in lines]})
    return escaped(made | accepted(lines))


def is_told(row):
    """Whether the row's last run writes a report, or a fault of what it reads or writes."""
    last = "\n".join(row.words).split("\n|\n")[-1].split("\n")
    if last[0] not in ("replay", "run", "audit") or any(it.startswith("--emit") for it in last) or row.is_begun or len(row.wanted) > LONGEST:
        return False
    return row.wanted.startswith(b"verdict ") or not row.wanted and row.told.startswith(FAULTS)


def wanted(report):
    return as_json(report) if report else b""
