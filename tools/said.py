"""Follows what a trace says would end what is open: for tools/stuck --said."""

import os
import re
import subprocess
from collections import Counter
from concurrent.futures import ThreadPoolExecutor

TOP = os.path.dirname(os.path.dirname(os.path.abspath(__file__)))
RECOVER = re.compile(r"^next  recover (\S+) at any replica that reaches ([0-9, and]+)$", re.M)
EXECUTE = re.compile(r"^next  execute (\S+) at replica (\d)$", re.M)
WAIT = re.compile(r"^then  execute (\S+) at replica (\d), once it has committed (\S+)$", re.M)
OPEN = re.compile(r"^not committed  (\S+) at replica (\d),", re.M)
LEFT = re.compile(r"^never given  #(\d+) from \d to (\d):", re.M)
NUMBER = re.compile(r"#(\d+)")
MORE = re.compile(r"^more  are open, from (\S+) on$", re.M)
SECOND, MOST = 2, 20


def program():
    """The program that traces: as it was proved, or else as tools/unproved left it."""
    for at in ("crates/ep_viewer/out/ep_viewer", "out/unproved/ep_viewer"):
        if os.access(f"{TOP}/{at}", os.X_OK):
            return f"{TOP}/{at}"
    raise SystemExit("ep_viewer isn't built: tools/unproved --program ep_viewer")


def traced(lines):
    """The trace of a script."""
    ran = subprocess.run([program(), "trace"], input="\n".join(lines).encode() + b"\n", stdout=subprocess.PIPE, check=True)
    return ran.stdout.decode()


def played(world, acts):
    """The lines of a script, whose events are some random acts of a world of the model."""
    rng, lines = world.rng, [f"replicas {world.n}", "generation 1"]
    for _ in range(acts):
        r, what, known = rng.randrange(world.n), rng.random(), world.instances()
        if what < 0.12 or not known:
            command, spared = rng.choice([("put", "x"), ("put", "y"), ("get", "x"), ("seal",)]), rng.choice(world.replicas[r].others())
            lines.append(f"sparing {spared} propose {r} {r + 1} {' '.join(command)}{' v' * (command[0] != 'get')}")
            world.send(r, world.replicas[r].propose(command, spared))
        elif what < 0.16:
            i = rng.choice(known)
            lines.append(f"giveup {i[0]} {i[0]}.{i[1]}")
            world.send(i[0], world.replicas[i[0]].give_up(i))
        elif what < 0.26:
            i = rng.choice(known)
            lines.append(f"recover {r} {i[0]}.{i[1]}")
            world.send(r, world.replicas[r].recover(i))
        elif world.sent:
            newest = len(world.sent) - rng.randrange(1, min(len(world.sent), 12) + 1)
            at = newest if rng.random() < 0.7 else rng.randrange(len(world.sent))
            lines.append(f"deliver {at + 1}")
            world.handle(world.sent[at])
    return lines


def open_at(text, name):
    return {int(r) for i, r in OPEN.findall(text) if i == name}


def is_open_in(world, i):
    """The replicas of the model that know of an instance and haven't committed it."""
    return {r.me for r in world.replicas if not r.committed(i) and (i in r.records or any(v and i in v[2][2] for _, v in r.records.values()))}


def owed_in(world):
    return {f"{r.me}.{n}" for r in world.replicas for l, n in r.records if l == r.me and r.committed((l, n))}


def differs(world, text):
    """How the lines differ from what is open in the model's world, which has executed nothing."""
    names = {f"{r}.{n}": is_open_in(world, (r, n)) for r, n in {j for it in world.replicas for i, (_, v) in it.records.items() for j in (i, *(v[2][2] if v else ()))}}
    wanted = sorted((name for name, at in names.items() if at), key=lambda it: [*map(int, it.split("."))])
    told = RECOVER.findall(text)
    if [i for i, _ in told] != wanted[:MOST] or MORE.findall(text) != wanted[MOST : MOST + 1]:
        return f"lines of {[i for i, _ in told]}, where {wanted} are open"
    for i, named in told:
        heard = [int(it) for it in re.findall(r"\d", named)]
        if len(set(heard)) != world.f + 1 or not {*heard} <= {*range(world.n)} or int(i.split(".")[0]) in heard:
            return f"{i}: {named} are named"
    owed = {i for i, _ in EXECUTE.findall(text)} | {i for i, _, _ in WAIT.findall(text)}
    if owed != owed_in(world):
        return f"lines of executions of {sorted(owed)}, where {sorted(owed_in(world))} are owed"
    return None


def round_of(rng, lines, text, q, name, live):
    """One recovery, and all that live replicas are sent from then on, in random order."""
    sent = max([0, *map(int, NUMBER.findall(text))])
    lines.append(f"recover {q} {name}")
    while True:
        text = traced(lines)
        left = [m for m, r in LEFT.findall(text) if int(m) > sent and int(r) in live]
        if not left:
            return text
        rng.shuffle(left)
        lines.append(f"deliver {' '.join(left)}")


def follow(world, acts):
    """What is wrong with what is said at the end of a script; and behind how many recoveries an instance was ended, or None where none was open."""
    rng, lines = world.rng, played(world, acts)
    text = traced(lines)
    if wrong := differs(world, text):
        return wrong, None
    if done := EXECUTE.findall(text):
        i, r = rng.choice(done)
        after = traced([*lines, f"execute {r} {i}"])
        if re.search(rf"refused .*: execute {r} {re.escape(i)}$", after, re.M) or (i, r) in EXECUTE.findall(after):
            return f"{i} isn't executed at {r}", None
    if not (told := RECOVER.findall(text)):
        return None, None
    name, named = rng.choice(told)
    q = rng.choice(sorted(open_at(text, name)))
    live = {q, *map(int, re.findall(r"\d", named))}
    for count in range(1, SECOND + 1):
        text = round_of(rng, lines, text, q, name, live)
        if not open_at(text, name) & live:
            return None, count
    return f"{name} is open at {sorted(open_at(text, name))} behind two recoveries at {q}, which reaches {named}", None


def said(make, first, count):
    """Follows the lines of so many scripts in which something is open, and returns whether all was ended."""
    ends, faults, tried = Counter(), [], 0

    def one(seed):
        world, acts = make(seed)
        try:
            return seed, follow(world, acts)
        except subprocess.CalledProcessError as fault:
            return seed, (str(fault), None)

    with ThreadPoolExecutor(min(4, len(os.sched_getaffinity(0)))) as pool:
        at = first
        while sum(ends.values()) + len(faults) < count:
            more = range(at, at + min(200, count - sum(ends.values()) - len(faults)))
            at += len(more)
            for seed, (fault, behind) in pool.map(one, more):
                tried += 1
                if fault:
                    faults.append(f"seed {seed}: {fault}")
                elif behind:
                    ends[behind] += 1
    print(*faults, sep="\n", end="\n" * bool(faults))
    print(f"of {tried} scripts {tried - sum(ends.values()) - len(faults)} left nothing open; instances that were ended as it was said, behind one recovery {ends[1]}, behind two {ends[2]}")
    print(f"{sum(ends.values())} passed, {len(faults)} failed")
    return not faults
