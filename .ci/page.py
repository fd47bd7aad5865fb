#!/usr/bin/env python3
"""Pages, diagrams, graphs and trace events of runs, looked at from outside.

  .ci/page.py PROGRAM     PROGRAM is ep_main as it was built, beside which ep_viewer was built

Of each run the trace events are read as JSON, and counted against what `show` prints; its diagram and its graph have to be those of what `show` prints, and
the graph is drawn by Graphviz; and its page is opened in headless Chromium: it has to say how many events and instances there are, to list the instances with their commands as `show` has them, to find slow and recovered ones,
to sort by path, to have the arrows of the graph, and to raise no error. Both views are saved as SVG, and read as XML.
The runs are worked scripts, a run whose keys and values are odd bytes, one of 10,800 events at five replicas, one of proposals that name whom they spare,
and one of version 3 with two seals.
The last line is 'pages: N passed, M failed'.
"""

import html
import json
import os
import re
import shutil
import subprocess
import sys
import tempfile
from xml.dom import minidom

sys.dont_write_bytecode = True
TOP = os.path.dirname(os.path.dirname(os.path.abspath(__file__)))
sys.path[:0] = [f"{TOP}/.ci", f"{TOP}/tools"]
import drawing
import looks
import needs
import odd
import rows
from loaded import loaded

GRAPHVIZ = shutil.which("dot")
BROWSER = shutil.which("chromium") or shutil.which("chromium-browser") or shutil.which("google-chrome")
SECONDS = 600
EXAMPLES = ("one_put", "slow_path", "recovery", "two_swaps", "stale_answer_then_chosen", "empty")
INSTANCE = r"[0-6]\.[1-9][0-9]{0,3}"


def large():
    """A script whose run has 10,800 events."""
    lines = ["replicas 5"]
    for at in range(900):
        lines.append(f"propose {at % 5} {at % 7 + 1} put k{at % 20} v{at}")
        lines += ["flush"] * 4 * (at % 5 == 4)
    lines += [f"execute {at % 5} {at % 5}.{at // 5 + 1}" for at in range(900)]
    return "\n".join(lines).encode()


def strange():
    """A script with all keys and values of odd bytes."""
    text, client = b"replicas 3\n", 0
    for _, key, _, value, _, *_ in odd.ODD:
        client += 1
        text += f"propose 0 {client} put {odd.escaped(key)} {odd.escaped(value)}\nflush\nflush\nflush\nexecute 0 0.{client}\n".encode()
    # what would end a script, were it not escaped
    return text + b"propose 1 9 put </script><script>alert(1)</script> <!--<script>\nflush\nflush\nflush\n"


def sparing():
    """A script whose proposals name whom they spare: one is recovered by that replica, and one is committed by the fast path."""
    return b"replicas 3\ngeneration 1\nsparing 1 propose 0 1 put x 1\ndeliver 1\nrecover 1 0.1\ndeliver 4 5 7 8 9\nsparing 0 propose 2 2 act x y q\nflush\nflush\nflush\nexecute 0 0.1\n"


def scripts():
    """The runs, by name."""
    for name in EXAMPLES:
        with open(f"{TOP}/examples/{name}.script", "rb") as it:
            yield name, it.read()
    yield "odd bytes", strange()
    yield "10,800 events", large()
    yield "spared replicas", sparing()


def bundles(program):
    """The bundles of the runs, by name."""
    for name, script in scripts():
        yield name, ran(program, ["replay", "--emit", "bundle"], script)
    yield "version 3", looks.life().bundle()


def ran(program, words, given):
    """What a run writes."""
    ended = subprocess.run([rows.program_of(program, words), *words], input=given, capture_output=True, timeout=SECONDS)
    if ended.returncode:
        raise ValueError(f"{' '.join(words)} ended with status {ended.returncode}: {ended.stderr[:200]!r}")
    return ended.stdout


def parted(told):
    """The line of the edition, if there is one, and the lines of entries."""
    return [it for it in told if it.startswith("version ")], [it for it in told if it.startswith("stamp ")]


def events_fault(told, made):
    """What is wrong with trace events, by what is shown; nothing where all is right."""
    edition, shown = parted(told)
    events = json.loads(made)["traceEvents"]
    of = lambda phase: [it for it in events if it["ph"] == phase]
    labels = [it["args"]["labels"] for it in events if it["name"] == "process_labels"]
    if labels != edition:
        return f"the labels are {labels}, and the edition {edition}"
    slices = of("X")
    if len(slices) != len(shown):
        return f"{len(slices)} slices of {len(shown)} entries"
    for line, it in zip(shown, slices):
        head = f"stamp {it['ts']}  replica {it['pid']} entry {it['args']['entry']}  "
        if not line.startswith(head) or not line[len(head) :].startswith(it["args"]["words"].partition("; executed ")[0]):
            return f"a slice is {it}, and the line {line[:200]}"
    handled = sum("  handle " in line for line in shown)
    starts, ends = of("s"), of("f")
    if not len(starts) == len(ends) == handled or {it["id"] for it in starts} != {it["id"] for it in ends} or len({it["id"] for it in starts}) != handled:
        return f"{len(starts)} and {len(ends)} ends of arrows, of {handled} frames that are handled"
    places = {(it["pid"], it["ts"]) for it in slices}
    if not all((it["pid"], it["ts"]) in places for it in (*starts, *ends)):
        return "an arrow's end is at no slice"
    lost = sum(it["name"].startswith("never handled: ") for it in of("i"))
    if lost != sum(line.count(" NEVER HANDLED") for line in shown):
        return f"{lost} frames that were never handled"
    return ""


def page_fault(shown_lines, page):
    """What is wrong with a page in a browser, by what is shown; nothing where all is right."""
    edition, shown = parted(shown_lines)
    with tempfile.TemporaryDirectory() as folder:
        with open(f"{folder}/page.html", "wb") as it:
            it.write(page)
        words = [BROWSER, "--headless=new", "--no-sandbox", "--disable-gpu", f"--user-data-dir={folder}/own", "--enable-logging=stderr", "--window-size=1400,900"]
        ended = subprocess.run([*words, "--dump-dom", f"file://{folder}/page.html"], capture_output=True, timeout=SECONDS)
    told, dom = ended.stderr.decode(errors="replace"), ended.stdout.decode(errors="replace")
    if "Uncaught" in told or "CONSOLE" in told and "rror" in told:
        return f"the browser says {told[:500]}"
    instances = sorted({it for line in shown for it in re.findall(rf"(?:took|give up|recover|execute|executed|PreAccept|PreAcceptOK|Accept|AcceptOK|Commit|Prepare|PrepareOK|Nack) ({INSTANCE})", line)}, key=lambda it: [*map(int, it.split("."))])
    wanted = f"{len(shown)} of {len(shown)} events, {len(instances)} instances"
    if wanted not in dom:
        found = re.search(r'id="count"[^>]*>([^<]*)', dom)
        return f"it has {found and found[1]!r} and not {wanted!r}"
    if not all(f">{it}</span>" in dom for it in edition):
        return f"it doesn't say {edition[0]}"
    commands = {took[1]: command for line in shown for command, took in [(re.search(r"  propose (.*) \(client ", line), re.search(rf"; took ({INSTANCE})", line))] if command and took}
    # (the list has rows for what is in sight alone)
    for name in instances[:10]:
        cells = re.search(rf'data-name="{re.escape(name)}"[^>]*>(.*?)</div>', dom, re.S)
        texts = [html.unescape(it) for it in re.findall(r"<span[^>]*>([^<]*)</span>", cells[1])] if cells else []
        if not texts or texts[0] != name or name in commands and texts[1] != commands[name][1]:
            return f"of {name} it lists {texts[:3]}"
    return ""


def diagram_fault(told, made):
    """What is wrong with a diagram, by what is shown."""
    lines = made.decode().splitlines()
    replicas = sum(it.startswith("  participant ") for it in lines)
    if made.decode() != drawing.sequence("\n".join(told), replicas):
        return f"it isn't that of what is shown: {lines[:9]}"
    other = [it for it in lines[1:] if not drawing.DRAWN.fullmatch(it)]
    return f"Mermaid doesn't read {other[0]!r}" if other else ""


def graph_fault(told, made):
    """What is wrong with a graph, by what is shown; and by what Graphviz draws of it, where it has few nodes."""
    if made.decode() != drawing.graph("\n".join(told)):
        return f"it isn't that of what is shown: {made[:300]!r}"
    nodes = re.findall(rf'^  "({INSTANCE})" \[', made.decode(), re.M)
    if not GRAPHVIZ or len(nodes) > 60:
        return ""
    ended = subprocess.run([GRAPHVIZ, "-Tsvg"], input=made, capture_output=True, timeout=SECONDS)
    if ended.returncode or ended.stderr:
        return f"Graphviz says {ended.stderr[:300]!r}"
    texts = {"".join(part.data for part in it.childNodes) for it in minidom.parseString(ended.stdout).getElementsByTagName("text")}
    # (Graphviz has no-break spaces where several spaces follow each other, which no words have)
    commands = {name: command for line in told for name, command, *_ in drawing.COMMIT.findall(line)}
    unsaid = [f"{it} {commands[it]}" for it in nodes if f"{it} {commands[it]}" not in texts]
    return f"Graphviz draws {sorted(texts)[:9]} and not {unsaid[0]!r}" if unsaid else ""


def frames():
    """tools/bench/page, which drives a browser."""
    return loaded("page_frames", f"{TOP}/tools/bench/page")


def paths_of(entries):
    """The path of each instance that is committed, by docs/CLI.md, 11.3."""
    sent, paths = {}, {}
    for it in entries:
        for _, _, message in it.sent:
            kind, name = message.split(" ")
            kinds = sent.setdefault((it.replica, name), set())
            kinds.add(kind)
            if kind == "Commit":
                paths.setdefault(name, "recovered" if "Prepare" in kinds else "slow" if "Accept" in kinds else "fast")
    return paths


USED = """(() => {
  const typed = text => { find.value = text; find.dispatchEvent(new Event('input')); return [rows.length, listed.map(it => it.name)]; };
  const found = [typed('SLOW'), typed('Recovered'), typed('never HANDLED')];
  typed('');
  const by = name => { document.querySelector(`#head [data-by=${name}]`).click(); return listed.map(it => it.path); };
  const sorted = [by('path'), by('path')];
  by('name');
  const diagram = picture();
  document.querySelector('[data-mode=graph]').click();
  const edges = graph().nodes.flatMap(one => one.edges.map(to => `${one.name} ${to.name}`));
  return JSON.stringify({found, sorted, edges, pictures: [diagram, picture()]});
})()"""


def used_fault(told, page):
    """What is wrong with a page that is used: words are looked for, a column is sorted by, the graph is opened, pictures are saved."""
    entries = [drawing.Entry(it) for it in parted(told)[1]]
    # (what the browser's helpers still write while it is removed stays)
    with tempfile.TemporaryDirectory(ignore_cleanup_errors=True) as folder:
        with open(f"{folder}/page.html", "wb") as it:
            it.write(page)
        browser = frames().Browser(f"{folder}/own")
        try:
            browser.open(f"{folder}/page.html")
            made = json.loads(browser.value(USED))
        finally:
            browser.process.kill()
            browser.process.wait()
    paths = paths_of(entries)
    for path, (_, names) in zip(("slow", "recovered"), made["found"]):
        wanted = sorted((it for it in paths if paths[it] == path), key=drawing.number)
        if names != wanted:
            return f"of {path} it lists {names[:9]} and not {wanted[:9]}"
    if made["found"][2][0] != sum("NEVER HANDLED" in it for it in told):
        return f"it finds {made['found'][2][0]} events with frames that were never handled"
    ranks = [[("recovered", "slow", "fast", "open").index(it) for it in one] for one in made["sorted"]]
    if ranks[0] != sorted(ranks[0]) or ranks[1] != sorted(ranks[1], reverse=True):
        return f"sorted by path it lists {made['sorted'][0][:9]}, {made['sorted'][1][:9]}"
    wanted = re.findall(rf'^  "({INSTANCE})" -> "({INSTANCE})"', drawing.graph("\n".join(told)), re.M)
    if sorted(made["edges"]) != sorted(" ".join(it) for it in wanted):
        return f"the graph has {len(made['edges'])} arrows, and not these {len(wanted)}"
    for it in made["pictures"]:
        if minidom.parseString(it.encode()).documentElement.tagName != "svg":
            return "a picture is no SVG"
    return ""


def tried(program):
    """Looks at all runs, prints a line for each that is wrong, and returns how many passed and how many failed."""
    passed = failed = 0
    if not BROWSER:
        needs.has("chromium", "pages in a browser")
    if not GRAPHVIZ:
        needs.has("dot", "graphs drawn by Graphviz")
    ways = [("trace events", events_fault, ["trace-events"]), ("a diagram", diagram_fault, ["draw", "--mermaid"]), ("a graph", graph_fault, ["draw", "--dot"])]
    ways += [("a page", page_fault, ["draw"]), ("a page that is used", used_fault, ["draw"])] * bool(BROWSER)
    for name, bundle in bundles(program):
        told = ran(program, ["show"], bundle).decode().splitlines()
        for what, fault, words in ways:
            wrong = fault(told, ran(program, words, bundle))
            passed, failed = passed + (not wrong), failed + bool(wrong)
            if wrong:
                print(f"{name}, {what}: {wrong}", flush=True)
    # README's picture says of which page it is
    is_new = not subprocess.run([f"{TOP}/tools/generate", "--check", "picture"]).returncode
    passed, failed = passed + is_new, failed + (not is_new)
    print(f"pages: {passed} passed, {failed} failed", flush=True)
    return passed, failed


if __name__ == "__main__":
    if len(sys.argv) != 2 or not os.path.isfile(sys.argv[1]):
        sys.exit(__doc__)
    sys.exit(1 if tried(os.path.abspath(sys.argv[1]))[1] else 0)
