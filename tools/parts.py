"""The text of an LLVM module in parts, which clang compiles side by side. What nothing reaches is left out: of the
modules that the kit makes, a quarter."""

import re

NAME = r'@(?:"[^"]*"|[\w.$-]+)'
FUNCTION = re.compile(rf"^define [^\n]*?({NAME})\(", re.MULTILINE)
VARIABLE = re.compile(rf"^({NAME}) = [^\n]*$", re.MULTILINE)
USED = re.compile(NAME)
COMMON = re.compile(r"^(?:%.* = type|declare) .*$", re.MULTILINE)
LAST = re.compile(r"^(?:attributes #|!).*$", re.MULTILINE)
# what the module alone sees, a function or a variable
OWN = re.compile(r"^(define|@[^\n]*? =) (?:internal|private) ")
# a variable's type, its first value, and what stands behind
VALUE = re.compile(r"( global (?:\[[^]]*\]|\S+)) .*?(, align \d+)?$")


def reached(text, roots, places):
    """What each thing that the roots reach names, by its name."""
    uses, todo = {}, list(roots)
    while todo:
        name = todo.pop()
        if name not in uses:
            uses[name] = {it for it in USED.findall(text, *places[name]) if it in places}
            todo += uses[name]
    return uses


def shared(body):
    """A function or a variable that all parts see, and nothing beside the program does."""
    return OWN.sub(r"\1 hidden ", body)


def declared(body):
    """The same, where another part has it."""
    if body.startswith("define "):
        return re.sub("^define", "declare", shared(body[: body.index("{\n")]))
    return VALUE.sub(r"\1\2", shared(body).replace(" = hidden ", " = external hidden ", 1))


def split(text, count):
    """The module in so many parts; what is seen from outside is in the first."""
    functions = {it[1]: (it.start(), text.index("\n}\n", it.start()) + 3) for it in FUNCTION.finditer(text)}
    variables = {it[1]: it.span() for it in VARIABLE.finditer(text)}
    places = {**functions, **variables}
    roots = {it for it, (begin, _) in functions.items() if not text.startswith("define internal ", begin)}
    uses = reached(text, roots, places)
    live = [it for it in functions if it in uses]
    size, passed, part = sum(functions[it][1] - functions[it][0] for it in live), 0, {}
    for it in live:
        part[it] = 0 if it in roots else passed * count // size
        passed += functions[it][1] - functions[it][0]
    first, last = [text[: text.index("\n\n") + 1], *COMMON.findall(text)], [*LAST.findall(text), ""]
    for at in range(count):
        own = [uses[it] | {it} for it in live if part[it] == at]
        named = set().union(*own, *(uses[it] for it in variables if it in uses))
        lines = [*first]
        for it in (it for it in places if it in named or it in variables and it in uses):
            body = text[slice(*places[it])]
            is_constant = it in variables and " constant " in body
            lines.append(body if is_constant else shared(body) if part.get(it, 0) == at else declared(body))
        yield "\n".join([*lines, *last])
