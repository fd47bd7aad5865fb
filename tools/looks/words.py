"""Whether pages keep to the word list.

.ci/words.txt has a line `WORDS: BETTER` for words that no page has; in examples of a shell, and in `...`, they may stand.
"""

import re

LIST = ".ci/words.txt"


def listed():
    """The words that no page has, and what is better."""
    with open(LIST, encoding="utf-8") as file:
        return [it.strip().partition(": ")[::2] for it in file if it.strip() and not it.startswith("#")]


def prose(page):
    """The text of a page without what is code."""
    with open(page, encoding="utf-8") as file:
        text = file.read()
    text = re.sub(r"(?ms)^```.*?^```", lambda it: "\n" * it[0].count("\n"), text)
    return re.sub(r"(?m)^(?:    |\t).*$|`[^`\n]*`", "", text)


def faults(files):
    """Words of the list that a page has."""
    known = [(re.compile(rf"(?i)(?<![\w-]){re.escape(words)}(?![\w-])"), words, better) for words, better in listed()]
    for page in sorted(it for it in files if it.endswith(".md")):
        for at, line in enumerate(prose(page).splitlines(), 1):
            for found, words, better in known:
                if found.search(line):
                    yield f"{page}:{at} has {words!r}; better: {better}"
