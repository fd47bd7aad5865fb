"""The man page and the completions of a release, made of the help that the programs print."""

import re

# options whose value is one of a few, which the help has in words
VALUES = {
    ("replay", "emit"): ("report", "json", "bundle"),
    ("run", "emit"): ("report", "json", "bundle"),
    ("audit", "emit"): ("report", "json"),
    ("run", "host"): ("lock", "ring"),
    ("upgrade", "to"): ("2", "3"),
    ("node", "replicas"): ("3", "5", "7"),
    ("node", "sync"): ("each", "asked"),
}

# options that stand before a command, or alone
FIRST = (
    ("--quiet", "no line that nothing is proved, nor how far long work is"),
    ("--help", "all commands"),
    ("--version", "the version"),
)


class Told:
    """What the help of a command reports: what it does, and each option with what its value is called, the values that it
    takes, and what it means."""

    def __init__(self, name, text):
        self.name, self.text = name, text
        self.does = text.partition("\n")[0]
        self.options = []
        row = r"^  (?:    |-\w, )--([\w-]+)(?: <([^>]+)>)?(?:\.\.\.)?  +(.*)$"
        for option, value, means in re.findall(row, text, re.M):
            self.options.append((option, value, VALUES.get((name, option), ()), means))
        self.takes_files = bool(re.search(r"^Usage: .*[<[](FILE|LOG|FOLDER)", text, re.M))


def escaped(text):
    """A text for troff."""
    lines = text.replace("\\", "\\e").replace("-", "\\-").split("\n")
    return "\n".join("\\&" + it if it[:1] in (".", "'") else it for it in lines)


def man(version, date, overview, commands):
    """The page of section 1."""
    first, _, rest = overview.partition("\n")
    parts = [f'.TH EPAXOS 1 "{date}" "epaxos {version}"\n.SH NAME\nepaxos \\- {escaped(first[0].lower() + first[1:])}']
    parts.append(".SH SYNOPSIS\n.B epaxos\n[\\-\\-quiet] COMMAND ..")
    parts.append(f".SH DESCRIPTION\n.nf\n{escaped(rest.strip())}\n.fi")
    parts.append(".SH COMMANDS")
    for it in commands:
        parts.append(f".SS epaxos {escaped(it.name)}\n.nf\n{escaped(it.text.strip())}\n.fi")
    quiet = "Where it is 1, no line says that what answers isn't proved, nor how far long work is."
    parts.append(f".SH ENVIRONMENT\n.TP\n.B EPAXOS_QUIET\n{quiet}")
    parts.append(".SH SEE ALSO\n.BR epaxos\\-store (1)")
    return "\n".join(parts) + "\n"


def man_of_store(version, date, help_text):
    """The page of the store."""
    # (the program is called so in a release)
    told = re.sub(r"\bstore (?=--|recover)", "epaxos-store ", help_text.strip())
    first, synopsis, rest = told.split("\n\n", 2)
    name = f"epaxos\\-store \\- {escaped(first.partition(': ')[2])}"
    parts = [f'.TH EPAXOS\\-STORE 1 "{date}" "epaxos {version}"\n.SH NAME\n{name}']
    parts.append(f".SH SYNOPSIS\n.nf\n{escaped(synopsis)}\n.fi")
    parts.append(f".SH DESCRIPTION\n.nf\n{escaped(rest)}\n.fi")
    parts.append(".SH SEE ALSO\n.BR epaxos (1)")
    return "\n".join(parts) + "\n"


def bash(commands):
    """What completes words in bash."""
    rows, values = [], []
    for it in commands:
        rows.append(f"        {it.name}) options='{' '.join('--' + option for option, *_ in it.options)}' ;;")
        for option, _, known, _ in it.options:
            if known:
                answer = f"COMPREPLY=($(compgen -W '{' '.join(known)}' -- \"$word\")); return ;;"
                values.append(f"        '{it.name} --{option}') {answer}")
    every = " ".join([*(it.name for it in commands), "help"])
    return f"""# completes the words of epaxos, in bash
_epaxos() {{
    local word=${{COMP_WORDS[COMP_CWORD]}} before=${{COMP_WORDS[COMP_CWORD-1]}} at=1 command options=
    [[ ${{COMP_WORDS[1]}} != --quiet || $COMP_CWORD == 1 ]] || at=2
    command=${{COMP_WORDS[at]}}
    if [[ $COMP_CWORD == "$at" ]]; then
        COMPREPLY=($(compgen -W '{every} {' '.join(it for it, _ in FIRST)}' -- "$word"))
        return
    fi
    case "$command $before" in
{chr(10).join(values)}
    esac
    case $command in
{chr(10).join(rows)}
        help) COMPREPLY=($(compgen -W '{every}' -- "$word")); return ;;
    esac
    if [[ $word == -* ]]; then
        COMPREPLY=($(compgen -W "$options" -- "$word"))
    else
        COMPREPLY=($(compgen -f -- "$word"))
    fi
}}
complete -o filenames -F _epaxos epaxos
"""


def zsh(commands):
    """What completes words in zsh."""
    plain = lambda text: re.sub(r"([\[\]:\\'])", lambda it: "" if it[1] == "'" else "\\" + it[1], text)
    listed = "\n".join(f"        '{it.name}:{plain(it.does)}'" for it in commands)
    rows = []
    for it in commands:
        said = []
        for option, value, known, means in it.options:
            files = "_files" * (value in ("FILE", "FOLDER"))
            action = f":{value}:({' '.join(known)})" if known else f":{value}:{files}" if value else ""
            said.append(f"'--{option}[{plain(means)}]{action}'")
        said += ["'*:file:_files'"] * it.takes_files
        rows.append(f"        {it.name}) _arguments {' '.join(said)} ;;")
    first = " ".join(f"'{option}[{means}]'" for option, means in FIRST)
    return f"""#compdef epaxos
# completes the words of epaxos, in zsh
_epaxos() {{
    local -a commands
    commands=(
{listed}
        'help:all of a command'
    )
    if [[ $words[2] == --quiet ]] && (( CURRENT > 2 )); then
        shift words
        (( CURRENT-- ))
    fi
    if (( CURRENT == 2 )); then
        _describe command commands
        _values 'option' {first}
        return
    fi
    local command=$words[2]
    shift words
    (( CURRENT-- ))
    case $command in
{chr(10).join(rows)}
        help) _describe command commands ;;
    esac
}}
_epaxos "$@"
"""


def fish(commands):
    """What completes words in fish."""
    plain = lambda text: text.replace("\\", "\\\\").replace("'", "\\'")
    lines = ["# completes the words of epaxos, in fish", "complete -c epaxos -f"]
    for it in commands:
        lines.append(f"complete -c epaxos -n __fish_use_subcommand -a {it.name} -d '{plain(it.does)}'")
        own = f"complete -c epaxos -n '__fish_seen_subcommand_from {it.name}'"
        for option, value, known, means in it.options:
            other = " -r -F" if value in ("FILE", "FOLDER") else " -x" if value else ""
            takes = f" -x -a '{' '.join(known)}'" if known else other
            lines.append(f"{own} -l {option}{takes} -d '{plain(means)}'")
        lines += [f"{own} -F"] * it.takes_files
    lines += [f"complete -c epaxos -n __fish_use_subcommand -l {it[2:]} -d '{means}'" for it, means in FIRST]
    lines.append("complete -c epaxos -n __fish_use_subcommand -a help -d 'all of a command'")
    every = " ".join(it.name for it in commands)
    lines.append(f"complete -c epaxos -n '__fish_seen_subcommand_from help' -a '{every}'")
    return "\n".join(lines) + "\n"
