#!/usr/bin/env python3
"""Writes the man pages of `ua` and its completion for bash from the table of words that its help has: write_pages [--check].

The table is that of `commands` in crates/ua_words/src/commands.rt. man/ua.1 lists the commands, man/ua-COMMAND.1 has the
words of one, and completion/ua.bash completes commands, options and names of files. With --check nothing is written: the
status is 1 where a file is not what the table gives, and each such file is named.
"""
from __future__ import annotations

import os
import re
import sys
from dataclasses import dataclass

sys.dont_write_bytecode = True
from kit import TOP, text_of

TABLE = "crates/ua_words/src/commands.rt"
FILES = ("FILE", "NODES", "SCRIPT", "UP", "DOWN")
VALUES = {"policy": ["anonymous", "auto"], "connections": ["all"]}
STATUS = [
    ("0", "The command did what it is for."), ("1", "A fault, which one line on standard error tells, or a stream that could not be written."),
    ("2", "The words do not parse, or are not UTF-8; the help has this status too."),
]
HAS_STRICT = "the status is 3 where "
STRICT = "a status code of an answer is bad, or a frame is refused"
TERM = re.compile(r'(\w+): (?:"((?:[^"\\]|\\.)*)"|Kind::(\w+)(?:\(((?:"[^"]*"(?:, )?)*)\))?|(\w+)|&\[\])')
# The texts that a kind has: how the help names the value, and what it is where nothing is said.
TEXTS = {"Text": ("value",), "TextOr": ("value", "usual"), "NumberOr": ("usual",)}

@dataclass(frozen=True)
class Word:
    """A word of a command: an argument by its place where it is in capitals, else an option."""

    name: str
    kind: str
    help: str
    usual: str = ""
    value: str = ""

    @property
    def is_option(self) -> bool:
        return not self.name.isupper()

    @property
    def is_flag(self) -> bool:
        return self.kind.startswith("Flag")

    @property
    def shown(self) -> str:
        """As a synopsis has it.

        >>> [it.shown for it in (Word("NODE", "Several", ""), Word("SCRIPT", "Any", ""), Word("DOWN", "Optional", ""), Word("cut", "NumberOr", ""))]
        ['NODE..', '[SCRIPT..]', '[DOWN]', '--cut N']
        >>> Word("kept", "NumberOrNone", "").shown, Word("live", "FlagWithout", "").shown
        ('--kept [N]', '--live')
        """
        if not self.is_option:
            return {"Any": f"[{self.name}..]", "Optional": f"[{self.name}]", "Several": f"{self.name}.."}.get(self.kind, self.name)
        value = " [N]" if self.kind == "NumberOrNone" else " " + (self.value or "N")
        return f"--{self.name}{value * (not self.is_flag)}"

@dataclass(frozen=True)
class Command:
    name: str
    help: str
    words: tuple[Word, ...]

def entry(text: str) -> dict[str, str]:
    """The fields of a struct of the table, and the kind with the texts in its brackets.

    >>> entry('name: "policy",\\n kind: Kind::TextOr("ID", "7"),\\n help: "which",')
    {'name': 'policy', 'kind': 'TextOr', 'value': 'ID', 'usual': '7', 'help': 'which'}
    """
    found = {}
    for name, text, kind, texts, other in TERM.findall(text):
        found[name] = kind or other or text.replace('\\"', '"').replace("\\\\", "\\")
        found |= dict(zip(TEXTS.get(kind, ()), re.findall(r'"([^"]*)"', texts)))
    return found

def word(text: str) -> Word:
    given = entry(text)
    return Word(given["name"], given["kind"], given["help"], given.get("usual", ""), given.get("value", ""))

def table(text: str) -> tuple[str, list[Command]]:
    """What the program says of itself, and its commands in the order of the help."""
    text = re.sub(r"^\s*///?[^\n]*\n", "", text, flags=re.M)
    consts = {name: word(body) for name, body in re.findall(r"^const (\w+): Word = Word \{(.*?)^\};", text, re.M | re.S)}
    lists, read = {}, len(consts)
    for name, body in re.findall(r"^const (\w+): &\[Word\] = &\[(.*?)\];", text, re.M | re.S):
        items = re.findall(r"Word \{(.*?)\n    \}|\b([A-Z][A-Z_]+)\b(?=[,\n])", body, re.S)
        read += sum(1 for inner, _ in items if inner)
        lists[name] = tuple(word(inner) if inner else consts[it] for inner, it in items)
    if read != len(re.findall(r"(?<!struct )\bWord \{", text)):
        raise SystemExit(f"write_pages: {TABLE} has words that this tool does not read")
    found = {}
    for name, body in re.findall(r"^fn (\w+)\(\) -> Words \{\s*Words \{(.*?)^    \}", text, re.M | re.S):
        given = entry(body)
        found[name] = Command(given["name"], given["help"], lists.get(given.get("words", ""), ()))
    order = re.search(r"^fn commands\(\) -> \[Words; \d+\] \{(.*?)^\}", text, re.M | re.S)
    commands = [found[name] for name in re.findall(r"(\w+)\(\)", order.group(1))]
    if len(commands) != len(found):
        raise SystemExit(f"write_pages: {TABLE} has commands that are not listed")
    return re.search(r'\.about\("([^"]*)"\)', text).group(1), commands

def roff(text: str) -> str:
    """A text as roff has it.

    >>> roff("- stands behind --"), roff(".x")
    ('\\\\- stands behind \\\\-\\\\-', '\\\\&.x')
    """
    text = text.replace("\\", "\\e").replace("-", "\\-")
    return "\\&" + text if text[:1] in (".", "'") else text

def sentence(text: str) -> str:
    return text[:1].upper() + text[1:] + "."

def listed(head: str, rows: list[tuple[str, str]]) -> str:
    if not rows:
        return ""
    return f".SH {head}\n" + "".join(f".TP\n.B {roff(name)}\n{roff(text)}\n" for name, text in rows)

def explained(it: Word) -> str:
    return sentence(it.help) + (f" Where nothing is said it is {it.usual}." if it.usual else "")

def strict_status(what: str) -> tuple[str, str]:
    """The row of the status that `--strict` has.

    >>> strict_status("a frame is refused")
    ('3', 'With --strict: done, but a frame is refused.')
    """
    return "3", f"With --strict: done, but {what}."

def page(command: Command) -> str:
    """The man page of a command."""
    words, options = ([it for it in command.words if it.is_option == which] for which in (False, True))
    shown = [it.shown for it in words] + [f"[{it.shown}]" for it in options]
    title = f"ua\\-{command.name}"
    status = STATUS + [strict_status(it.help.removeprefix(HAS_STRICT)) for it in options if it.name == "strict"]
    return (
        f'.\\" written by tools/write_pages.py\n.TH {title.upper()} 1 "" "Welunavish"\n.SH NAME\n{title} \\- {roff(command.help)}\n'
        + f".SH SYNOPSIS\n.B ua {command.name}\n" + "".join(roff(it) + "\n" for it in shown)
        + listed("ARGUMENTS", [(it.shown, explained(it)) for it in words])
        + listed("OPTIONS", [(it.shown, explained(it)) for it in options])
        + listed("EXIT STATUS", status) + ".SH SEE ALSO\n.BR ua (1)\n"
    )

def first_page(about: str, commands: list[Command]) -> str:
    """The man page of the program."""
    rows = [(f"ua {it.name}", sentence(it.help)) for it in commands]
    also = ",\n".join(f".BR ua\\-{it.name} (1)" for it in commands)
    return (
        f'.\\" written by tools/write_pages.py\n.TH UA 1 "" "Welunavish"\n.SH NAME\nua \\- {roff(about)}\n'
        ".SH SYNOPSIS\n.B ua\nCOMMAND WORD..\n" + listed("COMMANDS", rows) + listed("EXIT STATUS", STATUS + [strict_status(STRICT)])
        + f".SH SEE ALSO\n{also}\n"
    )

def completion(commands: list[Command]) -> str:
    """The completion for bash: commands, options, the values that some options have, and files by their place."""
    valued = sorted({f"--{it.name}" for command in commands for it in command.words if it.is_option and not it.is_flag})
    names = " ".join([*(it.name for it in commands), "help"])
    lines = [f"        {' | '.join(f'--{name}' for name in [option])}) words='{' '.join(values)}' ;;" for option, values in VALUES.items()
             if f"--{option}" in valued]
    lines += [f"        {' | '.join(rest)}) return ;;" for rest in [[it for it in valued if it[2:] not in VALUES]] if rest]
    cases = []
    for command in commands:
        places = [str(at) for at, it in enumerate(it for it in command.words if not it.is_option) if it.name in FILES]
        options = " ".join(["--help", *(f"--{it.name}" for it in command.words if it.is_option)])
        files = f"; files='{' '.join(places)}'" if places else ""
        cases.append(f"        {command.name}) words='{options}'{files} ;;")
    return f"""# Completion of the words of `ua` for bash; written by tools/write_pages.py.
_ua() {{
    local word=${{COMP_WORDS[COMP_CWORD]}} before=${{COMP_WORDS[COMP_CWORD - 1]}} words= files= place=0 at
    COMPREPLY=()
    case $before in
{chr(10).join(lines)}
    esac
    for ((at = 2; at < COMP_CWORD; at++)); do
        case ${{COMP_WORDS[at]}} in
        {' | '.join(valued)}) at=$((at + 1)) ;;
        -*) ;;
        *) place=$((place + 1)) ;;
        esac
    done
    if [ -z "$words" ] && [ "$COMP_CWORD" = 1 ]; then
        words='{names} --help'
    elif [ -z "$words" ]; then
        case ${{COMP_WORDS[1]}} in
{chr(10).join(cases)}
        help) words='{names}' ;;
        esac
    fi
    if [[ " $files " == *" $place "* && $word != -* ]]; then
        compopt -o filenames 2>/dev/null
        mapfile -t COMPREPLY < <(compgen -f -- "$word")
    else
        mapfile -t COMPREPLY < <(compgen -W "$words" -- "$word")
    fi
}}
complete -F _ua ua
"""

def files(text: str) -> dict[str, str]:
    """Each file that the table gives, with its text."""
    about, commands = table(text)
    pages = {f"man/ua-{it.name}.1": page(it) for it in commands}
    return {"man/ua.1": first_page(about, commands), **pages, "completion/ua.bash": completion(commands)}

def held(path: str) -> str | None:
    return text_of(path) if os.path.isfile(path) else None

def main(words: list[str]) -> int:
    wanted = files(held(os.path.join(TOP, TABLE)) or "")
    there = [f"{folder}/{name}" for folder in ("man", "completion") if os.path.isdir(os.path.join(TOP, folder))
             for name in sorted(os.listdir(os.path.join(TOP, folder)))]
    differs = [it for it, text in wanted.items() if held(os.path.join(TOP, it)) != text] + [it for it in there if it not in wanted]
    if "--check" in words:
        for it in differs:
            print(f"write_pages: {it} is not what {TABLE} gives: run tools/write_pages.py")
        return 1 if differs else 0
    for it in differs:
        path = os.path.join(TOP, it)
        os.makedirs(os.path.dirname(path), exist_ok=True)
        if it in wanted:
            with open(path, "w", encoding="utf-8") as file:
                file.write(wanted[it])
        else:
            os.remove(path)
        print(f"write_pages: {it}")
    return 0

if __name__ == "__main__":
    sys.exit(main(sys.argv[1:]))
