#!/usr/bin/env python3
"""Breaks long lines of contracts, definitions and proofs: tools/break_lines.py [CRATE ..], or --check.

A line of a .rt file has at most 120 columns, one of an .antt file 160; one of imports may pass by four. A clause or a term
is broken where few brackets are open, before an operator where that can be; an import of many names becomes several. Code, and attributes, which
`rt fmt` keeps on one line, stay as they are; it lays out what was broken. --check tells each line that is
too long, and could be broken; the status is 1 where there is one.
"""
from __future__ import annotations

import os
import re
import subprocess
import sys
from collections.abc import Callable, Iterator

sys.dont_write_bytecode = True
from kit import TOP, text_of

OPEN, CLOSE = "([{", ")]}"
# How good it is to break before an operator: 0 is best.
OPERATORS = {"→": 0, "∙": 0, "×": 1, "⊎": 1, "++": 2, "≡": 2, "≤": 2, "<": 2, "&&": 2, "+": 3, "∷": 3}
# Words that stay with what follows them, and those that stay with what is before them.
LEADING = ("λ", "let", "pub", "Type", "abbrev", "record", "module", "ensures", "requires", "-", *OPERATORS)
TRAILING = ("=", ":", "}", ".", "where", "{", ";", ",")
CODE = ("//", "#[", "use ", "fn ", "pub fn", "println", "return", "assert", "help: ")
USE = re.compile(r"^(\s*(?:pub )?(?:ghost )?(?:pub )?use [^{]*\.\{)(.*)(\};?)$")

def places(text: str) -> list[tuple[int, bool]]:
    """For each character how many brackets are open before it, and whether it is within a text.

    >>> places('(a "b")')[3:6]
    [(1, False), (1, True), (1, True)]
    """
    depth, inside, escaped, found = 0, False, False, []
    for c in text:
        found.append((depth, inside))
        if inside:
            inside, escaped = escaped or c != '"', c == "\\" and not escaped
        elif c == '"':
            inside = True
        else:
            depth += (c in OPEN) - (c in CLOSE)
    return found

def cost(text: str, at: int, depth: int, limit: int, start_depth: int) -> float | None:
    """What it costs to break at this space, or None where that may not be."""
    word, last = text[at + 1:].split(" ", 1)[0], text[:at].rsplit(" ", 1)[-1]
    if last in LEADING or word in TRAILING or last == "=" and depth > start_depth:
        return None
    worth = OPERATORS.get(word, 4)
    if last.endswith((";", ",")):
        worth = min(worth, 1)
    if last == "=" or last.endswith("."):
        worth = 1
    if last == ":":
        worth = 5
    if word.startswith("("):
        worth = min(worth, 3)
    return depth * 1.25 + worth * 0.35 + (limit - at) / limit * 2.2

def best(text: str, limit: int, start: int) -> int | None:
    """The space at which a line is broken, or None."""
    marks, found = places(text), None
    for at in range(start + 8, min(limit + 1, len(text))):
        depth, inside = marks[at]
        if text[at] == " " and not inside:
            price = cost(text, at, depth, limit, marks[start][0])
            if price is not None and (found is None or price <= found[0]):
                found = (price, at)
    return found and found[1]

def pieces(line: str, limit: int) -> list[str]:
    """A line as lines of at most so many columns.

    >>> pieces("read : (octets : List N) → IsValue octets → Reads octets", 40)
    ['read : (octets : List N)', '    → IsValue octets → Reads octets']
    """
    start, found = len(line) - len(line.lstrip(" ")), []
    more = start + 4
    while len(line) > limit:
        at = best(line, limit, start)
        if at is None:
            break
        found.append(line[:at].rstrip())
        line, start = " " * more + line[at + 1:].lstrip(" "), more
    return found + [line]

def names(text: str) -> list[str]:
    """Names that commas part.

    >>> names("a, _+_, c as d")
    ['a', '_+_', 'c as d']
    """
    return [it.strip() for it in text.split(",") if it.strip()]

def imports(line: str, limit: int) -> list[str]:
    """An import as several, of which none is much shorter than the others.

    >>> imports("use A.{one, two, three}", 16)
    ['use A.{one, two}', 'use A.{three}']
    """
    found = USE.match(line)
    if not found:
        return [line]
    head, body, tail = found.groups()

    def filled(width: int) -> list[str]:
        lines, held = [], ""
        for name in names(body):
            more = f"{held}, {name}" if held else name
            if held and len(head) + len(more) + len(tail) > width:
                lines.append(head + held + tail)
                more = name
            held = more
        return lines + [head + held + tail]

    width, count = limit, len(filled(limit))
    while width > 60 and len(filled(width - 1)) == count:
        width -= 1
    return filled(width)

def comment(line: str, limit: int) -> list[str]:
    """A comment of a definition as several lines.

    >>> comment("-- one two three", 10)
    ['-- one two', '-- three']
    """
    lead, words = line[:line.index("--")], line.strip()[2:].split()
    found, held = [], lead + "--"
    for word in words:
        if len(held) + 1 + len(word) > limit and held.strip() != "--":
            found.append(held)
            held = lead + "--"
        held += " " + word
    return found + [held]

def lines_of(line: str, is_source: bool) -> list[str]:
    """A line, broken where it is too long and may be broken."""
    limit, bare = 120 if is_source else 160, line.strip()
    is_import = re.match(r"(pub )?(ghost )?use ", bare) is not None
    if len(line) <= limit + 4 * is_import:
        return [line]
    if is_import:
        return imports(line, limit)
    if is_source:
        return [line] if bare.startswith(CODE) or '"' in bare else pieces(line, limit)
    if bare.startswith("--"):
        return comment(line, limit)
    return [line] if " -- " in line else pieces(line, limit)

def broken(text: str, is_source: bool) -> str:
    """A file's text with its long lines broken, before `rt fmt` lays it out."""
    return "\n".join(part for line in text.split("\n") for part in lines_of(line, is_source))

def settled(texts: dict[str, str], lay_out: Callable[[dict[str, str]], dict[str, str]]) -> dict[str, str]:
    """Files by their paths, broken and laid out until nothing changes, which some turns bring."""
    for _ in range(4):
        wanted = {path: broken(text, path.endswith(".rt")) for path, text in texts.items()}
        if wanted == texts:
            break
        texts = lay_out(wanted)
    return texts

def files(crate: str) -> Iterator[str]:
    """The files of a crate that have clauses or proofs."""
    for part in ("src", "specs", "proofs"):
        for folder, _, found in os.walk(os.path.join(TOP, "crates", crate, part)):
            yield from (os.path.join(folder, name) for name in sorted(found) if name.endswith((".rt", ".antt")))

def break_crate(crate: str) -> None:
    """Breaks the long lines of a crate."""
    before = {path: text_of(path) for path in files(crate)}

    def lay_out(texts: dict[str, str]) -> dict[str, str]:
        for path, text in texts.items():
            if text != before[path]:
                with open(path, "w", encoding="utf-8") as file:
                    file.write(text)
        subprocess.run(["rt", "fmt"], cwd=os.path.join(TOP, "crates", crate), check=True, stdout=subprocess.DEVNULL, stderr=subprocess.DEVNULL)
        return {path: text_of(path) for path in texts}

    settled(before, lay_out)

def main(words: list[str]) -> int:
    crates = sorted(os.listdir(os.path.join(TOP, "crates")))
    if words != ["--check"]:
        for crate in words or crates:
            break_crate(crate)
        return 0
    long = [(path, number + 1) for crate in crates for path in files(crate)
            for number, line in enumerate(text_of(path).split("\n")) if lines_of(line, path.endswith(".rt")) != [line]]
    for path, number in long:
        print(f"{os.path.relpath(path, TOP)}:{number}: too long")
    print(f"break_lines: {len(long)} lines are too long")
    return 1 if long else 0

if __name__ == "__main__":
    sys.exit(main(sys.argv[1:]))
