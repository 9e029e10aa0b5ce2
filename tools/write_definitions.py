#!/usr/bin/env python3
"""Writes the copied parts of docs/THEOREMS.md, or a page of definitions: write_definitions [--check | --definitions FILE].

With --definitions the page goes into FILE, which a version has as DEFINITIONS.md. It has each definition of specs/ that the contract of a public call of a library names: a row has its
name, its file and line, and the comment above it, or where it has none the comment above its block, or the one before.
The crates stand from the lowest up; within one, a definition stands before what it is made of, as tools/trust.py has it.

docs/THEOREMS.md is written by hand but for what stands between a mark and the next `<!-- end -->`:

    <!-- contract ua_wire::Wire::read -->               the call with all its clauses, as its source has them
    <!-- rests ua_wire::Wire::read ua_wire::Wire::write -->   the definitions that their clauses name, and how many those rest on

With --check nothing is written: the status is 1 where docs/THEOREMS.md is not what the sources give.
"""
from __future__ import annotations

import os
import re
import sys
import textwrap
from collections import Counter

sys.dont_write_bytecode = True
from trust import TOP, Unit, block_of, calls, code_of, docs, heads, in_order, place_of, rests_on, sources, text_of, unit

THEOREMS = "docs/THEOREMS.md"
MARK = re.compile(r"^<!-- (?P<kind>contract|rests) (?P<calls>[\w: ]+) -->\n(?P<body>.*?)^<!-- end -->\n", re.M | re.S)
SAME = re.compile(r"the same(?=[,;:]| of\b| where\b| by\b| in\b|$)")
HEAD = """# Definitions

Each definition that the contract of a public call of a library names, with its file and line, in the words of the comment above it; docs/ARCHITECTURE.md explains the words of names. The crates stand from the lowest up. Within a crate a definition stands before what it is made of. `tools/trust.py CALL` prints all definitions on which the contract of one call rests, also those that no contract names. docs/ENCODINGS.md has the types, structures, messages and status codes as tables. Places are of the repository, from docs/. `tools/write_definitions.py --definitions FILE` writes this page.
"""

def public_calls(crate: str, listing: list[str]) -> list[Unit]:
    """The calls of a library that its users see and that have clauses."""
    exported, found = docs.exported_of(crate, listing), []
    for path in sources(crate):
        source = docs.Source(os.path.relpath(path, TOP), exported)
        for m in docs.FUNCTION.finditer(code_of(path)):
            block = block_of(path, m.start())[0]
            if source.is_public(m, block, exported) and docs.clauses_of(code_of(path), m.end())[0]:
                found.append(unit(crate, m.group("name"), path, m.start()))
    return found

def is_word(it: Unit) -> bool:
    """Whether this is a definition of specs/ of this repository."""
    return not it.of_kit and it.path.endswith(".antt") and f"{os.sep}specs{os.sep}" in it.path

def link(it: Unit) -> str:
    """A link from a page of docs/ to the line of a definition.

    >>> link(Unit("ua_x", "Y", os.path.join(TOP, "crates/ua_x/specs/Y.antt"), 3))
    '[`Y.antt:3`](../crates/ua_x/specs/Y.antt#L3)'
    """
    path = os.path.relpath(it.path, TOP).replace(os.sep, "/")
    return f"[`{os.path.basename(path)}:{it.line}`](../{path}#L{it.line})"

def cell(text: str) -> str:
    """A comment as the cell of a table.

    >>> cell("a | b, as <x>")
    'a \\\\| b, as \\\\<x>'
    """
    return text.replace("|", "\\|").replace("<", "\\<")

def said_above(text: str) -> str:
    """What the last comment of a part of a file says: of the block in which what follows stands, or of what stands before it.

    >>> said_above("-- a Variant\\nabbrev mutual\\n  ")
    'a Variant'
    >>> said_above("-- a text\\nabbrev text : Bool\\n\\nabbrev ")
    '(under the comment: a text)'
    """
    last = list(re.finditer(r"^-- .*\n(?:-- .*\n)*", text, re.M))
    if not last:
        return ""
    said = " ".join(line.removeprefix("-- ").removeprefix("---- ") for line in last[-1].group().splitlines())
    return said if re.match(r"(?:\w+ )?mutual\n", text[last[-1].end():]) else f"(under the comment: {said})"

def said_of(it: Unit) -> str:
    """The comment above a definition; where it says 'the same', also that of the definition above it in its file."""
    if not it.comment:
        return said_above(text_of(it.path)[:place_of(it)])
    above = [(at, name) for here, (name, at, _) in heads(it.path).items() if here == name and at < place_of(it)]
    if not SAME.match(it.comment) or not above:
        return it.comment
    at, name = max(above)
    return f"{it.comment} (as `{name}`, which stands above it: {said_of(unit(it.crate, name, it.path, at))})"

def row(it: Unit) -> str:
    return f"| `{it.name}` | {link(it)} | {cell(said_of(it))} |\n"

def named_by_contracts() -> list[Unit]:
    """The definitions that contracts of public calls name, each before what it is made of."""
    listing = docs.files()
    roots = [it for crate in docs.libraries() for it in public_calls(crate, listing)]
    named = {below for it in roots for below in rests_on(it) if is_word(below)}
    return [it for it in in_order(roots) if it in named]

def definitions_page() -> str:
    words, text = named_by_contracts(), HEAD
    for crate in docs.libraries():
        rows = [row(it) for it in words if it.crate == crate]
        if rows:
            text += f"\n## `{crate}`\n\n| word | where | what it says |\n|---|---|---|\n" + "".join(rows)
    return text

def contract_of(name: str) -> str:
    """A call with its clauses, as its source has them."""
    it = calls(name)[0]
    m = docs.FUNCTION.search(code_of(it.path), place_of(it))
    end = docs.clauses_of(code_of(it.path), m.end())[1]
    lines = text_of(it.path)[place_of(it):end].rstrip()
    text = textwrap.dedent("\n".join(line.rstrip() for line in lines.split("\n")))
    return f"`{name}`, {link(it)}:\n\n```rust\n{text}\n```\n"

def rests_of(names: list[str]) -> str:
    """The definitions that the clauses of calls name, in reading order, and how many they rest on."""
    roots = [it for name in names for it in calls(name)]
    order = [it for it in in_order(roots) if it not in roots]
    direct = {below for it in roots for below in rests_on(it) if is_word(below)}
    own = [it for it in order if not it.of_kit]
    each = Counter(it.crate for it in own)
    spread = ", ".join(f"{each[crate]} of `{crate}`" for crate in docs.libraries() if each[crate])
    listed = ",\n".join(f"`{it.name}` ({link(it)})" for it in order if it in direct)
    return (f"Their clauses name, in reading order:\n{listed}.\n\nThey rest on {len(own)} definitions, types and traits in all: {spread}. "
            f"This prints them:\n\n```\ntools/trust.py {' '.join(names)}\n```\n")

def filled(text: str) -> str:
    """A page with its marked parts as the sources give them."""
    def part(m: re.Match[str]) -> str:
        names = m.group("calls").split()
        for name in names:
            if not calls(name):
                raise SystemExit(f"write_definitions: {THEOREMS}: no call {name}")
        body = contract_of(names[0]) if m.group("kind") == "contract" else rests_of(names)
        return f"<!-- {m.group('kind')} {m.group('calls')} -->\n{body}<!-- end -->\n"
    return MARK.sub(part, text)

def main(words: list[str]) -> int:
    if "--definitions" in words:
        with open(words[words.index("--definitions") + 1], "w", encoding="utf-8") as file:
            file.write(definitions_page())
        return 0
    text = filled(docs.read(THEOREMS))
    if "--check" not in words:
        with open(os.path.join(TOP, THEOREMS), "w", encoding="utf-8") as file:
            file.write(text)
    elif docs.read(THEOREMS) != text:
        print(f"{THEOREMS} is not what the sources give: run tools/write_definitions.py")
        return 1
    return 0

if __name__ == "__main__":
    sys.exit(main(sys.argv[1:]))
