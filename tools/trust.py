#!/usr/bin/env python3
"""The definitions on which the contract of a call rests: trust CALL [CALL ..].

CALL is a function by its crate and its type: ua_server::serve, ua_client::Client::call; modules may stand between them.
Its clauses come first. The definitions stand behind them in reading order, each before what it is made of, with file,
line and what the comment above it says first; then the words of the kit that they cite, and a count for each crate. The
kit's words are not followed: the kit is trusted whole.

  --count          the counts alone
  --aside CRATES   definitions of these crates, as ua_wire,ua_builtin, are counted apart
  --given WORDS    leaves out what these words are made of, as Goes,ClientGoes: a relation between a machine and what it
                   received, which the contracts of the machine's calls establish, can be taken as they give it

What a definition rests on is read from the text of .rt and .antt files, rather too much than too little:

- a word of specs/ rests on each word that its text names and its file defines or imports, constructors counted as
  their `data`; a word behind a dot is a field, whose record stands in a signature, and counts only behind a module's name;
- a struct or enum rests on the types and clauses of its fields, and with a Model on its Value and view alone;
- a trait rests on its ghost members and on the clauses of the functions that who implements it has to write;
- a call rests on its clauses and on the types and traits of its signature, and within an impl of a trait on the ghost
  members there and on the trait.

A parameter with the name of a word counts as that word. Types of std that a signature alone names are left out.
"""
from __future__ import annotations

import os
import re
import signal
import sys
from collections import Counter
from dataclasses import dataclass, field
from functools import lru_cache
from shutil import which
from typing import Iterator

sys.dont_write_bytecode = True
import check_docs as docs
from check_docs import TOP

sys.dont_write_bytecode = True
USE = re.compile(r"^[ \t]*(?P<pub>pub )?(?:ghost )?use (?P<path>[\w.«»]+?)(?:\.\{(?P<words>[^}]*)\})?(?: as (?P<alias>\w+))?[ \t]*;?[ \t]*$", re.M)
HEAD = re.compile(r"^[ \t]*(?:pub )?(?P<kind>abbrev|unfoldable|data|record)[ \t]+(?:pub[ \t]+)?(?P<name>(?!mutual\b)[^\s:({]+)", re.M)
BLOCK = re.compile(r"^(?P<head>(?:abbrev |unfoldable )?mutual|module _ [^\n]*)$(?P<body>(?:\n(?:[ \t][^\n]*)?)*)", re.M)
TOGETHER = re.compile(r"^  (?:pub )?(?P<name>[^\s:({]+) : ", re.M)
TOKEN = re.compile(r"\[\]|[^\s(){}\[\],;.λ\"]+")
RUST_USE = re.compile(r"^\s*(?:pub(?:\([^)]*\))? )?use ([\w:]+?)(?:::\{([^}]*)\})?(?: as (\w+))?;", re.M)
RUST_ITEM = re.compile(r"^(?:pub(?:\([^)]*\))?\s+)?(?P<kind>struct|enum|trait|const|type)\s+(?P<name>\w+)", re.M)
MEMBER = re.compile(r"\bghost\s+(?P<name>\w+)\s*(?::|=)\s*\{")

@dataclass(frozen=True)
class Unit:
    """A definition: its crate, its name, the file and line where it stands, and whether it is the kit's."""

    crate: str
    name: str
    path: str
    line: int
    of_kit: bool = False
    comment: str = field(default="", compare=False)

def tokens(text: str) -> Iterator[tuple[str, str]]:
    """The names in a text, each with the name behind its dot; fields, behind another name's dot, are left out.

    >>> list(tokens("Run (rules limits).tells fault.Closed ≡ [] → λ v. format.depth v"))[:5]
    [('Run', ''), ('rules', ''), ('limits', ''), ('fault', 'Closed'), ('≡', '')]
    """
    for m in TOKEN.finditer(text):
        before = text[max(m.start() - 2, 0):m.start()]
        if len(before) == 2 and before[1] == "." and re.match(r"[\w')}\]»]", before[0]):
            continue
        behind = re.match(r"\.([^\s(){}\[\],;.]+)", text[m.end():m.end() + 80])
        yield m.group(), behind.group(1) if behind else ""

def parts_of(name: str) -> list[str]:
    """What stands in a text where a word of this name is used.
    >>> parts_of("◌≡◌"), parts_of("if◌then◌else◌"), parts_of("length"), parts_of("[]")
    (['≡'], ['if', 'then', 'else'], ['length'], ['[]'])
    """
    return [it for it in name.split("◌") if it]

def imports_in(text: str) -> list[tuple[int, str, str, str]]:
    """What `use` lines bring: where, the name here, the module, and its name there, or none for a module.

    >>> [it[1:] for it in imports_in("ghost use Rattle.a.specs.B.{c as d, e};\\nuse Rattle.a.specs.F as g")]
    [('d', 'Rattle.a.specs.B', 'c'), ('e', 'Rattle.a.specs.B', 'e'), ('g', 'Rattle.a.specs.F', '')]
    """
    found = []
    for m in USE.finditer(text):
        if m.group("words") is None:
            found.append((m.start(), m.group("alias") or m.group("path").split(".")[-1], m.group("path"), ""))
        for word in re.split(r",\s*", (m.group("words") or "").strip()):
            origin, _, alias = word.partition(" as ")
            if origin:
                found.append((m.start(), (alias or origin).strip(), m.group("path"), origin.strip()))
    return found

@lru_cache(None)
def kit() -> str:
    """The folder of the kit's sources."""
    found = which("rt")
    near = os.path.join(os.path.dirname(os.path.dirname(os.path.realpath(found))), "rattle") if found else ""
    return next((it for it in (near, "/opt/rattle/rattle") if os.path.isdir(it)), "")

@lru_cache(None)
def text_of(path: str) -> str:
    return docs.read(path) if os.path.isfile(path) else ""

@lru_cache(None)
def code_of(path: str) -> str:
    """A file without its comments, each character in its place."""
    text = text_of(path)
    return docs.bare(text) if path.endswith(".rt") else re.sub(r"--[^\n]*", lambda m: " " * len(m.group()), text)

def comment_above(path: str, at: int) -> str:
    """The comment above a place, on one line."""
    lines = text_of(path)[:at].split("\n")[:-1]
    while lines and lines[-1].lstrip().startswith("#["):
        lines.pop()
    found: list[str] = []
    while lines and re.match(r"\s*(--|//)", lines[-1]) and not lines[-1].startswith("-- ----"):
        found.insert(0, re.sub(r"^\s*(?:--|///?) ?", "", lines.pop()))
    return " ".join(it.strip() for it in found).strip()

def unit(crate: str, name: str, path: str, at: int) -> Unit:
    of_kit = not path.startswith(TOP + os.sep)
    return Unit(crate, name, path, text_of(path).count("\n", 0, at) + 1, of_kit, "" if of_kit else comment_above(path, at))

def folder_of(crate: str) -> str:
    own = os.path.join(TOP, "crates", crate)
    return own if os.path.isdir(own) else os.path.join(kit(), crate)

@lru_cache(None)
def sources(crate: str) -> list[str]:
    """The source files of a crate."""
    src = os.path.join(folder_of(crate), "src")
    return [os.path.join(at, it) for at, _, names in sorted(os.walk(src)) for it in sorted(names) if it.endswith(".rt")]

def rust_file(crate: str, modules: list[str]) -> str:
    """The file of a module, or the nearest file above it."""
    src = os.path.join(folder_of(crate), "src")
    for n in range(len(modules), 0, -1):
        for path in (os.path.join(src, *modules[:n]) + ".rt", os.path.join(src, *modules[:n], "mod.rt")):
            if os.path.isfile(path):
                return path
    return os.path.join(src, "lib.rt")

@lru_cache(None)
def heads(path: str) -> dict[str, tuple[str, int, str]]:
    """The words of a file of specs/, and the constructors of its `data`: the definition's name, its place and its text."""
    text, found = code_of(path), {}
    places = {m.start("kind"): (m.group("kind"), m.group("name")) for m in HEAD.finditer(text)}
    blocks = list(BLOCK.finditer(text))
    for block in blocks:
        if block.group("head").endswith(" mutual"):
            places.update({m.start("name"): ("abbrev", m.group("name")) for m in TOGETHER.finditer(text, *block.span("body"))})
    ends = sorted([*places, *(it.start() for it in blocks), len(text)])
    for at, (kind, name) in sorted(places.items()):
        whole = text[at:next(it for it in ends if it > at)]
        given = [it.group("head") for it in blocks if it.start() < at < it.end() and it.group("head").startswith("module")]
        found[name] = (name, at, "\n".join([*given, whole]))
        if kind == "data":
            for m in re.finditer(r"^\s+(?:pub\s+)?([^\s:(){}]+)\s*:", whole, re.M):
                found.setdefault(m.group(1), found[name])
    return found

@lru_cache(None)
def rust_items(path: str) -> dict[str, tuple[str, int, int]]:
    """The types, traits and constants of a source file: kind, begin and end."""
    text, found = code_of(path), {}
    for m in RUST_ITEM.finditer(text):
        stop = re.compile(r"[;{]").search(text, m.end())
        end = stop.end() if stop and stop.group() == ";" else docs.close(text, stop.start()) if stop else len(text)
        found[m.group("name")] = (m.group("kind"), m.start(), end)
    return found

@lru_cache(None)
def rust_item(crate: str, modules: tuple[str, ...], name: str) -> tuple[Unit, ...]:
    """A type, trait or constant of a crate by its path; all of that name where the path alone does not tell."""
    path = rust_file(crate, list(modules))
    if name in rust_items(path):
        return (unit(crate, name, path, rust_items(path)[name][1]),)
    for at, words, alias in RUST_USE.findall(code_of(path)):
        for word in re.split(r",\s*", words.strip()) if words else [at.split("::")[-1]]:
            if (word.split(" as ")[-1] if words else alias or word).strip() == name:
                within = (at if words else at.rpartition("::")[0]).split("::")
                if within[0] in ("std", "core"):
                    return ()
                own = within[0] in ("crate", "self") or os.path.isfile(rust_file(crate, within)) and rust_file(crate, within) != rust_file(crate, [])
                rest = within[1:] if within[0] in ("crate", "self") else within
                return rust_item(crate, tuple(rest), word.split(" as ")[0].strip()) if own else rust_item(within[0], tuple(within[1:]), word.split(" as ")[0].strip())
    return tuple(unit(crate, name, it, rust_items(it)[name][1]) for it in sources(crate) if name in rust_items(it)) if modules else ()

@lru_cache(None)
def word(module: str, name: str) -> tuple[Unit, ...]:
    """The definitions that a name of a module stands for; a module's name alone stands for what its type is."""
    library, part, below = re.match(r"(Rattle\.\w+|\w+)\.?(specs|proofs)?\.?(.*)", module).groups()
    crate, way = re.sub(r"^Rattle\.", "", library), below.split(".")
    if way[0] in ("declared", "contracts"):
        types = [it for it in way[1:] if it[0].isupper() and not it.startswith("The")]
        return declared(crate, tuple(it for it in way[1:] if it[0].islower()), types[0] if types else name)
    folder = os.path.join(folder_of(crate), part) if part else mounted(crate)
    path = os.path.join(folder, *way) + ".antt"
    if not folder:
        return (Unit(crate, name, "", 0, True),)
    if not os.path.isfile(path):
        return elsewhere(crate, os.path.dirname(path), way, name)
    if name in heads(path):
        return (unit(crate, heads(path)[name][0], path, heads(path)[name][1]),)
    for at, here, there, origin in imports_in(code_of(path)):
        if here == name and re.match(r"\s*pub use", code_of(path)[at:]):
            return word(there, origin) or (unit(crate, name, path, at),)
    lemma = re.search(rf"^(?:pub )?{re.escape(name)}(?= |$)", text_of(path), re.M)
    return (unit(crate, name, path, lemma.start()),) if lemma else ()

@lru_cache(None)
def mounted(library: str) -> str:
    """The folder of a library of the kit's logic; none for what is built into antt."""
    logic = os.path.join(kit(), "logic")
    found = re.search(rf'"{library}": "([^"]+)"', text_of(os.path.join(logic, "antt-project.json")))
    near = os.path.normpath(os.path.join(logic, found.group(1))) if found else ""
    return os.path.join(near, "src") if near and os.path.isdir(os.path.join(near, "src")) else near

def elsewhere(crate: str, folder: str, way: list[str], name: str) -> tuple[Unit, ...]:
    """A word of a module that has no file: a definition, whose constructors it holds, or a module that the library re-exports."""
    above = folder + ".antt"
    if way[-1] in heads(above):
        return (unit(crate, way[-1], above, heads(above)[way[-1]][1]),)
    lib = os.path.join(folder_of(crate), "specs", "Lib.antt")
    given = [module for _, here, module, origin in imports_in(code_of(lib)) if here == way[0] and not origin]
    return word(".".join([given[0], *way[1:]]), name) if given else ()

def declared(crate: str, modules: tuple[str, ...], name: str) -> tuple[Unit, ...]:
    """A type by its module; or the impl for a type and a trait that this name, of both, stands for."""
    found = rust_item(crate, modules, name)
    path = rust_file(crate, list(modules))
    for m in docs.ITEM.finditer(code_of(path)) if not found else ():
        head = re.match(r"impl(?:<[^{]*?>)?\s+(\w+)(?:<.*?>)?\s+for\s+(\w+)", code_of(path)[m.start():m.end()])
        if head and head.group(2) + head.group(1) == name:
            found += (unit(crate, f"{head.group(1)} for {head.group(2)}", path, m.start()),)
    derived = [it for it in rust_items(path) if name.startswith(it)]
    return found or rust_item(crate, modules, max(derived, key=len)) if found or derived else ()

class Scope:
    """What names mean at a place of a file."""

    def __init__(self, crate: str, path: str, at: int) -> None:
        self.crate, self.path = crate, path
        self.names: dict[str, list[tuple[str, str]]] = {}
        for (begin, end), here, module, origin in imports_of(path):
            if begin <= at < end:
                for part in parts_of(here):
                    self.names.setdefault(part, []).append((module, origin))

    def units(self, text: str, types: bool = False) -> list[Unit]:
        """The definitions that a text names, in the order in which it names them."""
        found: dict[Unit, None] = {}
        for name, behind in [*tokens(text), *((it, "") for it in re.findall(r"\b[A-Z]\w*", text) if types)]:
            for module, origin in self.names.get(name, []):
                unknown = (Unit("", origin, "", 0, True),) if origin else ()
                found.update(dict.fromkeys(word(module, origin or behind) or unknown))
            if self.path.endswith(".antt"):
                found.update(dict.fromkeys(self.beside(name)))
            elif name[0].isupper() and (types or name not in self.names):
                found.update(dict.fromkeys(rust_item(self.crate, modules_of(self.path), name)))
        return list(found)

    def beside(self, name: str) -> list[Unit]:
        given = [(head, at) for it, (head, at, _) in heads(self.path).items() if name == it or "◌" in it and name in parts_of(it)]
        return [unit(self.crate, head, self.path, at) for head, at in given]

@lru_cache(None)
def imports_of(path: str) -> list[tuple[tuple[int, int], str, str, str]]:
    """What the `use` lines of a file bring, each with the block of the file in which it holds."""
    text = code_of(path)
    whole = (0, len(text) + 1)
    return [(whole if path.endswith(".antt") else docs.block_around(text, start), *rest) for start, *rest in imports_in(text)]

def modules_of(path: str) -> tuple[str, ...]:
    below = path.split(os.sep + "src" + os.sep)[-1][:-3].split(os.sep)
    return tuple(it for it in below if it not in ("lib", "main", "mod"))

def place_of(it: Unit) -> int:
    """Where the line of a definition begins."""
    return sum(len(line) + 1 for line in text_of(it.path).split("\n")[:it.line - 1])

@lru_cache(None)
def rests_on(it: Unit) -> tuple[Unit, ...]:
    """What a definition is made of, in the order in which its text names it."""
    if it.of_kit:
        return ()
    at = place_of(it)
    scope, text = Scope(it.crate, it.path, at), code_of(it.path)
    if it.path.endswith(".antt"):
        return tuple(scope.units(heads(it.path).get(it.name, ("", 0, ""))[2]))
    if " for " in it.name:
        return tuple(Scope(it.crate, it.path, at + 1).units(members(it.path, at)))
    if it.name not in rust_items(it.path):
        return tuple(call_rests_on(it, at))
    kind, at, end = rust_items(it.path)[it.name]
    if kind == "trait":
        return tuple(trait_rests_on(it, at, end))
    model = re.compile(rf"^impl\b[^{{;]*\bModel for {it.name}\b[^{{;]*\{{", re.M).search(text)
    if model:
        return tuple(Scope(it.crate, it.path, model.end()).units(members(it.path, model.start(), ("Value", "view"))))
    return tuple(scope.units(text[at:end], types=True))

def members(path: str, at: int, names: tuple[str, ...] = ()) -> str:
    """The ghost members of these names, or all, of the block that begins at a place."""
    text = code_of(path)
    end, found = docs.close(text, text.index("{", at)), []
    for m in MEMBER.finditer(text, at, end):
        if not names or m.group("name") in names:
            close = docs.close(text, m.end() - 1)
            given = re.match(r"\s*=\s*\{", text[close:])
            found.append(text[m.end():docs.close(text, close + given.end() - 1) if given else close])
    return "\n".join(found)

def trait_rests_on(it: Unit, at: int, end: int) -> list[Unit]:
    text = code_of(it.path)
    inside = Scope(it.crate, it.path, text.index("{", at) + 1)
    found = inside.units(text[at:text.index("{", at)], types=True) + inside.units(members(it.path, at))
    for m in docs.FUNCTION.finditer(text, at, end):
        clauses, stop = docs.clauses_of(text, m.end())
        if text[stop:stop + 1] == ";":
            found += inside.units(signature(text, m), types=True) + inside.units("\n".join(clauses))
    return found

def signature(text: str, m: re.Match[str]) -> str:
    """From a function's name up to its clauses or its body."""
    end = docs.CLAUSE.search(text, m.end())
    stop = re.compile(r"[{;]").search(text, docs.close(text, text.index("(", m.end())))
    return text[m.end():min(it.start() for it in (end, stop) if it)]

def block_of(path: str, at: int) -> tuple[str, int]:
    """The head of the impl or trait around a place, and where its body begins."""
    text = code_of(path)
    around = [m for m in docs.ITEM.finditer(text) if m.end() <= at < docs.close(text, m.end() - 1) and m.group("kind") in ("impl", "trait")]
    return (text[around[0].start():around[0].end() - 1], around[0].end()) if around else ("", at)

def call_rests_on(it: Unit, at: int) -> list[Unit]:
    text = code_of(it.path)
    m = docs.FUNCTION.search(text, at)
    clauses, _ = docs.clauses_of(text, m.end())
    block, inside = block_of(it.path, m.start())
    scope = Scope(it.crate, it.path, m.start())
    found = scope.units("\n".join(clauses))
    found += scope.units(block, types=True) + scope.units(signature(text, m), types=True)
    if " for " in block:
        found += Scope(it.crate, it.path, inside).units(members(it.path, text.rindex(block, 0, m.start())))
    return found

def calls(name: str) -> list[Unit]:
    """The functions that a path names."""
    crate, *way = name.split("::")
    found = []
    for path in sources(crate):
        for m in docs.FUNCTION.finditer(code_of(path)):
            block = block_of(path, m.start())[0]
            types = re.findall(r"\w+", re.sub(r"<[^{]*?>", "", block))
            if m.group("name") == way[-1] and all(it in types + list(modules_of(path)) for it in way[:-1]) and (way[:-1] or not block):
                found.append(unit(crate, name, path, m.start()))
    return found

def in_order(roots: list[Unit], given: frozenset[str] = frozenset()) -> list[Unit]:
    """The roots and all that they rest on, but for what `given` ones are made of; each before that, unless two rest on each other."""
    def made_of(it: Unit) -> Iterator[Unit]:
        return iter(()) if it.name in given else reversed(rests_on(it))
    seen, order = set(roots), []
    stack = [(it, made_of(it)) for it in reversed(roots)]
    while stack:
        it, rest = stack[-1]
        below = next((one for one in rest if one not in seen), None)
        if below is None:
            order.append(stack.pop()[0])
        else:
            seen.add(below)
            stack.append((below, made_of(below)))
    return order[::-1]

# ---- what a contract rests on

sys.dont_write_bytecode = True
LONG = 100

def place(it: Unit) -> str:
    return f"{os.path.relpath(it.path, kit() if it.of_kit else TOP)}:{it.line}" if it.path else "built in" if it.crate else "in the kit"

def first_words(comment: str) -> str:
    """The first sentence of a comment, or as much of it as fits.

    >>> first_words("A line. Behind it, more."), len(first_words("word " * 50)) <= LONG + 3
    ('A line', True)
    """
    sentence = comment.split(". ")[0].rstrip(".")
    return sentence if len(sentence) <= LONG else sentence[:LONG].rsplit(" ", 1)[0] + " .."

def show(it: Unit) -> str:
    return f"{place(it)}: {it.name}" + (f"  -- {first_words(it.comment)}" if it.comment else "")

def contract_of(it: Unit) -> list[str]:
    """The clauses of a call."""
    m = docs.FUNCTION.search(code_of(it.path), place_of(it))
    return [re.sub(r"\s+", " ", clause) for clause in docs.clauses_of(code_of(it.path), m.end())[0]]

def counts(found: list[Unit], aside: list[str]) -> list[str]:
    own = [it for it in found if not it.of_kit]
    apart = [it for it in own if it.crate in aside]
    each = Counter(it.crate for it in own)
    types = sum(it.path.endswith(".rt") and it not in apart for it in own)
    lines = [f"{len(own) - len(apart)} definitions of this repository, {types} of them types and traits" + (f", and {len(apart)} of {', '.join(aside)}" if aside else "")
             + f"; {len(found) - len(own)} words of the kit"]
    return lines + [f"  {crate}: {n}" for crate, n in sorted(each.items())]

def main(words: list[str]) -> int:
    options = {it: words[words.index(it) + 1] for it in ("--aside", "--given") if it in words}
    names = [it for it in words if not it.startswith("--") and it not in options.values()]
    roots = [it for name in names for it in calls(name)]
    unknown = [name for name in names if not calls(name)]
    if unknown or not roots:
        print(f"trust: no function {' '.join(unknown)}", file=sys.stderr)
        return 1
    given = frozenset(options.get("--given", "").split(","))
    found = [it for it in in_order(roots, given) if it not in roots]
    if "--count" not in words:
        print("\n".join("\n    ".join([show(it), *contract_of(it)]) for it in roots))
        print("\n".join(show(it) for it in found if not it.of_kit))
        print("of the kit:\n" + "\n".join("  " + show(it) for it in found if it.of_kit))
    print("\n".join(counts(found, options.get("--aside", "").split(",") if "--aside" in options else [])))
    return 0

if __name__ == "__main__":
    signal.signal(signal.SIGPIPE, signal.SIG_DFL)
    sys.exit(main(sys.argv[1:]))
