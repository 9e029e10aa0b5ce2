#!/usr/bin/env python3
"""What the documents and specs/ owe their readers: check_docs. Prints what is missing; the status is 1 where anything is.

1. Functions, clauses, files and rows that a README or a page of docs/ names, and that the crates lack.
2. Links between the documents that lead nowhere: to no file, or to no heading of a page.
3. Public calls with a condition for the caller (a requires) that docs/CALLING.md does not name.
4. Crates of crates.txt that docs/USING.md, docs/ASSURANCE.md (those of the kit, as trusted) or docs/ARCHITECTURE.md lack.
5. Tactics in specs/, which holds definitions alone. A file that an impl of PartialEq, Eq, PartialOrd, Ord or Hash uses, or
   a ghost member that is a proof (laws, respects_eq, size_decreases), is passed over: std asks for proofs there.
6. Wrong bodies of must-fail/ whose file or text is gone, or stands there more than once; those that docs/WRONG-BODIES.md
   lacks, and those that it names and that are gone.
7. Numbers of messages that specs/ of ua_opening and ua_services give, and that the table of messages in docs/ENCODINGS.md lacks.
8. Counts of crates, of wrong bodies and of rows that a page states, and that the tree has not; pages that say what a
   run took (docs/ARCHITECTURE.md, CHANGELOG.md) are passed over.

It begins with what all these tools read of the repository: its files, and of sources their functions, clauses and imports.
"""
from __future__ import annotations

import os
import re
import signal
import subprocess
import sys
from typing import Iterable

sys.dont_write_bytecode = True
from kit import TOP, text_of

CLAUSE = re.compile(r"\b(?:requires|ensures)\b\*?[ \t]*(?:\w+[ \t]*)?\{|\bghost[ \t]+\w+[ \t]*:[ \t]*\{")
FUNCTION = re.compile(r"(?P<public>pub(?P<within>\([^)]*\))?\s+)?(?:const\s+|final\s+|unsafe\s+)*fn\s+(?P<name>\w+)")
ITEM = re.compile(r"^(?:pub(?:\([^)]*\))?\s+)?(?P<kind>impl|trait|struct|enum)\b[^;{]*\{", re.M)
SPEC_USE = re.compile(r"ghost use Rattle\.((?:ua|test|example|bench)_\w+)\.specs\.(?!declared)([\w.]+)\.\{([^}]*)\};")
BRACKET = re.compile(r"[{}()]")
DEFINED = re.compile(r"^\s*(?:pub\s+)?(?:abbrev|unfoldable|data|record)\s+(?:pub\s+)?([\w'-]+)", re.M)

def read(path: str) -> str:
    return text_of(os.path.join(TOP, path))

def files() -> list[str]:
    """The files of the repository, those too that are not committed yet."""
    out = subprocess.run(["git", "ls-files", "-co", "--exclude-standard"], capture_output=True, text=True, check=True, cwd=TOP).stdout
    return [f for f in out.split("\n") if f and os.path.isfile(os.path.join(TOP, f))]

def close(text: str, at: int) -> int:
    """The place behind the bracket that closes the one at this place.

    >>> close("f(a, {b}) c", 1), close("{", 0)
    (9, 1)
    """
    depth = 0
    for m in BRACKET.finditer(text, at):
        depth += 1 if m.group() in "{(" else -1
        if depth == 0:
            return m.end()
    return len(text)

def block_around(text: str, at: int) -> tuple[int, int]:
    """The block in which a place stands.

    >>> block_around("a { use } b", 4), block_around("use { b }", 0)
    ((2, 9), (0, 10))
    """
    for i in range(at, -1, -1):
        if text[i] == "{" and close(text, i) > at:
            return i, close(text, i)
    return 0, len(text) + 1

def bare(text: str) -> str:
    """The text without comments and the contents of string literals, each character in its place."""
    text = re.sub(r"//[^\n]*", lambda m: " " * len(m.group()), text)
    return re.sub(r'"(?:[^"\\\n]|\\.)*"', lambda m: '"' + " " * (len(m.group()) - 2) + '"', text)

def clauses_of(text: str, at: int) -> tuple[list[str], int]:
    """The clauses behind a function's name, and the place where its body or its end stands."""
    out = []
    while at < len(text):
        c = text[at]
        m = CLAUSE.match(text, at)
        if m:
            end = close(text, m.end() - 1)
            out.append(text[m.start():end])
            at = end
        elif c == "(":
            at = close(text, at)
        elif c in "{;":
            return out, at
        else:
            at += 1
    return out, at

class Source:
    """A source file: what it imports of specs/, and the clauses that its callers see."""

    def __init__(self, path: str, exported: set[str] | None) -> None:
        self.path = path
        text = bare(read(path))
        self.imports: dict[str, tuple[str, str, str]] = {}
        for m in SPEC_USE.finditer(text):
            for word in re.split(r",\s*", m.group(3).strip()):
                name = re.split(r"\s+as\s+", word)
                if name[0]:
                    self.imports[name[-1].strip()] = (m.group(1), m.group(2), name[0].strip())
        self.functions: set[str] = set()
        self.labels: set[str] = set()
        self.clauses: list[tuple[str, str]] = []
        items = [(m.start(), close(text, m.end() - 1), text[m.start():m.end()]) for m in ITEM.finditer(text)]

        def inside(at: int) -> str:
            return next((head for a, b, head in items if a <= at < b), "")

        at = 0
        while True:
            m = FUNCTION.search(text, at)
            if not m:
                break
            found, at = clauses_of(text, m.end())
            head = inside(m.start())
            self.functions.add(m.group("name"))
            for clause in found:
                label = re.match(r"(?:requires|ensures)\*?\s*(\w+)\s*\{", clause)
                if label:
                    self.labels.add(label.group(1))
            if self.is_public(m, head, exported):
                self.clauses += [(m.group("name"), clause) for clause in found]
        for m in re.finditer(r"\bghost\s+(\w+)(?::\s*\{|\s*=\s*\{)", text):
            self.labels.add(m.group(1))
            head = inside(m.start()).split("{")[0]
            if m.group(1) != "coded" and head and is_seen(head, exported):
                end = close(text, m.end() - 1)
                given = re.match(r"\s*=\s*\{", text[end:])
                end = close(text, end + given.end() - 1) if given else end
                self.clauses.append((m.group(1), text[m.start():end]))

    def is_public(self, m: re.Match[str], head: str, exported: set[str] | None) -> bool:
        kind = head.split("{")[0]
        if re.match(r"(pub\s+)?trait\b", kind) or kind.startswith("impl") and " for " in kind:
            return is_seen(kind, exported)
        if not m.group("public") or m.group("within"):
            return False
        return is_seen(kind, exported) if kind else exported is None or m.group("name") in exported

def is_seen(head: str, exported: set[str] | None) -> bool:
    """Whether callers of the crate see the type or trait with this head."""
    name = re.search(r"\bfor\s+&?(?:\w+::)*(\w+)", head) or re.search(r"\b(?:trait|struct|enum)\s+(\w+)", head) \
        or re.match(r"impl(?:<.*>)?\s+(\w+)", head)
    return exported is None or not name or name.group(1) in exported or not name.group(1)[0].isupper() or len(name.group(1)) == 1

def exported_of(crate: str, listing: list[str]) -> set[str] | None:
    """The names that a library hands out; None for a program, whose public items all count."""
    head = f"crates/{crate}/src/lib.rt"
    if head not in listing:
        return None
    text = bare(read(head))
    names = set()
    for m in re.finditer(r"pub use [\w:]+::(?:\{([^}]*)\}|(\w+));", text):
        names |= set(re.findall(r"\w+", m.group(1) or m.group(2)))
    for m in re.finditer(r"pub mod (\w+);", text):
        path = f"crates/{crate}/src/{m.group(1)}.rt"
        if path in listing:
            names |= set(re.findall(r"pub (?:const )?fn (\w+)", bare(read(path))))
    return names

def spec_words(listing: list[str]) -> set[str]:
    """The words that specs/ define, with their constructors and fields; lemmas are none."""
    found = set()
    for f in listing:
        if f.endswith(".antt") and "/specs/" in f:
            text = re.sub(r"--[^\n]*", "", read(f))
            found |= {m.group(1) for m in DEFINED.finditer(text)}
            for block in re.finditer(r"^\s*(?:pub )?(?:data|record)\b.*?(?=^\S|\Z)", text, re.M | re.S):
                found |= set(re.findall(r"^\s+(?:pub\s+)?([\w']+)\s*:", block.group(), re.M))
    return found

def spans(text: str) -> tuple[list[str], list[str]]:
    """The words of a document's code spans; blocks between fences count as one span each."""
    blocks = re.findall(r"^```.*?^```", text, re.M | re.S)
    rest = re.sub(r"^```.*?^```", "", text, flags=re.M | re.S)
    return re.findall(r"`([^`\n]+)`", rest), blocks

def only_tries(crate: str) -> bool:
    """Whether a crate only tries others: tests, rows, promises, calls made twice. No program calls it."""
    return crate.startswith("test_")

def crates() -> list[str]:
    """The crates of crates.txt, from the lowest up."""
    return [line.split(":")[0].split()[0] for line in read("crates.txt").split("\n") if ":" in line and not line.startswith("#")]

def libraries() -> list[str]:
    """The crates that a program calls, from the lowest up: no test and no benchmark."""
    return [it for it in crates() if not only_tries(it) and it != "bench_messages" and os.path.exists(os.path.join(TOP, f"crates/{it}/src/lib.rt"))]

def say(title: str, rows: Iterable[str]) -> int:
    """Prints what is wrong under its title; answers how much it is."""
    rows = list(rows)
    if rows:
        print(title)
        for row in rows:
            print("  " + row)
    return len(rows)

# ---- the checks

sys.dont_write_bytecode = True
TACTICS = re.compile(r"(?<![\w.«-])(omega|grind|search|simp|cc|absurd|rw)(?![\w-])")
LAWFUL_TRAITS = re.compile(r"^impl\b.*\b(PartialEq|Eq|PartialOrd|Ord|Hash)\b.*\bfor\b")
NUMBERS = "zero one two three four five six seven eight nine ten eleven twelve thirteen fourteen fifteen sixteen seventeen eighteen nineteen twenty".split()

def report_names(listing: list[str], sources: list[Source], words: set[str]) -> int:
    functions = set().union(*(s.functions | s.labels for s in sources)) | words
    everything = set()
    for f in listing:
        if f.endswith((".rt", ".antt", ".h", ".hpp")):
            everything |= set(re.findall(r"[\w']+", read(f)))
    everything |= set(re.findall(r"\w+", read("crates.txt")))
    for f in listing:
        if re.fullmatch(r"crates/test_\w+/stdout|rows/\w+\.rows", f):
            everything |= {word for line in read(f).split("\n") if line.startswith("# ") for word in re.findall(r"\w+", line)}
    rows = []
    for f in listing:
        if not f.endswith(".md"):
            continue
        for span in spans(read(f))[0]:
            m = re.match(r"^(?:\w+::)*(\w+)(?:\(\))?$", span)
            if m and "_" in span and not any(m.group(1) in name for name in everything | functions) and not f_exists(listing, span):
                rows.append(f"{f}: `{span}`")
            for path in re.findall(r"(?:src|specs|proofs|docs|tools|data)/[\w/.+]*\w", span):
                if ".." not in path and not f_exists(listing, path, f):
                    rows.append(f"{f}: `{span}`: no such file")
    return say("Names in the documents that nothing has:", sorted(set(rows)))

def anchors_of(page: str) -> set[str]:
    """The anchors of a page's headings."""
    text = re.sub(r"^```.*?^```", "", read(page), flags=re.M | re.S)
    return {re.sub(r"[^\w\s-]", "", title.strip().lower()).replace(" ", "-") for title in re.findall(r"^#+ (.*)$", text, re.M)}

def report_links(listing: list[str]) -> int:
    rows = []
    for f in listing:
        if not f.endswith(".md"):
            continue
        for target, anchor in re.findall(r"\]\(([^)#\s]*)(?:#([^)\s]*))?\)", read(f)):
            page = os.path.normpath(os.path.join(os.path.dirname(f), target)) if target else f
            if target.startswith("http"):
                continue
            if not os.path.exists(os.path.join(TOP, page)):
                rows.append(f"{f}: {target}")
            elif anchor and page.endswith(".md") and anchor not in anchors_of(page):
                rows.append(f"{f}: {target}#{anchor}")
    return say("Links that lead nowhere:", rows)

def report_conditions(sources: list[Source]) -> int:
    named = set(re.findall(r"\w+", " ".join(spans(read("docs/CALLING.md"))[0])))
    rows = sorted({f"{s.path}: {name}" for s in sources for name, clause in s.clauses
                   if clause.startswith("requires") and name not in named})
    return say("Conditions for callers that docs/CALLING.md does not name:", rows)

def report_crates() -> int:
    own = set(crates())
    rows = [f"{page}: {name}" for page, names in (("docs/USING.md", {n for n in own if not only_tries(n)}),
                                                  ("docs/ASSURANCE.md", kit_crates()), ("docs/ARCHITECTURE.md", own))
            for name in sorted(names) if f"`{name}`" not in read(page)]
    return say("Crates that the documents lack:", rows)

def report_tactics(listing: list[str]) -> int:
    lawful = set()
    for f in listing:
        if f.endswith(".rt"):
            text = bare(read(f))
            proofs = " ".join(re.findall(r"ghost (?:laws|respects_eq|size_decreases)\s*=\s*\{([^}]*)\}", text))
            for use in SPEC_USE.finditer(text):
                if any(re.search(rf"(?<![\w'-]){re.escape(word)}(?![\w'-])", proofs) for word in re.split(r",\s*", use.group(3))):
                    lawful.add((use.group(1), use.group(2)))
            for m in ITEM.finditer(text):
                if LAWFUL_TRAITS.match(text[m.start():m.end()].replace("\n", " ")):
                    for use in SPEC_USE.finditer(text[m.start():close(text, m.end() - 1)]):
                        lawful.add((use.group(1), use.group(2)))
    rows = []
    for f in listing:
        if f.endswith(".antt") and "/specs/" in f:
            crate, module = f.split("/")[1], f.split("/specs/")[1][:-5].replace("/", ".")
            if (crate, module) in lawful:
                continue
            n = sum(1 for line in read(f).split("\n") if not line.startswith(("use ", "pub use ")) and TACTICS.search(re.sub(r'"[^"]*"', '""', line.split("--")[0])))
            if n:
                rows.append(f"{f}: {n} lines")
    return say("Tactics in specs/ (definitions there, proofs in proofs/):", rows)

def report_edits(listing: list[str]) -> int:
    rows = []
    for f in listing:
        if not f.endswith(".edit"):
            continue
        lines = read(f).split("\n")
        path = f"crates/{f.split('/')[1]}/" + next((line[5:].strip() for line in lines if line.startswith("file:")), "")
        text = read(path) if path in listing else ""
        for old, new in zip([li[5:] for li in lines if li.startswith("old: ")], [li[5:] for li in lines if li.startswith("new: ")]):
            if text.count(old) != 1:
                rows.append(f"{f}: {'no such file' if not text else f'its text stands {text.count(old)} times'}")
            text = text.replace(old, new)
    wrong = say("Wrong bodies that do not apply:", rows)
    named = set(re.findall(r"`(\w+/must-fail/\w+\.edit)`", read("docs/WRONG-BODIES.md")))
    there = {f.removeprefix("crates/") for f in listing if f.endswith(".edit")}
    wrong += say("Wrong bodies that docs/WRONG-BODIES.md lacks:", sorted(there - named))
    return wrong + say("Wrong bodies that docs/WRONG-BODIES.md names, and that are gone:", sorted(named - there))

def report_messages(listing: list[str]) -> int:
    """The numbers of the encodings of messages that ENCODINGS.md has no place for."""
    table = read("docs/ENCODINGS.md").partition("| message | request | response |")[2].partition("\n\n")[0]
    listed = set(re.findall(r"\d+", table))
    rows = []
    for f in listing:
        if f.startswith(("crates/ua_opening/specs/", "crates/ua_services/specs/")) and f.endswith(".antt"):
            for line in re.sub(r"--[^\n]*", "", read(f)).split("\n"):
                rows += [f"{f}: {n}   ({line.split('=')[0].strip()})"
                         for n in re.findall(r"number(?: \w+)? = (\d+)|\bmessage (\d+)\b", line) for n in n if n and n not in listed]
    return say("Numbers of messages that the table of messages in docs/ENCODINGS.md lacks:", rows)

def rows_of(table: str) -> int:
    """How many rows a table has."""
    return sum(" = " in line and not line.startswith("#") for line in read(table).split("\n"))

def kit_crates() -> set[str]:
    """The crates of the kit that crates.txt names."""
    lines = [line.split(":") for line in read("crates.txt").split("\n") if ":" in line and not line.startswith("#")]
    return {name for line in lines for name in line[1].split()} - {line[0].split()[0] for line in lines}

def number_of(word: str) -> int | None:
    """A number as a text has it.

    >>> number_of("thirteen"), number_of("3,084"), number_of("some")
    (13, 3084, None)
    """
    plain = word.replace(",", "").lower()
    return int(plain) if plain.isdigit() else NUMBERS.index(plain) if plain in NUMBERS else None

def report_numbers(listing: list[str]) -> int:
    bodies = [f for f in listing if f.endswith(".edit")]
    true = {"of its crates": len(kit_crates()), "crates": len(crates()), "wrong bodies": len(bodies), "mutants": len(bodies)}
    true |= {f"rows of `{it}`": rows_of(f"crates/{it}/stdout") for it in ("test_rows",)}
    true |= {"rows of `rows/program.rows`": rows_of("rows/program.rows")}
    rows = []
    for f in listing:
        if f.endswith(".md") and f not in ("docs/ARCHITECTURE.md", "CHANGELOG.md"):
            for what, n in true.items():
                found = re.findall(rf"(?<![\w,.])([\w,]+) (?:test vectors, the )?{re.escape(what)}(?![\w`])", read(f))
                rows += [f"{f}: {it} {what}; the tree has {n}" for it in found
                         if number_of(it) not in (None, n) and (it[0].isdigit() or what != "crates")]
    return say("Numbers that the tree has not:", rows)

def f_exists(listing: list[str], path: str, beside: str = "") -> bool:
    path = path.strip("/")
    near = os.path.dirname(beside)
    return any(g == path or g.endswith("/" + path) or ("/" + path + "/") in ("/" + g) for g in listing) \
        or any(g.startswith(os.path.join(near, path)) for g in listing) or path.split("/")[0] in {g.split("/")[1] for g in listing if g.startswith("crates/")} and path.count("/") == 0

def main() -> int:
    listing, sources = files(), []
    for crate in crates():
        if not only_tries(crate):
            exported = exported_of(crate, listing)
            sources += [Source(f, exported) for f in listing if f.startswith(f"crates/{crate}/src/") and f.endswith(".rt") and "tests" not in f]
    wrong = report_names(listing, sources, spec_words(listing)) + report_links(listing) + report_conditions(sources) + report_crates()
    wrong += report_tactics(listing) + report_edits(listing) + report_messages(listing) + report_numbers(listing)
    return 1 if wrong else 0

if __name__ == "__main__":
    signal.signal(signal.SIGPIPE, signal.SIG_DFL)
    sys.exit(main())
