#!/usr/bin/env python3
"""Tries all of the repository: test [--prove].

It builds the program and the library for C without a proof, and tries them: the rows of rows/, the examples, the checks over
sockets, random values, what is installed; and it checks documents, pages, headers, long lines and the tools' own examples.
Parts run side by side, as many as there are processors; those that wait for times run one after another. A line tells of each
part whether it passed, its seconds, those of processors, and what it printed last; of one that failed all that it printed.

With --prove it runs `rt ci` instead of the builds, and tries the program and the library that it proved. Where the kit does not
keep what it proved, the library is compiled without a proof.

The last line is 'N passed, M failed', with what `rt ci` counted. The status is 1 where anything failed or could not be tried.
"""
from __future__ import annotations

import os
import re
import signal
import subprocess
import sys
import tempfile
import threading
import time
from typing import NamedTuple

sys.dont_write_bytecode = True
HERE = os.path.dirname(os.path.abspath(__file__))
import kit
from kit import TOP

# No part takes so many seconds.
LIMIT = 1800

class Part(NamedTuple):
    """A part: the words that run it, the parts that have to pass before, whether it waits for times, and where it runs."""
    name: str
    words: list[str]
    needs: tuple[str, ...] = ()
    timed: bool = False
    folder: str = TOP

def tool(name: str, *words: str) -> list[str]:
    return [sys.executable, "-B", os.path.join(HERE, name + ".py"), *words]

def checks() -> list[Part]:
    """The parts that need no build."""
    tested = sorted(it for it in os.listdir(HERE) if it.endswith(".py") and ">>>" in kit.text_of(os.path.join(HERE, it)))
    return [
        Part("documents", tool("check_docs")), Part("theorems", tool("write_definitions", "--check")),
        Part("C header", tool("check_c_header")), Part("lines", tool("break_lines", "--check")),
        Part("pages", tool("write_pages", "--check")), Part("doctests", [sys.executable, "-B", "-m", "doctest", *tested], folder=HERE),
    ]

def trials(program: str, library: str, unproved: tuple[str, ...], ua: tuple[str, ...], ua_c: tuple[str, ...]) -> list[Part]:
    """The parts that try a program and a library, of which some are not proved; they need these parts."""
    both, linked = ua + ua_c, ["--library", library] if library else []
    parts = [
        Part("examples", tool("try_c", "--program", program, *linked, *["--unproved"] * ("library" in unproved)), both),
        Part("large", tool("try_large", "--bound", program), ua), Part("at once", tool("try_at_once", program), ua, True),
        Part("live", tool("try_live", program), ua, True), Part("long", tool("try_large", "--long", program), ua),
        Part("values", tool("fuzz_values", program, "1000"), ua),
        Part("rows", tool("try_rows", *["--unproved"] * ("program" in unproved), program), ua),
    ]
    return parts + [Part("installed", tool("install", "--try", "--program", program, *linked), both)] * bool(library)

class Run:
    """Parts that run, and what came of each."""

    def __init__(self) -> None:
        self.passed: set[str] = set()
        self.failed: set[str] = set()
        self.counted = [0, 0]
        self.changed = threading.Condition()
        self.running: dict[str, Part] = {}
        self.processes: set[subprocess.Popen[str]] = set()

    def tell(self, name: str, good: bool, what: str) -> None:
        with self.changed:
            (self.passed if good else self.failed).add(name)
            self.running.pop(name, None)
            print(f"{'ok    ' if good else 'FAILED'} {name:10} {what}", flush=True)
            self.changed.notify_all()

    def attempt(self, part: Part) -> None:
        """Runs a part."""
        begun = time.monotonic()
        with tempfile.TemporaryFile() as out:
            made = subprocess.Popen(part.words, cwd=part.folder, stdin=subprocess.DEVNULL, stdout=out, stderr=subprocess.STDOUT, start_new_session=True)
            self.processes.add(made)
            end = threading.Timer(LIMIT, os.killpg, (made.pid, signal.SIGKILL))
            end.start()
            _, status, used = os.wait4(made.pid, 0)
            end.cancel()
            self.processes.discard(made)
            made.returncode = os.waitstatus_to_exitcode(status)
            out.seek(0)
            printed = out.read().decode(errors="replace").rstrip("\n")
        spent = f"{time.monotonic() - begun:6.1f} s, of processors {used.ru_utime + used.ru_stime:6.1f} s"
        last = printed.split("\n")[-1][-100:]
        self.tell(part.name, made.returncode == 0, f"{spent}  {last}" if made.returncode == 0 else f"{spent}  status {made.returncode}\n{printed}")

    def next_of(self, waiting: list[Part]) -> Part | None:
        """A part that may begin now."""
        timed = any(it.timed for it in self.running.values())
        free = [it for it in waiting if self.passed.issuperset(it.needs) and not (it.timed and timed)]
        return free[0] if free and len(self.running) < max(2, os.cpu_count() or 2) else None

    def all(self, parts: list[Part]) -> None:
        """Runs all parts of which those before have passed; the others have failed."""
        waiting, threads = list(parts), []
        try:
            with self.changed:
                while waiting:
                    for it in [it for it in waiting if self.failed.intersection(it.needs)]:
                        waiting.remove(it)
                        self.tell(it.name, False, "cannot be tried: " + ", ".join(self.failed.intersection(it.needs)))
                    part = self.next_of(waiting)
                    if part:
                        waiting.remove(part)
                        self.running[part.name] = part
                        threads.append(threading.Thread(target=self.attempt, args=(part,)))
                        threads[-1].start()
                    elif waiting:
                        self.changed.wait()
            for it in threads:
                it.join()
        except BaseException:
            for it in self.processes:
                os.killpg(it.pid, signal.SIGKILL)
            raise

    def prove(self) -> None:
        """Runs `rt ci`, whose lines are shown as they come, but for the last one, which counts."""
        env = {**kit.jobs(), **os.environ}
        begun, last = time.monotonic(), ""
        with subprocess.Popen(["rt", "ci"], cwd=TOP, env=env, stdin=subprocess.DEVNULL, stdout=subprocess.PIPE, text=True, errors="replace") as running:
            for line in running.stdout or ():
                print(last, end="", flush=True)
                last = line
        found = re.match(r"(\d+) passed, (\d+) failed", last)
        good = running.returncode == 0 and found is not None and found.group(2) == "0"
        self.counted = [int(it) for it in found.groups()] if found else [0, 0]
        self.tell("rt ci", good, f"{time.monotonic() - begun:6.1f} s, status {running.returncode}: {last.strip()}")

    def end(self) -> int:
        """Prints the last line, and hands back the status."""
        self.passed.discard("rt ci")
        failed = len(self.failed - {"rt ci"}) + max(self.counted[1], "rt ci" in self.failed)
        print(f"{len(self.passed) + self.counted[0]} passed, {failed} failed", flush=True)
        return 1 if failed else 0

def proved_trials(run: Run, folder: str) -> None:
    """Tries what `rt ci` proved."""
    built = os.path.join(TOP, "crates", "ua_cli", "out", "ua_cli")
    library = os.path.join(TOP, "crates", "ua_c", "out", "libua_c.a")
    if kit.keep(["ua_c", "ua_cli"]) == 0:
        run.all([Part("library", ["rt", "lib"], folder=os.path.join(TOP, "crates", "ua_c"))])
    elif kit.keeps():
        library = os.path.join(folder, "ua_c.o")
        run.all([Part("library", kit_words(library))])
    else:
        library = os.path.join(folder, "ua_c.o")
        if subprocess.run(kit_words(library), stdin=subprocess.DEVNULL, check=False).returncode:
            print("this kit keeps no library, and compiles none without a proof: the examples are compiled, and not run", flush=True)
            library = ""
    parts = trials(built, library, () if library.endswith(".a") else ("library",), (), ("library",) if kit.keeps() else ())
    if os.path.exists(built + ".by-rattle"):
        parts.append(Part("other rows", tool("try_rows", built + ".by-rattle")))
    run.all(parts)

def kit_words(path: str, what: str = "library") -> list[str]:
    return tool("kit", "unproved", what, path)

def main(words: list[str]) -> int:
    if words not in ([], ["--prove"]):
        print(__doc__, file=sys.stderr)
        return 2
    run = Run()
    with tempfile.TemporaryDirectory(prefix="ua-test-") as folder:
        program, library = os.path.join(folder, "ua"), os.path.join(folder, "ua_c.o")
        if not words:
            builds = [Part("program", kit_words(program, "program")), Part("library", kit_words(library))]
            run.all([*builds, *checks(), *trials(program, library, ("program", "library"), ("program",), ("library",))])
            return run.end()
        run.all(checks())
        if not run.failed:
            run.prove()
        if not run.failed:
            proved_trials(run, folder)
        return run.end()

if __name__ == "__main__":
    sys.exit(main(sys.argv[1:]))
