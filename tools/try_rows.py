#!/usr/bin/env python3
"""Asks the program `ua` the questions of a table: try_rows [--unproved] PROGRAM [TABLE].

PROGRAM is the built program, TABLE `rows/program.rows` where none is named: rows `QUESTION = ANSWER`, as rows/README.md says.
Each is answered by runs of PROGRAM, in one new folder for the whole table, which begins with the files of `data/` beside the
table. Printed are the rows whose answer differs, each with what was wanted and what came, and last how many there are; the
status is 1 where one differs, or is no row. --unproved is for a build without a proof, whose version says that it is one.
It needs gcc: some calls of the C library answer as a row says (preload.c).
"""
from __future__ import annotations

import dataclasses
import os
import shutil
import socket
import subprocess
import sys
import tempfile
import threading
from typing import Callable

sys.dont_write_bytecode = True
from sockets import HOME, PUMP, TOP, free_port

# ---- the texts and bytes of rows, and runs of the program in the folder in which they make files

SECONDS = 10
MARKS = (("\\s", " "), ("\\t", "\t"), ("\\r", "\r"), ("\\n", "\n"))

class NoRow(Exception):
    """The line is no row."""

def unmarked(word: str) -> str:
    """The text that a word stands for.

    >>> unmarked("a\\\\sb\\\\n")
    'a b\\n'
    """
    for mark, sign in MARKS:
        word = word.replace(mark, sign)
    return word

def marked(octets: bytes) -> str:
    """Bytes of a text, as a row has them.

    >>> print(marked(b"a\\\\b\\n"))
    a\\\\b\\n
    """
    return octets.decode("utf-8", "backslashreplace").replace("\\", "\\\\").replace("\n", "\\n")

def digits(octets: bytes) -> str:
    """Bytes as a row has them.

    >>> digits(b"ab\\xff"), digits(b"")
    ('6162FF', 'nothing')
    """
    return octets.hex().upper() or "nothing"

def first_word(words: str) -> tuple[str, str]:
    """The next word, and what is after it.

    >>> first_word("a b c"), first_word("a")
    (('a', 'b c'), ('a', ''))
    """
    word, _, rest = words.partition(" ")
    return word, rest

def number_of(word: str) -> int:
    """The number that a word is."""
    if not word.isdigit():
        raise NoRow
    return int(word)

def fault_of(err: bytes) -> tuple[bytes, str]:
    """What stands before the last fault that is told, and this fault without its reason.

    >>> fault_of(b"ua: one\\n  because two\\nua: three\\n  because four\\n"), fault_of(b"")
    ((b'ua: one\\n  because two\\n', 'three'), (b'', ''))
    """
    at = max(0, err.rfind(b"\nua: ") + 1)
    return err[:at], err[at:].split(b"\n")[0].removeprefix(b"ua: ").decode()

@dataclasses.dataclass
class Ran:
    """What a run leaves: its status, what it wrote, and what was told of its calls."""
    status: int
    out: bytes
    err: bytes
    told: list[str]

    def text(self) -> str:
        return f'{self.status} out "{marked(self.out)}" err "{marked(self.err)}"'

class Peer(threading.Thread):
    """Whoever is connected to: it sends these bytes and no more, and keeps what comes until the other end closes."""

    def __init__(self, octets: bytes) -> None:
        super().__init__(daemon=True)
        self.octets, self.got = octets, b""
        self.listener = socket.create_server((HOME, 0))
        self.start()

    def port(self) -> int:
        return self.listener.getsockname()[1]

    def run(self) -> None:
        line, _ = self.listener.accept()
        with line:
            try:
                line.sendall(self.octets)
                line.shutdown(socket.SHUT_WR)
            except OSError:
                pass
            self.got = received(line)

    def end(self) -> bytes:
        """What came, or nothing where no one connected: then this connection is the first one."""
        socket.create_connection((HOME, self.port()), SECONDS).close()
        self.join(SECONDS)
        self.listener.close()
        return self.got

def received(line: socket.socket) -> bytes:
    """What comes until the other end closes, or resets the connection."""
    got = b""
    line.settimeout(SECONDS)
    try:
        while piece := line.recv(65536):
            got += piece
    except OSError:
        pass
    return got

def client(listener: socket.socket, octets: bytes) -> socket.socket:
    """A connection that has sent bytes, and sends no more."""
    line = socket.create_connection(listener.getsockname(), SECONDS)
    line.sendall(octets)
    line.shutdown(socket.SHUT_WR)
    return line

class Place:
    """A folder in which rows make files, and a program that is run there with the calls of `preload`."""

    def __init__(self, program: str, folder: str, preload: str, unproved: bool) -> None:
        self.program, self.folder, self.preload, self.unproved = os.path.abspath(program), folder, preload, unproved
        self.taken = socket.create_server((HOME, 0))

    def path(self, name: str) -> str:
        return os.path.join(self.folder, name)

    def content(self, name: str) -> bytes:
        """What a file holds."""
        try:
            with open(self.path(name), "rb") as file:
                return file.read()
        except OSError as error:
            raise NoRow from error

    def put(self, name: str, octets: bytes) -> None:
        with open(self.path(name), "wb") as file:
            file.write(octets)

    def octets(self, words: str) -> bytes:
        """The bytes of these words."""
        return b"".join(self.octets_of(word) for word in words.split())

    def octets_of(self, word: str) -> bytes:
        if word.startswith("@"):
            name, cut, size = word[1:].partition(":")
            return self.content(name)[:number_of(size) if cut else None]
        times, star, unit = word.rpartition("*")
        try:
            return bytes.fromhex(unit) * (number_of(times) if star else 1)
        except ValueError as error:
            raise NoRow from error

    def words(self, words: str) -> list[str]:
        """The words of a run."""
        return [self.word(word) for word in words.split()]

    def word(self, word: str) -> str:
        if word == "$TAKEN":
            return str(self.taken.getsockname()[1])
        if word == "$FREE":
            return str(free_port())
        return unmarked(word)

    def environment(self, calls: dict[str, object]) -> dict[str, str]:
        """That of a run whose calls answer so."""
        said = {f"ROWS_{name.upper()}": str(value) for name, value in calls.items()}
        return {"LD_PRELOAD": self.preload, **said}

    def run(self, words: list[str] | list[bytes], given: bytes = b"", listener: socket.socket | None = None, **calls: object) -> Ran:
        """A run of these words, the first of which is the program's name, with this input."""
        if not words:
            raise NoRow
        fds = [listener.fileno()] if listener else []
        env = self.environment(calls | ({"listener": fds[0]} if fds else {}))
        with tempfile.NamedTemporaryFile() as told:
            done = subprocess.run(words, executable=self.program, cwd=self.folder, env=env | {"ROWS_TOLD": told.name}, input=given,
                                  capture_output=True, timeout=SECONDS, pass_fds=fds)
            lines = told.read().decode("ascii").splitlines()
        return Ran(done.returncode, self.proved(done.stdout), done.stderr, lines)

    def begun(self, words: list[str], listener: socket.socket) -> subprocess.Popen[bytes]:
        """A run of these words that is not awaited, whose listener at 4840 is this one."""
        return subprocess.Popen(words, executable=self.program, cwd=self.folder, env=self.environment({"listener": listener.fileno()}),
                                stdin=subprocess.DEVNULL, stdout=subprocess.PIPE, stderr=subprocess.PIPE, pass_fds=[listener.fileno()])

    def proved(self, out: bytes) -> bytes:
        """What is printed, without the word of a build that is not proved, where this is said to be one."""
        return out.replace(b" unproved ", b" ") if self.unproved and out.startswith(b"ua ") else out

    def asked(self, octets: bytes, words: list[str], **calls: object) -> tuple[Ran, bytes]:
        """A run whose port 4840 is that of a peer that sends these bytes, and what it sent there."""
        peer = Peer(octets)
        try:
            ran = self.run(words, port=peer.port(), **calls)
        finally:
            sent = peer.end()
        return ran, sent

    def served(self, words: list[str], clients: list[bytes], **calls: object) -> tuple[Ran, list[bytes]]:
        """A run whose listener at 4840 has these clients waiting, and what each of them was sent."""
        with socket.create_server((HOME, 0), backlog=1024) as listener:
            lines = [client(listener, octets) for octets in clients]
            ran = self.run(words, listener=listener, **calls)
        got = [received(line) for line in lines]
        for line in lines:
            line.close()
        return ran, got

# ---- how each kind of row is answered; rows/README.md says what each asks

# The name of a file of the node that is served, which no row has.
SERVED = "served nodes"
PORT = "4840"

def presence(octets: bytes) -> str:
    return "a text" if octets else "nothing"

def end_of(ran: Ran) -> str:
    """How a run ended that asked: with --strict `bad` where a code is."""
    if ran.status in (0, 3) and not ran.err:
        return "bad" if ran.status else "done"
    return f'fault "{fault_of(ran.err)[1]}"' if ran.status == 1 else f"status {ran.status}"

class Kinds:
    """The answers to rows, in one place."""

    def __init__(self, place: Place) -> None:
        self.place = place
        place.put(SERVED, PUMP.encode())
        run, failing, told, channels = self.run, self.failing, self.told, self.channels
        self.kinds: dict[str, Callable[[str], str]] = {
            "file": lambda words: self.written(words, place.octets), "text": lambda words: self.written(words, lambda text: unmarked(text).encode()),
            "holds": lambda words: digits(place.content(words)), "same": self.same,
            "run": lambda words: run(words).text(), "pipe": lambda words: self.pipe(words), "broken": lambda words: self.pipe(words, **{"in": 1}),
            "words": lambda words: "{0.status} out {1} err {2}".format(ran := run(words), presence(ran.out), presence(ran.err)),
            "out": lambda words: "{0.status} err {1}".format(ran := failing("out", words), presence(ran.err)),
            "out-told": lambda words: '{0.status} err "{1}"'.format(ran := failing("out", words), marked(ran.err)),
            "err": lambda words: "{0.status} out {1}".format(ran := failing("err", words), presence(ran.out)),
            "no-words": self.no_words, "offline": self.offline, "script": self.script, "connected": self.connected,
            "ask": lambda words: 'out "{1}" {2} sent {0}'.format(*self.asked(words)), "ask-out": self.ask_out, "flushed": self.flushed,
            "heard": lambda words: f'err "{marked(self.question(words, "--why", ended=1)[0].err)}"', "serve": self.serve,
            "connections": channels, "at-once": lambda words: channels(first_word(words)[1], "--at-once", first_word(words)[0]),
            "request-lines": lambda words: told(words, "--requests")[0], "writes": lambda words: told(words, "--writes")[0],
            "accepts": self.accepts, "standard": self.standard,
        }

    def answer(self, question: str) -> str:
        kind, words = first_word(question)
        try:
            return self.kinds[kind](words) if kind in self.kinds else "no row"
        except NoRow:
            return "no row"
        except subprocess.TimeoutExpired:
            return "does not end"

    # ---- files

    def written(self, words: str, octets_of: Callable[[str], bytes]) -> str:
        name, text = first_word(words)
        octets = octets_of(text)
        self.place.put(name, octets)
        return f"{len(octets)} octets"

    def same(self, words: str) -> str:
        one, other = (self.place.content(name) for name in first_word(words))
        return str(len(one) if one == other else 0)

    # ---- runs

    def run(self, words: str, given: bytes = b"", **calls: object) -> Ran:
        return self.place.run(self.place.words(words), given, **calls)

    def pipe(self, words: str, **calls: object) -> str:
        name, words = first_word(words)
        return self.run(words, self.place.content(name), **calls).text()

    def failing(self, stream: str, words: str) -> Ran:
        """The run of which this stream takes so many bytes, and fails behind them."""
        size, words = first_word(words)
        return self.run(words, **{stream: number_of(size)})

    def no_words(self, words: str) -> str:
        if words != "text":
            raise NoRow
        ran, untold = (self.place.run([b"ua", b"dissect", b"\xff"], **calls) for calls in ({}, {"err": 0}))
        return f'{ran.status} err "{marked(ran.err)}" untold {untold.status}'

    def offline(self, words: str) -> str:
        network, words = first_word(words)
        if network not in ("deaf", "alone"):
            raise NoRow
        return self.run(words, **{network: 1}).text()

    def script(self, words: str) -> str:
        cut, files = first_word(words)
        ran = self.place.run(["ua", "loop", *files.split(), "--cut", cut, "--tcp"])
        ways = ["".join(it.split()[1] for it in ran.told if it.startswith(end)) for end in ("near", "far")]
        return f"up {ways[0]} down {ways[1]}" if ran.status == 0 else ran.text()

    # ---- a peer that has said all before

    def connected(self, words: str) -> str:
        name, words = first_word(words)
        return self.place.asked(self.place.content(name), self.place.words(words))[0].text()

    def question(self, words: str, *options: str, **calls: object) -> tuple[Ran, bytes]:
        """The run of a question to a peer that sends a file."""
        name, question = first_word(words)
        command, rest = first_word(question)
        if command not in ("endpoints", "read", "write"):
            raise NoRow
        return self.place.asked(self.place.content(name), ["ua", command, PORT, *self.place.words(rest), *options], **calls)

    def asked(self, words: str) -> tuple[str, str, str]:
        ran, sent = self.question(words)
        return digits(sent), marked(ran.out), end_of(ran)

    def ask_out(self, words: str) -> str:
        size, words = first_word(words)
        ran, sent = self.question(words, "--why", out=number_of(size))
        return f"{end_of(ran)} sent {digits(sent)}"

    def flushed(self, words: str) -> str:
        ran, sent = self.question(words)
        last = ([it for it in ran.told if it.startswith("out")] or ["out 0"])[-1].split()[1]
        return f"at {last} of {len(sent)} {end_of(ran)}"

    # ---- a server whose clients wait

    def server(self, count: int | str, clients: list[bytes], *options: str, **calls: object) -> tuple[Ran, list[bytes]]:
        return self.place.served(["ua", "serve", SERVED, PORT, "--connections", str(count), *options], clients, **calls)

    def serve(self, words: str) -> str:
        number, words = first_word(words)
        read, words = first_word(words)
        room, octets = first_word(words)
        calls = {name: number_of(word) for name, word in (("read", read), ("room", room)) if word != "-"}
        before = number_of(number) - 1
        ran, sent = self.server(number, [b""] * before + [self.place.octets(octets)], **calls)
        front = b"listening 4840\n" + b"".join(b"connection %d NoClose\n" % (at + 1) for at in range(before))
        if ran.status or ran.err or not ran.out.startswith(front):
            return ran.text()
        return f'"{marked(ran.out.removeprefix(front))}" sent {digits(sent[-1])}'

    def told(self, words: str, *options: str) -> tuple[str, list[bytes]]:
        """What is printed of clients that send the bytes of a word each, and what each was sent."""
        clients = [self.place.octets(word) for word in words.split()]
        ran, sent = self.server(len(clients), clients, *options)
        return (ran.text() if ran.status or ran.err else f'"{marked(ran.out)}"'), sent

    def channels(self, words: str, *options: str) -> str:
        text, sent = self.told(words, *options)
        return " ".join([text, *(f"{len(it)}:{digits(it[36:40])}" for it in sent)])

    def accepts(self, words: str) -> str:
        how, answers = first_word(words)
        if how not in ("all", "number"):
            raise NoRow
        clients = [b"" for answer in answers.split() if answer == "next"]
        count = "all" if how == "all" else len(clients) or 1
        ran, _ = self.server(count, clients, "--why", accepts=answers)
        err, fault = fault_of(ran.err) if ran.status else (ran.err, "")
        end = f'fault "{fault}"' if ran.status else "done"
        return f'out "{marked(ran.out)}" err "{marked(err)}" pauses {ran.told.count("pause")} {end}'

    def standard(self, words: str) -> str:
        name, nodes = first_word(words)
        with socket.create_server((HOME, 0)) as listener:
            port = listener.getsockname()[1]
            serving = self.place.begun(["ua", "serve", name, PORT, "--standard"], listener)
            if not nodes:
                client(listener, b"").close()
        with serving:
            try:
                out = self.place.run(["ua", "read", PORT, *nodes.split(), "--times"], port=port).out if nodes else b""
                _, err = serving.communicate(timeout=SECONDS)
            finally:
                serving.kill()
        return f'fault "{fault_of(err)[1]}"' if serving.returncode else marked(out)

# ---- the table

sys.dont_write_bytecode = True
TABLE = os.path.join(TOP, "rows", "program.rows")

def preloaded(folder: str) -> str:
    """The path of the library of preload.c, which is made in this folder."""
    made = os.path.join(folder, "preload.so")
    source = os.path.join(TOP, "tools", "preload.c")
    subprocess.run(["gcc", "-O2", "-Wall", "-fno-builtin", "-shared", "-fPIC", "-o", made, source, "-ldl"], check=True)
    return made

def rows_of(text: str) -> list[tuple[str, str]]:
    """The questions of a table, with their answers; a line without one has no answer.

    >>> rows_of("# a fact\\nholds a = 00 = 1\\n\\nholds b\\n")
    [('holds a', '00 = 1'), ('holds b', '')]
    """
    lines = [line for line in text.split("\n") if line and not line.startswith("#")]
    return [(question, answer) for question, _, answer in (line.partition(" = ") for line in lines)]

def differing(kinds: Kinds, rows: list[tuple[str, str]]) -> int:
    """How many rows are answered in another way, each of which is printed."""
    count = 0
    for question, wanted in rows:
        got = kinds.answer(question)
        if got != wanted or got == "no row":
            print(f"{question}\n  wanted {wanted}\n  got    {got}")
            count += 1
    return count

def main(words: list[str]) -> int:
    unproved = "--unproved" in words
    words = [word for word in words if word != "--unproved"]
    if len(words) not in (1, 2):
        raise SystemExit(__doc__)
    table = words[1] if len(words) == 2 else TABLE
    with open(table, encoding="utf-8", newline="") as file:
        rows = rows_of(file.read())
    with tempfile.TemporaryDirectory() as top:
        folder = os.path.join(top, "rows")
        data = os.path.join(os.path.dirname(os.path.abspath(table)), "data")
        shutil.copytree(data, folder) if os.path.isdir(data) else os.mkdir(folder)
        count = differing(Kinds(Place(words[0], folder, preloaded(top), unproved)), rows)
    print(f"{len(rows)} rows, {count} differ")
    return 1 if count else 0

if __name__ == "__main__":
    sys.exit(main(sys.argv[1:]))
