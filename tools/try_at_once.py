#!/usr/bin/env python3
"""Talks to the program `ua serve` over loopback connections, one after another and many at once: try_at_once PROGRAM.

PROGRAM is the built program. It serves 62 connections, at most 50 at a time: some stay idle, some send octet by octet, some
ask and never read, some are reset or refused, and the others write one node in turn and read it again. Each answer is compared
with what is written out in examples/c/data. Each value that is read is one that a single server which handles the messages in
the order of completion may answer: that of a Write which began before the Read ended, and behind which no other Write came
before the Read began. The lines that are printed have each number once, and say how that connection may have ended.

One after another there are whole connections between ones that are cut, reset or refused. Then there is too little
memory for an answer, values are stored up to the limit of --kept, and a system gives no connection. The status is 1
at the first difference; what rows/program.rows shows is not tried again.
"""
from __future__ import annotations

import random
import re
import resource
import struct
import sys
import threading
import time
from typing import Any, Callable

sys.dont_write_bytecode = True
from sockets import ANSWERED, CLIENT, NULL, PUMP, READ, SENT, WHOLE, WRITE, Program, Send, Talk, at_once, check, connect, drop
from sockets import is_answer, most_memory, node_file, one_by_one, read_all, read_frame

sys.dont_write_bytecode = True
PLACES, LATE = 50, 12

class Bench:
    """Clients of many kinds, and what they saw."""

    def __init__(self) -> None:
        self.faults: list[str] = []
        self.lock = threading.Lock()
        self.writes, self.reads = [(0.0, 0.0, 5)], []
        self.closed: list[int] = []
        self.stop = threading.Event()
        self.value = 100

    def thread(self, work: Callable[..., None], *words: Any) -> threading.Thread:
        def attempt() -> None:
            try:
                work(*words)
            except (Exception, SystemExit) as fault:
                self.faults.append('%s: %r' % (work.__name__, fault))
        made = threading.Thread(target=attempt)
        made.start()
        return made

    def next_value(self) -> int:
        with self.lock:
            self.value += 1
            return self.value

    def asker(self, rounds: int, send: Send) -> None:
        talk = Talk(send)
        draw = random.Random(talk.channel)
        for _ in range(rounds):
            begun = time.monotonic()
            if draw.random() < 0.3:
                value = self.next_value()
                talk.write(value)
                self.writes.append((begun, time.monotonic(), value))
            else:
                value = talk.read()
                self.reads.append((begun, time.monotonic(), value))
        talk.close()
        self.closed.append(talk.channel)

    def idle(self, octets: bytes) -> None:
        with connect() as line:
            line.sendall(octets)
            self.stop.wait()

    def never_reads(self) -> None:
        talk = Talk()
        talk.line.settimeout(0.5)
        try:
            while not self.stop.is_set():
                talk.line.sendall(talk.message(READ))
        except OSError:
            self.stop.wait()
        drop(talk.line)

    def reset(self, length: int) -> None:
        line = connect()
        line.sendall(CLIENT[:length])
        drop(line)

    def refused(self) -> None:
        """Many octets stand behind those that are refused: the ERR message arrives all the same."""
        with connect() as line:
            line.sendall(b'HEXF\x38\0\0\0' + bytes(200000))
            check(read_all(line) == struct.pack('<4sIIi', b'ERRF', 16, 0x807E0000, -1), 'no ERR message')

    def judge(self) -> None:
        """The value of each Read is that of a Write which may stand there."""
        ended = {value: end for _, end, value in self.writes}
        begun = {value: start for start, _, value in self.writes}
        for start, end, value in self.reads:
            check(value in begun and begun[value] <= end, 'a value that was not written: %d' % value)
            lost = [v for b, e, v in self.writes if b > ended[value] and e < start]
            check(not lost, 'a value that was written over: %d by %r' % (value, lost[:1]))

def judge_lines(lines: list[str], bench: Bench) -> None:
    """Each connection has its line."""
    told = {}
    for line in lines:
        found = re.fullmatch(r'connection (\d+) (Closed|NoClose|Cut|Read|Write|Refused 807E0000)', line)
        if not found:
            raise SystemExit('try_at_once: a line %r' % line)
        told[int(found.group(1))] = found.group(2)
    check(len(lines) == PLACES + LATE and sorted(told) == list(range(1, PLACES + LATE + 1)), 'other numbers than each once')
    check(all(told[number] == 'Closed' for number in bench.closed), 'a connection that was closed ended otherwise')
    outcomes = list(told.values())
    check(outcomes.count('Closed') == len(bench.closed) and outcomes.count('Refused 807E0000') == 2, 'other outcomes')

def try_many(program: str, nodes: str) -> None:
    server, bench = Program(program, nodes, PLACES + LATE, '--at-once', str(PLACES)), Bench()
    held = [bench.thread(bench.idle, octets) for octets in [b'', SENT[0], SENT[0][:7], SENT[0] + SENT[1]] * 3]
    held += [bench.thread(bench.never_reads) for _ in range(4)]
    askers = [bench.thread(bench.reset, length) for length in (0, 10, 56, 188, 300)]
    askers += [bench.thread(bench.refused) for _ in range(2)]
    askers += [bench.thread(bench.asker, 100, at_once) for _ in range(21)]
    askers += [bench.thread(bench.asker, 5, one_by_one) for _ in range(6)]
    askers += [bench.thread(bench.asker, 20, at_once) for _ in range(LATE)]
    for it in askers:
        it.join()
    bench.stop.set()
    for it in held:
        it.join()
    out, err = server.process.communicate(timeout=30)
    check(not bench.faults, '; '.join(bench.faults[:3]))
    check((server.process.returncode, err) == (0, b''), 'another end: %r' % err)
    bench.judge()
    judge_lines(out.decode().splitlines(), bench)
    print('%d writes, %d reads of many connections' % (len(bench.writes), len(bench.reads)))

def try_places(program: str, nodes: str) -> None:
    """A peer beyond the places waits, and is served once one is free. Lines stand in the order of the ends."""
    server = Program(program, nodes, 3, '--at-once', '2')
    first, second = Talk(), Talk()
    with connect() as waiting:
        waiting.sendall(SENT[0])
        waiting.settimeout(0.3)
        try:
            check(not waiting.recv(1), 'an answer beyond the places')
        except OSError:
            pass
        second.close()
        server.expect('connection 2 Closed')
        waiting.settimeout(20)
        check(is_answer(read_frame(waiting), ANSWERED[0]), 'another answer to one that waited')
    server.expect('connection 3 NoClose')
    check(first.read() == 5, 'another value')
    first.close()
    server.expect('connection 1 Closed')
    server.end()

def try_descriptors(program: str, nodes: str) -> None:
    """A system that gives no connection: that is told, the others are served, and it is tried again."""
    server = Program(program, nodes, 'all', '--at-once', '4', limit=lambda: resource.setrlimit(resource.RLIMIT_NOFILE, (6, 64)))
    talk = Talk()
    with connect():
        told = server.process.stderr.readline() if server.process.stderr else b''
        check(told == b'ua: cannot listen\n', 'told %r of a system that gives no connection' % told)
        check(talk.read() == 5, 'another value beside a peer that cannot be taken')
        resource.prlimit(server.process.pid, resource.RLIMIT_NOFILE, (64, 64))
        Talk().close()
    talk.close()
    server.stop()

# ---- one after another

def try_connections(program: str, nodes: str) -> None:
    """Whole connections, with others between them that are cut, reset, refused or empty."""
    cuts = WHOLE + [1, 7, 8, 55, 57, 100, 187, 189, 346, 400, 541, 690, 699, 701, 756]
    resets, refused = [0, 10, 56, 188, 300], [(b'HEXF\x38\0\0\0', 0x807E0000), (CLIENT[:188] + b'MSGF\xFF\xFF\xFF\x7F', 0x80800000)]
    server = Program(program, nodes, 2 + 2 * len(cuts) + 2 * len(resets) + 5)
    server.whole(len(CLIENT))
    server.whole(1)
    for length in cuts:
        server.cut(length)
        server.whole(100)
    for length in resets:
        server.reset(length)
        server.whole(57)
    for octets, code in refused:
        # Many octets stand behind those that are refused.
        with connect() as line:
            line.sendall(octets + bytes(20000))
            got = b''
            while not got.endswith(struct.pack('<4sIIi', b'ERRF', 16, code, -1)):
                piece = line.recv(65536)
                check(piece, 'no ERR frame of %08X' % code)
                got += piece
        server.expect_outcome('Refused %08X' % code)
    server.whole(7)
    with connect(), connect():
        pass
    server.expect_outcome('NoClose')
    server.expect_outcome('NoClose')
    server.end()

# A ByteString of so many octets, which is read so often at once, is more than the program may hold.
LARGE, TIMES = 1000000, 64
# A Write of so many null Strings has a MiB, and stores 14 MB.
ROWS, ELEMENTS = 100, 262000

def item(name: str, attribute: int, rest: bytes) -> bytes:
    """An item for an attribute of a node in namespace 1."""
    return b'\x03\x01\0' + struct.pack('<I', len(name)) + name.encode() + struct.pack('<Ii', attribute, -1) + rest

def write_of(talk: Talk, name: str, value: bytes) -> int:
    """The result of a Write of this value to this node."""
    front = WRITE[24:WRITE.find(b'\x03\x01\0\x04\0\0\0Pump')]
    _, _, answer, _ = talk.ask(front.replace(b'\x01\x02\x01\0', b'\x01\x02' + struct.pack('<H', talk.session)) + item(name, 13, b'\x01' + value))
    check(answer[24:28] == b'\x01\0\xA4\x02' and answer[52:56] == struct.pack('<I', 1), 'no WriteResponse with one result')
    return int(struct.unpack('<I', answer[56:60])[0])

def ask_too_much(limited: bool) -> None:
    """Writes a large value and reads it often at once, over a connection that the program ends, or over one on which it gives up a
    response that is larger than it allows itself, and answers the next request."""
    # A HEL that takes answers of any size (OPC 10000-6, 7.1.2.3).
    talk = Talk(limit=0)
    check(write_of(talk, 'Large', b'\x0F' + struct.pack('<I', LARGE) + bytes(LARGE)) == 0, 'no Write of a large value')
    front = READ[24:-25 - 4]
    answered, flag, first, _ = talk.ask(front + struct.pack('<I', TIMES) + TIMES * item('Large', 13, bytes(2) + NULL))
    if not limited:
        check(not answered, 'an answer that takes more memory than there is')
    else:
        # Bad_ResponseTooLarge in an abort chunk (OPC 10000-6, 6.7.3).
        check(flag == 'A' and first[24:28] == struct.pack('<I', 0x80B90000), 'a response that is larger than the server allows')
        first = talk.ask(front + struct.pack('<I', 1) + item('Large', 2, bytes(2) + NULL))[2]
        check(first[24:28] == b'\x01\0\x7A\x02', 'no ReadResponse behind a response that was given up')
    talk.line.close()

def try_memory(program: str) -> None:
    """Want of memory ends a connection alone, where all are served; else the program."""
    def serving(connections: int | str, *words: str) -> Program:
        return Program(program, nodes, connections, *words, limit=lambda: resource.setrlimit(resource.RLIMIT_AS, (64 << 20, 64 << 20)))

    with node_file(PUMP + 'ns=1;s=Large\trw\tLarge\tByteString\t\n') as nodes:
        server = serving('all')
        server.sessions += 1
        ask_too_much(False)
        server.expect_outcome('NoMemory')
        server.whole(len(CLIENT))
        server.stop()
        server = serving(2)
        ask_too_much(False)
        server.end(b'ua: no memory\n')
        for words in (('--answers', '1000000'), ('--standard',)):
            server = serving('all', *words)
            ask_too_much(True)
            server.expect_outcome('NoClose')
            server.stop()

def write_rows(server: Program, rows: list[tuple[int, int]]) -> list[int]:
    """The results of Writes over one connection, each of an array of so many null Strings to the row of this number."""
    talk = Talk()
    results = [write_of(talk, 'Row%d' % row, b'\x8C' + struct.pack('<I', elements) + elements * NULL) for row, elements in rows]
    talk.line.close()
    server.expect_outcome('NoClose')
    return results

def try_kept(program: str) -> None:
    """Values are stored up to the limit of memory that is said, over all connections; a value that takes less gives its room back."""
    with node_file(''.join('ns=1;s=Row%d\trw\tRow\tString[]\t\n' % row for row in range(ROWS))) as nodes:
        server, results = Program(program, nodes, 'all', '--kept'), []
        for first in range(0, ROWS, 25):
            results += write_rows(server, [(row, ELEMENTS) for row in range(first, first + 25)])
        check(results == 4 * [0] + (ROWS - 4) * [0x80030000], 'other results of Writes past the limit')
        results = write_rows(server, [(3, ELEMENTS), (3, 0), (4, ELEMENTS), (3, 1), (5, ELEMENTS)])
        check(results == 4 * [0] + [0x80030000], 'other results where a value gives its room back')
        most = most_memory(server.process.pid)
        check(0 < most < 160000, '%d KiB of memory for 64 MiB of values' % most)
        server.stop()

def main(words: list[str]) -> None:
    if len(words) != 1:
        raise SystemExit(__doc__)
    program = words[0]
    with node_file(PUMP) as nodes:
        try_connections(program, nodes)
        try_memory(program)
        try_kept(program)
        try_descriptors(program, nodes)
        try_places(program, nodes)
        try_many(program, nodes)
    print('try_at_once: as written out')

if __name__ == '__main__':
    main(sys.argv[1:])
