#!/usr/bin/env python3
"""Tries what goes on while the program `ua` runs: try_live PROGRAM.

PROGRAM is the built program. The node file of `ua serve --live` changes while it is read and written: lines that change,
come, go and stay, lines that do not load, a file that goes away and comes back, one that is renamed over, one that is no
UTF-8, and a node whose type changes; one connection at a time, and several. With `--writes` each value that is stored
has its line, in order and before its response. `ua ask` answers lines that come one by one, reads nodes again and again,
and renews a token of a short lifetime. What is read and printed is compared with what docs/PROGRAM.md says of it; the
status is 1 at the first difference.
"""
from __future__ import annotations

import os
import select
import struct
import subprocess
import sys
import tempfile
import threading
import time

sys.dont_write_bytecode = True
from sockets import ACK, ACTIVATE, ACTIVATED, CLOSE, CLOSED, CREATE, CREATED, HELLO, LEAVE, OPEN, OPENED, PORT, READ, VALUE, WRITE
from sockets import Program, Server, Talk, check, connect, is_answer, node_file, numbered, run

sys.dont_write_bytecode = True
PUMP = 'ns=1;s=Pump\trw\tPump\tInt32\t%d\n'
LEVEL = 'ns=1;s=Level\tr\tLevel\tDouble\t0x%016X\n'
NAME = 'ns=1;s=Name\trw\tName\tString\t%s\n'
# More than the time between two looks at the file, in seconds.
PAUSE = 0.15
UNKNOWN = '80340000'

class Live:
    """A node file, and the server that follows it."""

    def __init__(self, program: str, folder: str, text: str, *options: str) -> None:
        self.program = program
        self.path = os.path.join(folder, 'nodes.txt')
        self.write(text)
        self.served = Program(program, self.path, 'all', '--live', *options)
        self.told: list[str] = []
        threading.Thread(target=self.listen, daemon=True).start()

    def listen(self) -> None:
        """Keeps what standard error tells."""
        for line in self.served.process.stderr or []:
            self.told.append(line.decode().rstrip('\n'))

    def write(self, text: str | bytes) -> None:
        """Puts another file in the place of the node file."""
        octets = text.encode() if isinstance(text, str) else text
        with open(self.path + '.new', 'wb') as file:
            file.write(octets)
        os.rename(self.path + '.new', self.path)

    def change(self, text: str | bytes) -> None:
        """The same, and it is time for another look at it."""
        time.sleep(PAUSE)
        self.write(text)
        time.sleep(PAUSE)

    def ask(self, *words: str) -> str:
        """What `ua` prints where it asks the server."""
        status, out, err = run(self.program, [words[0], str(PORT), *words[1:]])
        check((status, err) == (0, ''), '%r ended with %d and %r' % (words, status, err))
        self.served.expect_outcome('Closed')
        return out

    def reads(self, **wanted: str) -> None:
        """The nodes have these values, or these codes where there is none."""
        out = self.ask('read', *['ns=1;s=' + name for name in wanted])
        got = [line.split(' ', 1)[1] for line in out.splitlines()]
        want = [text if text == UNKNOWN else '00000000 ' + text for text in wanted.values()]
        check(got == want, '%r was read in place of %r' % (got, want))

    def tells(self, *lines: str) -> None:
        """Just these lines were told since the last call."""
        for _ in range(200):
            if len(self.told) >= len(lines):
                break
            time.sleep(0.05)
        told, self.told[:] = list(self.told), []
        check(told == list(lines), '%r was told in place of %r' % (told, lines))

def try_values(live: Live) -> None:
    """Values that change, that a client wrote, that come and that go."""
    live.reads(Pump='Int32 5', Level='Double 0x3ff8000000000000')
    live.change(PUMP % 6 + LEVEL % 0x3FF8000000000000)
    live.reads(Pump='Int32 6', Level='Double 0x3ff8000000000000')
    check(live.ask('write', 'ns=1;s=Pump', 'Int32', '7') == 'ns=1;s=Pump 00000000\n', 'no Write')
    live.change(PUMP % 6 + LEVEL % 0x4000000000000000)
    live.reads(Pump='Int32 7', Level='Double 0x4000000000000000')
    live.change(PUMP % 8 + LEVEL % 0x4000000000000000 + NAME % 'new')
    live.reads(Pump='Int32 8', Level='Double 0x4000000000000000', Name='String new')
    live.change(NAME % 'newer')
    live.reads(Pump='Int32 8', Name='String newer')
    live.change(NAME % 'newer' + PUMP % 8)
    check(live.ask('write', 'ns=1;s=Pump', 'Int32', '9') == 'ns=1;s=Pump 00000000\n', 'no Write')
    live.change(PUMP % 8 + '# a comment\n\n' + NAME % 'newer')
    live.reads(Pump='Int32 9', Name='String newer')
    live.tells()

def try_faults(live: Live) -> None:
    """Files that do not load change nothing, and are told once."""
    live.change(PUMP % 10 + 'ns=1;s=Bad\tr\tBad\tInt32\tx\n')
    for _ in range(3):
        live.reads(Pump='Int32 9', Bad=UNKNOWN)
        time.sleep(PAUSE)
    live.tells('ua: nodes line 2: Value')
    live.change(PUMP % 10 + PUMP % 11)
    live.reads(Pump='Int32 9')
    live.tells('ua: nodes line 2: Duplicate')
    live.change(b'\xFF\n')
    live.reads(Pump='Int32 9')
    live.tells('ua: cannot read %s' % live.path)
    time.sleep(PAUSE)
    os.remove(live.path)
    for _ in range(3):
        time.sleep(PAUSE)
        live.reads(Pump='Int32 9')
    live.tells('ua: cannot read %s' % live.path)
    live.change(PUMP % 12)
    live.reads(Pump='Int32 12', Name='String newer')
    live.change('ns=1;s=Pump\trw\tPump\tString\ttext\n' + NAME % 'last')
    live.reads(Pump='Int32 12', Name='String last')
    live.change('')
    live.reads(Pump='Int32 12', Name='String last')
    live.tells()

def try_open_connection(live: Live) -> None:
    """A connection that stands while the file changes: the next one finds the last change."""
    live.change(PUMP % 20)
    with connect():
        live.change(PUMP % 21)
    live.served.expect_outcome('NoClose')
    live.reads(Pump='Int32 21')
    live.tells()

def try_alone(program: str, folder: str, *options: str) -> None:
    """A connection after the other, with these options."""
    live = Live(program, folder, PUMP % 5 + LEVEL % 0x3FF8000000000000, *options)
    try_values(live)
    try_faults(live)
    try_open_connection(live)
    live.served.stop()

def try_beside(program: str, folder: str) -> None:
    """Two connections that stand while the file changes, and write."""
    live = Live(program, folder, PUMP % 1, '--at-once', '4', '--writes')
    first, second = Talk(), Talk()
    for value in (2, 3, 4):
        live.change(PUMP % value)
        check((first.read(), second.read()) == (value, value), 'another value than that of the file')
        first.write(-value)
        live.served.expect('write ns=1;s=Pump Int32 %d' % -value)
        check(second.read() == -value, 'another value than the one that was written')
    second.close()
    live.served.expect('connection 2 Closed')
    first.close()
    live.served.expect('connection 1 Closed')
    live.tells()
    live.served.stop()

def try_plain(program: str, folder: str) -> None:
    """A file of decimals."""
    live = Live(program, folder, 'ns=1;s=Level\trw\tLevel\tDouble\t1.5\n', '--plain', '--writes')
    live.change('ns=1;s=Level\trw\tLevel\tDouble\t2.5\n')
    check(live.ask('read', 'ns=1;s=Level', '--plain') == 'ns=1;s=Level 00000000 Double 2.5\n', 'another decimal')
    run(program, ['write', str(PORT), 'ns=1;s=Level', 'Double', '0x3fe0000000000000'])
    live.served.expect('write ns=1;s=Level Double 0.5')
    live.served.expect_outcome('Closed')
    live.served.stop()

def is_printed(served: Program) -> bool:
    """Whether something waits to be read of what the program printed."""
    return served.process.stdout is not None and bool(select.select([served.process.stdout], [], [], 0)[0])

def try_writes(program: str, folder: str, *options: str) -> None:
    """Each value that is stored has its line before its response; one that is refused has none."""
    path = os.path.join(folder, 'nodes.txt')
    with open(path, 'w', encoding='utf-8') as file:
        file.write(PUMP % 5 + LEVEL % 0 + NAME % 'old' + 'ns=1;s=All\trw\tAll\tInt16[]\t1,2\n')
    served = Program(program, path, 'all', '--writes', *options)
    talk = Talk()
    check(not is_printed(served), 'a line before a Write')
    for value in (7, 7, -1):
        talk.write(value)
        check(is_printed(served), 'no line before the response')
        served.expect('write ns=1;s=Pump Int32 %d' % value)
    check(talk.read() == -1 and not is_printed(served), 'a line of a Read')
    talk.close()
    served.expect_outcome('Closed')
    for words, line in [(['ns=1;s=Name', 'String', 'a b\\'], 'ns=1;s=Name String a b\\\\'), (['ns=1;s=All', 'Int16[]', '4,-3'], 'ns=1;s=All Int16[] 4,-3')]:
        check(run(program, ['write', str(PORT), *words]) == (0, words[0] + ' 00000000\n', ''), 'no Write of %r' % words)
        served.expect('write ' + line)
        served.expect_outcome('Closed')
    check(run(program, ['write', str(PORT), 'ns=1;s=Pump', 'Int16', '1']) == (0, 'ns=1;s=Pump 80740000\n', ''), 'another end of a Write that is refused')
    served.expect_outcome('Closed')
    served.stop()

def try_closed_output(program: str, folder: str) -> None:
    """Where nobody takes the lines, the server ends at the next one, before its response."""
    path = os.path.join(folder, 'nodes.txt')
    with open(path, 'w', encoding='utf-8') as file:
        file.write(PUMP % 5)
    served = Program(program, path, 'all', '--writes', '--at-once', '2')
    talk = Talk()
    talk.write(6)
    served.expect('write ns=1;s=Pump Int32 6')
    if served.process.stdout:
        served.process.stdout.close()
    talk.line.sendall(talk.message(WRITE, 7))
    check(served.process.wait(timeout=20) == 1, 'another status where the lines are not taken')

def try_standard(program: str, folder: str, *options: str) -> None:
    """Beside the standard's nodes, of which CurrentTime is that of each answer."""
    live = Live(program, folder, PUMP % 1, '--standard', *options)
    before, begun = live.ask('read', 'i=2258'), time.time()
    live.change(PUMP % 2 + 'i=2259\tr\tState\tInt32\t4\n')
    out = live.ask('read', 'i=2258', 'i=2259', 'ns=1;s=Pump').splitlines()
    check(out[1:] == ['i=2259 00000000 Int32 4', 'ns=1;s=Pump 00000000 Int32 2'], '%r was read' % out)
    check(int(before.split()[-1]) < int(out[0].split()[-1]), 'CurrentTime stands still')
    check(begun - 1 < int(out[0].split()[-1]) / 10**7 - 11644473600 < time.time() + 1, 'CurrentTime is %s' % out[0])
    live.tells()
    live.served.stop()

# ---- lines and rounds of `ua ask`

# Where the sequence header of an OPN stands, and from its end the type of a request, the token and its lifetime.
OPN_NUMBERS, KIND, TOKEN, LIFETIME = 71, -16, -20, -8
NODES = PUMP % 5 + 'ns=1;s=Row\trw\tRow\tInt32[]\t10,20,30\ni=2001\tr\tLevel\tFloat\t0xC0D00000\n'

def opening(frame: bytes, number: int, place: int, value: int) -> bytes:
    """An OPN frame with this number, on the channel 1, and with this value at a place."""
    out = bytearray(frame)
    struct.pack_into('<I', out, 8, 1)
    struct.pack_into('<II', out, OPN_NUMBERS, number, number)
    struct.pack_into('<I', out, len(out) + place, value)
    return bytes(out)

def under(frame: bytes, token: int) -> bytes:
    """A frame under another token."""
    return frame[:12] + struct.pack('<I', token) + frame[16:]

class Asking:
    """The program as it answers lines, and what it printed so far."""

    def __init__(self, program: str, *words: str) -> None:
        self.process = subprocess.Popen([program, 'ask', str(PORT), *words], stdin=subprocess.PIPE, stdout=subprocess.PIPE, stderr=subprocess.PIPE)
        self.out = b''

    def read(self, seconds: float) -> bytes:
        """What is printed within so many seconds, up to the end of a line."""
        got, end = b'', time.monotonic() + seconds
        while not got.endswith(b'\n') and select.select([self.process.stdout], [], [], max(0, end - time.monotonic()))[0]:
            piece = os.read(self.process.stdout.fileno(), 4096)
            if not piece:
                break
            got += piece
        return got

    def say(self, line: str, answer: str) -> None:
        """A line is answered like this before the next one is written."""
        self.process.stdin.write(line.encode() + b'\n')
        self.process.stdin.flush()
        got = self.read(20 if answer else 0.2).decode()
        check(got == answer, '%r is answered by %r' % (line, got))

    def end(self, status: int, out: str, err: str) -> None:
        """The input ends; the program prints the rest and ends like this."""
        got, told = self.process.communicate(timeout=20)
        ended = (self.process.returncode, got.decode(), told.decode())
        check(ended == (status, out, err), 'it ended with %r' % (ended,))

def try_lines(program: str, nodes: str) -> None:
    """Lines are answered one by one, in one session, up to the end of the input or a bad line."""
    six, written = 'ns=1;s=Pump 00000000 Int32 6\n', 'ns=1;s=Pump 00000000\n'
    served = Program(program, nodes, 5)
    asking = Asking(program)
    asking.say('# a comment', '')
    asking.say('', '')
    asking.say('read\tns=1;s=Pump', 'ns=1;s=Pump 00000000 Int32 5\n')
    asking.say('write\tns=1;s=Pump\tInt32\t6', written)
    asking.say('renew', '')
    asking.say('read\tns=1;s=Pump\r', six)
    asking.say('read\tns=1;s=Row\t1:2', 'ns=1;s=Row 00000000 Int32[] 20,30\n')
    asking.say('endpoints', 'opc.tcp://localhost:%d 1 http://opcfoundation.org/UA/SecurityPolicy#None\n' % PORT)
    begun = time.monotonic()
    asking.process.stdin.write(b'sleep\t700\n')
    asking.say('read\tns=1;s=Pump', six)
    check(time.monotonic() - begun > 0.6, 'no pause')
    asking.say('write\ti=2001\tFloat\t0x00000000', 'i=2001 803B0000\n')
    asking.end(0, '', '')
    served.expect_outcome('Closed')
    for words, line, status, out, err in [
        (['-', '--strict', '--names'], 'read\ti=9', 3, 'i=9 80340000 BadNodeIdUnknown\n', ''),
        (['--plain', '--json'], 'write\ti=2001\tFloat\t1.5', 0, '{"node":"i=2001","status":"803B0000"}\n', ''),
        (['--why'], 'read\tns=1;s=Pump\nsleep\t0\nread\tns=1;s=Pump', 1, six, 'ua: script line 2\n  because 0\n'),
        ([], 'read\tns=1;s=Pump\nend\nread\tns=1;s=Pump', 1, six, 'ua: script line 2\n'),
    ]:
        asking = Asking(program, *words)
        asking.process.stdin.write(line.encode())
        asking.end(status, out, err)
        served.expect_outcome('Closed')
    served.end()

def try_rounds(program: str, nodes: str) -> None:
    """Nodes are read again and again, and each time is printed as it comes."""
    served = Program(program, nodes, 2)
    line = b'ns=1;s=Pump 00000000 Int32 5\ni=2001 00000000 Float 0xc0d00000\n'
    begun = time.monotonic()
    done = subprocess.run([program, 'ask', str(PORT), 'ns=1;s=Pump', 'i=2001', '--every', '300', '--count', '3'], capture_output=True, timeout=20)
    check((done.returncode, done.stdout, done.stderr) == (0, 3 * line, b''), 'rounds ended with %r' % (done,))
    check(time.monotonic() - begun > 0.5, 'no pauses')
    served.expect_outcome('Closed')
    asking = Asking(program, 'ns=1;s=Pump', '--every', '300')
    for _ in range(3):
        check(asking.read(20) == line[:29], 'a round is not printed as it comes')
    asking.process.kill()
    asking.process.communicate()
    served.expect_outcome('NoClose', 'Read')
    served.end()

def try_lifetimes(program: str) -> None:
    """A token of a short lifetime is renewed before the next request, one of an hour is not."""
    for lifetime, renews in [(2000, True), (3600000, False)]:
        opened = opening(OPENED, 1, LIFETIME, lifetime)
        numbers = range(4, 8) if renews else range(4, 7)
        token = 2 if renews else 1
        reads = [numbers[0], numbers[-2]]
        asked = [HELLO, OPEN, CREATE, ACTIVATE, numbered(READ, reads[0], 40)]
        answers = [ACK, opened, CREATED, ACTIVATED, numbered(VALUE, reads[0], 36)]
        if renews:
            asked.append(opening(OPEN, numbers[1], KIND, 1))
            answers.append(opening(opened, numbers[1], TOKEN, token))
        asked += [under(numbered(frame, number, handle), token)
                  for frame, number, handle in [(READ, reads[1], 40), (CLOSE, numbers[-1], 40), (LEAVE, numbers[-1] + 1, None)]]
        answers += [under(numbered(frame, number, 36), token) for frame, number in [(VALUE, reads[1]), (CLOSED, numbers[-1])]]
        server = Server(answers)
        asking = Asking(program)
        for _ in range(2):
            asking.say('read\tns=1;s=Pump', 'ns=1;s=Pump 00000000 Int32 6\n')
            time.sleep(1.6)
        asking.end(0, '', '')
        server.join(20)
        check(is_answer(server.got, b''.join(asked)), 'other requests where a token has %d ms' % lifetime)

def main(words: list[str]) -> None:
    if len(words) != 1:
        raise SystemExit(__doc__)
    program = os.path.abspath(words[0])
    with tempfile.TemporaryDirectory() as folder:
        try_alone(program, folder)
        try_alone(program, folder, '--at-once', '3', '--answers', '100000')
        try_beside(program, folder)
        try_plain(program, folder)
        try_writes(program, folder)
        try_writes(program, folder, '--at-once', '2', '--standard', '--answers', '100000')
        try_closed_output(program, folder)
        try_standard(program, folder)
        try_standard(program, folder, '--at-once', '2')
    with node_file(NODES) as nodes:
        try_lines(program, nodes)
        try_rounds(program, nodes)
    try_lifetimes(program)
    print('try_live: all as docs/PROGRAM.md says')

if __name__ == '__main__':
    main(sys.argv[1:])
