"""Both ends of a connection, for the checks over loopback: the streams that are written out in examples/c/data, a client
that talks to a server, the program as a server, and a server that answers with what it is given."""
from __future__ import annotations

import atexit
import contextlib
import os
import random
import re
import socket
import struct
import subprocess
import sys
import tempfile
import threading
import time
from typing import Any, Callable, Iterator

HOME = '127.0.0.1'
TOP = os.path.dirname(os.path.dirname(os.path.abspath(__file__)))
STREAMS = os.path.join(TOP, 'examples/c/data')
NULL = struct.pack('<i', -1)
# 1970-01-01, the moment of the streams that are written out.
MOMENT = struct.pack('<q', 116444736000000000)
# Behind so many octets of the client no frame is unfinished; within so many a session is made.
WHOLE, SESSION_MADE = [0, 56, 188, 347, 452, 540, 640, 700], 347
# The most octets of a chunk, with its header.
CHUNK = 65535
# The node of the streams that are written out.
PUMP = 'ns=1;s=Pump\trw\tPump\tInt32\t5\n'
MARKS: list[socket.socket] = []
Send = Callable[[socket.socket, bytes], None]

def free_port() -> int:
    """A port that is free, whose number has four digits; no other process takes it by this function as long as this one runs."""
    while True:
        port = random.randrange(4840, 10000)
        mark = socket.socket(socket.AF_UNIX)
        try:
            mark.bind('\0ua-port-%d' % port)
            socket.create_server((HOME, port)).close()
        except OSError:
            mark.close()
        else:
            MARKS.append(mark)
            return port

PORT = free_port()

def check(holds: object, what: str) -> None:
    """Ends the trial where this does not hold."""
    if not holds:
        raise SystemExit('%s: %s' % (os.path.basename(sys.argv[0]).removesuffix('.py'), what))

@contextlib.contextmanager
def node_file(text: str) -> Iterator[str]:
    """The name of a node file of this text, as long as it is used."""
    with tempfile.NamedTemporaryFile('w', suffix='.txt') as nodes:
        nodes.write(text)
        nodes.flush()
        yield nodes.name

def run(program: str, words: list[str]) -> tuple[int, str, str]:
    """The program with these words: its status, and what it prints."""
    done = subprocess.run([program] + words, capture_output=True, timeout=20)
    return done.returncode, done.stdout.decode(), done.stderr.decode()

def told_of(process: int, name: str) -> str:
    """What the system tells of a process; nothing where it ended."""
    try:
        with open('/proc/%d/%s' % (process, name), encoding='ascii') as file:
            return file.read()
    except OSError:
        return ''

def most_memory(process: int) -> int:
    """The most memory that a process held, in KiB; 0 where it ended."""
    found = re.search(r'VmHWM:\s*(\d+) kB', told_of(process, 'status'))
    return int(found.group(1)) if found else 0

# ---- streams

def frames(octets: bytes) -> Iterator[bytes]:
    """The frames of a stream.

    >>> list(frames(b'HELF\\x0a\\0\\0\\0abACKF\\x08\\0\\0\\0'))
    [b'HELF\\n\\x00\\x00\\x00ab', b'ACKF\\x08\\x00\\x00\\x00']
    """
    while octets:
        size = struct.unpack_from('<I', octets, 4)[0]
        yield octets[:size]
        octets = octets[size:]

def written_out(name: str) -> bytes:
    """A stream that is written out, over the port of this process."""
    with open(os.path.join(STREAMS, name), 'rb') as file:
        return file.read().replace(b'4840', b'%d' % PORT)

CLIENT, SERVER = written_out('client.bin'), written_out('server.bin')
SENT, ANSWERED = list(frames(CLIENT)), list(frames(SERVER))
HELLO, OPEN, CREATE, ACTIVATE, WRITE, READ, CLOSE, LEAVE = SENT
ACK, OPENED, CREATED, ACTIVATED, WRITTEN, VALUE, CLOSED = ANSWERED

def frame_of(frame: bytes, channel: int, session: int, from_server: bool = False) -> bytes:
    """A frame that is written out, for a channel and a session of other numbers."""
    made, kind = bytearray(frame), frame[:3]
    if kind in (b'MSG', b'CLO') or from_server and kind == b'OPN':
        struct.pack_into('<I', made, 8, channel)
    if from_server and kind == b'OPN':
        # In front of the token, a moment, the lifetime and a null nonce.
        struct.pack_into('<I', made, len(made) - 24, channel)
    if kind == b'MSG':
        # The SessionId ns=1;i=1 and the AuthenticationToken ns=2;i=1.
        for node in (b'\x01\x01\x01\0', b'\x01\x02\x01\0'):
            place = made.find(node, 24)
            if place >= 0:
                struct.pack_into('<H', made, place + 2, session)
    return bytes(made)

def numbered(of: bytes, number: int, handle: int | None = None) -> bytes:
    """A frame with this sequence number and request id, and in a request or response this handle."""
    frame = bytearray(of)
    struct.pack_into('<II', frame, 16, number, number)
    if handle is not None:
        struct.pack_into('<I', frame, handle, number)
    return bytes(frame)

def chunks(body: bytes, number: int, channel: int = 1, request: int | None = None, size: int = CHUNK) -> list[bytes]:
    """The chunks of a message, numbered from there on.

    >>> [len(it) for it in chunks(bytes(100), 4, size=64)], chunks(b'a', 4)[0][:8]
    ([64, 64, 44], b'MSGF\\x19\\x00\\x00\\x00')
    """
    cut = [body[place:place + size - 24] for place in range(0, len(body), size - 24)]
    return [struct.pack('<4sIIIII', b'MSGC' if place + 1 < len(cut) else b'MSGF', 24 + len(it), channel, 1, number + place, request or number) + it
            for place, it in enumerate(cut)]

def opening(body: bytes) -> bytes:
    """The one chunk of an OPN with this body."""
    policy = b'http://opcfoundation.org/UA/SecurityPolicy#None'
    front = struct.pack('<II', 0, len(policy)) + policy + 2 * NULL + struct.pack('<II', 1, 1)
    return struct.pack('<4sI', b'OPNF', 8 + len(front) + len(body)) + front + body

def is_answer(got: bytes, wanted: bytes) -> bool:
    """Whether octets are those that are wanted, at any moments.

    >>> is_answer(b'a' + bytes(8) + b'b', b'a' + MOMENT + b'b'), is_answer(b'ab', b'ac'), is_answer(b'a', b'ab')
    (True, False, False)
    """
    parts, place = wanted.split(MOMENT), 0
    for part in parts:
        if got[place:place + len(part)] != part:
            return False
        place += len(part) + len(MOMENT)
    return len(got) == len(wanted)

# ---- a client

def connect(port: int = PORT) -> socket.socket:
    line = socket.create_connection((HOME, port))
    line.setsockopt(socket.IPPROTO_TCP, socket.TCP_NODELAY, 1)
    line.settimeout(60)
    return line

def read_all(line: socket.socket) -> bytes:
    """What comes until the other end has closed."""
    out = b''
    while piece := line.recv(65536):
        out += piece
    return out

def read_frame(line: socket.socket) -> bytes:
    """The next frame; nothing where the connection ends."""
    head = line.recv(8, socket.MSG_WAITALL)
    return head + line.recv(struct.unpack_from('<I', head, 4)[0] - 8, socket.MSG_WAITALL) if len(head) == 8 else b''

def drop(line: socket.socket) -> None:
    """Resets a connection."""
    line.setsockopt(socket.SOL_SOCKET, socket.SO_LINGER, struct.pack('ii', 1, 0))
    line.close()

def at_once(line: socket.socket, octets: bytes) -> None:
    line.sendall(octets)

def one_by_one(line: socket.socket, octets: bytes) -> None:
    for place in range(len(octets)):
        line.sendall(octets[place:place + 1])

class Talk:
    """A connection with a session, or without, whose channel and session are learned from what the server answers.

    With `limit` the HEL says of how many octets an answer may be, 0 for any number."""

    def __init__(self, send: Send = at_once, session: bool = True, limit: int | None = None) -> None:
        self.line, self.send, self.channel, self.session, self.number = connect(), send, 0, 0, 2
        hello = HELLO if limit is None else HELLO[:20] + struct.pack('<II', limit, 0) + HELLO[28:]
        got = self.exchange(hello)
        check(is_answer(got, ACK) or limit is not None, 'another answer to HEL')
        got = self.exchange(OPEN)
        self.channel = struct.unpack_from('<I', got, 8)[0]
        self.compare(got, 1)
        if session:
            got = self.exchange(CREATE)
            self.session = struct.unpack_from('<H', got, CREATED.find(b'\x01\x01\x01\0', 24) + 2)[0]
            self.compare(got, 2)
            self.compare(self.exchange(ACTIVATE), 3)
            self.number = 4

    def exchange(self, frame: bytes) -> bytes:
        self.send(self.line, frame_of(frame, self.channel, self.session))
        return read_frame(self.line)

    def compare(self, got: bytes, at: int) -> None:
        check(is_answer(got, frame_of(ANSWERED[at], self.channel, self.session, True)), 'another answer to the message %d' % at)

    def message(self, frame: bytes, value: int | None = None) -> bytes:
        """A Write of a value, a Read or a CLO, by a number of its own."""
        body = frame_of(frame, self.channel, self.session)[24:]
        if value is not None:
            body = body[:-4] + struct.pack('<i', value)
        self.number += 1
        return frame[:4] + chunks(body, self.number - 1, self.channel)[0][4:]

    def ask(self, body: bytes) -> tuple[int, str, bytes, float]:
        """Sends a request, in chunks: the octets of the answer, how it ended, its first frame, and the seconds up to that."""
        for chunk in chunks(body, self.number, self.channel, self.number):
            self.line.sendall(chunk)
            self.number += 1
        start, first = time.monotonic(), read_frame(self.line)
        seconds, answered, frame = time.monotonic() - start, len(first), first
        while frame[3:4] == b'C':
            frame = read_frame(self.line)
            answered += len(frame)
        return answered, frame[3:4].decode(), first, seconds

    def write(self, value: int) -> None:
        self.send(self.line, self.message(WRITE, value))
        check(read_frame(self.line)[24:28] == b'\x01\0\xA4\x02', 'no WriteResponse')

    def read(self) -> int:
        """The value of the node: one result, with a server timestamp, of an Int32, also one with a status and a source timestamp."""
        self.send(self.line, self.message(READ))
        got = read_frame(self.line)
        found = re.search(rb'\x01\0\0\0[\x09-\x0F]\x06(.{4})', got[24:], re.S)
        check(found, 'no Int32 in the answer %s' % got[-48:].hex())
        return struct.unpack('<i', found.group(1))[0] if found else 0

    def close(self) -> None:
        self.send(self.line, self.message(LEAVE))
        check(self.line.recv(1) == b'', 'an answer to a CLO')
        self.line.close()

# ---- the program as a server

class Program:
    """The program as it serves connections."""

    def __init__(self, program: str, nodes: str, connections: int | str, *options: str, limit: Callable[[], Any] | None = None) -> None:
        words = [program, 'serve', nodes, str(PORT), '--connections', str(connections), *options]
        self.process = subprocess.Popen(words, stdout=subprocess.PIPE, stderr=subprocess.PIPE, preexec_fn=limit)
        atexit.register(self.process.kill)
        self.connections = self.sessions = 0
        self.expect('listening %d' % PORT)

    def expect(self, *lines: str) -> None:
        """The next line that the program prints is one of these."""
        line = self.process.stdout.readline().decode() if self.process.stdout else ''
        check(line.rstrip('\n') in lines, '%r in place of %r' % (line, lines))

    def expect_outcome(self, *outcomes: str) -> None:
        """The program tells that the next connection ended in one of these ways."""
        self.connections += 1
        self.expect(*['connection %d %s' % (self.connections, outcome) for outcome in outcomes])

    def streams(self) -> tuple[bytes, bytes]:
        """What is written out of both sides, as of the next connection."""
        given = [(SENT, False), (ANSWERED, True)]
        up, down = (b''.join(frame_of(it, self.connections + 1, self.sessions, side) for it in of) for of, side in given)
        return up, down

    def whole(self, size: int) -> None:
        """A whole connection, whose octets are sent in pieces of this size."""
        self.sessions += 1
        up, down = self.streams()
        with connect() as line:
            for place in range(0, len(up), size):
                line.sendall(up[place:place + size])
            check(is_answer(read_all(line), down), 'another answer to a whole connection')
        self.expect_outcome('Closed')

    def cut(self, length: int) -> None:
        """A connection whose input ends behind so many octets."""
        self.sessions += length >= SESSION_MADE
        up, down = self.streams()
        with connect() as line:
            line.sendall(up[:length])
            line.shutdown(socket.SHUT_WR)
            got = read_all(line)
        check(is_answer(got, down[:len(got)]), 'another answer to a front')
        self.expect_outcome('NoClose' if length in WHOLE else 'Cut')

    def reset(self, length: int) -> None:
        """A connection that is reset behind so many octets."""
        line = connect()
        line.sendall(self.streams()[0][:length])
        drop(line)
        self.expect_outcome('Read', 'Write', 'Cut', 'NoClose')

    def end(self, told: bytes = b'') -> None:
        """The program ends by itself: done, or at a fault that it tells."""
        out, err = self.process.communicate(timeout=20)
        check((out, err, self.process.returncode) == (b'', told, 1 if told else 0), 'another end')

    def stop(self) -> None:
        """The program has not ended, and is stopped."""
        check(self.process.poll() is None, 'an end behind %d connections' % self.connections)
        self.process.terminate()
        self.process.communicate(timeout=20)

# ---- a server that is no program

class Server(threading.Thread):
    """Answers one connection at the port of this process: each frame that comes by the next one of these, then by none."""

    def __init__(self, answers: list[bytes]) -> None:
        super().__init__(daemon=True)
        self.answers, self.got = answers, b''
        self.listener = socket.create_server((HOME, PORT))
        self.start()

    def run(self) -> None:
        line, _ = self.listener.accept()
        with self.listener, line:
            line.settimeout(20)
            for answer in self.answers:
                self.got += read_frame(line)
                line.sendall(answer)
            while frame := read_frame(line):
                self.got += frame
