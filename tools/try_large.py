#!/usr/bin/env python3
"""Sends the program `ua` the requests and messages that cost it most memory, and the longest texts: try_large PROGRAM [MEGABYTES],
try_large --bound PROGRAM or try_large --long PROGRAM.

PROGRAM is the built program. Each request has a run of `serve` of its own; printed is what came of it: how many octets were
sent and answered, how the answer ended (F: whole, A: an abort), the most memory that the program held, the seconds up to the
first octet of the answer, and how the program said that the connection ended. With MEGABYTES the program may take no more
memory than these (`ulimit -v`). After them `dissect` and `dissect --fields` get messages of the most octets that they take.

With --bound only those requests of which no value is to be kept, and whose answers are small, and messages of every kind for
`dissect`, of as many octets, and for `dissect --fields`, without and with `--plain`, of the most octets whose fields are
printed: the status is 1 where one of them is answered in another way, or where the program held more than 8 MB, or with
`--fields` more than 64 MB. For a request it may reserve 64 MB, less than it would for as many items as one claims.

With --long texts and bytes of more than 24,576 bytes, which are printed in pieces, and of the lengths about them, are put into
the fields of messages, and each line of `dissect --fields` is compared with the text by the rules of docs/PROGRAM.md.
"""
from __future__ import annotations

import contextlib
import fcntl
import os
import resource
import select
import struct
import subprocess
import sys
import termios
import threading
import time
from array import array as array_of
from typing import IO, Iterable

sys.dont_write_bytecode = True
from fuzz_texts import Style, base64_text, escaped, told
from sockets import NULL, Program, Talk, chunks, most_memory, node_file, opening

# Nodes that 2 octets name.
TEXT, NUMBER = 1, 2
# What begins a message that opens a channel, and the answer to it.
OPEN_REQUEST, OPEN_RESPONSE = b'\x01\0\xBE\x01', b'\x01\0\xC1\x01'

def header(session: bool) -> bytes:
    """The RequestHeader of the first session, or of none."""
    token = b'\x01\x02\x01\0' if session else b'\0\0'
    return token + bytes(8) + struct.pack('<II', 1, 0) + NULL + bytes(4) + bytes(3)

def item(node: int, rest: bytes) -> bytes:
    """An item for the Value of the node, the whole of it."""
    return bytes([0, node]) + struct.pack('<I', 13) + NULL + rest

# What begins a message of each kind.
READ = b'\x01\0\x77\x02' + header(False) + bytes(8) + struct.pack('<I', 2)
WRITE = b'\x01\0\xA1\x02' + header(False)
RESPONSE = bytes(8) + struct.pack('<I', 1) + bytes(5) + NULL + bytes(3)
ONE_VALUE = b'\x01\0\x7A\x02' + RESPONSE + struct.pack('<I', 1) + b'\x01'
# An endpoint with null fields: up to its discovery URLs, and behind them.
ENDPOINT = 3 * NULL + b'\0' + bytes(4) + 2 * NULL
APPLIED, APPLICATION = NULL + bytes(4) + 3 * NULL + b'\0', ENDPOINT[4:] + NULL
# Up to the type of an identity token.
TOKEN = b'\x01\0\xD3\x01' + header(False) + 4 * NULL + b'\1\0'
# A name, the option of the side that sends the message, and its octets before an array, after it, of an element, and of the
# first one where that is another.
PRINTED = [
    ('ReadResponse of empty DataValues', '--server', b'\x01\0\x7A\x02' + RESPONSE, NULL, b'\0'),
    ('ReadResponse of DataValues of an Int32', '--server', b'\x01\0\x7A\x02' + RESPONSE, NULL, b'\1\6' + bytes(4)),
    ('ReadResponse of empty DiagnosticInfos', '--server', b'\x01\0\x7A\x02' + RESPONSE + NULL, b'', b'\0'),
    ('Read of items', '', READ, b'', item(TEXT, bytes(2) + NULL)), ('Write of items without a value', '', WRITE, b'', item(TEXT, b'\0')),
    ('ReadResponse with a StringTable of null Strings', '--server', b'\x01\0\x7A\x02' + RESPONSE[:17], bytes(3) + 2 * NULL, NULL),
    ('WriteResponse of StatusCodes', '--server', b'\x01\0\xA4\x02' + RESPONSE, NULL, bytes(4)),
    ('WriteResponse of empty DiagnosticInfos', '--server', b'\x01\0\xA4\x02' + RESPONSE + NULL, b'', b'\0'),
    ('GetEndpointsRequest of null locale ids', '', b'\x01\0\xAC\x01' + header(False) + NULL, NULL, NULL),
    ('ActivateSessionRequest of null locale ids', '', b'\x01\0\xD3\x01' + header(False) + 3 * NULL, bytes(3) + 2 * NULL, NULL),
    ('CreateSessionResponse of null certificates', '--server', b'\x01\0\xD0\x01' + RESPONSE + bytes(12) + 3 * NULL, 2 * NULL + bytes(4), 2 * NULL),
    ('GetEndpointsResponse of endpoints', '--server', b'\x01\0\xAF\x01' + RESPONSE, b'', ENDPOINT + NULL + APPLIED),
    ('GetEndpointsResponse of token policies', '--server', b'\x01\0\xAF\x01' + RESPONSE + b'\1\0\0\0' + ENDPOINT + NULL + APPLIED[:12], APPLIED[16:], NULL + bytes(4) + 3 * NULL),
    ('GetEndpointsResponse of null discovery URLs', '--server', b'\x01\0\xAF\x01' + RESPONSE + b'\1\0\0\0' + ENDPOINT, APPLIED, NULL),
    ('CreateSessionRequest of null discovery URLs', '', b'\x01\0\xCD\x01' + header(False) + ENDPOINT[4:], 5 * NULL + bytes(12), NULL),
]
# The same of one value: an array, by its type id and element, or one of one array that holds others; and a text.
VALUES = [
    ('Booleans', 1, b'\1'), ('SBytes', 2, b'\1'), ('Bytes', 3, b'\1'), ('Int16s', 4, bytes(2)), ('UInt16s', 5, bytes(2)), ('Int32s', 6, bytes(4)),
    ('UInt32s', 7, bytes(4)), ('Int64s', 8, bytes(8)), ('UInt64s', 9, bytes(8)), ('Floats', 10, bytes(4)), ('Doubles', 11, bytes(8)),
    ('null Strings', 12, NULL), ('DateTimes', 13, bytes(8)), ('Guids', 14, bytes(16)), ('null ByteStrings', 15, NULL), ('null XmlElements', 16, NULL),
    ('null NodeIds', 17, bytes(2)), ('null ExpandedNodeIds', 18, bytes(2)), ('StatusCodes', 19, bytes(4)), ('QualifiedNames', 20, bytes(2) + NULL),
    ('LocalizedTexts', 21, b'\0'), ('ExtensionObjects', 22, bytes(3)), ('empty DataValues', 23, b'\0'), ('null Variants', 24, b'\0'),
    ('Variants of a Boolean', 24, b'\1\1'), ('empty DiagnosticInfos', 25, b'\0'), ('null reserved values', 26, NULL),
]
ONE_VARIANT = b'\x98\1\0\0\0'
ONE_DATA_VALUE = b'\x97\1\0\0\0\1'
NESTED = [
    ('one Variant of null Variants', ONE_VARIANT + b'\x98', b'\0'), ('one Variant of null Variants, 90 deep', 89 * ONE_VARIANT + b'\x98', b'\0'),
    ('one Variant of Doubles', ONE_VARIANT + b'\x8B', bytes(8)), ('one DataValue of null Strings', ONE_DATA_VALUE + b'\x8C', NULL),
    ('one DataValue of empty DataValues, 40 deep', 39 * ONE_DATA_VALUE + b'\x97', b'\0'),
    ('one Variant of null reserved values', ONE_VARIANT + b'\x9A', NULL), ('one String', b'\x8C\1\0\0\0', b'a'),
    ('one String that prints escaped', b'\x8C\1\0\0\0', b'\1'), ('one ByteString', b'\x8F\1\0\0\0', b'a'),
    ('one Variant of a String', ONE_VARIANT + b'\x0C', b'a'), ('one ExtensionObject', b'\x96\1\0\0\0' + bytes(2) + b'\1', b'a'),
]
TEXTS = [
    ('a String', b'\x0C', b'a'), ('a String that prints escaped', b'\x0C', b'\1'), ('a ByteString', b'\x0F', b'a'),
    ('an ExtensionObject', b'\x16' + bytes(2) + b'\1', b'a'), ('a LocalizedText', b'\x15\2', b'a'), ('a NodeId of bytes', b'\x11\5\0\0', b'a'),
    ('an ExpandedNodeId of a text that prints escaped', b'\x12\3\0\0', b'\1'), ('a DiagnosticInfo that prints escaped', b'\x19\x10', b'\1'),
]
PRINTED += [
    *[('ReadResponse of an array of %s' % name, '--server', ONE_VALUE + bytes([0x80 + kind]), NULL, one) for name, kind, one in VALUES],
    *[('ReadResponse of an array of %s' % name, '--server', ONE_VALUE + front, NULL, one) for name, front, one in NESTED],
    *[('ReadResponse of %s' % name, '--server', ONE_VALUE + front, NULL, one) for name, front, one in TEXTS],
]
# The same of an array without elements, of so many dimensions: the first is 0, the others are long.
PRINTED += [('ReadResponse of an array of dimensions', '--server', ONE_VALUE + b'\xC6' + bytes(4), NULL, struct.pack('<i', 2147483647), bytes(4))]
# The same of the other kinds of message, and of fields whose text `dissect --fields` prints in pieces.
LONG = [
    ('header of no known kind with a StringTable', '--server', b'\x01\0\x12\x02' + RESPONSE[:17], bytes(3), NULL),
    ('body of no known kind', '--server', b'\x01\0\xFF\xFF', b'', b'\0'),
    ('CreateSessionRequest of a session name', '', b'\x01\0\xCD\x01' + header(False) + APPLICATION + 2 * NULL, 2 * NULL + bytes(12), b'a'),
    ('CreateSessionRequest of an application name that prints escaped', '', b'\x01\0\xCD\x01' + header(False) + 2 * NULL + b'\2', APPLICATION[9:] + 5 * NULL + bytes(12), b'\1'),
    ('CreateSessionRequest of an application name', '', b'\x01\0\xCD\x01' + header(False) + 2 * NULL + b'\2', APPLICATION[9:] + 5 * NULL + bytes(12), b'a'),
    ('CreateSessionResponse of endpoints', '--server', b'\x01\0\xD0\x01' + RESPONSE + bytes(12) + 2 * NULL, 3 * NULL + bytes(4), ENDPOINT + NULL + APPLIED),
    ('ActivateSessionRequest of null certificates', '', b'\x01\0\xD3\x01' + header(False) + 2 * NULL, NULL + bytes(3) + 2 * NULL, 2 * NULL),
    ('ActivateSessionRequest of an identity', '', b'\x01\0\xD3\x01' + header(False) + 4 * NULL + b'\0\0\1', 2 * NULL, b'a'),
    ('ActivateSessionResponse of StatusCodes', '--server', b'\x01\0\xD6\x01' + RESPONSE + NULL, NULL, bytes(4)),
    ('ActivateSessionResponse of empty DiagnosticInfos', '--server', b'\x01\0\xD6\x01' + RESPONSE + 2 * NULL, b'', b'\0'),
    ('CloseSessionRequest of an audit entry', '', b'\x01\0\xD9\x01' + header(False)[:-11], bytes(7) + b'\1', b'a'),
    ('CloseSessionResponse with a StringTable of null Strings', '--server', b'\x01\0\xDC\x01' + RESPONSE[:17], bytes(3), NULL),
    ('ServiceFault with a StringTable of null Strings', '--server', b'\x01\0\x8D\x01' + RESPONSE[:17], bytes(3), NULL),
    ('ServiceFault of an additional header', '--server', b'\x01\0\x8D\x01' + RESPONSE[:-1] + b'\1', b'', b'a'),
    ('Read of a NodeId', '', READ + b'\1\0\0\0\3\0\0', b'\x0D\0\0\0' + NULL + bytes(2) + NULL, b'a'),
    ('Read of a NodeId of bytes', '', READ + b'\1\0\0\0\5\0\0', b'\x0D\0\0\0' + NULL + bytes(2) + NULL, b'a'),
    ('Read of an index range that prints escaped', '', READ + b'\1\0\0\0\0\1\x0D\0\0\0', bytes(2) + NULL, b'\1'),
    ('Read of a name that prints escaped', '', READ + b'\1\0\0\0\0\1\x0D\0\0\0' + NULL + bytes(2), b'', b'\1'),
    ('Read of a name', '', READ + b'\1\0\0\0\0\1\x0D\0\0\0' + NULL + bytes(2), b'', b'a'),
    ('CreateSessionRequest of a nonce', '', b'\x01\0\xCD\x01' + header(False) + APPLICATION + 3 * NULL, NULL + bytes(12), b'a'),
    ('ReadResponse of a DiagnosticInfo that prints escaped', '--server', b'\x01\0\x7A\x02' + RESPONSE + NULL + b'\1\0\0\0\x10', b'', b'\1'),
    ('ReadResponse of a DiagnosticInfo', '--server', b'\x01\0\x7A\x02' + RESPONSE + NULL + b'\1\0\0\0\x10', b'', b'a'),
    ('ReadResponse that is cut off, with a StringTable', '--server', b'\x01\0\x7A\x02' + RESPONSE[:17], bytes(3), NULL),
    ('OpenSecureChannelRequest of a nonce', '', OPEN_REQUEST + header(False) + bytes(12), bytes(4), b'a'),
    ('OpenSecureChannelResponse of a nonce', '--server', OPEN_RESPONSE + RESPONSE + bytes(24), b'', b'a'),
    ('OpenSecureChannelResponse with a StringTable of null Strings', '--server', OPEN_RESPONSE + RESPONSE[:17], bytes(27) + NULL, NULL),
    ('Write of an array of null Variants', '', WRITE + b'\1\0\0\0' + item(TEXT, b'\1\x98'), b'', b'\0'),
]
# The same of an identity token, with what comes before its text and behind it in the body of its ExtensionObject.
LONG += [
    ('ActivateSessionRequest of the name of a user', '', TOKEN + b'\x44\x01\1', 2 * NULL, b'\1', b'', NULL, 2 * NULL),
    ('ActivateSessionRequest of the password of a user', '', TOKEN + b'\x44\x01\1', 2 * NULL, b'a', b'', 2 * NULL, NULL),
    ('ActivateSessionRequest of a certificate', '', TOKEN + b'\x47\x01\1', 2 * NULL, b'a', b'', NULL, b''),
    ('ActivateSessionRequest of a token and a byte', '', TOKEN + b'\x47\x01\1', 2 * NULL, b'a', b'', NULL, b'\0'),
]

# ---- requests and what is dissected

# The most memory, in KiB, that a request of which nothing is to be kept may take: it takes 3,700 to 4,200, and 18,000
# to 117,000 where each value is read whole and dropped.
BOUND = 8192
# The most octets of a body whose fields are printed, and the most memory, in KiB, that one may take.
MOST_FIELDS = 131072
FIELDS_BOUND = 65536
# The most megabytes that a run may reserve for such a request: a count alone would claim more.
RESERVED = 64
NODES = 'i=1\trw\tText\tString\tempty\ni=2\trw\tNumber\tInt32\t0\n'
MOST = 1048576
# The most octets of a message that the dissector takes.
MOST_DISSECTED = 16777216

def read(session: bool, count: int) -> bytes:
    items = struct.pack('<I', count) + count * item(TEXT, bytes(2) + NULL)
    return b'\x01\0\x77\x02' + header(session) + bytes(8) + struct.pack('<I', 2) + items

def write(session: bool, node: int, value: bytes) -> bytes:
    """A Write of this Variant to the node."""
    return b'\x01\0\xA1\x02' + header(session) + struct.pack('<I', 1) + item(node, b'\x01' + value)

def claim() -> bytes:
    """A Write that claims as many items as there are bytes behind its count, none of which can be decoded."""
    front = b'\x01\0\xA1\x02' + header(False)
    count = MOST - len(front) - 4
    return front + struct.pack('<I', count) + count * b'\xFF'

def text(octets: int) -> bytes:
    return b'\x0C' + struct.pack('<I', octets) + octets * b'a'

def array(session: bool, kind: int, element: bytes) -> bytes:
    """A Write of an array, to a node of another type, of so many of these elements that the body has the most octets."""
    front = write(session, NUMBER, struct.pack('<BI', 0x80 + kind, 0))
    count = (MOST - len(front)) // len(element)
    return write(session, NUMBER, struct.pack('<BI', 0x80 + kind, count) + count * element)

def items(front: bytes, rest: bytes, one: bytes, most: int = MOST, first: bytes = b'') -> bytes:
    """A message of as many of these items as the most octets hold, the first of which may be another one."""
    count = (most - len(front) - len(rest) - 4) // len(one)
    return front + struct.pack('<I', count) + (first or one) + (count - 1) * one + rest

def within(front: bytes, rest: bytes, one: bytes, before: bytes, behind: bytes, most: int) -> bytes:
    """The same in a body of bytes that has its length ahead."""
    body = items(before, behind, one, most - len(front) - len(rest) - 4)
    return front + struct.pack('<I', len(body)) + body + rest

# Arrays whose elements take most memory where they are kept, with their type id and an element.
ARRAYS = [
    ('null Variants', 24, b'\0'), ('empty DataValues', 23, b'\0'), ('empty DiagnosticInfos', 25, b'\0'), ('Variants of a Boolean', 24, b'\x01\x01'),
    ('DataValues of a null Variant', 23, b'\x01\0'), ('DataValues of a Boolean', 23, b'\x01\x01\x01'),
    ('DiagnosticInfos around an empty one', 25, b'\x40\0'), ('DiagnosticInfos in chains of 90', 25, 89 * b'\x40' + b'\0'),
    ('DataValues in chains of 40', 23, 39 * b'\x01\x17' + b'\0'), ('null Strings', 12, NULL), ('null NodeIds', 17, bytes(2)),
]
# A name, the limit of messages in the HEL, what the text node is set to in a session before (b'' for a session and no
# more, None for no session), and the request.
THINNED = [
    *[('Write of %s, no session' % name, MOST, None, array(False, kind, element)) for name, kind, element in ARRAYS],
    *[('Write of %s to an Int32, in a session' % name, MOST, b'', array(True, kind, element)) for name, kind, element in ARRAYS],
    ('Write that claims as many items as there are bytes, no session', MOST, None, claim()),
]
REQUESTS = [
    ('Read of 1 MB 1000 times, no limit', 0, text(1000000), read(True, 1000)),
    ('Read of 1 MB 100 times, limit 1048576', MOST, text(1000000), read(True, 100)), *THINNED,
    ('Write of items without a value, no session', MOST, None, items(b'\x01\0\xA1\x02' + header(False), b'', item(TEXT, b'\0'))),
    ('Read of items, no session', MOST, None, items(b'\x01\0\x77\x02' + header(False) + bytes(8) + struct.pack('<I', 2), b'', item(TEXT, bytes(2) + NULL))),
]

def limit_of(megabytes: int):
    """What limits a run of the program to so many megabytes, if any."""
    return (lambda: resource.setrlimit(resource.RLIMIT_AS, (megabytes << 20, megabytes << 20))) if megabytes else None

def attempt(program: str, nodes: str, megabytes: int, request: tuple) -> tuple[str, int]:
    """Sends a request to a run of the program: how its answer ended, and the most memory that the program held."""
    name, limit, value, body = request
    served = Program(program, nodes, 1, limit=limit_of(megabytes))
    talk = Talk(session=value is not None, limit=limit)
    try:
        if value:
            talk.ask(write(True, TEXT, value))
        answered, flag, _, first = talk.ask(body)
    except OSError:
        answered, flag, first = 0, '', 0.0
    memory = most_memory(served.process.pid)
    talk.line.close()
    out, err = served.process.communicate(timeout=300)
    print('%s: %d octets, answered by %d (%s), %s, %.2f s, %s'
          % (name, len(body), answered, flag or 'none', '%d kB' % memory if memory else 'ended', first, (out + err).decode().strip()), flush=True)
    return flag, memory

def framed(body: bytes) -> bytes:
    """The chunks of a message."""
    return opening(body) if body.startswith((OPEN_REQUEST, OPEN_RESPONSE)) else b''.join(chunks(body, 1))

def is_waiting(process: int, line: IO[bytes]) -> bool:
    """Whether a process has taken all octets of this line into it, and waits for more."""
    left = array_of('i', [0])
    fcntl.ioctl(line, termios.FIONREAD, left)
    with open('/proc/%d/stat' % process, encoding='ascii') as file:
        return left[0] == 0 and file.read().rsplit(')', 1)[1].split()[0] == 'S'

def send(line: IO[bytes], octets: bytes) -> None:
    """Gives a process these octets, or as many as it takes before it ends."""
    with contextlib.suppress(BrokenPipeError):
        line.write(octets)

def dissect(program: str, megabytes: int, message: tuple, most: int, options: list[str]) -> tuple[bytes, int]:
    """Gives a run of `dissect` a message of so many octets: the last line that it printed, or that it read no message, and the
    most memory that it held, once it has taken all of it."""
    name, side, front, rest, one, *others = message
    # An OPN is one chunk, which has no more octets than a message.
    room = most - len(opening(b'')) * front.startswith((OPEN_REQUEST, OPEN_RESPONSE))
    body = within(front, rest, one, *others[1:], room) if len(others) > 1 else items(front, rest, one, room, *others)
    start, printed, memory, end = time.monotonic(), 0, 0, b''
    told = subprocess.Popen([program, 'dissect', '-', *options, *([side] if side else [])], bufsize=0, stdin=subprocess.PIPE,
                            stdout=subprocess.PIPE, stderr=subprocess.STDOUT, preexec_fn=limit_of(megabytes))
    sender = threading.Thread(target=send, args=(told.stdin, framed(body)))
    sender.start()
    while True:
        if select.select([told.stdout], [], [], 0.01)[0]:
            part = os.read(told.stdout.fileno(), 65536)
            if not part:
                break
            printed, end = printed + len(part), (end + part)[-200:]
        elif not sender.is_alive() and not told.stdin.closed and is_waiting(told.pid, told.stdin):
            memory = most_memory(told.pid) or 0
            told.stdin.close()
    told.wait()
    last = b'unreadable' if b' unreadable\n' in end else end.rstrip(b'\n').rsplit(b'\n', 1)[-1]
    print('%s: %d octets, %d printed, %d kB, %.2f s, %s'
          % (' '.join(['dissect', *options, name]), len(body), printed, memory, time.monotonic() - start, last.decode()), flush=True)
    return last, memory

def dissections() -> list[tuple[tuple, list[str]]]:
    """The messages that are dissected, each without its fields, with them, and with them as people write them."""
    return [(it, options) for options in ([], ['--fields'], ['--fields', '--plain']) for it in [*PRINTED, *LONG]]

# ---- long texts

sys.dont_write_bytecode = True
# The bytes of a piece.
PIECE = 24576
LENGTHS = [100, PIECE - 1, PIECE, PIECE + 1, 2 * PIECE - 1, 2 * PIECE, 2 * PIECE + 1, 3 * PIECE + 2, 200000]
# Characters of one to four bytes, among them control characters, a backslash and a carriage return.
CHARACTERS = ''.join(chr(code) for code in [*range(128), 0x80, 0x85, 0x9F, 0xA0, 0xE9, 0x20AC, 0x2028, 0x1F600])

def text_of(size: int) -> str:
    """A text of so many bytes."""
    rounds = CHARACTERS * (size // len(CHARACTERS.encode()) + 1)
    front = rounds.encode()[:size].decode(errors='ignore')
    return front + 'x' * (size - len(front.encode()))

def octets_of(size: int) -> bytes:
    """So many bytes."""
    return bytes(place * 7 % 251 for place in range(size))

def bytes_of(octets: bytes) -> bytes:
    """A String or a ByteString."""
    return struct.pack('<I', len(octets)) + octets

def trials(size: int) -> Iterable[tuple[str, bytes, str, str]]:
    """The side, a body, the path of a field and its text, for a text or bytes of this length."""
    text, octets = text_of(size), octets_of(size)
    item = struct.pack('<I', 13) + NULL + bytes(2) + NULL
    yield '', b'\x01\0\xAC\x01' + header(False) + bytes_of(text.encode()) + 2 * NULL, 'endpoint_url', told(text)
    yield ('', b'\x01\0\xCD\x01' + header(False) + APPLICATION + 3 * NULL + bytes_of(octets) + NULL + bytes(12), 'client_nonce',
           base64_text(octets))
    yield '', READ + b'\1\0\0\0\3\7\0' + bytes_of(text.encode()) + item, 'nodes_to_read[0].node_id', 'ns=7;s=' + told(text)
    yield '', READ + b'\1\0\0\0\5\0\0' + bytes_of(octets) + item, 'nodes_to_read[0].node_id', 'b=' + base64_text(octets)
    yield '--server', OPEN_RESPONSE + RESPONSE + bytes(24) + bytes_of(octets), 'server_nonce', base64_text(octets)
    name = b'\7\0' + bytes_of(text.encode())
    yield '', READ + b'\1\0\0\0\0\1' + item[:-6] + name, 'nodes_to_read[0].data_encoding', '0x' + name.hex()
    localized = b'\2' + bytes_of(text.encode())
    yield ('', b'\x01\0\xCD\x01' + header(False) + 2 * NULL + localized + APPLICATION[9:] + 5 * NULL + bytes(12),
           'client_description.application_name', '0x' + localized.hex())
    diagnostic = b'\x10' + bytes_of(text.encode())
    yield '--server', b'\x01\0\x7A\x02' + RESPONSE + NULL + b'\1\0\0\0' + diagnostic, 'diagnostic_infos[0]', '0x' + diagnostic.hex()
    thing = b'\0\x07\1' + bytes_of(octets)
    yield '--server', b'\x01\0\x8D\x01' + RESPONSE[:-3] + thing, 'response_header.additional_header', '0x' + thing.hex()

def plain_trials(size: int) -> Iterable[tuple[str, bytes, str, str]]:
    """The same with --plain."""
    text, octets = text_of(size), octets_of(size)
    item = struct.pack('<I', 13) + NULL
    info = '{ additional_info (%s)' % escaped(text, Style(), ',(){}')
    yield '', READ + b'\1\0\0\0\0\1' + item + b'\7\0' + bytes_of(text.encode()), 'nodes_to_read[0].data_encoding', '7:' + escaped(text, Style())
    front, behind = b'\x01\0\xCD\x01' + header(False) + 2 * NULL, APPLICATION[9:] + 5 * NULL + bytes(12)
    path = 'client_description.application_name'
    yield '', front + b'\2' + bytes_of(text.encode()) + behind, path, escaped(text, Style(), '|')
    yield '', front + b'\3' + bytes_of(text.encode()) + bytes_of(b'x') + behind, path, escaped(text, Style(), '|') + '|x'
    answer = b'\x01\0\x7A\x02' + RESPONSE + NULL + b'\1\0\0\0'
    yield '--server', answer + b'\x10' + bytes_of(text.encode()), 'diagnostic_infos[0]', info + ' }'
    yield ('--server', answer + b'\x51' + struct.pack('<i', -5) + bytes_of(text.encode()) + b'\x20' + struct.pack('<I', 0x80340000),
           'diagnostic_infos[0]', info.replace('{', '{ symbolic_id -5', 1) + ' inner { inner_status_code 0x80340000 } }')
    thing = b'\0\x07\1' + bytes_of(octets)
    yield '--server', b'\x01\0\x8D\x01' + RESPONSE[:-3] + thing, 'response_header.additional_header', '0x' + thing.hex()
    for number, body, name, shown in [
        (324, NULL + bytes_of(text.encode()) + 2 * NULL, 'user_name', told(text)),
        (324, 2 * NULL + bytes_of(octets) + NULL, 'password', base64_text(octets)),
        (327, NULL + bytes_of(octets), 'certificate_data', base64_text(octets)),
        (940, 2 * NULL + bytes_of(text.encode()), 'encryption_algorithm', told(text)),
    ]:
        token = b'\1\0' + struct.pack('<H', number) + b'\1' + bytes_of(body)
        yield ('', b'\x01\0\xD3\x01' + header(False) + 4 * NULL + token + 2 * NULL, 'user_identity_token.' + name, shown)
    broken = b'\1\0\x47\1\1' + bytes_of(NULL + bytes_of(octets) + b'\0')
    yield '', b'\x01\0\xD3\x01' + header(False) + 4 * NULL + broken + 2 * NULL, 'user_identity_token', '0x' + broken.hex()
    for value, shown in [
        (b'\x11\5\0\0' + bytes_of(octets), 'NodeId b=' + base64_text(octets)),
        (b'\x11\3\7\0' + bytes_of(text.encode()), 'NodeId ns=7;s=' + escaped(text, Style())),
        (b'\x12\x83\0\0' + bytes_of(text.encode()) + bytes_of(b'u;v'), 'ExpandedNodeId nsu=u\\x3bv;s=' + escaped(text, Style())),
        (b'\x91\1\0\0\0\5\0\0' + bytes_of(octets), 'NodeId[] b=' + base64_text(octets)),
        (b'\x91\1\0\0\0\3\0\0' + bytes_of(text.encode()), 'NodeId[] s=' + escaped(text, Style(), ',(){}')),
        (b'\x99\1\0\0\0\x10' + bytes_of(text.encode()), 'DiagnosticInfo[] ' + info + ' }'),
        (b'\xC6' + bytes(4) + struct.pack('<I', size) + bytes(4) + (size - 1) * struct.pack('<i', 2147483647), 'Int32[0]' + (size - 1) * '[2147483647]' + ' '),
    ]:
        yield '--server', b'\x01\0\x7A\x02' + RESPONSE + b'\1\0\0\0\1' + value + NULL, 'results[0].value', shown

def line_of(program: str, options: list[str], side: str, body: bytes, path: str) -> str | None:
    """The text of a field, as the program prints it, or nothing where it is not printed once."""
    words = [program, 'dissect', '-', '--fields', *options, *([side] if side else [])]
    out = subprocess.run(words, input=framed(body), stdout=subprocess.PIPE, check=False).stdout.decode()
    found = [line.lstrip(' ').removeprefix(path + ' ') for line in out.split('\n') if line.lstrip(' ').startswith(path + ' ')]
    return found[0] if len(found) == 1 and out.split('\n')[-2].startswith('end ') else None

def hold_bound(program: str, nodes: str) -> None:
    """Sends the requests of which nothing is to be kept, and dissects messages of each kind."""
    for request in THINNED:
        flag, memory = attempt(program, nodes, RESERVED, request)
        if flag != 'F' or not 0 < memory <= BOUND:
            raise SystemExit('try_large: %s: not answered whole within %d kB, and %d MB reserved' % (request[0], BOUND, RESERVED))
    for message, options in dissections():
        most, bound = (MOST_FIELDS, FIELDS_BOUND) if options else (MOST, BOUND)
        last, memory = dissect(program, 0, message, most, options)
        if not last.startswith(b'unreadable' if 'cut off' in message[0] else b'end ') or not 0 < memory <= bound:
            raise SystemExit('try_large: %s: not printed whole within %d kB' % (message[0], bound))
    print('try_large: %d requests and %d messages within the bounds' % (len(THINNED), len(dissections())))

def try_long(program: str) -> None:
    tried = [(size, ['--largest', str(MOST), *options], *it) for size in LENGTHS for options, their in (([], trials), (['--plain'], plain_trials)) for it in their(size)]
    wrong = [(size, path) for size, options, side, body, path, text in tried if line_of(program, options, side, body, path) != text]
    for size, path in wrong:
        print('try_large: %s of %d bytes: another line' % (path, size))
    if wrong:
        raise SystemExit(1)
    print('try_large: %d long lines as they should be' % len(tried))

def main(words: list[str]) -> None:
    options, given = [it for it in words if it.startswith('--')], [it for it in words if not it.startswith('--')]
    if options not in ([], ['--bound'], ['--long']) or not 1 <= len(given) <= 2 - len(options):
        raise SystemExit(__doc__)
    if options == ['--long']:
        return try_long(given[0])
    with node_file(NODES) as nodes:
        if options:
            return hold_bound(given[0], nodes)
        megabytes = int((given + ['0'])[1])
        for request in REQUESTS:
            attempt(given[0], nodes, megabytes, request)
        for message, words_of in dissections():
            dissect(given[0], megabytes, message, MOST_DISSECTED, words_of)

if __name__ == '__main__':
    main(sys.argv[1:])
