#!/usr/bin/env python3
"""Compares what the program `ua` prints of random values with what docs/PROGRAM.md says: fuzz_values PROGRAM [COUNT] [SEED].

PROGRAM is the built program; COUNT values are made, 100000 by default, the same for the same SEED, 1 by default: of all built-in
types of OPC 10000-6, 5.2.2, with their corners. Each is made with its encoding, plain and in one of the other ways that are read
as the same value, and with its texts. `ua read` with several options asks a server that answers with some 200 of them, and
`ua dissect --fields` takes the same response from a file. The first differences are printed with the value's octets in
hexadecimal, and the status is 1; else the last line counts.
"""
from __future__ import annotations

import os
import random
import re
import struct
import subprocess
import sys
import tempfile
import time
from typing import Any, Callable, NamedTuple, Sequence

sys.dont_write_bytecode = True
from fuzz_texts import *
from sockets import ACK, ACTIVATED, CHUNK, CLOSED, CREATED, OPENED, PORT, TOP, Server, check, chunks, numbered

# ---- values, of which each function has the encoding, the text and what it is in JSON

def counted(of: bytes | None, odd: Odd) -> bytes:
    """An Int32 count, and bytes."""
    return struct.pack('<i', (-1, -2, -1 << 31)[odd() + odd()]) if of is None else struct.pack('<i', len(of)) + of

def encoded(of: str | None) -> bytes | None:
    return None if of is None else of.encode()

def swapped(of: bytes) -> bytes:
    """A Guid from its 16 bytes in the order of its text."""
    return of[3::-1] + of[5:3:-1] + of[7:5:-1] + of[8:]

def by_bytes(kind: int, both: Sequence[bytes], text: Callable[[Style], Parts] | None = None, members: Callable[[Style], Any] | None = None,
             more: Any = None, is_null: bool = False) -> Value:
    """A value that prints by its bytes, or with `--plain` by a text, and in JSON as an object."""
    # PROGRAM.md says both that a null is null, and that such a type is printed by its bytes.
    digits: Parts = [('0x' + both[1].hex(), 'null')] if is_null else ['0x' + both[1].hex()]

    def line(style: Style) -> Parts:
        return text(style) if text and style.plain else digits
    return Value(kind, both[0], both[1], line, lambda style: members(style) if members and style.plain else Text(line(style)), more)

class Maker:
    """Makes random values."""

    def __init__(self, source: random.Random, codes: Sequence[int]) -> None:
        self.source, self.codes = source, codes
        self.chance, self.below = source.random, source.randrange

    def pick(self, of: Sequence) -> Any:
        return of[self.below(len(of))]

    def odd(self) -> bool:
        """Whether the next choice of an encoding is not the plain one."""
        return self.chance() < 0.1

    def both(self, encode: Callable[[Odd], bytes]) -> tuple[bytes, bytes]:
        """An encoding as it is sent, and the plain one."""
        return encode(self.odd), encode(never)

    def few(self, chance: float = 0.5) -> int:
        """A count that is often small."""
        count = 0
        while count < 12 and self.chance() < chance:
            count += 1
        return count

    def integer(self, kind: int) -> int:
        bits, is_signed = 8 * struct.calcsize(INTEGERS[kind]), INTEGERS[kind].islower()
        least, greatest = (-1 << bits - 1, (1 << bits - 1) - 1) if is_signed else (0, (1 << bits) - 1)
        how = self.below(4)
        if how == 0:
            near = self.pick([least, greatest, 0, 0, 10, 100, 1 << 31, 1 << 53, -1 << 53]) + self.below(5) - 2
        elif how == 1:
            near = self.source.getrandbits(self.below(65)) * self.pick([1, -1])
        else:
            near = self.below(greatest - least + 1) + least
        return min(max(near, least), greatest)

    def pattern(self, kind: int) -> int:
        """The bit pattern of a Float or Double."""
        bits, form, fraction = (32, 'f', 23) if kind == FLOAT else (64, 'd', 52)
        how = self.below(7)
        if how in (0, 6):
            return self.pick(FLOATS if kind == FLOAT else DOUBLES) ^ self.below(2) << bits - 1
        if how == 3:
            # Not a number, an infinity, zero or a subnormal one.
            exponent = self.pick([0, (1 << bits - 1 - fraction) - 1])
            return self.below(2) << bits - 1 | exponent << fraction | self.source.getrandbits(self.below(fraction + 1))
        if how > 3:
            return self.source.getrandbits(bits)
        near = round(self.source.uniform(-1000, 1000), self.below(7)) if how == 1 else self.pick([1.0, -1.0, 9.5, 1.25]) * 10.0 ** (self.below(76) - 38)
        return int.from_bytes(struct.pack('<' + form, near), 'little')

    def text(self) -> str | None:
        how = self.below(12)
        if how < 3:
            return self.pick([[None], [''], ['null', 'Pump', 'en', 'de-CH', '|', ';', ',', 'x' * 300, '水' * 20, '0x00', '{ }', '()']][how])
        if how < 8:
            return ''.join(self.pick(LETTERS) for _ in range(1 + self.few(0.8)))
        return ''.join(self.pick(PIECES) if self.chance() < 0.6 else self.character() for _ in range(1 + self.few(0.8)))

    def character(self) -> str:
        """A character that UTF-8 has."""
        code = self.below(self.pick([0x80, 0x100, 0x800, 0x10000, 0x110000]))
        return 'A' if 0xD800 <= code <= 0xDFFF else chr(code)

    def octets(self) -> bytes | None:
        how = self.below(8)
        if how == 0:
            return None
        return self.source.randbytes(0 if how == 1 else self.pick([255, 256, 1000]) if how == 2 and self.chance() < 0.1 else 1 + self.few(0.8))

    def ticks(self) -> int:
        how = self.below(10)
        if how == 0:
            return self.pick([0, -1 << 63, (1 << 63) - 1, 1, -1, (-1 << 63) + 1, (1 << 63) - 2])
        if how == 1:
            return self.pick(MIDNIGHTS + [LAST_DAY - 7200 * 10**7, LAST_DAY - 7199 * 10**7, LAST_DAY + DAY]) + self.pick([-10**7, -1, 0, 1, 10**7])
        if how == 2:
            return self.integer(INT64)
        if how == 3:
            return YEAR_0 + self.below(3_652_425) * DAY + self.pick([-1, 0, 0, DAY // 2])
        unit = 10 ** self.below(9)
        return (YEAR_0 + self.below(LAST_DAY - YEAR_0)) // unit * unit

    def code(self) -> int:
        return self.pick(self.codes) ^ (self.below(3) // 2) if self.chance() < 0.5 else self.integer(UINT32)

    def plain(self, kind: int) -> Value:
        """A Boolean, a number, a String, a DateTime, a Guid, a ByteString or a StatusCode."""
        if kind == BOOLEAN:
            holds = self.chance() < 0.5
            return Value(kind, *self.both(lambda odd: bytes([(1, 2, 255)[odd() + odd()] * holds])), lambda style: ['true' if holds else 'false'], lambda style: holds)
        if kind in INTEGERS:
            it = self.integer(kind)
            octets = struct.pack('<' + INTEGERS[kind], it)
            return Value(kind, octets, octets, lambda style: [str(it)], lambda style: it if abs(it) <= 1 << 53 else Text([str(it)]))
        if kind in (FLOAT, DOUBLE):
            bits = self.pattern(kind)
            octets, text = struct.pack('<I' if kind == FLOAT else '<Q', bits), pattern_text(kind, bits)

            def as_json(style: Style) -> Any:
                near = number(kind, bits) if style.plain else text
                return near if isinstance(near, Bits) else Text([near])
            return Value(kind, octets, octets, lambda style: [number(kind, bits) if style.plain else text], as_json)
        if kind == STRING:
            said = self.text()
            return Value(kind, *self.both(lambda odd: counted(encoded(said), odd)), lambda style: ['null' if said is None else escaped(said, style)],
                         lambda style: text_json(said))
        if kind == DATE_TIME:
            when = self.ticks()
            octets = struct.pack('<q', when)
            return Value(kind, octets, octets, lambda style: [moment(when, style)], lambda style: Text([moment(when, style)]))
        if kind == GUID:
            of = self.guid()
            return Value(kind, swapped(of), swapped(of), lambda style: [guid_text(of)], lambda style: Text([guid_text(of)]))
        if kind == BYTE_STRING:
            body = self.octets()
            return Value(kind, *self.both(lambda odd: counted(body, odd)), lambda style: [base64_text(body)], lambda style: None if body is None else Text([base64_text(body)]))
        code = self.code()
        octets = struct.pack('<I', code)

        def text_of(style: Style) -> Parts:
            return [code_text(code, style if style.plain else Style())]
        return Value(kind, octets, octets, text_of, lambda style: code_json(code, style) if style.plain else Text(text_of(style)))

    def guid(self) -> bytes:
        return self.pick([bytes(16), b'\xFF' * 16]) if self.chance() < 0.1 else self.source.randbytes(16)

    def node_id(self, is_expanded: bool = False) -> Value:
        """A NodeId, or an ExpandedNodeId."""
        form, space = self.pick('iisgb'), self.pick([0, 0, 1, 2, 255, 256, 65535])
        at: Any = self.pick([0, 1, 255, 256, 65535, 65536, (1 << 32) - 1, self.integer(UINT32)])
        if form != 'i':
            at = self.text() if form == 's' else self.guid() if form == 'g' else self.octets()
        uri, server = self.text() if is_expanded and self.chance() < 0.5 else None, self.integer(UINT32) if is_expanded and self.chance() < 0.5 else 0

        def encode(odd: Odd) -> bytes:
            has_uri, has_server = (is_expanded and (holds or odd()) for holds in (uri is not None, server != 0))
            flags = 0x80 * has_uri | 0x40 * has_server
            behind = (counted(encoded(uri), odd) if has_uri else b'') + (struct.pack('<I', server) if has_server else b'')
            if form == 'i' and space == 0 and at < 256 and not odd():
                return struct.pack('<BB', flags, at) + behind
            if form == 'i' and space < 256 and at < 65536 and not odd():
                return struct.pack('<BBH', 1 | flags, space, at) + behind
            head = struct.pack('<BH', 'isgb'.index(form) + 2 | flags, space)
            return head + (struct.pack('<I', at) if form == 'i' else swapped(at) if form == 'g' else counted(encoded(at) if form == 's' else at, odd)) + behind

        def identifier(style: Style) -> str:
            if at is None or form == 'i':
                return '' if at is None else str(at)
            return guid_text(at) if form == 'g' else base64_text(at) if form == 'b' else escaped(at, style)
        is_null = space == 0 and at in (None, 0, '', b'', bytes(16))

        def text(style: Style) -> Parts:
            line = ('ns=%d;' % space if space else '') + form + '=' + identifier(style)
            front = ('svr=%d;' % server if server else '') + ('nsu=%s;' % escaped(uri, style, ';') if uri is not None else '')
            return [front, (line, 'null') if is_null else line]

        def members(style: Style) -> dict[str, Any]:
            it = at if at is None or form == 'i' else Text([at if form == 's' else identifier(style)])
            return {**({'server': server, 'uri': text_json(uri)} if is_expanded else {}), 'ns': space, 'id_type': Text([form]), 'id': it}
        return by_bytes(EXPANDED_NODE_ID if is_expanded else NODE_ID, self.both(encode), text, members, (space, at))

    def qualified(self) -> Value:
        space, name = self.integer(UINT16), self.text()
        return by_bytes(QUALIFIED_NAME, self.both(lambda odd: struct.pack('<H', space) + counted(encoded(name), odd)),
                        lambda style: ['%d:' % space, ('null', '') if name is None else escaped(name, style)], lambda style: {'ns': space, 'name': text_json(name)})

    def localized(self) -> Value:
        locale, said = self.text() if self.chance() < 0.6 else None, self.text()

        def encode(odd: Odd) -> bytes:
            flags = [it is not None or odd() for it in (locale, said)]
            return bytes([flags[0] | 2 * flags[1]]) + b''.join(counted(encoded(it), odd) for it, has in zip((locale, said), flags) if has)

        def text(style: Style) -> Parts:
            # An empty locale may be one or none.
            front = [('|', '')] if locale == '' else [escaped(locale, style, '|') + '|'] if locale else []
            return [*front, ('null', '') if said is None else escaped(said, style, '|')]
        return by_bytes(LOCALIZED_TEXT, self.both(encode), text, lambda style: {'locale': text_json(locale), 'text': text_json(said)})

    def extension(self) -> Value:
        """An ExtensionObject, without a body, or with one in bytes or XML; now and then an identity token, or one with an octet more."""
        if self.chance() < 0.1:
            number_of = self.pick(sorted(TOKENS))
            name, fields = TOKENS[number_of]
            given = [(it, self.octets() if it in TOKEN_OCTETS else self.text()) for it in fields]
            more = b'\0' * (self.below(8) // 7)
            body = b''.join(counted(encoded(it) if isinstance(it, str) else it, never) for _, it in given) + more
            lines = [(it, base64_text(part) if it in TOKEN_OCTETS else told(part)) for it, part in given]
            octets = struct.pack('<BBHB', 1, 0, number_of, 1) + counted(body, never)
            return by_bytes(EXTENSION_OBJECT, (octets, octets), more=(None if more else (name, lines), ['0x' + octets.hex()]))
        node, kind = self.node_id(), self.below(3)
        part = self.octets()
        both = self.both(lambda odd: bytes([kind]) + (counted(part, odd) if kind else b''))
        digits = '0x' + (node.plain + both[1]).hex()
        # One of a null NodeId without a body is null, or may be where its NodeId has another form.
        is_null = kind == 0 and node.more[0] == 0 and node.more[1] in (None, 0, '', b'', bytes(16))
        field: Parts = ['null'] if node.plain + both[1] == bytes(3) else [(digits, 'null')] if is_null else [digits]
        return by_bytes(EXTENSION_OBJECT, (node.sent + both[0], node.plain + both[1]), more=(None, field))

    def diagnostic(self, depth: int) -> Value:
        def part(of: Any) -> Any:
            return of if self.chance() < 0.4 else None
        inner = self.diagnostic(depth - 1) if depth > 1 and self.chance() < 0.5 else None
        return self.info([part(self.integer(INT32)) for _ in range(4)], part(self.text()), part(self.code()), inner)

    def info(self, numbers: list[int | None], said: str | None = None, code: int | None = None, inner: Value | None = None) -> Value:
        """A DiagnosticInfo."""
        def encode(odd: Odd) -> bytes:
            mask, out = 0, b''
            for bit, it in zip((1, 2, 8, 4), numbers):
                if it is not None:
                    mask, out = mask | bit, out + struct.pack('<i', it)
            if said is not None or odd():
                mask, out = mask | 0x10, out + counted(encoded(said), odd)
            if code is not None:
                mask, out = mask | 0x20, out + struct.pack('<I', code)
            return bytes([mask | 0x40 * (inner is not None)]) + out
        names = list(zip(['symbolic_id', 'namespace_uri', 'locale', 'localized_text'], numbers))

        def text(style: Style) -> Parts:
            out = '{ ' + ''.join('%s %d ' % it for it in names if it[1] is not None)
            out += 'additional_info (%s) ' % escaped(said, style._replace(within=True)) if said is not None else ''
            out += 'inner_status_code %s ' % code_text(code, style) if code is not None else ''
            return [out, *(['inner ', *inner.text(style), ' '] if inner else []), '}']

        def members(style: Style) -> dict[str, Any]:
            out: dict[str, Any] = {name: it for name, it in names if it is not None}
            out |= {'additional_info': Text([said])} if said is not None else {}
            out |= {'inner_status_code': code_json(code, style)} if code is not None else {}
            return out | ({'inner': inner.json(style)} if inner else {})
        sent, plain = self.both(encode)
        return by_bytes(DIAGNOSTIC_INFO, (sent + (inner.sent if inner else b''), plain + (inner.plain if inner else b'')), text, members)

    def scalar(self, kind: int, depth: int) -> Value:
        """A value of a built-in type that lies in at most so many levels more; the reserved types are encoded as a ByteString."""
        if kind <= BYTE_STRING or kind == STATUS_CODE:
            return self.plain(kind)
        if kind in (VARIANT, DATA_VALUE, DIAGNOSTIC_INFO):
            return {VARIANT: self.variant, DATA_VALUE: self.data_value, DIAGNOSTIC_INFO: self.diagnostic}[kind](depth - 1)
        if kind in (NODE_ID, EXPANDED_NODE_ID):
            return self.node_id(kind == EXPANDED_NODE_ID)
        if kind in (QUALIFIED_NAME, LOCALIZED_TEXT, EXTENSION_OBJECT):
            return {QUALIFIED_NAME: self.qualified, LOCALIZED_TEXT: self.localized, EXTENSION_OBJECT: self.extension}[kind]()
        body = self.octets()
        return by_bytes(kind, self.both(lambda odd: counted(body, odd)), is_null=body is None)

    def variant(self, depth: int) -> Value:
        kind = self.pick(OFTEN) if self.chance() < 0.25 else self.below(26)
        if self.chance() < 0.01:
            kind = 26 + self.below(6)
        if kind == 0 or depth < 2 and kind in (DATA_VALUE, VARIANT, DIAGNOSTIC_INFO):
            return self.holding(0)
        if kind != VARIANT and self.chance() >= 0.4:
            return self.holding(kind, self.scalar(kind, depth))
        how = self.below(20)
        if how == 0:
            return self.holding(kind, None, True)
        count = 0 if how == 1 else self.few(0.7)
        if how == 2 and self.chance() < 0.1:
            count = self.pick([127, 128, 256, 1000] if kind < STRING else [30, 100])
        return self.holding(kind, [self.scalar(kind, depth) for _ in range(count)], True, self.dimensions(count) if how > 12 else ())

    def dimensions(self, count: int) -> tuple[int, ...]:
        """Some dimensions of so many elements."""
        if count == 0:
            sizes = [0] + [self.pick([0, 1, 2, 65536, (1 << 31) - 1]) for _ in range(self.few())]
            self.source.shuffle(sizes)
            return tuple(sizes)
        out, left = [1] * self.few(0.1), count
        while left > 1:
            out.append(self.pick([it for it in range(2, left + 1) if left % it == 0]))
            left //= out[-1]
        return tuple(out) or (1,)

    def holding(self, kind: int, of: Any = None, is_array: bool = False, dimensions: tuple[int, ...] = ()) -> Value:
        """A Variant, which holds a value, or a list of them, or none. `more` is whether it has an encoding, its TYPE and VALUE, and its members."""
        inside = [] if of is None else of if is_array else [of]
        is_writable = kind <= DIAGNOSTIC_INFO and all(it.more[0] for it in inside if kind in (VARIANT, DATA_VALUE))

        def encode(odd: Odd) -> bytes:
            sizes = struct.pack('<%di' % (1 + len(dimensions)), len(dimensions), *dimensions) if dimensions else (b'', bytes(4), struct.pack('<i', -5))[odd() + odd()]
            parts = b''.join(it.plain if odd is never else it.sent for it in inside)
            if not is_array:
                return bytes([kind]) + parts
            return bytes([kind | 0x80 | 0x40 * bool(sizes)]) + (counted(None, odd) if of is None else struct.pack('<i', len(of))) + parts + sizes

        def line(style: Style) -> Parts:
            if not is_array:
                return [NAMES[kind], *([' ', *of.text(style)] if kind else [])]
            within = style._replace(within=style.plain)
            parts = [part for it in inside for part in [',', *it.text(within)]][1:]
            return [NAMES[kind] + (''.join('[%d]' % it for it in dimensions) if style.plain and dimensions else '[]') + ' ', *(['null'] if of is None else parts)]

        def members(style: Style) -> dict[str, Any]:
            value = (None if of is None else [it.json(style) for it in of]) if is_array else of.json(style) if kind else None
            return {'type': Text([NAMES[kind] + '[]' * is_array]), 'value': value, **({'dimensions': list(dimensions)} if dimensions else {})}
        more = is_writable, lambda style: line(style) if is_writable else ['unwritable'], lambda style: members(style) if is_writable else {'unwritable': True}
        return by_bytes(VARIANT, self.both(encode), lambda style: ['(', *line(style._replace(within=True)), ')'], members, more)

    def data_value(self, depth: int) -> Value:
        def part(of: Any) -> Any:
            return of if self.chance() < 0.5 else None
        value = self.variant(depth - 1) if self.chance() < 0.95 else None
        return self.data(value, part(self.code()), part(self.ticks()), part(self.integer(UINT16)), part(self.ticks()), part(self.integer(UINT16)))

    def data(self, value: Value | None = None, code: int | None = None, *times: int | None) -> Value:
        """A DataValue; `more` is whether it has an encoding, and what it is made of."""
        parts = (code, *(times or (None,) * 4))
        fields = [it for it in zip((2, 4, 0x10, 8, 0x20), 'IqHqH', parts) if it[2] is not None]
        behind = b''.join(struct.pack('<' + form, it) for _, form, it in fields)
        mask = bytes([sum(bit for bit, _, _ in fields) | (value is not None)])
        names = list(zip(('source', 'source_picoseconds', 'server', 'server_picoseconds'), parts[1:]))

        def text(style: Style) -> Parts:
            out = 'status %s ' % code_text(code, style) if code is not None else ''
            out += ''.join('%s %s ' % (name, it if 'pico' in name else date(it)) for name, it in names if it is not None)
            return ['{ ', *(['value ', *value.text(style), ' '] if value else []), out + '}']

        def members(style: Style) -> dict[str, Any]:
            out = {**(value.json(style) if value else {}), **({'status': code_json(code, style)} if code is not None else {})}
            return out | {name: it if 'pico' in name else Text([date(it)]) for name, it in names if it is not None}
        both = [mask + (it or b'') + behind for it in ((value.sent, value.plain) if value else (b'', b''))]
        return by_bytes(DATA_VALUE, both, text, members, (value is None or value.more[0], value, parts))

    def result(self) -> Value:
        """A DataValue as a Read answers with it: mostly with a value, and rarely of many levels."""
        how = self.below(1000)
        if how < 3:
            return self.chain(self.pick([LONGEST_CHAIN, LONGEST_CHAIN - 1, 4 + self.below(LONGEST_CHAIN - 3)]), how)
        return self.data_value(self.pick([2, 3, 4, 5, 6]))

    def chain(self, levels: int, how: int) -> Value:
        """A DataValue of so many levels, four at least: of DataValues, of arrays of Variants, or of DiagnosticInfos."""
        if how == 0:
            out = self.data(self.holding(0)) if levels % 2 == 0 else self.data(self.holding(DATA_VALUE, self.data()))
            for _ in range(levels // 2 - 1):
                out = self.data(self.holding(DATA_VALUE, out), self.pick([None, 0x80340000]))
            return out
        if how == 1:
            inner = self.holding(INT32, self.plain(INT32))
            for _ in range(levels - 2):
                inner = self.holding(VARIANT, [inner] if self.chance() < 0.9 else [inner, self.holding(0)], True)
            return self.data(inner)
        info = self.info([None] * 4)
        for _ in range(levels - 3):
            info = self.info([self.pick([None, 5]), None, None, None], inner=info)
        return self.data(self.holding(DIAGNOSTIC_INFO, info))

# ---- responses, and what `ua read` and `ua dissect --fields` print of them

class Response(NamedTuple):
    """A ReadResponse: its octets, its values, where each begins and ends in them, and the parts of its lines behind the first one."""
    octets: bytes
    results: list[Value]
    places: list[int]
    lines: Callable[[Style], list[tuple[bytes, Parts]]]

    def value(self, place: int) -> bytes:
        return self.octets[self.places[place]:self.places[place + 1]]

def field_of(info: Value, style: Style) -> Parts:
    """A DiagnosticInfo of a field."""
    return ['null'] if info.plain == b'\0' else info.text(style)

def made(maker: Maker, count: int) -> Response:
    """A response with so many random values."""
    pick, empty = maker.pick, maker.info([None] * 4)
    results = [maker.result() for _ in range(count)]
    infos = pick([None, [], [maker.diagnostic(3) for _ in range(1 + maker.few())]])
    ticks, code, info, strings = maker.ticks(), maker.code(), empty, None
    nothing = by_bytes(EXTENSION_OBJECT, (bytes(3), bytes(3)), more=(None, ['null']))
    additional = nothing
    if maker.chance() < 0.7:
        info, strings, additional = pick([empty, maker.diagnostic(3)]), pick([None, [maker.text() for _ in range(maker.few())]]), maker.extension()

    def array(of: list[bytes] | None) -> bytes:
        return counted(None, maker.odd) if of is None else struct.pack('<i', len(of)) + b''.join(of)
    texts = None if strings is None else [counted(encoded(it), maker.odd) for it in strings]
    octets, places = struct.pack('<BBHqII', 1, 0, 634, ticks, 4, code) + info.sent + array(texts) + additional.sent + struct.pack('<i', count), []
    for it in results:
        places.append(len(octets))
        octets += it.sent
    places.append(len(octets))
    front, behind = octets[:places[0]], array(None if infos is None else [it.sent for it in infos])

    def lines(style: Style) -> list[tuple[bytes, Parts]]:
        head = '    response_header.'
        out: list[Parts] = [[head + 'timestamp ' + moment(ticks, style)], [head + 'request_handle 4'], [head + 'service_result ' + status(code, style.names)],
                            [head + 'service_diagnostics ', *field_of(info, style)], [head + 'string_table %s' % ('null' if strings is None else len(strings))]]
        out += [['  %sstring_table[%d] %s' % (head, place, told(it))] for place, it in enumerate(strings or ())]
        token, field = additional.more
        if token and style.plain:
            out += [[head + 'additional_header ' + token[0]]] + [['  %sadditional_header.%s %s' % (head, *it)] for it in token[1]]
        else:
            out.append([head + 'additional_header ', *field])
        found = [(front, it) for it in out + [['  results %d' % count]]]
        for place, it in enumerate(results):
            found += [(it.sent, line) for line in value_lines(place, it, style)]
        found.append((behind, ['  diagnostic_infos %s' % ('null' if infos is None else len(infos))]))
        return found + [(behind, ['    diagnostic_infos[%d] ' % place, *field_of(it, style)]) for place, it in enumerate(infos or ())]
    return Response(octets + behind, results, places, lines)

def value_lines(place: int, of: Value, style: Style) -> list[Parts]:
    """The fields of a DataValue."""
    _, value, (code, *times) = of.more
    texts = ['null' if code is None else status(code, style.names)]
    texts += [moment(it, style) if at % 2 == 0 else 'null' if it is None else str(it) for at, it in enumerate(times)]
    names = ['status', 'source_timestamp', 'source_picoseconds', 'server_timestamp', 'server_picoseconds']
    first: Parts = ['    results[%d].value ' % place, *(value.more[1](style) if value else ['null'])]
    return [first] + [['    results[%d].%s %s' % (place, *it)] for it in zip(names, texts)]

def read_line(node: str, of: Value, style: Style, has_times: bool) -> Parts:
    """The line of `ua read`."""
    _, value, (code, source, _, server, _) = of.more
    times = ' source %s server %s' % tuple('none' if it is None else moment(it, style) for it in (source, server))
    return ['%s %s' % (node, status(code or 0, style.names)), *([' ', *value.more[1](style)] if value else []), times * has_times]

def json_of(node: str, of: Value, style: Style, has_times: bool) -> dict[str, Any]:
    """The object of `ua read --json`."""
    _, value, (code, source, _, server, _) = of.more
    out: dict[str, Any] = {'node': Text([node]), 'status': Text(['%08X' % (code or 0)])}
    if style.names and (code or 0) in style.names:
        out['name'] = Text([style.names[code or 0]])
    out |= value.more[2](style) if value else {}
    times = {'source': source, 'server': server} if has_times else {}
    return out | {name: None if it is None else Text([moment(it, style)]) for name, it in times.items()}

# ---- runs

BATCH, MOST_TOLD = 200, 20
# The options of each run; one with --fields is a `dissect`. Of the others one in turn.
ALWAYS = ['', '--plain', '--json', '--json --plain', '--json --names', '--fields', '--fields --plain --names']
TURNS = ['--times', '--times --plain', '--times --json', '--times --plain --names', '--times --json --plain --names', '--fields --plain', '--fields --names']

def names_of_codes() -> dict[int, str]:
    """The table of names that docs/PROGRAM.md names."""
    with open(os.path.join(TOP, 'crates/ua_texts/src/status_codes.rt'), encoding='utf-8') as file:
        found = re.findall(r'^\s*0x([0-9A-F]{4})_([0-9A-F]{4}) (\w+),?$', file.read(), re.MULTILINE)
    return {int(high + low, 16): name for high, low, name in found}

class Fuzz:
    """The runs of the program, and what they count."""

    def __init__(self, program: str, seed: int) -> None:
        self.program, self.names = program, names_of_codes()
        self.maker = Maker(random.Random(seed), sorted(self.names) + [0, 0, 0x80520000])
        self.compared = self.told = 0

    def compare(self, options: str, octets: bytes, is_same: bool, got: str, wanted: str) -> None:
        """Counts a comparison, and prints a difference; after some of them the run ends."""
        self.compared += 1
        if not is_same:
            print('%s of %s\n  prints   %s\n  in place %s' % (options or 'read', octets.hex(), got, wanted), flush=True)
            self.told += 1
            check(self.told < MOST_TOLD, '%d differences' % self.told)

    def lines(self, words: Sequence[str]) -> list[str]:
        """What the program prints with these words."""
        done = subprocess.run([self.program, *words], capture_output=True, timeout=60)
        check(done.returncode == 0 and not done.stderr, '%r ends with %d, %r' % (words, done.returncode, done.stderr))
        return done.stdout.decode(errors='backslashreplace').removesuffix('\n').split('\n')

    def batch(self, number: int, count: int) -> None:
        """So many values, in one response."""
        response = made(self.maker, count)
        sent = chunks(response.octets, 4, request=4, size=self.maker.pick([CHUNK, CHUNK, 8192, 8193 + self.maker.below(50000)]))
        for options in ALWAYS + [TURNS[number % len(TURNS)]]:
            style = Style('--plain' in options, self.names if '--names' in options else None)
            (self.dissected if '--fields' in options else self.read)(options, style, response, sent)

    def read(self, options: str, style: Style, of: Response, sent: list[bytes]) -> None:
        """A run of `ua read`."""
        closed = bytearray(numbered(CLOSED, 5, 36))
        struct.pack_into('<I', closed, 16, 4 + len(sent))
        server = Server([ACK, OPENED, CREATED, ACTIVATED, b''.join(sent), bytes(closed)])
        nodes, times = ['i=%d' % it for it in range(1, len(of.results) + 1)], '--times' in options
        got = self.lines(['read', str(PORT), *nodes, *options.split()])
        server.join(20)
        check(len(got) == len(nodes), '%d lines of %d values with %s' % (len(got), len(nodes), options))
        for place, (node, it, printed) in enumerate(zip(nodes, of.results, got)):
            if '--json' in options:
                wanted = json_of(node, it, style, times)
                self.compare(options, of.value(place), is_json_line(wanted, printed), printed, repr(wanted))
            else:
                parts = read_line(node, it, style, times)
                self.compare(options, of.value(place), fits(parts, printed), printed, shown(parts))

    def dissected(self, options: str, style: Style, of: Response, sent: list[bytes]) -> None:
        """A run of `ua dissect --fields` of what a server sends."""
        before = ACK + OPENED + CREATED + ACTIVATED
        place, front = len(before), []
        for number_of, chunk in enumerate(sent):
            front.append('%d MSG %s %d channel 1 token 1 sequence %d request 4' % (place, chr(chunk[3]), len(chunk), 4 + number_of))
            place += len(chunk)
        front.append('message 4 octets %d ReadResponse' % len(of.octets))
        wanted = [(b'', [it]) for it in front] + of.lines(style) + [(b'', ['end %d' % place])]
        with tempfile.NamedTemporaryFile(suffix='.bin') as file:
            file.write(before + b''.join(sent))
            file.flush()
            got = self.lines(['dissect', file.name, '--server', *options.split()])
        check(front[0] in got and len(got) - got.index(front[0]) == len(wanted), 'other lines than %d with %s' % (len(wanted), options))
        for (octets, parts), printed in zip(wanted, got[got.index(front[0]):]):
            self.compare(options, octets, fits(parts, printed), printed, shown(parts))

def main(words: list[str]) -> int:
    if not 1 <= len(words) <= 3:
        raise SystemExit(__doc__)
    count, seed = (int(it) for it in (words[1:] + ['100000', '1'][len(words) - 1:]))
    begun, fuzz = time.monotonic(), Fuzz(words[0], seed)
    for number_of, first in enumerate(range(0, count, BATCH)):
        fuzz.batch(number_of, min(BATCH, count - first))
    print('fuzz_values: %d values, seed %d, %d comparisons, %d differences, %.0f seconds' % (count, seed, fuzz.compared, fuzz.told, time.monotonic() - begun))
    return 1 if fuzz.told else 0

if __name__ == '__main__':
    sys.exit(main(sys.argv[1:]))
