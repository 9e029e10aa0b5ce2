"""What tools/fuzz_values.py compares with: the types of OPC 10000-6, 5.2.2, and texts and JSON as docs/PROGRAM.md has them.

A text is a list of parts: a str; a tuple of texts of which any may stand, where the page leaves a choice; or the Bits of a
Float or Double, for which any decimal stands that is parsed back as them.
"""
from __future__ import annotations

import base64
import json
import math
import re
import struct
from fractions import Fraction
from typing import Any, Callable, NamedTuple, Sequence

NAMES = ['Null', 'Boolean', 'SByte', 'Byte', 'Int16', 'UInt16', 'Int32', 'UInt32', 'Int64', 'UInt64', 'Float', 'Double',
         'String', 'DateTime', 'Guid', 'ByteString', 'XmlElement', 'NodeId', 'ExpandedNodeId', 'StatusCode',
         'QualifiedName', 'LocalizedText', 'ExtensionObject', 'DataValue', 'Variant', 'DiagnosticInfo']
(BOOLEAN, SBYTE, BYTE, INT16, UINT16, INT32, UINT32, INT64, UINT64, FLOAT, DOUBLE, STRING, DATE_TIME, GUID, BYTE_STRING,
 XML_ELEMENT, NODE_ID, EXPANDED_NODE_ID, STATUS_CODE, QUALIFIED_NAME, LOCALIZED_TEXT, EXTENSION_OBJECT, DATA_VALUE,
 VARIANT, DIAGNOSTIC_INFO) = range(1, 26)
INTEGERS = dict(zip(range(SBYTE, FLOAT), 'bBhHiIqQ'))
# The levels of the deepest value, a DataValue that has Variants.
LONGEST_CHAIN = 100
DAY = 864_000_000_000
# Midnights in ticks: of 0000-01-01, 9999-12-31, 1600-02-29, 1900-03-01, 1970-01-01, 2000-02-29; and the greatest time that has a text.
YEAR_0, LAST_DAY = -584_754 * DAY, 3_067_670 * DAY
MIDNIGHTS = [YEAR_0, LAST_DAY, -307 * DAY, 109_266 * DAY, 134_774 * DAY, 145_790 * DAY]
LAST_TIME = LAST_DAY - 2 * 3600 * 10**7 + 10**7 - 1
# The identity tokens of OPC 10000-4, 7.41, by the numbers of their encodings: their types and fields, and which of these are ByteStrings.
TOKENS = {321: ('AnonymousIdentityToken', ('policy_id',)),
          324: ('UserNameIdentityToken', ('policy_id', 'user_name', 'password', 'encryption_algorithm')),
          327: ('X509IdentityToken', ('policy_id', 'certificate_data')),
          940: ('IssuedIdentityToken', ('policy_id', 'token_data', 'encryption_algorithm'))}
TOKEN_OCTETS = ('password', 'certificate_data', 'token_data')
# The types with most corners, numbers with many, and pieces of texts.
OFTEN = [FLOAT, DOUBLE, DATE_TIME, INT64, UINT64, STRING, LOCALIZED_TEXT, DIAGNOSTIC_INFO]
FLOATS = [0, 1, 2, 0x7FFFFF, 0x800000, 0x3F800000, 0x3FC00000, 0x7F7FFFFF, 0x7F800000, 0x7F800001, 0x7FBFFFFF,
          0x7FC00000, 0x7FC00001, 0x7FFFFFFF, 0x4B000000, 0x4B800000, 0x5F000000, 0x3DCCCCCD, 0x358637BD]
DOUBLES = [0, 1, 2, 0xFFFFFFFFFFFFF, 0x10000000000000, 0x3FF0000000000000, 0x3FF8000000000000, 0x7FEFFFFFFFFFFFFF,
           0x7FF0000000000000, 0x7FF0000000000001, 0x7FF7FFFFFFFFFFFF, 0x7FF8000000000000, 0x7FF8000000000001,
           0x7FFFFFFFFFFFFFFF, 0x4340000000000000, 0x4340000000000001, 0x433FFFFFFFFFFFFF, 0x3FB999999999999A,
           0x3EB0C6F7A0B5ED8D, 0x444B1AE4D6E2EF50]
PIECES = ['\0', '\t', '\n', '\r', '\x1b', '\x1f', ' ', '\x7f', '\x80', '\x85', '\x9f', '\xa0', '"', "'", '\\', '\\x2c',
          '\\n', '/', ',', '(', ')', '{', '}', '[', ']', '|', ';', ':', '=', '<', '&', '%', '-', 'null', 'ns=', 'é', 'ß',
          '水', '\u2028', '\u2029', '\ufeff', '\ufffd', '\uffff', '😀', '\U0010ffff', '\ud7ff', '\ue000', 'true', '0x', '1e5']
LETTERS = 'abcdefghijklmnopqrstuvwxyzABCDEFGHIJKLMNOPQRSTUVWXYZ0123456789_. '
Parts = list  # of a str, a tuple of str, or Bits
Odd = Callable[[], bool]

class Bits(NamedTuple):
    """The bit pattern of a finite Float or Double."""
    kind: int
    pattern: int

class Text(NamedTuple):
    """A text of JSON with these parts."""
    parts: Parts

class Style(NamedTuple):
    """How values print: with `--plain`, with `--names` and these names, and within an array or brackets."""
    plain: bool = False
    names: dict[int, str] | None = None
    within: bool = False

class Value(NamedTuple):
    """A value: its type, its encoding as it is sent and the plain one, its text in a line, and what it is in JSON: True, False or
    None, an int, Bits, a Text, a list, or a dict. `more` has what it is made of, as far as lines tell that."""
    kind: int
    sent: bytes
    plain: bytes
    text: Callable[[Style], Parts]
    json: Callable[[Style], Any]
    more: Any = None

def never() -> bool:
    return False

# ---- texts

def escaped(text: str, style: Style, more: str = '') -> str:
    """A text with its escapes, and those of more characters; a comma and brackets within an array or brackets."""
    marks = more + ',(){}' * style.within
    return ''.join('\\\\' if it == '\\' else '\\x%02x' % ord(it) if it < ' ' or it == '\x7f' or it in marks else it for it in text)

def pattern_text(kind: int, pattern: int) -> str:
    return '0x%0*x' % (8 if kind == FLOAT else 16, pattern)

def number(kind: int, pattern: int) -> str | Bits:
    """A Float or Double with `--plain`."""
    bits, fraction = (32, 23) if kind == FLOAT else (64, 52)
    greatest = (1 << bits - 1) - (1 << fraction)
    size = pattern & (1 << bits - 1) - 1
    if size < greatest:
        return Bits(kind, pattern)
    if size == greatest:
        return '-Infinity' if pattern >> bits - 1 else 'Infinity'
    return 'NaN' if pattern == (1 << bits) - (1 << fraction - 1) else pattern_text(kind, pattern)

def bits_of(text: str, kind: int) -> int:
    """The bit pattern of the number nearest to a decimal."""
    near = float(text)
    if kind == DOUBLE:
        return int(struct.unpack('<Q', struct.pack('<d', near))[0])
    exact = Fraction(text)
    if math.isfinite(near) and exact != near and not struct.unpack('<Q', struct.pack('<d', near))[0] & 1:
        # Rounding to odd first keeps the second rounding exact.
        near = math.nextafter(near, math.inf if exact > near else -math.inf)
    try:
        return int(struct.unpack('<I', struct.pack('<f', near))[0])
    except OverflowError:
        return 0x7F800000

def days_before(year: int) -> int:
    """The days from the year 0 to a later one."""
    return 365 * year + (year + 3) // 4 - (year + 99) // 100 + (year + 399) // 400

def date(ticks: int) -> str:
    """A DateTime with `--plain`."""
    if ticks == 0 or ticks < YEAR_0 or ticks > LAST_TIME:
        return str(ticks)
    day, rest = divmod(ticks - YEAR_0, DAY)
    era, day = divmod(day, 146_097)
    # Within 400 years: the first of a hundred and of four, and the others.
    year = next(it for it in range(min(399, day // 365), -1, -1) if day >= days_before(it))
    day -= days_before(year)
    lengths, month = [31, days_before(year + 1) - days_before(year) - 337, 31, 30, 31, 30, 31, 31, 30, 31, 30, 31], 0
    while day >= lengths[month]:
        day, month = day - lengths[month], month + 1
    second, part = divmod(rest, 10**7)
    digits = ('.%07d' % part).rstrip('0') if part else ''
    return '%04d-%02d-%02dT%02d:%02d:%02d%sZ' % (400 * era + year, month + 1, day + 1, second // 3600, second // 60 % 60, second % 60, digits)

def moment(ticks: int | None, style: Style) -> str:
    return 'null' if ticks is None else date(ticks) if style.plain else str(ticks)

def guid_text(octets: bytes) -> str:
    digits = octets.hex()
    return '-'.join([digits[:8], digits[8:12], digits[12:16], digits[16:20], digits[20:]])

def base64_text(of: bytes | None) -> str:
    return 'null' if of is None else base64.b64encode(of).decode()

def code_text(of: int, style: Style) -> str:
    """A StatusCode with `--plain`."""
    name = style.names.get(of) if style.names else None
    return '0x%08x%s' % (of, ' ' + name if name else '')

def status(of: int, names: dict[int, str] | None) -> str:
    """A CODE, and its name."""
    return '%08X%s' % (of, ' ' + names[of] if names and of in names else '')

def code_json(of: int, style: Style) -> dict[str, Any]:
    name = style.names.get(of) if style.names else None
    return {'code': Text(['%08X' % of]), **({'name': Text([name])} if name else {})}

def text_json(of: str | None) -> Text | None:
    return None if of is None else Text([of])

def told(of: str | None) -> str:
    """A String or NodeId of a field: a control character by its bytes in UTF-8."""
    return 'null' if of is None else re.sub('[\x80-\x9f]', lambda it: ''.join('\\x%02x' % octet for octet in it[0].encode()), escaped(of, Style()))

def fits(parts: Sequence, text: str) -> bool:
    """Whether a text is one of these parts."""
    place = 0
    for it in parts:
        if isinstance(it, Bits):
            found = DECIMAL.match(text, place)
            if not found or bits_of(found[0], it.kind) != it.pattern:
                return False
            place = found.end()
            continue
        taken = next((one for one in ((it,) if isinstance(it, str) else it) if text.startswith(one, place)), None)
        if taken is None:
            return False
        place += len(taken)
    return place == len(text)

def shown(parts: Sequence) -> str:
    """Parts as a person reads them."""
    return ''.join(it if isinstance(it, str) else '<%s>' % pattern_text(*it) if isinstance(it, Bits) else '<%s>' % ' or '.join(it) for it in parts)

# ---- JSON

class Number(str):
    """A number of JSON, by its text."""

def no_constant(text: str) -> Any:
    raise ValueError('a constant %s' % text)

DECIMAL = re.compile(r'-?(?:0|[1-9][0-9]*)(?:\.[0-9]+)?(?:[eE][+-]?[0-9]+)?')
STRINGS = re.compile(r'"(?:[^"\\]|\\.)*"')
DECODER = json.JSONDecoder(parse_int=Number, parse_float=Number, parse_constant=no_constant, object_pairs_hook=tuple)

def is_json(wanted: Any, got: Any) -> bool:
    """Whether what came is what is wanted; the members of an object in order."""
    if isinstance(wanted, Text):
        return isinstance(got, str) and not isinstance(got, Number) and fits(wanted.parts, got)
    if isinstance(wanted, Bits):
        return isinstance(got, Number) and DECIMAL.fullmatch(got) is not None and bits_of(got, wanted.kind) == wanted.pattern
    if isinstance(wanted, dict):
        return isinstance(got, tuple) and [it for it, _ in got] == list(wanted) and all(is_json(wanted[it], one) for it, one in got)
    if wanted is None or isinstance(wanted, bool):
        return got is wanted
    if isinstance(wanted, int):
        return isinstance(got, Number) and got == str(wanted)
    return isinstance(got, list) and len(wanted) == len(got) and all(is_json(one, other) for one, other in zip(wanted, got))

def is_json_line(wanted: dict[str, Any], got: str) -> bool:
    """Whether a line is an object of JSON without spaces that has these members in this order."""
    try:
        return ' ' not in STRINGS.sub('', got) and is_json(wanted, DECODER.decode(got))
    except ValueError:
        return False
