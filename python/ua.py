"""The OPC UA Binary stack for Python, over libua.so by ctypes: nodes, connections of a server, and a client.

It has no input and output: octets that came go in, octets to be sent come out. docs/PYTHON.md has a server, and
examples/python/read.py is a client over a socket. Each call is one of ua.h, which says what it keeps. The library is
`libua.so.0`, or the file that UA_LIBRARY of the environment names. Times are in units of 100 nanoseconds since 1601-01-01
00:00 UTC.

>>> nodes = Nodes("ns=1;s=Pump\\trw\\tPump\\tInt32\\t5\\n", "opc.tcp://localhost:4840")
>>> pump = nodes.find("ns=1;s=Pump")
>>> nodes.set(pump, Reading(int32(7), source_time=1))
>>> nodes.get(pump).number
7
>>> nodes.find("ns=1;s=None")
Traceback (most recent call last):
ua.Error: ua_node_find: the response is that of another request, or nothing has this number
>>> with Connection(1) as connection, Client("opc.tcp://localhost:4840") as client:
...     talk(client, connection, nodes, 2)
...     token = session_token(talk(client, connection, nodes, 2, client.request("create_session", client.url))[1])
...     event, answer = talk(client, connection, nodes, 2, client.request("activate_session", token))
...     event, answer = talk(client, connection, nodes, 3, client.request("write", token, "ns=1;s=Pump", "Int32", "6"))
...     [(index == pump, reading.number, reading.source_time) for index, reading in connection.take_written()]
...     event, answer = talk(client, connection, nodes, 4, client.request("read", token, "ns=1;s=Pump\\nns=1;s=None", ""))
...     [(reading.number, reading.status, reading.source_time) for reading in readings(answer)]
('OPEN', b'')
[(True, 6, None)]
[(6, None, 3), (None, 2150891520, None)]
"""
from __future__ import annotations

import ctypes
import os
import struct
import time
from ctypes import byref, c_int64, c_size_t, c_uint8, c_uint16, c_uint32, c_void_p
from dataclasses import dataclass
from typing import Any, Callable

OK, NO_MEMORY, REFUSED, ENDED, TOO_SMALL, SERVICE, UNKNOWN, NO_MORE, NO_TEXT = 0, 1, 6, 7, 18, 21, 22, 25, 27
EVENTS = ("NEED_MORE", "SEND", "OPEN", "ANSWERED", "ABORTED", "RENEWED", "FAILED", "FAILED_BY_PEER")
# The type id of each number that a Variant may hold alone or in an array, and how `struct` reads it.
NUMBERS = {1: "?", 2: "b", 3: "B", 4: "h", 5: "H", 6: "i", 7: "I", 8: "q", 9: "Q", 10: "f", 11: "d", 13: "q", 19: "I"}
# Of each call its parameters: a pointer, octets or a buffer with their size, a size, and numbers of 32 and of 64 bits.
CALLS = {
    "ua_free": "p", "ua_waiting": "p", "ua_fetch": "pop", "ua_held": "p", "ua_bound": "p", "ua_nodes_new": "oooouppp", "ua_node_find": "pop",
    "ua_node_set": "psop", "ua_node_get": "psopp", "ua_connection_new": "pup", "ua_connection_step": "ppoippp", "ua_next_written": "pppopp",
    "ua_client_new": "pop", "ua_client_hello": "p", "ua_client_take": "poipppp", "ua_client_ask": "pop", "ua_client_renew": "pip",
    "ua_client_close": "pi", "ua_encode_value": "ooop", "ua_decode_value": "oop", "ua_value_text": "ouopp", "ua_text_value": "oouopp",
    "ua_get_endpoints_request": "oiuop", "ua_create_session_request": "oiuop", "ua_activate_session_request": "oiuop",
    "ua_activate_session_request_as": "ooiuopp", "ua_close_session_request": "oiuop", "ua_read_request": "oiuoooppp",
    "ua_write_request": "oiuoooopp", "ua_response_kind": "opp", "ua_choose_policy": "oopp", "ua_session_token": "oopp", "ua_response_text": "ooopp",
    "ua_readings": "oopp", "ua_version": "", "ua_status_text": "uop", "ua_code_name": "uop",
}
PARAMETERS = {"p": [c_void_p], "o": [c_void_p, c_size_t], "s": [c_size_t], "u": [c_uint32], "i": [c_int64]}
# How many texts a request takes; those behind the first come behind its numbers, but the PolicyId.
REQUESTS = {"get_endpoints": (1,), "create_session": (1,), "activate_session": (1, 2), "close_session": (1,), "read": (3,), "write": (4,)}
# The octets of the first buffer of a call; where they are too few, the call says how many it takes.
ROOM = 4096


class Handle(ctypes.Structure):
    """A `struct ua_handle`, `struct ua_nodes` or `struct ua_connection`."""

    _fields_ = [("at", ctypes.c_void_p)]


class Limits(ctypes.Structure):
    """What one end of a connection allows: octets of frames each way, octets and chunks of messages.

    >>> Limits(65535, 65535, 1048576, 2**32)
    Traceback (most recent call last):
    OverflowError: 4294967296 is no number of 32 bits
    """

    _fields_ = [(name, c_uint32) for name in ("size", "receive_buffer_size", "send_buffer_size", "max_message_size", "max_chunk_count")]

    def __init__(self, *sizes: int) -> None:
        super().__init__(ctypes.sizeof(Limits), *(_checked(c_uint32, it) for it in sizes))


class _Reading(ctypes.Structure):
    _fields_ = [
        ("value_at", c_size_t), ("value_len", c_size_t), ("source_time", c_int64), ("server_time", c_int64), ("status", c_uint32),
        ("source_picoseconds", c_uint16), ("server_picoseconds", c_uint16), ("has_value", c_uint8), ("has_status", c_uint8),
        ("has_source_time", c_uint8), ("has_server_time", c_uint8), ("has_source_picoseconds", c_uint8), ("has_server_picoseconds", c_uint8),
    ]


def _checked(kind: Any, number: int) -> Any:
    """A number for C, where it has room for it: `ctypes` would cut it."""
    if kind(number).value != number:
        raise OverflowError(f"{number} is no number of {8 * ctypes.sizeof(kind)} bits")
    return number


LIMITS = Limits(65535, 65535, 1048576, 256)


class Error(Exception):
    """A status of the library: `call` answered `status`; of a bad line or a service also its number."""

    def __init__(self, call: str, status: int, **numbers: int) -> None:
        self.call, self.status, self.numbers = call, status, numbers
        said = ", ".join(f"{name} {number}" for name, number in numbers.items() if number)
        super().__init__(f"{call}: {status_text(status)}" + (f" ({said})" if said else ""))


def _load() -> Any:
    library = ctypes.CDLL(os.environ.get("UA_LIBRARY", "libua.so.0"))
    for name, parameters in CALLS.items():
        call = getattr(library, name)
        call.argtypes = [kind for it in parameters for kind in PARAMETERS[it]]
        call.restype = c_size_t if name in ("ua_waiting", "ua_held", "ua_bound") else c_uint32
    library.ua_free.restype = None
    return library


_library = _load()


def _octets(given: str | bytes) -> list[Any]:
    """A text, or octets, as a call takes it."""
    octets = given.encode() if isinstance(given, str) else bytes(memoryview(given))
    return [octets, len(octets)]


def _bits(kind: Any, number: int) -> int:
    """A number as a call takes it."""
    return int(_checked(kind, number))


def _call(name: str, *given: Any, ok: tuple[int, ...] = (OK,), **numbers: Any) -> int:
    """A call that answers a status. Numbers are those that it gives back, behind what is given; they are told of an error."""
    status = getattr(_library, name)(*given, *(byref(it) for it in numbers.values()))
    if status not in ok:
        raise Error(name, status, **{name: it.value for name, it in numbers.items() if isinstance(it, (c_size_t, c_uint32))})
    return status


def _made(name: str, *given: Any, behind: tuple[Any, ...] = (), tells: tuple[str, ...] = ()) -> bytes:
    """What a call puts into a buffer, whose size it says where it is too small. `tells` names the numbers behind it."""
    room = ROOM
    while True:
        buffer, needed = ctypes.create_string_buffer(room), c_size_t()
        status = getattr(_library, name)(*given, buffer, room, byref(needed), *(byref(it) for it in behind))
        if status == OK:
            return buffer.raw[: needed.value]
        if status != TOO_SMALL:
            raise Error(name, status, **{told: it.value for told, it in zip(tells, behind)})
        room = needed.value


def status_text(status: int) -> str:
    """What a status means, in a few words.

    >>> status_text(TOO_SMALL)
    'the buffer is too small'
    """
    buffer, needed = ctypes.create_string_buffer(256), c_size_t()
    if _library.ua_status_text(_bits(c_uint32, status), buffer, 256, byref(needed)) != OK:
        return f"status {status}"
    return buffer.raw[: needed.value].decode()


def code_name(code: int) -> str | None:
    """The standard's name of a status code; None where it has none that the library knows.

    >>> code_name(0x80340000), code_name(0x80340001)
    ('BadNodeIdUnknown', None)
    """
    try:
        return _made("ua_code_name", _bits(c_uint32, code)).decode()
    except Error as error:
        if error.status == UNKNOWN:
            return None
        raise


def version() -> tuple[int, int, int]:
    """The version of the library."""
    number = _library.ua_version()
    return number >> 16, number >> 8 & 255, number & 255


def now() -> int:
    """The time of the system's clock."""
    return time.time_ns() // 100 + 116444736000000000


def encode(kind: str, text: str) -> bytes:
    """The encoding of the value that a type and a text denote.

    >>> encode("Int32[]", "10,20").hex()
    '86020000000a00000014000000'
    """
    return _made("ua_encode_value", *_octets(kind), *_octets(text))


def decode(value: bytes) -> str:
    """The type and the text of a value.

    >>> decode(double(0.5))
    'Double 0x3fe0000000000000'
    """
    return _made("ua_decode_value", *_octets(value)).decode()


def value_text(value: bytes, plain: bool = True) -> tuple[str, str] | None:
    """The type and the text that denote a value, as people write them or as in a node file; None where it has none.

    >>> value_text(double(0.5)), value_text(double(0.5), plain=False)
    (('Double', '0.5'), ('Double', '0x3fe0000000000000'))
    >>> value_text(bytes.fromhex("0cffffffff"))
    """
    size = c_size_t()
    try:
        text = _made("ua_value_text", *_octets(value), int(plain), behind=(size,)).decode()
    except Error as error:
        if error.status == NO_TEXT:
            return None
        raise
    return text[: size.value], text[size.value + 1 :]


def text_value(kind: str, text: str, plain: bool = True) -> bytes:
    """The value that a type and a text denote.

    >>> text_value("Double[]", "0.5,-1").hex()
    '8b02000000000000000000e03f000000000000f0bf'
    >>> text_value("Double", "much")
    Traceback (most recent call last):
    ua.Error: ua_text_value: a text is none of those that the call takes (reason 10)
    """
    return _made("ua_text_value", *_octets(kind), *_octets(text), int(plain), behind=(c_uint32(),), tells=("reason",))


def _number(kind: int) -> Callable[[Any], bytes]:
    return lambda number: struct.pack("<B" + NUMBERS[kind], kind, number)


boolean, int16, uint16, int32, uint32 = (_number(kind) for kind in (1, 4, 5, 6, 7))
int64, uint64, float32, double, date_time = (_number(kind) for kind in (8, 9, 10, 11, 13))


@dataclass
class Reading:
    """The encoding of a value, with a status and times, each None where it is not there."""

    value: bytes | None
    status: int | None = None
    source_time: int | None = None
    source_picoseconds: int | None = None
    server_time: int | None = None

    @property
    def number(self) -> Any:
        """The number that the value is, or the list of those of an array; None where it holds no numbers.

        >>> Reading(encode("Int16[]", "1,-2")).number
        [1, -2]
        """
        kind = self.value[0] & 0x3F if self.value else 0
        if kind not in NUMBERS or not self.value:
            return None
        if self.value[0] == kind:
            return struct.unpack_from("<" + NUMBERS[kind], self.value, 1)[0]
        count = max(struct.unpack_from("<i", self.value, 1)[0], 0)
        return list(struct.unpack_from(f"<{count}{NUMBERS[kind]}", self.value, 5))

    def _to_c(self) -> _Reading:
        given = _Reading(value_len=len(self.value or b""), has_value=self.value is not None)
        for name in ("status", "source_time", "source_picoseconds", "server_time"):
            number = getattr(self, name)
            if number is not None:
                setattr(given, name, _checked(dict(_Reading._fields_)[name], number))
                setattr(given, "has_" + name, 1)
        return given

    @staticmethod
    def _of_c(octets: bytes, given: _Reading) -> Reading:
        value = octets[given.value_at : given.value_at + given.value_len] if given.has_value else None
        names = ("status", "source_time", "source_picoseconds", "server_time")
        return Reading(value, *(getattr(given, name) if getattr(given, "has_" + name) else None for name in names))


class _Held:
    """What a handle holds. It ends behind a `with`, by `close`, or with the object."""

    def __init__(self) -> None:
        self._handle = Handle()

    def close(self) -> None:
        _library.ua_free(byref(self._handle))

    def __enter__(self) -> Any:
        return self

    def __exit__(self, *_: object) -> None:
        self.close()

    def __del__(self) -> None:
        if hasattr(self, "_handle"):
            self.close()

    def fetch(self) -> bytes:
        """The octets that wait: they are to be sent, or behind ANSWERED the body of a reply."""
        room, fetched = _library.ua_waiting(byref(self._handle)), c_size_t()
        buffer = ctypes.create_string_buffer(room or 1)
        _call("ua_fetch", byref(self._handle), buffer, room, fetched=fetched)
        return buffer.raw[: fetched.value]


class Nodes(_Held):
    """Nodes that connections share, of the text of a node file, and what a server of them says of itself.

    >>> Nodes("", "opc.tcp://localhost:4840").set(2**64, Reading(int32(7)))
    Traceback (most recent call last):
    OverflowError: 18446744073709551616 is no number of 64 bits
    """

    def __init__(self, file: str | bytes, url: str, application_uri: str = "urn:ua:server", name: str = "ua", max_message_size: int = 0) -> None:
        super().__init__()
        texts = [it for text in (file, url, application_uri, name) for it in _octets(text)]
        _call("ua_nodes_new", *texts, _bits(c_uint32, max_message_size), byref(self._handle), line=c_size_t(), reason=c_uint32())

    def find(self, node: str) -> int:
        """The index of a node, which stays."""
        index = c_size_t()
        _call("ua_node_find", byref(self._handle), *_octets(node), index=index)
        return index.value

    def set(self, index: int, reading: Reading) -> None:
        """Sets what a node holds. Without a source time it is that of the system's clock."""
        given = reading._to_c()
        if not given.has_source_time:
            given.source_time, given.has_source_time = now(), 1
        _call("ua_node_set", byref(self._handle), _bits(c_size_t, index), *_octets(reading.value or b""), byref(given))

    def get(self, index: int) -> Reading:
        """What a node holds."""
        reading = _Reading()
        octets = _made("ua_node_get", byref(self._handle), _bits(c_size_t, index), behind=(reading,))
        return Reading._of_c(octets, reading)


class Connection(_Held):
    """One connection of a server, with a channel id of its own. It is stepped with the same nodes from its first step on."""

    def __init__(self, channel: int, limits: Limits = LIMITS) -> None:
        super().__init__()
        self.ended: str | None = None
        self._written: list[tuple[int, Reading]] = []
        self._room = ctypes.create_string_buffer(ROOM)
        _call("ua_connection_new", byref(limits), _bits(c_uint32, channel), byref(self._handle))

    def step(self, nodes: Nodes, piece: bytes, moment: int | None = None) -> bytes:
        """Takes a whole piece of the client's octets, and hands back what is to be sent. `ended` says how the connection
        ended, if it did: what then is handed back is to be sent first. What clients wrote before, and was not taken, is
        let go of."""
        self._written, said, at = [], [], 0
        moment = _bits(c_int64, now() if moment is None else moment)
        octets = ctypes.create_string_buffer(bytes(memoryview(piece)), len(piece) + 1)
        while self.ended is None:
            taken, waiting, code = c_size_t(), c_size_t(), c_uint32()
            status = _call(
                "ua_connection_step", byref(self._handle), byref(nodes._handle), ctypes.addressof(octets) + at, len(piece) - at, moment,
                ok=(OK, ENDED, REFUSED), taken=taken, waiting=waiting, code=code,
            )
            if waiting.value:
                said.append(self.fetch())
            self._gather(nodes)
            at += taken.value
            if status != OK:
                self.ended = "Closed" if status == ENDED else f"Refused {code.value:08X}"
            if at == len(piece):
                break
        return b"".join(said)

    def _gather(self, nodes: Nodes) -> None:
        """Asks what the step stored, which the next one lets go of."""
        while True:
            index, reading, needed = c_size_t(), _Reading(), c_size_t()
            status = _call(
                "ua_next_written", byref(self._handle), byref(nodes._handle), byref(index), self._room, len(self._room), byref(needed),
                byref(reading), ok=(OK, NO_MORE, TOO_SMALL),
            )
            if status == NO_MORE:
                return
            if status == OK:
                self._written.append((index.value, Reading._of_c(self._room.raw[: needed.value], reading)))
            elif needed.value > len(self._room):
                self._room = ctypes.create_string_buffer(needed.value)

    def take_written(self) -> list[tuple[int, Reading]]:
        """What the client wrote by the last call of `step`, item by item and in order: the index of the node, and its value
        with the status and times that the client wrote beside it. Ask behind each."""
        written, self._written = self._written, []
        return written


class Client(_Held):
    """A client of the server of a URL. `hello` is to be sent first."""

    def __init__(self, url: str, limits: Limits = LIMITS) -> None:
        super().__init__()
        self.url, self.requests = url, 0
        _call("ua_client_new", byref(limits), *_octets(url), byref(self._handle))

    def hello(self) -> bytes:
        _call("ua_client_hello", byref(self._handle))
        return self.fetch()

    def take(self, piece: bytes, moment: int | None = None) -> tuple[int, str, int, int, bytes]:
        """Takes octets of the server up to the first that tell something: how many, the event, its id, its code, and the
        octets of SEND or ANSWERED."""
        taken, event, ident, code = c_size_t(), c_uint32(), c_uint32(), c_uint32()
        moment = now() if moment is None else moment
        _call(
            "ua_client_take", byref(self._handle), *_octets(piece), _bits(c_int64, moment), ok=(OK, REFUSED),
            taken=taken, event=event, id=ident, code=code,
        )
        return taken.value, EVENTS[event.value], ident.value, code.value, self.fetch()

    def ask(self, body: bytes) -> bytes:
        """The chunks of a call with this body."""
        _call("ua_client_ask", byref(self._handle), *_octets(body), id=c_uint32())
        return self.fetch()

    def renew(self, moment: int | None = None) -> bytes:
        """The request for a further token."""
        _call("ua_client_renew", byref(self._handle), _bits(c_int64, now() if moment is None else moment), id=c_uint32())
        return self.fetch()

    def end(self, moment: int | None = None) -> bytes:
        """The CLO."""
        _call("ua_client_close", byref(self._handle), _bits(c_int64, now() if moment is None else moment))
        return self.fetch()

    def request(self, name: str, *texts: str, moment: int | None = None) -> bytes:
        """The body of a request, by the name of its call: `get_endpoints`, `create_session`, `activate_session` (a token, and
        where it is not `anonymous` a PolicyId), `close_session`, `read` (a token, lines of nodes, an index range), `write` (a
        token, a node, a type, a text).

        >>> Client("opc.tcp://a").request("read", "ns=2;i=1")
        Traceback (most recent call last):
        TypeError: read takes 3 texts, and not 1
        """
        if len(texts) not in REQUESTS[name]:
            raise TypeError(f"{name} takes {' or '.join(map(str, REQUESTS[name]))} texts, and not {len(texts)}")
        self.requests = self.requests % 0xFFFFFFFF + 1
        split = 1 if name in ("read", "write") else len(texts)
        numbers = [_bits(c_int64, now() if moment is None else moment), self.requests]
        first, rest = ([it for text in part for it in _octets(text)] for part in (texts[:split], texts[split:]))
        tells = {"read": ("reason", "index"), "write": ("reason",), "activate_session": ("reason",) * (len(texts) == 2)}.get(name, ())
        behind = tuple(c_size_t() if it == "index" else c_uint32() for it in tells)
        if name == "activate_session" and len(texts) == 2:
            return _made("ua_activate_session_request_as", *first, *numbers, behind=behind, tells=tells)
        return _made(f"ua_{name}_request", *first, *numbers, *rest, behind=behind, tells=tells)


def choose_policy(body: bytes) -> str:
    """The PolicyId for an `activate_session`, of the reply to a GetEndpoints."""
    return _made("ua_choose_policy", *_octets(body), behind=(c_uint32(),), tells=("code",)).decode()


def session_token(body: bytes) -> str:
    """The text of the AuthenticationToken in the reply to a CreateSession."""
    return _made("ua_session_token", *_octets(body), behind=(c_uint32(),), tells=("code",)).decode()


def response_text(nodes: list[str], body: bytes) -> str:
    """The lines of the reply to a Read or a Write of these nodes, or to a GetEndpoints."""
    return _made("ua_response_text", *_octets("\n".join(nodes)), *_octets(body), behind=(c_uint32(),), tells=("code",)).decode()


def response_kind(body: bytes) -> tuple[int, int]:
    """Which response a body is, by the number of its encoding, and its ServiceResult."""
    response, result = c_uint32(), c_uint32()
    _call("ua_response_kind", *_octets(body), response=response, service_result=result)
    return response.value, result.value


def readings(body: bytes) -> list[Reading]:
    """The results of the Read whose reply this is, in order."""
    count, code, places = c_size_t(), c_uint32(), (_Reading * (len(body) // 16 + 1))()
    while True:
        status = _call("ua_readings", *_octets(body), places, len(places), ok=(OK, TOO_SMALL), count=count, code=code)
        if status == OK:
            return [Reading._of_c(body, places[at]) for at in range(count.value)]
        places = (_Reading * count.value)()


def talk(client: Client, connection: Connection, nodes: Nodes, moment: int, body: bytes | None = None) -> tuple[str, bytes]:
    """What the client tells next where its octets go to the connection and those of the connection to it: the answer to a
    body, or where there is none to its HEL. For tests, without sockets."""
    up, event, told = client.hello() if body is None else client.ask(body), "SEND", b""
    while event == "SEND":
        down = connection.step(nodes, up, moment)
        while down:
            taken, event, _, _, told = client.take(down, moment)
            down = down[taken:]
        up = told
    return event, told
