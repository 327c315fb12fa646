"""The wire: packets, and the values that their payloads spell.

This is the suite's own reading of docs/PROTOCOL.md. It shares nothing with the daemon, so that a
row in which both agree has been read twice.
"""

import struct
from dataclasses import dataclass
from uuid import UUID

from suite.procedures import (
    BY_NUMBER,
    CALL,
    EVENTS,
    MESSAGE,
    MESSAGES,
    PROCEDURES,
    REPLY,
    SECOND_PROGRAM,
    VERSION,
)

HEADER = struct.Struct(">7I")
LONGEST_PACKET = 4_194_304
LONGEST_STRING = LONGEST_PACKET - HEADER.size
LONGEST_DEFINITION = 65_536
LONGEST_STATE = 4_096
LONGEST_LIST = 1_024
QEMU_DRIVER = 10
ERROR_LEVEL = 2


class Malformed(Exception):
    """A payload that spells no value of its shapes, and the place of its first fault."""

    def __init__(self, place: int, why: str):
        super().__init__(f"{why} at {place}")
        self.place = place


@dataclass(frozen=True)
class Packet:
    """One packet: its words without the length, and its payload."""

    program: int
    version: int
    procedure: int
    kind: int
    serial: int
    status: int
    payload: bytes = b""

    def to_bytes(self) -> bytes:
        """The whole packet as it goes over a connection."""
        words = (self.program, self.version, self.procedure, self.kind, self.serial, self.status)
        return HEADER.pack(HEADER.size + len(self.payload), *words) + self.payload


@dataclass(frozen=True)
class Domain:
    """What names a domain in calls and replies. The number is that of its live boot, or -1."""

    name: str
    identifier: UUID
    number: int = -1


@dataclass(frozen=True)
class Object:
    """What names a network or a pool in calls and replies."""

    name: str
    identifier: UUID


@dataclass(frozen=True)
class Refusal:
    """The payload of a reply with status 1. What is always absent is not kept."""

    code: int
    domain: int
    message: str | None
    kept: str | None


def refusal(code: int, kept: str | None = None) -> Refusal:
    """The refusal of a code as the daemon writes it, with this kept text."""
    return Refusal(code, QEMU_DRIVER, MESSAGES[code], kept)


# Spelling


def _word(value: int) -> bytes:
    return struct.pack(">I", value)


def _integer(value: int) -> bytes:
    return struct.pack(">i", value)


def _long(value: int) -> bytes:
    return struct.pack(">Q", value)


def _opaque(value: bytes) -> bytes:
    return _word(len(value)) + value + bytes(-len(value) % 4)


def _string(value: str | bytes) -> bytes:
    return _opaque(value.encode() if isinstance(value, str) else value)


def _optional_string(value: str | None) -> bytes:
    return _word(0) if value is None else _word(1) + _string(value)


def _identifier(value: UUID) -> bytes:
    return value.bytes


def _domain(value: Domain) -> bytes:
    return _string(value.name) + value.identifier.bytes + _integer(value.number)


def _object(value: Object) -> bytes:
    return _string(value.name) + value.identifier.bytes


def _strings(value: list[str]) -> bytes:
    return _word(len(value)) + b"".join(_string(item) for item in value)


def _domains(value: list[tuple[Domain, int]]) -> bytes:
    return _word(len(value)) + b"".join(_domain(item) + _word(state) for item, state in value)


def _pools(value: list[tuple[Object, int]]) -> bytes:
    return _word(len(value)) + b"".join(_object(item) + _word(active) for item, active in value)


def _pairs(value: list[tuple[str, str]]) -> bytes:
    return _word(len(value)) + b"".join(_string(name) + _string(title) for name, title in value)


_SPELLERS = {
    "word": _word,
    "state": _word,
    "job": _word,
    "phase": _word,
    "integer": _integer,
    "long": _long,
    "string": _string,
    "definition": _string,
    "optional string": _optional_string,
    "identifier": _identifier,
    "guest": _opaque,
    "domain": _domain,
    "object": _object,
    "names": _strings,
    "domains": _domains,
    "titles": _pairs,
    "pools": _pools,
    "leases": _pairs,
}


def spell(shapes: tuple[str, ...], values: tuple[object, ...]) -> bytes:
    """A payload of these shapes. Bounds are not looked at: a case may want to pass them."""
    if len(shapes) != len(values):
        raise TypeError(f"{len(values)} values for the shapes {shapes}")
    return b"".join(_SPELLERS[shape](value) for shape, value in zip(shapes, values))


def call(name: str, serial: int, *values: object) -> Packet:
    """A call of the procedure with that name."""
    procedure = PROCEDURES[name]
    payload = spell(procedure.arguments, values)
    return Packet(procedure.program, VERSION, procedure.number, CALL, serial, 0, payload)


def reply(name: str, serial: int, *values: object) -> Packet:
    """The reply to a call of the procedure with that name, which was done."""
    procedure = PROCEDURES[name]
    payload = spell(procedure.results, values)
    return Packet(procedure.program, VERSION, procedure.number, REPLY, serial, 0, payload)


def event(number: int, *values: object) -> Packet:
    """A message of the second program that nobody asked for."""
    payload = spell(EVENTS[number].items, values)
    return Packet(SECOND_PROGRAM, VERSION, number, MESSAGE, 0, 0, payload)


def refused(name: str, serial: int, code: int, kept: str | None = None) -> Packet:
    """The reply to a call of the procedure with that name, which was refused."""
    procedure = PROCEDURES[name]
    payload = b"".join(
        (
            _word(code),
            _word(QEMU_DRIVER),
            _optional_string(MESSAGES[code]),
            _word(ERROR_LEVEL),
            _word(0),  # no domain
            _optional_string(kept or None),
            bytes(8),  # two texts that are absent
            bytes(8),  # two numbers
            _word(0),  # no network
        )
    )
    return Packet(procedure.program, VERSION, procedure.number, REPLY, serial, 1, payload)


# Reading


class Reader:
    """Reads items from the left of a payload, and tells the place of the first fault."""

    def __init__(self, payload: bytes):
        self.payload = payload
        self.place = 0

    def _take(self, count: int, begin: int) -> bytes:
        """The next bytes, just so many, of the item that begins at this place."""
        if count > len(self.payload) - self.place:
            raise Malformed(begin, "an item passes the end")
        piece = self.payload[self.place : self.place + count]
        self.place += count
        return piece

    def word(self) -> int:
        """An unsigned integer of four bytes."""
        return struct.unpack(">I", self._take(4, self.place))[0]

    def integer(self) -> int:
        """A signed integer of four bytes."""
        return struct.unpack(">i", self._take(4, self.place))[0]

    def long(self) -> int:
        """An unsigned integer of eight bytes."""
        return struct.unpack(">Q", self._take(8, self.place))[0]

    def flag(self) -> bool:
        """A boolean, which has just two spellings."""
        begin = self.place
        word = self.word()
        if word > 1:
            raise Malformed(begin, f"a boolean is {word}")
        return word == 1

    def opaque(self, most: int) -> bytes:
        """Variable opaque data of at most so many bytes, with its padding of zeros."""
        value, padding, after = self._data(most)
        self._test_padding(padding, after)
        return value

    def string(self, most: int = LONGEST_STRING) -> str:
        """A string, which is UTF-8. That comes before the padding is looked at."""
        value, padding, after = self._data(most)
        try:
            text = value.decode()
        except UnicodeDecodeError as fault:
            raise Malformed(after - len(value) + fault.start, "no UTF-8") from fault
        self._test_padding(padding, after)
        return text

    def _data(self, most: int) -> tuple[bytes, bytes, int]:
        """The bytes of variable opaque data, its padding, and the place of the padding."""
        begin = self.place
        length = struct.unpack(">I", self._take(4, begin))[0]
        if length > most:
            raise Malformed(begin, f"a length of {length}, above {most},")
        whole = self._take(length + -length % 4, begin)
        return whole[:length], whole[length:], begin + 4 + length

    @staticmethod
    def _test_padding(padding: bytes, after: int) -> None:
        wrong = next((at for at, byte in enumerate(padding) if byte), None)
        if wrong is not None:
            raise Malformed(after + wrong, "padding that is not 0")

    def optional_string(self) -> str | None:
        """A string that may be absent."""
        return self.string() if self.flag() else None

    def identifier(self) -> UUID:
        """The 16 bytes of an identifier."""
        return UUID(bytes=self._take(16, self.place))

    def domain(self) -> Domain:
        """A domain: name, identifier and number."""
        return Domain(self.string(), self.identifier(), self.integer())

    def object(self) -> Object:
        """A network or a pool: name and identifier."""
        return Object(self.string(), self.identifier())

    def _list(self, item) -> list:
        begin = self.place
        count = self.word()
        if count > LONGEST_LIST:
            raise Malformed(begin, f"a list of {count} entries")
        return [item() for _ in range(count)]

    def items(self, shapes: tuple[str, ...]) -> tuple[object, ...]:
        """Values of these shapes, and nothing after them."""
        values = tuple(self._read(shape) for shape in shapes)
        if self.place != len(self.payload):
            raise Malformed(self.place, "bytes after the last item")
        return values

    def _read(self, shape: str) -> object:
        match shape:
            case "word" | "state" | "job" | "phase":
                return self.word()
            case "integer":
                return self.integer()
            case "long":
                return self.long()
            case "string":
                return self.string()
            case "definition":
                return self.string(LONGEST_DEFINITION)
            case "optional string":
                return self.optional_string()
            case "identifier":
                return self.identifier()
            case "guest":
                return self.opaque(LONGEST_STATE)
            case "domain":
                return self.domain()
            case "object":
                return self.object()
            case "names":
                return self._list(self.string)
            case "domains":
                return self._list(lambda: (self.domain(), self.word()))
            case "titles":
                return self._list(lambda: (self.string(), self.string()))
            case "pools":
                return self._list(lambda: (self.object(), self.word()))
            case "leases":
                return self._list(lambda: (self.string(), self.string()))
        raise AssertionError(f"no such shape: {shape}")


def _refusal_of(payload: bytes) -> Refusal:
    reader = Reader(payload)
    code, domain, message = reader.word(), reader.word(), reader.optional_string()
    level = reader.word()
    about = reader.flag()
    kept = reader.optional_string()
    rest = (reader.flag(), reader.flag(), reader.word(), reader.word(), reader.flag())
    if level != ERROR_LEVEL or about or any(rest) or reader.place != len(payload):
        raise Malformed(0, f"no refusal as the protocol has it: {payload.hex(' ', 4)}")
    return Refusal(code, domain, message, kept)


def _one(values: tuple[object, ...]) -> object:
    if not values:
        return None
    return values[0] if len(values) == 1 else values


def value_of(packet: Packet) -> object:
    """What a reply says: a `Refusal`, or its result (None, one value, or a tuple of several).

    Raises `Malformed` where the payload spells nothing of the procedure's results.
    """
    if packet.kind == MESSAGE:
        if packet.procedure not in EVENTS:
            raise Malformed(0, f"no message {packet.procedure}")
        return Reader(packet.payload).items(EVENTS[packet.procedure].items)
    if packet.kind != REPLY:
        raise Malformed(0, "a call, where a reply is wanted")
    if packet.status == 1:
        return _refusal_of(packet.payload)
    procedure = BY_NUMBER.get((packet.program, packet.procedure))
    if procedure is None:
        raise Malformed(0, f"what procedure {packet.procedure} has answered")
    return _one(Reader(packet.payload).items(procedure.results))


def arguments_of(packet: Packet) -> tuple[object, ...]:
    """The arguments of a call. Raises `Malformed` where the payload spells none."""
    procedure = BY_NUMBER.get((packet.program, packet.procedure))
    if procedure is None:
        raise Malformed(0, f"a call of the unknown procedure {packet.procedure}")
    return Reader(packet.payload).items(procedure.arguments)


def first_fault(shapes: tuple[str, ...], payload: bytes) -> int | None:
    """The place of the first fault of a payload of these shapes; None where it has none."""
    try:
        Reader(payload).items(shapes)
    except Malformed as fault:
        return fault.place
    return None


def split(stream: bytes) -> tuple[list[Packet], bytes]:
    """The whole packets at the front of a stream, and the bytes after them."""
    packets = []
    while len(stream) >= HEADER.size:
        length, *words = HEADER.unpack(stream[: HEADER.size])
        if not HEADER.size <= length <= LONGEST_PACKET or length > len(stream):
            break
        packets.append(Packet(*words, stream[HEADER.size : length]))
        stream = stream[length:]
    return packets, stream


# Showing


def _name_of(packet: Packet) -> str:
    procedure = BY_NUMBER.get((packet.program, packet.procedure))
    if packet.kind == MESSAGE and packet.program == SECOND_PROGRAM and packet.procedure in EVENTS:
        return EVENTS[packet.procedure].name
    if procedure is None:
        return f"procedure {packet.procedure} of {packet.program:#x}"
    return procedure.name


def _shown_value(value: object) -> str:
    match value:
        case None:
            return "absent"
        case Domain(name, identifier, number):
            return f"{name}/{identifier}/{number}"
        case Object(name, identifier):
            return f"{name}/{identifier}"
        case Refusal(code, domain, message, kept):
            driver = "" if domain == QEMU_DRIVER else f" of error domain {domain}"
            return f"refused {code}{driver} {message!r}, kept {kept!r}"
        case bytes():
            return f"bytes {value.hex(' ', 4)}"
        case UUID() | int():
            return str(value)
        case list() | tuple():
            return "[" + ", ".join(_shown_value(item) for item in value) + "]"
    return repr(value)


def show(packet: Packet) -> str:
    """One line that says what a packet is: its procedure, kind, serial and values."""
    kind = {CALL: "call", REPLY: "reply", MESSAGE: "message"}.get(
        packet.kind, f"kind {packet.kind}"
    )
    head = f"{kind} {packet.serial} {_name_of(packet)}"
    if packet.version != VERSION:
        head += f" of version {packet.version}"
    if packet.status not in (0, 1):
        head += f" with status {packet.status}"
    try:
        if packet.kind == CALL:
            return f"{head}: {_shown_value(arguments_of(packet))}"
        if packet.kind == REPLY and packet.status == 0 and not packet.payload:
            return f"{head}: done"
        return f"{head}: {_shown_value(value_of(packet))}"
    except Malformed as fault:
        return f"{head}: {packet.payload.hex(' ', 4) or 'no payload'} ({fault})"
