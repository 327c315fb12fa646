"""Payloads of calls, read item by item with the place of the first fault (docs/PROTOCOL.md).

`wire.py` reads replies and says in words what is wrong with one. The daemon answers a payload that
is none of the procedure's with a place, and which place that is stands here.
"""

from __future__ import annotations

import struct
from uuid import UUID

from suite.wire import LONGEST_DEFINITION, LONGEST_STATE, LONGEST_STRING, Domain, Object


class BadPayload(Exception):
    """The payload spells none of the procedure's arguments; `at` is the place of the fault."""

    def __init__(self, at: int) -> None:
        super().__init__(f"at {at}")
        self.at = at


def read_arguments(shapes: tuple[str, ...], payload: bytes) -> tuple[object, ...]:
    """The arguments that a payload spells, or `BadPayload` with the place of its first fault."""
    items = _Items(payload)
    values = tuple(items.item(shape) for shape in shapes)
    if items.place != len(payload):
        raise BadPayload(items.place)
    return values


class _Items:
    """Takes items from the left. Of an item that passes the end the fault is its first byte."""

    def __init__(self, payload: bytes) -> None:
        self.payload = payload
        self.place = 0

    def item(self, shape: str) -> object:
        match shape:
            case "word":
                return self.number(">I", 4)
            case "integer":
                return self.number(">i", 4)
            case "long":
                return self.number(">Q", 8)
            case "identifier":
                return UUID(bytes=self.take(16))
            case "string":
                return self.string(LONGEST_STRING)
            case "definition":
                return self.string(LONGEST_DEFINITION)
            case "guest":
                return self.opaque(LONGEST_STATE, is_text=False)
            case "optional string":
                return self.string(LONGEST_STRING) if self.flag() else None
            case "domain":
                return Domain(
                    self.string(LONGEST_STRING), self.item("identifier"), self.item("integer")
                )
            case "object":
                return Object(self.string(LONGEST_STRING), self.item("identifier"))
        raise AssertionError(f"no argument has the shape {shape}")

    def take(self, count: int) -> bytes:
        if self.place + count > len(self.payload):
            raise BadPayload(self.place)
        taken = self.payload[self.place : self.place + count]
        self.place += count
        return taken

    def number(self, form: str, size: int) -> int:
        return struct.unpack(form, self.take(size))[0]

    def flag(self) -> bool:
        begin = self.place
        word = self.number(">I", 4)
        if word > 1:
            raise BadPayload(begin)
        return word == 1

    def string(self, most: int) -> str:
        return self.opaque(most, is_text=True).decode()

    def opaque(self, most: int, is_text: bool) -> bytes:
        """The faults come in this order: the bound, the end, the text, the padding."""
        begin = self.place
        length = self.number(">I", 4)
        if length > most or begin + 4 + length + -length % 4 > len(self.payload):
            raise BadPayload(begin)
        value = self.take(length)
        if is_text:
            try:
                value.decode()
            except UnicodeDecodeError as fault:
                raise BadPayload(begin + 4 + fault.start) from None
        for place in range(self.place, self.place + -length % 4):
            if self.payload[place] != 0:
                raise BadPayload(place)
        self.place += -length % 4
        return value
