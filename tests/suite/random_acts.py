"""Acts of random sessions: calls that name domains by their names, and packets that are no calls.

Identifiers are looked up when an act is done, so that a session can be played again although the
daemon draws others.
"""

from __future__ import annotations

from dataclasses import dataclass, replace
from uuid import UUID

from suite.model import Daemon
from suite.model_refusals import Refused
from suite.procedures import MESSAGE
from suite.wire import Domain as Reference
from suite.wire import Packet, call

NAMES = ("web1", "web2", "db", "a", "b", "Z", "näme", "漢字", "with blank", "x" * 128)

#: States of a guest that comes: whole ones, and some of another length.
STATES = (
    bytes(8),
    (2_048).to_bytes(8, "big"),
    (1 << 63).to_bytes(8, "big"),
    b"",
    b"12345",
    bytes(9),
)

KEEPALIVE_PROGRAM = 0x6B656570
PING = Packet(KEEPALIVE_PROGRAM, 1, 1, MESSAGE, 5, 0, b"whatever")


def identifier_of(name: str) -> UUID:
    """The identifier that the definitions of a name have, where they have one."""
    number = NAMES.index(name) + 1 if name in NAMES else 0x1000 + int(name.rsplit("-", 1)[1])
    return UUID(int=0x4000_8000_0000_0000_0000 + number)


@dataclass(frozen=True)
class Target:
    """The domain of this name, as an argument of a call."""

    name: str


@dataclass(frozen=True)
class Identified(Target):
    """The identifier alone of the domain of this name."""


@dataclass(frozen=True)
class Act:
    """A call, perhaps with other words in its header, or with a payload that is bent."""

    procedure: str
    arguments: tuple[object, ...] = ()
    program: int | None = None
    version: int | None = None
    number: int | None = None
    cut: int | None = None
    put: tuple[int, int] | None = None
    more: bytes = b""

    def packet(self, daemon: Daemon, serial: int) -> Packet:
        """The packet, with the identifiers that the domains have by now."""
        values = (_resolved(daemon, argument) for argument in self.arguments)
        packet = call(self.procedure, serial, *values)
        return replace(
            packet,
            program=packet.program if self.program is None else self.program,
            version=packet.version if self.version is None else self.version,
            procedure=packet.procedure if self.number is None else self.number,
            payload=self._bent(packet.payload) + self.more,
        )

    def _bent(self, payload: bytes) -> bytes:
        if self.cut is not None and payload:
            payload = payload[: self.cut % len(payload)]
        if self.put is not None and payload:
            at = self.put[0] % len(payload)
            payload = payload[:at] + bytes([self.put[1]]) + payload[at + 1 :]
        return payload


def _resolved(daemon: Daemon, argument: object) -> object:
    if not isinstance(argument, Target):
        return argument
    try:
        identifier = daemon.find_name(argument.name).identifier
    except Refused:
        identifier = identifier_of(argument.name)
    if isinstance(argument, Identified):
        return identifier
    return Reference(argument.name, identifier, -1)


@dataclass(frozen=True)
class Passed:
    """A packet that is no call, and is passed over; only a ping is answered, by a message."""

    packet: Packet

    @property
    def is_ping(self) -> bool:
        return self.packet == PING
