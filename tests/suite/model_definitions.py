"""What definitions say: domains, their devices, and what a caller says of a snapshot."""

from __future__ import annotations

import re
from dataclasses import dataclass, replace
from uuid import UUID

from suite.model_guest import Script

MOST_DEVICES = 30


@dataclass(eq=False)
class DrawnAddress:
    """The address of an interface that the daemon drew; `known` once a text has shown it."""

    token: str
    known: str | None = None

    def __str__(self) -> str:
        return self.known or self.token


class Draws:
    """What the daemon draws by chance, learnt from what it shows.

    Where a text is to have an address that is not known yet it has a token, and the first text
    that comes in its place says the address. It has to begin as each address that is drawn.
    """

    #: As long as an address, so that a text has the length that it will have.
    _TOKEN = re.compile("52:54:00:#[0-9]{7}")
    _ADDRESS = "(52:54:00(?::[0-9a-f]{2}){3})"

    def __init__(self) -> None:
        self.identifier: UUID | None = None
        self._addresses: dict[str, DrawnAddress] = {}

    def address(self) -> DrawnAddress:
        """An address that is drawn and not known yet."""
        new = DrawnAddress(f"52:54:00:#{len(self._addresses):07}")
        self._addresses[new.token] = new
        return new

    def learn(self, wanted: str, came: str) -> str:
        """The text that is wanted, with the addresses that are known once this text came."""
        tokens = self._TOKEN.findall(wanted)
        if tokens:
            pieces = self._TOKEN.split(wanted)
            form = self._ADDRESS.join(map(re.escape, pieces))
            match = re.fullmatch(form, came)
            for token, address in zip(tokens, match.groups() if match else ()):
                self._addresses[token].known = self._addresses[token].known or address
        return self._TOKEN.sub(lambda token: str(self._addresses[token.group()]), wanted)

    def has_unknown(self, content: bytes) -> bool:
        """Whether the content has an address that no text has shown yet."""
        return self._TOKEN.search(content.decode(errors="replace")) is not None

    def fill_device(self, device: "Device") -> "Device":
        """The device with an address where it is an interface without one."""
        if isinstance(device, Interface) and device.address is None:
            return replace(device, address=self.address())
        return device

    def fill_domain(self, definition: "DomainDefinition") -> "DomainDefinition":
        """The definition with what it lacks: an identifier, and an address for each interface."""
        return replace(
            definition,
            identifier=definition.identifier or self.identifier,
            interfaces=tuple(self.fill_device(one) for one in definition.interfaces),
        )


#: The address of an interface: as it was written, or drawn.
Address = str | DrawnAddress


@dataclass(frozen=True)
class Attributes:
    """An element that is there, with the named attributes that it has."""

    values: tuple[tuple[str, str], ...] = ()

    def get(self, name: str) -> str | None:
        return dict(self.values).get(name)


@dataclass(frozen=True)
class Disk:
    """A disk; its key is the target's `dev`."""

    type: str
    device: str
    driver: Attributes | None
    source: Attributes | None
    target: Attributes
    readonly: bool

    @property
    def key(self) -> str:
        return self.target.get("dev")

    def same_key(self, other: "Device") -> bool:
        return isinstance(other, Disk) and self.key == other.key


@dataclass(frozen=True)
class Interface:
    """An interface; its key is its address, and without one it is like no other."""

    type: str
    address: Address | None
    source: Attributes | None
    model: Attributes | None

    @property
    def key(self) -> str:
        return "" if self.address is None else str(self.address)

    def same_key(self, other: "Device") -> bool:
        return (
            isinstance(other, Interface)
            and self.address is not None
            and other.address is not None
            and str(self.address) == str(other.address)
        )


Device = Disk | Interface


@dataclass(frozen=True)
class DomainDefinition:
    """A domain's definition, with defaults in place of what its text left out."""

    type: str
    name: str
    identifier: UUID | None
    title: str | None
    description: str | None
    script: Script
    memory: int
    current_memory: int
    vcpus: int
    current_vcpus: int
    os: Attributes
    os_type: str
    boot: tuple[str, ...]
    on_poweroff: str
    on_reboot: str
    on_crash: str
    emulator: str | None
    disks: tuple[Disk, ...]
    interfaces: tuple[Interface, ...]
    serials: tuple[Attributes, ...]
    consoles: tuple[Attributes, ...]
    graphics: tuple[Attributes, ...]
    memballoon: Attributes | None

    @property
    def devices(self) -> tuple[Device, ...]:
        """All that have a slot and a key: disks first, in order."""
        return self.disks + self.interfaces

    def with_device(self, device: Device) -> "DomainDefinition":
        """The definition with one more device, after those of its kind."""
        if isinstance(device, Disk):
            return replace(self, disks=(*self.disks, device))
        return replace(self, interfaces=(*self.interfaces, device))

    def without_device(self, device: Device) -> "DomainDefinition":
        """The definition without the device that has this one's key."""
        return replace(
            self,
            disks=tuple(disk for disk in self.disks if not device.same_key(disk)),
            interfaces=tuple(one for one in self.interfaces if not device.same_key(one)),
        )


@dataclass(frozen=True)
class SnapshotSaid:
    """What a caller says of the snapshot that is to be taken."""

    name: str | None
    description: str


# Names, numbers and units ---------------------------------------------------------------------

_NUMBER = re.compile("[0-9]{1,19}")
_ADDRESS = re.compile("[0-9a-fA-F]{2}(:[0-9a-fA-F]{2}){5}")
_HYPHENATED = "[0-9a-fA-F]{8}(?:-[0-9a-fA-F]{4}){3}-[0-9a-fA-F]{12}"
_IDENTIFIERS = (
    re.compile("([0-9a-fA-F]{32})"),
    re.compile(f"({_HYPHENATED})"),
    re.compile(f"\\{{({_HYPHENATED})\\}}"),
    re.compile(f"(?i:urn:uuid:)({_HYPHENATED})"),
)


def is_name(text: str) -> bool:
    """1 to 128 bytes, none of them `/` or a control character, neither `.` nor `..`."""
    return (
        1 <= len(text.encode()) <= 128
        and text not in (".", "..")
        and all(character != "/" and ord(character) >= 0x20 and ord(character) != 0x7F
                for character in text)
    )


def read_number(text: str) -> int | None:
    """1 to 19 decimal digits."""
    return int(text) if _NUMBER.fullmatch(text) else None


def read_identifier(text: str) -> UUID | None:
    """Any of the four forms of a UUID."""
    for form in _IDENTIFIERS:
        match = form.fullmatch(text)
        if match:
            return UUID(match.group(1))
    return None


def read_address(text: str) -> str | None:
    """Six pairs of hexadecimal digits with colons; kept in small letters."""
    return text.lower() if _ADDRESS.fullmatch(text) else None


def _units() -> dict[str, int]:
    units = {"b": 1, "bytes": 1}
    for power, letter in enumerate("kmgtpe", start=1):
        units[f"{letter}b"] = 1000**power
        units[letter] = units[f"{letter}ib"] = 1024**power
    return units


#: How many bytes a unit is; the case of the letters does not matter.
UNITS = _units()


def read_kibibytes(text: str, unit: str | None) -> int | None:
    """A number in its unit, by default KiB, rounded up to KiB."""
    number = read_number(text)
    size = UNITS.get("kib" if unit is None else unit.lower() if unit.isascii() else unit)
    if number is None or size is None:
        return None
    return -(-number * size // 1024)
