"""What a case of the suite is, how it registers itself, and how it fails."""

from collections.abc import Callable
from dataclasses import dataclass

from suite.daemon import Hang, NoReply, Place
from suite.wire import Malformed, Packet, show, split

#: How many bytes are shown around the first that differs.
AROUND = 16


class Failed(Exception):
    """A case came out otherwise than it should. Its text says what was wanted and what came."""


#: What says by itself why a case failed; of all else the place in the suite is wanted too.
EXPECTED = (Failed, Hang, NoReply, Malformed)


@dataclass(frozen=True)
class Case:
    """One case: what it is about, what it shows in one sentence, and the function that runs it.

    It runs the daemon, the client, or both.
    """

    subject: str
    shows: str
    run: Callable[[Place], None]
    long: bool = False
    daemon: bool = True
    client: bool = False

    @property
    def name(self) -> str:
        """The text that is printed, and by which `-k` finds the case."""
        return f"{self.subject}: {self.shows}"


#: Every case that was registered, in the order of its registration.
CASES: list[Case] = []


def register(new: Case) -> None:
    """Add a case. Two cases of one name would hide each other behind `-k`."""
    if any(known.name == new.name for known in CASES):
        raise ValueError(f"two cases are called {new.name!r}")
    CASES.append(new)


def case(
    subject: str,
    shows: str,
    long: bool = False,
    client: bool = False,
    daemon: bool | None = None,
) -> Callable:
    """Register the function under it as a case; with `long` it runs only behind `--long`.

    With `client` it runs the client, and then the daemon only where `daemon` says so.
    """

    def registered(function: Callable[[Place], None]) -> Callable[[Place], None]:
        register(Case(subject, shows, function, long, not client if daemon is None else daemon, client))
        return function

    return registered


def check(wanted: object, came: object, what: str) -> None:
    """Go on where `came` is what was wanted; else fail, with both shown."""
    if wanted != came:
        raise Failed(difference(wanted, came, what))


def difference(wanted: object, came: object, what: str) -> str:
    """Both sides decoded, and for bytes the first place at which they differ."""
    lines = [f"{what}", f"  wanted {shown(wanted)}", f"  came   {shown(came)}"]
    first, second = as_bytes(wanted), as_bytes(came)
    if first is not None and second is not None:
        lines.append(_first_difference(first, second))
    return "\n".join(lines)


def as_bytes(value: object) -> bytes | None:
    """The bytes of a value that goes over the wire as it is."""
    if isinstance(value, Packet):
        return value.to_bytes()
    return bytes(value) if isinstance(value, (bytes, bytearray)) else None


def shown(value: object) -> str:
    """A value as a person reads it: packets decoded, a stream packet by packet."""
    if isinstance(value, Packet):
        return show(value)
    if isinstance(value, (bytes, bytearray)):
        return _shown_stream(bytes(value))
    if isinstance(value, str) and "\n" in value:
        return "".join("\n    | " + line for line in value.splitlines())
    return repr(value)


def _shown_stream(stream: bytes) -> str:
    if not stream:
        return "nothing"
    try:
        packets, rest = split(stream)
    except Malformed:
        packets, rest = [], stream
    lines = [show(packet) for packet in packets]
    if rest:
        lines.append(f"{len(rest)} bytes {rest[:64]!r}{'..' if len(rest) > 64 else ''}")
    return lines[0] if len(lines) == 1 else "".join("\n    " + line for line in lines)


def _first_difference(wanted: bytes, came: bytes) -> str:
    shorter = min(len(wanted), len(came))
    place = next((at for at in range(shorter) if wanted[at] != came[at]), shorter)
    begin = max(0, place - AROUND) // 4 * 4
    return (
        f"  first difference at byte {place} (of {len(wanted)} wanted, {len(came)} that came);"
        f" from byte {begin}\n"
        f"    wanted {wanted[begin : place + AROUND].hex(' ', -4)}\n"
        f"    came   {came[begin : place + AROUND].hex(' ', -4)}"
    )
