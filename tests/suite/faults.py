"""Words with which no packet begins: each is a fault as soon as it is there."""

import struct

from suite.cases import case, check
from suite.daemon import Place, Session
from suite.wire import call

#: The words of a stream, what is said of it, and how many bytes of it show the fault.
FAULTS = [
    ((27, 0, 0, 0, 3, 0, 9), "LengthLow 27", 4),
    ((0,), "LengthLow 0", 4),
    ((0x400001, 0, 0, 0, 3), "LengthHigh 4194305", 4),
    ((0xFFFFFFFF,), "LengthHigh 4294967295", 4),
    ((28, 0, 0, 0, 3, 0, 9), "Kind 3", 20),
    ((0x400000, 0, 0, 0, 0xFFFFFFFF), "Kind 4294967295", 20),
    ((28, 0, 0, 0, 2, 0, 3, 0), "Status 3", 28),
    ((28, 0, 0, 0, 0, 0, 1), "Status 1", 28),
]


@case("faults", "No packet begins so, and that is said while the input is still open")
def as_soon_as_they_are_there(place: Place) -> None:
    for words, said, size in FAULTS:
        session = Session(place, "demo")
        session.send(struct.pack(f">{len(words)}I", *words)[:size])
        ended = session.wait()
        check(f"virtd: bad packet {said}\n", ended.stderr, f"standard error at {words}")
        check((7, b""), (ended.status, ended.unread), f"the exit status at {words}")


@case("faults", "The byte before the fault shows none: the input is cut off there")
def not_before(place: Place) -> None:
    for words, _, size in FAULTS:
        ended = place.run("demo", given=struct.pack(f">{len(words)}I", *words)[: size - 1])
        check(f"virtd: truncated {size - 1}\n", ended.stderr, f"standard error before {words}")
        check(8, ended.status, f"the exit status before {words}")


@case("faults", "What comes after the fault is not looked at, and what came before is answered")
def in_between(place: Place) -> None:
    lookup = call("DOMAIN_LOOKUP_BY_NAME", 1, "demo").to_bytes()
    session = Session(place, "demo")
    session.send(lookup + struct.pack(">I", 27) + lookup)
    ended = session.finish()
    check(56, len(ended.unread), "the length of the one reply")
    check("virtd: bad packet LengthLow 27\n", ended.stderr, "standard error")
    check(7, ended.status, "the exit status")
