"""Payloads that are none, judged by the suite's own reading of the wire."""

import random

from suite.cases import Failed, case, check
from suite.daemon import Place, Session
from suite.procedures import BY_NUMBER, CALL, PROCEDURES, VERSION, Procedure
from suite.samples import definition, identifier, named
from suite.wire import (
    LONGEST_DEFINITION,
    LONGEST_PACKET,
    HEADER,
    Packet,
    Refusal,
    first_fault,
    refusal,
    split,
    value_of,
)
from suite.wire_examples import DEMO, examples_of_the_protocol

SERVED = [procedure for procedure in PROCEDURES.values() if procedure.served]

#: An identifier that no domain of the demo has, so that a call that is well spelled does nothing.
ABSENT = identifier(99)

#: Words that a payload is given in the place of its own.
OTHER_WORDS = (0, 1, 2, 0x7FFFFFFF, 0xFFFFFFFF)

#: How many payloads are changed at random.
CHANGED = 1500


def _example(procedure: Procedure) -> bytes:
    """The payload of the protocol's example of a call, of a domain that is not there."""
    packets, _ = split(examples_of_the_protocol()[procedure.name][0])
    return packets[0].payload.replace(DEMO.bytes, ABSENT.bytes)


def _call(procedure: Procedure, serial: int, payload: bytes) -> Packet:
    return Packet(procedure.program, VERSION, procedure.number, CALL, serial, 0, payload)


def _check_places(place: Place, calls: list[tuple[Procedure, bytes]]) -> None:
    """Each call is refused with the place of its first fault."""
    session = Session(place, "demo")
    packets = [_call(one, serial, payload) for serial, (one, payload) in enumerate(calls)]
    session.send(b"".join(packet.to_bytes() for packet in packets))
    for serial, (procedure, payload) in enumerate(calls):
        fault = first_fault(procedure.arguments, payload)
        wanted = refusal(39, f"at {fault}")
        came = value_of(session.reply_of(serial))
        check(wanted, came, f"{procedure.name} with the payload {payload.hex(' ', 4)}")
    check(0, session.finish().status, "the exit status")


@case("payloads", "A call that is cut off behind any of its bytes is refused at the item's place")
def cut_off(place: Place) -> None:
    calls = [(one, _example(one)[:cut]) for one in SERVED for cut in range(len(_example(one)))]
    _check_places(place, calls)


@case("payloads", "A call with one byte more is refused at that byte")
def one_more(place: Place) -> None:
    _check_places(place, [(one, _example(one) + b"\0") for one in SERVED])


def _check_readings(place: Place, calls: list[tuple[Procedure, bytes]]) -> None:
    """Each call is refused at its first fault, or read where it has none."""
    session = Session(place, "demo")
    for serial, (procedure, payload) in enumerate(calls):
        session.send(_call(procedure, serial, payload))
    for serial, (procedure, payload) in enumerate(calls):
        fault = first_fault(procedure.arguments, payload)
        came = value_of(session.reply_of(serial))
        what = f"{procedure.name} with the payload {payload.hex(' ', 4)}"
        if fault is not None:
            check(refusal(39, f"at {fault}"), came, what)
        elif isinstance(came, Refusal) and came.code == 39:
            raise Failed(f"{what} is well spelled, and yet refused: {came}")
    check(0, session.finish().status, "the exit status")


@case("payloads", "A call with another word anywhere is refused where the protocol says, or read")
def other_words(place: Place) -> None:
    calls = []
    for procedure in SERVED:
        payload = _example(procedure)
        for at in range(0, len(payload), 4):
            for word in OTHER_WORDS:
                changed_one = payload[:at] + word.to_bytes(4, "big") + payload[at + 4 :]
                calls.append((procedure, changed_one))
    _check_readings(place, calls)


@case("payloads", "A call that is changed at random is refused where the protocol says, or read")
def changed(place: Place) -> None:
    chance = random.Random(46)
    with_payload = [procedure for procedure in SERVED if procedure.arguments]
    calls = []
    for _ in range(CHANGED):
        procedure = chance.choice(with_payload)
        payload = bytearray(_example(procedure))
        for _ in range(chance.randint(1, 3)):
            payload[chance.randrange(len(payload))] = chance.choice((0, 1, 2, 0x7F, 0xFF, 0xC3))
        calls.append((procedure, bytes(payload)))
    _check_readings(place, calls)


@case("payloads", "What is not served is refused with its number, whatever its payload is")
def not_served(place: Place) -> None:
    session = Session(place, "demo")
    for serial, procedure in enumerate(one for one in PROCEDURES.values() if not one.served):
        for payload in (_example(procedure), b"\xff"):
            session.send(_call(procedure, serial, payload))
            came = value_of(session.reply_of(serial))
            check(refusal(206, str(procedure.number)), came, procedure.name)


@case("payloads", "A number that neither table has is refused with it, and so are the two messages")
def unknown(place: Place) -> None:
    session = Session(place, "demo")
    for program in sorted({program for program, _ in BY_NUMBER}):
        for number in [*range(0, 64), 9999, 0xFFFF_FFFF]:
            if (program, number) in BY_NUMBER:
                continue
            packet = Packet(program, VERSION, number, CALL, number, 0, b"\xff" * 5)
            session.send(packet)
            came = value_of(session.reply_of(number))
            check(refusal(3, str(number)), came, f"procedure {number} of {program:#x}")


@case("payloads", "A program and a version that nobody knows are refused, in this order")
def program_and_version(place: Place) -> None:
    session = Session(place, "demo")
    rows = [
        (0x20008087, 1, 1, "program"),
        (0x20008087, 2, 9999, "program"),
        (0x20008086, 2, 9999, "version"),
        (0x20008086, 0, 23, "version"),
        (0x20008F01, 0xFFFF_FFFF, 1, "version"),
        (0x6B656570, 1, 1, "program"),
    ]
    for serial, (program, version, number, kept) in enumerate(rows):
        session.send(Packet(program, version, number, CALL, serial, 0, b"\xff"))
        reply = session.reply_of(serial)
        check((program, version, number), (reply.program, reply.version, reply.procedure), kept)
        check(refusal(39, kept), value_of(reply), f"program {program:#x}, version {version}")


@case("payloads", "The longest definition is read, and one byte more is refused")
def longest_definition(place: Place) -> None:
    session = Session(place)
    domain = named("a", 1)
    text = definition(domain).ljust(LONGEST_DEFINITION)
    check(domain, session.call("DOMAIN_DEFINE_XML", text), "a definition of 65,536 bytes")
    came = session.call("DOMAIN_DEFINE_XML", text + " ")
    check(refusal(39, "at 0"), came, "a definition of 65,537 bytes")
    check(domain, session.call("DOMAIN_LOOKUP_BY_NAME", "a"), "the domain")


@case("payloads", "The longest state of a guest is read, and one byte more is refused")
def longest_state(place: Place) -> None:
    session = Session(place)
    text = definition(named("a", 1))
    length = len(text.encode())
    came = session.call("MIGRATE_PREPARE", text, 1, bytes(4097))
    place_of_state = 4 + length + -length % 4 + 4
    check(refusal(39, f"at {place_of_state}"), came, "a state of 4,097 bytes")
    came = session.call("MIGRATE_PREPARE", text, 1, bytes(4096))
    check(refusal(9, "class 2"), came, "a state of 4,096 bytes, of which the guest can take 8")


@case("payloads", "The longest packet is read, and the session goes on")
def longest_packet(place: Place) -> None:
    session = Session(place, "demo")
    lookup = PROCEDURES["DOMAIN_LOOKUP_BY_NAME"]
    session.send(_call(lookup, 1, bytes(LONGEST_PACKET - HEADER.size)))
    check(refusal(39, "at 4"), value_of(session.reply_of(1)), "a payload of zeros")
    letters = LONGEST_PACKET - HEADER.size - 4
    came = session.call("DOMAIN_LOOKUP_BY_NAME", "a" * letters)
    check(refusal(42, "a" * 1024), came, "a name of 4,194,272 letters")
    check(None, session.call("CONNECT_OPEN", None, 0), "a connection that is opened after it")


@case("payloads", "A kept text is cut to whole characters within 1,024 bytes")
def kept_texts(place: Place) -> None:
    session = Session(place, "demo")
    rows = [
        (0, "", 0),
        (1024, "", 1024),
        (1025, "", 1024),
        (1023, "\u00e9", 1023),
        (1022, "\u00e9z", 1024),
        (1022, "\u20ac", 1022),
        (1020, "\U0001f600", 1024),
    ]
    for letters, end, kept in rows:
        name = "a" * letters + end
        wanted = name.encode()[:kept].decode() or None
        came = session.call("DOMAIN_LOOKUP_BY_NAME", name)
        check(refusal(42, wanted), came, f"{letters} letters and {end!r}")
