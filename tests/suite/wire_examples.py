"""The suite's own reading of the wire, held against the examples of docs/PROTOCOL.md.

Nothing here starts the daemon: where these fail, no other case of the suite tells anything.
"""

import re
from functools import lru_cache
from pathlib import Path
from uuid import UUID

from suite.cases import Failed, case, check
from suite.daemon import Place
from suite.procedures import BY_NUMBER, EVENTS, MESSAGES, PROCEDURES
from suite.wire import Domain, Object, arguments_of, call, show, split, value_of

PROTOCOL = Path(__file__).resolve().parents[2] / "docs/PROTOCOL.md"

DEMO = UUID("00000000-0000-4000-8000-000000000001")

#: The value that the document's examples have for each shape.
EXAMPLE = {
    "word": 7,
    "integer": -2,
    "long": 0x1_0000_0002,
    "string": "web1",
    "definition": "<a/>",
    "optional string": "web1",
    "identifier": DEMO,
    "guest": b"\x01\x02\x03",
    "domain": Domain("demo", DEMO, -1),
    "object": Object("demo", DEMO),
}


@lru_cache
def examples_of_the_protocol() -> dict[str, tuple[bytes, bytes]]:
    """A call and a reply of each procedure, as whole packets."""
    text = PROTOCOL.read_text()
    lines = re.findall(r"^\| \d+ (\w+) \| `([0-9a-f]+)`<br>`([0-9a-f]+)` \|$", text, re.M)
    return {name: (bytes.fromhex(one), bytes.fromhex(other)) for name, one, other in lines}


def _example_of(name: str) -> tuple[object, ...]:
    if name == "MIGRATE_PREPARE":  # its integer says whether the guest ran
        return ("<a/>", 1, b"\x01\x02\x03")
    return tuple(EXAMPLE[shape] for shape in PROCEDURES[name].arguments)


@case("the suite itself", "each example of the protocol's document is read and written so")
def examples(_: Place) -> None:
    found = examples_of_the_protocol()
    check(sorted(PROCEDURES), sorted(found), "the procedures with an example")
    for name, (asked, answered) in found.items():
        packets, rest = split(asked + answered)
        check(b"", rest, f"what is left of {name}'s example")
        wanted = _example_of(name)
        check(wanted, arguments_of(packets[0]), f"the arguments of {name}")
        check(asked, call(name, 7, *wanted).to_bytes(), f"the call of {name}")
        value_of(packets[1])
        if "(" in show(packets[1]):
            raise Failed(f"the reply of {name} is not read: {show(packets[1])}")


@case("the suite itself", "the tables of procedures, messages and codes are the document's")
def tables(_: Place) -> None:
    text = PROTOCOL.read_text()
    program = 0
    seen = {}
    for line in text.splitlines():
        head = re.match(r"### Program (0x[0-9a-f]+), version 1$", line)
        if head:
            program = int(head[1], 16)
        row = re.match(r"\| (\d+) \| ([A-Z_]+) \| .* \| .* \| (yes)? ?\|$", line)
        if row and program:
            seen[(program, int(row[1]))] = (row[2], row[3] == "yes")
    known = {key: (line.name, line.served) for key, line in BY_NUMBER.items()}
    check(seen, known, "the procedures and whether they are served")
    codes = re.findall(r"^\| (\d+) \| ([a-z ]+) \|$", text[text.index("## Errors") :], re.M)
    check({int(code): message for code, message in codes}, MESSAGES, "the codes' messages")
    messages = text[text.index("### Messages") :]
    events = re.findall(r"^\| (1[23]) \| ([A-Z_]+) \| domain", messages, re.M)
    check([(str(n), e.name) for n, e in EVENTS.items()], events, "the messages")
