"""The procedures of the wire, as the two tables of docs/PROTOCOL.md have them.

A shape is a word of that document: what one argument or one result is. `wire.py` knows how each
shape is spelled. The table is written from the document and from nothing else, so that it is a
second source beside the daemon's own.
"""

from dataclasses import dataclass

DRIVER_PROGRAM = 0x20008086
SECOND_PROGRAM = 0x20008F01
VERSION = 1

CALL = 0
REPLY = 1
MESSAGE = 2


@dataclass(frozen=True)
class Procedure:
    """One line of a table: a procedure, what a call of it holds and what its reply holds."""

    name: str
    program: int
    number: int
    arguments: tuple[str, ...]
    results: tuple[str, ...]
    served: bool


@dataclass(frozen=True)
class Event:
    """One line of the table of messages: what the daemon says unasked."""

    name: str
    program: int
    number: int
    items: tuple[str, ...]


# Number, name, arguments, results, and whether the daemon serves it.
_DRIVER_TABLE = """
1  | CONNECT_OPEN                  | optional string, word   |                        | yes
2  | CONNECT_CLOSE                 |                         |                        | yes
8  | DOMAIN_ATTACH_DEVICE          | domain, definition      |                        | yes
9  | DOMAIN_CREATE                 | domain                  |                        | yes
10 | DOMAIN_CREATE_XML             | definition, integer     | domain                 | yes
11 | DOMAIN_DEFINE_XML             | definition              | domain                 | yes
12 | DOMAIN_DESTROY                | domain                  |                        | yes
13 | DOMAIN_DETACH_DEVICE          | domain, definition      |                        | yes
14 | DOMAIN_GET_XML_DESC           | domain, word            | string                 | yes
15 | DOMAIN_GET_AUTOSTART          | domain                  | integer                | yes
16 | DOMAIN_GET_INFO               | domain                  | state, long, long, word, long | yes
21 | CONNECT_LIST_DEFINED_DOMAINS  | integer                 | names                  | yes
23 | DOMAIN_LOOKUP_BY_NAME         | string                  | domain                 | yes
24 | DOMAIN_LOOKUP_BY_UUID         | identifier              | domain                 | yes
27 | DOMAIN_REBOOT                 | domain, word            |                        | yes
28 | DOMAIN_RESUME                 | domain                  |                        | yes
29 | DOMAIN_SET_AUTOSTART          | domain, integer         |                        | yes
31 | DOMAIN_SET_MEMORY             | domain, long            |                        | yes
32 | DOMAIN_SET_VCPUS              | domain, word            |                        | yes
33 | DOMAIN_SHUTDOWN               | domain                  |                        | yes
34 | DOMAIN_SUSPEND                | domain                  |                        | yes
35 | DOMAIN_UNDEFINE               | domain                  |                        | yes
36 | CONNECT_LIST_DEFINED_NETWORKS | integer                 | names                  | no
38 | CONNECT_LIST_NETWORKS         | integer                 | names                  | no
39 | NETWORK_CREATE                | object                  |                        | no
41 | NETWORK_DEFINE_XML            | definition              | object                 | no
42 | NETWORK_DESTROY               | object                  |                        | no
43 | NETWORK_GET_XML_DESC          | object, word            | string                 | no
46 | NETWORK_LOOKUP_BY_NAME        | string                  | object                 | no
48 | NETWORK_SET_AUTOSTART         | object, integer         |                        | no
49 | NETWORK_UNDEFINE              | object                  |                        | no
53 | DOMAIN_CORE_DUMP              | domain, string, word    |                        | yes
54 | DOMAIN_RESTORE                | string                  |                        | yes
55 | DOMAIN_SAVE                   | domain, string          |                        | yes
"""

_SECOND_TABLE = """
1  | LIST_ALL         |                             | domains                | yes
2  | JOB_INFO         | domain                      | job, phase, long       | yes
3  | JOB_ABORT        | domain                      |                        | yes
4  | SNAP_CREATE      | domain, definition          | string                 | yes
5  | SNAP_LIST        | domain                      | names                  | yes
6  | SNAP_PARENT      | domain, string              | optional string        | yes
7  | SNAP_DELETE      | domain, string, integer     |                        | yes
8  | SNAP_REVERT      | domain, string              |                        | yes
9  | SNAP_XML         | domain, string              | string                 | yes
10 | EVENT_REGISTER   | domain                      |                        | no
11 | EVENT_DEREGISTER | domain                      |                        | no
14 | MEMORY_STATS     | domain                      | long                   | yes
15 | KICK             | domain, integer             |                        | yes
16 | TITLES           |                             | titles                 | yes
20 | POOL_DEFINE      | definition                  | object                 | no
21 | POOL_CREATE      | object                      |                        | no
22 | POOL_DESTROY     | object                      |                        | no
23 | POOL_UNDEFINE    | object                      |                        | no
24 | POOL_XML         | object                      | string                 | no
25 | POOL_LOOKUP      | string                      | object                 | no
26 | POOL_LIST        |                             | pools                  | no
27 | POOL_AUTOSTART   | object, integer             |                        | no
30 | VOL_CREATE       | object, definition          | string                 | no
31 | VOL_DELETE       | object, string              |                        | no
32 | VOL_LIST         | object                      | names                  | no
33 | VOL_XML          | object, string              | string                 | no
40 | LEASES           | object                      | leases                 | no
50 | MIGRATE_PERFORM  | domain                      | string, integer, guest | yes
51 | MIGRATE_CONFIRM  | domain, integer             |                        | yes
52 | MIGRATE_PREPARE  | definition, integer, guest  | domain                 | yes
53 | MIGRATE_FINISH   | domain, integer             |                        | yes
54 | MIGRATE_LIMIT    | domain, long                |                        | yes
"""


def _shapes(cell: str) -> tuple[str, ...]:
    return tuple(word.strip() for word in cell.split(",") if word.strip())


def _read_table(program: int, table: str) -> list[Procedure]:
    procedures = []
    for line in table.strip().splitlines():
        number, name, arguments, results, served = (cell.strip() for cell in line.split("|"))
        procedures.append(
            Procedure(
                name, program, int(number), _shapes(arguments), _shapes(results), served == "yes"
            )
        )
    return procedures


_ALL = _read_table(DRIVER_PROGRAM, _DRIVER_TABLE) + _read_table(SECOND_PROGRAM, _SECOND_TABLE)

#: Every procedure by its name.
PROCEDURES: dict[str, Procedure] = {procedure.name: procedure for procedure in _ALL}

#: Every procedure by its program and number.
BY_NUMBER: dict[tuple[int, int], Procedure] = {
    (procedure.program, procedure.number): procedure for procedure in _ALL
}

#: The messages that nobody asked for, by their number in the second program.
EVENTS: dict[int, Event] = {
    12: Event("EVENT", SECOND_PROGRAM, 12, ("domain", "word", "word")),
    13: Event("EVENT_LOST", SECOND_PROGRAM, 13, ("domain",)),
}

#: The message of each code of a refusal.
MESSAGES: dict[int, str] = {
    2: "no memory",
    3: "unknown procedure",
    8: "invalid argument",
    9: "operation failed",
    27: "bad definition",
    28: "domain exists",
    37: "network exists",
    38: "store failed",
    39: "malformed call",
    42: "no domain",
    43: "no network",
    49: "no pool",
    50: "no volume",
    55: "operation invalid",
    68: "operation timeout",
    72: "no snapshot",
    78: "operation aborted",
    201: "guest ended",
    202: "monitor lost",
    203: "too many waiting",
    204: "list full",
    206: "not built",
    207: "stalled",
    208: "snapshot exists",
    209: "no free slot",
    210: "events lost",
    211: "count spent",
    212: "pool exists",
    213: "volume exists",
}
