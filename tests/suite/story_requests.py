"""The request lines of stories: from `VERB NAME N ..` to the call of a procedure.

tests/stories/README.md has the verbs. Which procedure has which arguments is docs/PROTOCOL.md.
"""

from collections.abc import Callable
from dataclasses import dataclass
from uuid import UUID

from suite.wire import Domain, Object

#: The flag of DOMAIN_GET_XML_DESC by which the stored definition is wanted beside a live one.
STORED = 2


class Unreadable(Exception):
    """A line of a story file that the notation does not have."""


@dataclass(frozen=True)
class Leaving:
    """A guest that left a host, as MIGRATE_PERFORM tells it."""

    definition: str
    running: int
    state: bytes


@dataclass(frozen=True)
class Request:
    """A call: the procedure's name, its arguments, and the domain that its line names, if any."""

    procedure: str
    arguments: tuple[object, ...]
    domain: Domain | None = None


def identifier(last: str) -> UUID:
    """The identifier of stories that ends in this number."""
    return UUID(int=0x00000000_0000_4000_8000_000000000000 + int(last))


def definition(name: str, last: str, script: str = "") -> str:
    """The definition of stories, with 2,048 KiB, two processors and a guest with this script."""
    return (
        f"<domain type='qemu'><name>{name}</name><uuid>{identifier(last)}</uuid>"
        f"<title>The domain {name}</title><metadata><guest>{script}</guest></metadata>"
        "<memory>2048</memory><vcpu>2</vcpu><os><type>hvm</type></os></domain>"
    )


def disk(target: str) -> str:
    """A disk that the guest sees by this name."""
    return f"<disk><source file='/images/{target}'/><target dev='{target}'/></disk>"


def snapshot(name: str) -> str:
    """What is said of a snapshot that is to have this name, or none."""
    inner = f"<name>{name}</name>" if name else ""
    return f"<domainsnapshot>{inner}</domainsnapshot>"


class Words:
    """The words of a line, by their places. The verb has place 0."""

    def __init__(self, line: str):
        self.line = line
        self._words = line.split()

    def __getitem__(self, place: int) -> str:
        if place >= len(self._words):
            raise Unreadable(f"{self.line!r} lacks word {place}")
        return self._words[place]

    def get(self, place: int) -> str:
        """The word at a place, empty where there is none."""
        return self._words[place] if place < len(self._words) else ""

    def number(self, place: int) -> int:
        """The word at a place as a number."""
        return int(self[place])

    def after(self, count: int) -> str:
        """What comes after so many words."""
        pieces = self.line.split(maxsplit=count)
        return pieces[count] if len(pieces) > count else ""

    @property
    def domain(self) -> Domain:
        """The domain that the words 1 and 2 name."""
        return Domain(self[1], identifier(self[2]))

    def definition(self, count: int) -> str:
        """The definition of that domain, whose script comes after so many words."""
        return definition(self[1], self[2], self.after(count))

    @property
    def object(self) -> Object:
        """The network or pool that the words 1 and 2 name."""
        return Object(self[1], identifier(self[2]))


#: `VERB NAME N`: calls with the domain alone.
_OF_A_DOMAIN = {
    "start": "DOMAIN_CREATE",
    "destroy": "DOMAIN_DESTROY",
    "suspend": "DOMAIN_SUSPEND",
    "resume": "DOMAIN_RESUME",
    "shutdown": "DOMAIN_SHUTDOWN",
    "undefine": "DOMAIN_UNDEFINE",
    "info": "DOMAIN_GET_INFO",
    "autostart": "DOMAIN_GET_AUTOSTART",
    "stats": "MEMORY_STATS",
    "job": "JOB_INFO",
    "abort": "JOB_ABORT",
    "snapshots": "SNAP_LIST",
    "watch": "EVENT_REGISTER",
    "unwatch": "EVENT_DEREGISTER",
    "perform": "MIGRATE_PERFORM",
}

#: `VERB NAME N NUMBER`.
_WITH_A_NUMBER = {
    "set-autostart": "DOMAIN_SET_AUTOSTART",
    "memory": "DOMAIN_SET_MEMORY",
    "vcpus": "DOMAIN_SET_VCPUS",
    "kick": "KICK",
    "confirm": "MIGRATE_CONFIRM",
    "finish": "MIGRATE_FINISH",
    "limit": "MIGRATE_LIMIT",
}

#: `VERB NAME N TEXT`, with what is made of the text.
_WITH_A_TEXT: dict[str, tuple[str, Callable[[str], str]]] = {
    "attach": ("DOMAIN_ATTACH_DEVICE", disk),
    "attach-text": ("DOMAIN_ATTACH_DEVICE", str),
    "detach": ("DOMAIN_DETACH_DEVICE", disk),
    "detach-text": ("DOMAIN_DETACH_DEVICE", str),
    "save": ("DOMAIN_SAVE", str),
    "snapshot": ("SNAP_CREATE", snapshot),
    "snapshot-text": ("SNAP_XML", str),
    "parent": ("SNAP_PARENT", str),
    "revert": ("SNAP_REVERT", str),
}

#: Other verbs with `NAME N`: the procedure, and its arguments by the words.
_WITH_A_DOMAIN: dict[str, tuple[str, Callable[[Words], tuple[object, ...]]]] = {
    "define": ("DOMAIN_DEFINE_XML", lambda words: (words.definition(3),)),
    "create": ("DOMAIN_CREATE_XML", lambda words: (words.definition(3), 0)),
    "dump": ("DOMAIN_CORE_DUMP", lambda words: (words.domain, words[3], 0)),
    "reboot": ("DOMAIN_REBOOT", lambda words: (words.domain, 0)),
    "text": ("DOMAIN_GET_XML_DESC", lambda words: (words.domain, 0)),
    "slots": ("DOMAIN_GET_XML_DESC", lambda words: (words.domain, 0)),
    "stored-text": ("DOMAIN_GET_XML_DESC", lambda words: (words.domain, STORED)),
    "delete": ("SNAP_DELETE", lambda words: (words.domain, words[3], words.number(4))),
}

#: Verbs of the connection, of networks and of pools.
_OTHERS: dict[str, tuple[str, Callable[[Words], tuple[object, ...]]]] = {
    "open": ("CONNECT_OPEN", lambda words: (None, 0)),
    "list": ("LIST_ALL", lambda words: ()),
    "titles": ("TITLES", lambda words: ()),
    "defined": ("CONNECT_LIST_DEFINED_DOMAINS", lambda words: (words.number(1),)),
    "lookup": ("DOMAIN_LOOKUP_BY_NAME", lambda words: (words[1],)),
    "lookup-uuid": ("DOMAIN_LOOKUP_BY_UUID", lambda words: (identifier(words[1]),)),
    "define-text": ("DOMAIN_DEFINE_XML", lambda words: (words.after(1),)),
    "restore": ("DOMAIN_RESTORE", lambda words: (words[1],)),
    "defined-networks": ("CONNECT_LIST_DEFINED_NETWORKS", lambda words: (1,)),
    "networks": ("CONNECT_LIST_NETWORKS", lambda words: (1,)),
    "network-define": ("NETWORK_DEFINE_XML", lambda words: (words[1],)),
    "network-lookup": ("NETWORK_LOOKUP_BY_NAME", lambda words: (words[1],)),
    "network-start": ("NETWORK_CREATE", lambda words: (words.object,)),
    "leases": ("LEASES", lambda words: (words.object,)),
    "pools": ("POOL_LIST", lambda words: ()),
    "pool-define": ("POOL_DEFINE", lambda words: (words[1],)),
    "pool-lookup": ("POOL_LOOKUP", lambda words: (words[1],)),
    "volumes": ("VOL_LIST", lambda words: (words.object,)),
}


def _prepare(words: Words, left: Leaving | None) -> Request:
    """`prepare`: the guest that left last comes. `prepare NAME N RUNNING STATE ..`: another one."""
    if words.get(1):
        state = b"" if words[4] == "-" else bytes.fromhex(words[4])
        arguments = (words.definition(5), words.number(3), state)
        return Request("MIGRATE_PREPARE", arguments, words.domain)
    if left is None:
        raise Unreadable("no guest left before it is to come")
    return Request("MIGRATE_PREPARE", (left.definition, left.running, left.state))


def request_of(line: str, left: Leaving | None) -> Request:
    """The call of a line, where this guest left last."""
    words = Words(line)
    verb = words[0]
    if verb == "prepare":
        return _prepare(words, left)
    if verb in _OF_A_DOMAIN:
        return Request(_OF_A_DOMAIN[verb], (words.domain,), words.domain)
    if verb in _WITH_A_NUMBER:
        return Request(_WITH_A_NUMBER[verb], (words.domain, words.number(3)), words.domain)
    if verb in _WITH_A_TEXT:
        procedure, made_of = _WITH_A_TEXT[verb]
        return Request(procedure, (words.domain, made_of(words.after(3))), words.domain)
    if verb in _WITH_A_DOMAIN:
        procedure, arguments = _WITH_A_DOMAIN[verb]
        return Request(procedure, arguments(words), words.domain)
    if verb in _OTHERS:
        procedure, arguments = _OTHERS[verb]
        return Request(procedure, arguments(words))
    raise Unreadable(f"no request has the verb {verb!r}")
