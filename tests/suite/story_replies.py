"""What replies are in stories: `ok`, `55 paused`, `state 1, 2048 of 2048 KiB, vcpus 2`."""

import re
from uuid import RFC_4122, UUID

from suite.wire import Domain, Refusal, refusal

#: The words for the kinds of operations, by their numbers.
KINDS = (
    "none",
    "start",
    "save",
    "dump",
    "snapshot",
    "restore",
    "revert",
    "migrate-out",
    "migrate-in",
)

#: The words for the phases of operations, by their numbers. A migration that rests has one too.
PHASES = (
    "none",
    "make",
    "run",
    "load",
    "copy",
    "poll",
    "take",
    "quit",
    "cancel",
    "mcopy",
    "mtake",
    "mcancel",
    "mload",
    "rests",
    "mquit",
    "mback",
    "mrun",
    "mdrop",
)

#: The words for the states of a domain, by their numbers.
STATES = {1: "running", 3: "paused", 5: "shut off", 6: "crashed"}

#: The state of a domain that is not there.
GONE = "gone"

#: Stands for DOMAIN_GET_XML_DESC where only the slots of its devices are to be told.
SLOTS = "slots"

#: The front that the identifiers of stories have in common.
_OWN_IDENTIFIERS = "00000000-0000-4000-8000-"

_TARGET = re.compile(r"<target dev='([^']*)'")
_ADDRESS = re.compile(r"<address [^>]*slot='([^']*)'")


def word_of(table: tuple[str, ...], number: int) -> str:
    """The word of a number, or the number where the table has none."""
    return table[number] if number < len(table) else str(number)


def identifier_text(value: UUID) -> str:
    """An identifier of the stories as it is. Of one that the daemon drew only its form is told."""
    text = str(value)
    is_drawn = value.version == 4 and value.variant == RFC_4122
    return "RANDOM" if is_drawn and not text.startswith(_OWN_IDENTIFIERS) else text


def _refusal_text(value: Refusal) -> str:
    text = f"{value.code} {value.kept}" if value.kept else str(value.code)
    if value == refusal(value.code, value.kept):
        return text
    return f"{text} as error domain {value.domain}, message {value.message!r}"


def _info_text(value: tuple[int, int, int, int, int]) -> str:
    state, memory, current, processors, used = value
    text = f"state {state}, {current} of {memory} KiB, vcpus {processors}"
    return text if used == 0 else f"{text}, {used} ns"


def _job_text(value: tuple[int, int, int]) -> str:
    kind, phase, left = value
    text = f"job {word_of(KINDS, kind)}"
    if phase != 0:
        text += f", {word_of(PHASES, phase)}"
    return f"{text}, {left} left"


def _leaving_text(value: tuple[str, int, bytes]) -> str:
    _, running, state = value
    kind = {0: "paused", 1: "running"}.get(running, str(running))
    return f"a {kind} guest, state {state.hex()}"


def _text(value: str) -> str:
    return "\n".join(["text", *("  " + line for line in value.splitlines())])


def _slots_text(value: str) -> str:
    """The devices of a live definition, each with its slot."""
    targets, slots = _TARGET.findall(value), _ADDRESS.findall(value)
    pairs = [f" {target}:{slot}" for target, slot in zip(targets, slots)]
    return "slots" + "".join(pairs) if len(targets) == len(slots) else _text(value)


def _domain_text(value: Domain) -> str:
    return f"domain {value.name} {identifier_text(value.identifier)}, id {value.number}"


#: How the results of a procedure are told, where its shape does not say it.
_TELLERS = {
    SLOTS: _slots_text,
    "DOMAIN_GET_INFO": _info_text,
    "DOMAIN_GET_XML_DESC": _text,
    "DOMAIN_GET_AUTOSTART": lambda value: {0: "no", 1: "yes"}.get(value, str(value)),
    "CONNECT_LIST_DEFINED_DOMAINS": lambda value: " ".join(["names", *value]),
    "SNAP_LIST": lambda value: " ".join(["names", *value]),
    "SNAP_XML": _text,
    "SNAP_PARENT": lambda value: "no parent" if value is None else value,
    "LIST_ALL": lambda value: " ".join(
        ["domains", *(f"{domain.name}:{state}" for domain, state in value)]
    ),
    "TITLES": lambda value: " ".join(
        ["titles", *(f"{name}='{title}'" for name, title in value)]
    ),
    "JOB_INFO": _job_text,
    "MEMORY_STATS": lambda value: f"{value} KiB",
    "MIGRATE_PERFORM": _leaving_text,
}


def reply_text(procedure: str, value: object) -> str:
    """A reply of a procedure as a story tells it, over several lines where it is a text."""
    if isinstance(value, Refusal):
        return _refusal_text(value)
    if procedure in _TELLERS:
        return _TELLERS[procedure](value)
    if value is None:
        return "ok"
    return _domain_text(value) if isinstance(value, Domain) else str(value)


def state_text(value: object) -> str:
    """The state that DOMAIN_GET_INFO tells, in words."""
    if isinstance(value, Refusal):
        return GONE if value.code == 42 else _refusal_text(value)
    return STATES.get(value[0], str(value[0]))
