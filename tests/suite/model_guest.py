"""The modelled guest: its script, what it answers to a command, and what is heard of it.

The rules are those of docs/DRIVER.md, "The modelled guest and its script".
"""

from __future__ import annotations

import re
from dataclasses import dataclass
from enum import Enum, auto

MOST_POLLS = 1_000_000
MOST_COUNT = 1 << 62
STATE_BYTES = 8
#: Classes of refusals.
BY_SCRIPT = 1
NOT_A_STATE = 2


class Command(Enum):
    """What a monitor is asked."""

    QUERY_STATUS = auto()
    QUERY_MEMORY = auto()
    CONT = auto()
    STOP = auto()
    POWERDOWN = auto()
    RESET = auto()
    QUIT = auto()
    SET_MEMORY = auto()
    SET_VCPUS = auto()
    ADD_BACKEND = auto()
    ADD_DEVICE = auto()
    REMOVE_DEVICE = auto()
    REMOVE_BACKEND = auto()
    COPY_BEGIN = auto()
    COPY_POLL = auto()
    COPY_TAKE = auto()
    COPY_CANCEL = auto()
    LOAD_STATE = auto()
    KICK = auto()


class Reason(Enum):
    """Why a guest ended."""

    SHUTDOWN = auto()
    CRASHED = auto()
    KILLED = auto()


class GuestEvent(Enum):
    """What a guest does by itself."""

    SHUTDOWN = auto()
    PANIC = auto()
    STOP = auto()
    RESUME = auto()


@dataclass(frozen=True)
class Ok:
    """A command was done; some answer a number or bytes."""

    value: int | bytes | None = None


@dataclass(frozen=True)
class Refused:
    """A command was refused, for a reason that the class names."""

    reason_class: int


@dataclass(frozen=True)
class Ended:
    """The guest has ended."""

    reason: Reason


@dataclass(frozen=True)
class Lost:
    """The link to the guest is lost."""


Answer = Ok | Refused | Ended | Lost


# The script ---------------------------------------------------------------------------------------


class Deed(Enum):
    """What a guest does at a command that its script names."""

    END = "end"
    REFUSE = "refuse"
    LOST = "lost"


@dataclass(frozen=True)
class Script:
    """What a guest is to do; `text` is kept as it was read."""

    text: str = ""
    deeds: tuple[tuple[int, int, Deed], ...] = ()
    polls: int = 1
    stalls: bool = False

    def deed(self, boot: int, command: int) -> Deed | None:
        """What is done at a command of a boot; of two entries for one the first counts."""
        return next((what for b, c, what in self.deeds if (b, c) == (boot, command)), None)


_BLANK = "[ \t]"
_DEED = re.compile(
    f"boot{_BLANK}+([0-9]{{1,19}}){_BLANK}+command{_BLANK}+([0-9]{{1,19}}){_BLANK}+"
    "(end|refuse|lost)"
)
_SLOW = re.compile(f"slow{_BLANK}+([0-9]{{1,19}})")


def read_script(text: str) -> Script | None:
    """The script that a text is; nothing where it is none. The empty text is the empty script."""
    if not text:
        return Script()
    deeds: list[tuple[int, int, Deed]] = []
    slow: list[int] = []
    stalls = False
    for entry in (part.strip(" \t") for part in text.split(";")):
        deed, polls = _DEED.fullmatch(entry), _SLOW.fullmatch(entry)
        if deed and all(1 <= int(number) < MOST_COUNT for number in deed.group(1, 2)):
            deeds.append((int(deed[1]), int(deed[2]), Deed(deed[3])))
        elif polls and int(polls[1]) <= MOST_POLLS:
            slow.append(int(polls[1]))
        elif entry == "stall":
            stalls = True
        else:
            return None
    return Script(text, tuple(deeds), slow[0] if slow else 1, stalls)


# The machine --------------------------------------------------------------------------------------

#: What is to be heard after a kick: events in order, and perhaps the guest's end.
KICKS: dict[int, tuple[tuple[GuestEvent, ...], Reason | None]] = {
    1: ((GuestEvent.SHUTDOWN,), Reason.SHUTDOWN),
    2: ((GuestEvent.PANIC,), None),
    3: ((), Reason.CRASHED),
    4: ((GuestEvent.STOP,), None),
    5: ((GuestEvent.RESUME,), None),
}


class Guest:
    """A guest in memory. It counts its commands, refused and lost ones too."""

    def __init__(self, script: Script, boot: int, memory: int) -> None:
        self.script = script
        self.boot = boot
        self.memory = memory
        self.commands = 0
        self.left = 0
        self.ended: Reason | None = None
        self.queue: list[GuestEvent] = []
        self.ends_as: Reason | None = None

    def ask(self, command: Command, value: int | bytes | None = None) -> Answer:
        """What the guest answers to a command, with the number or the bytes that it bears."""
        if self.ended:
            return Ended(self.ended)
        self.commands += 1
        match self.script.deed(self.boot, self.commands):
            case Deed.END:
                self.ended = Reason.CRASHED
                return Ended(self.ended)
            case Deed.REFUSE:
                return Refused(BY_SCRIPT)
            case Deed.LOST:
                return Lost()
        return self.obey(command, value)

    def obey(self, command: Command, value: int | bytes | None) -> Answer:
        match command:
            case Command.QUERY_MEMORY:
                return Ok(self.memory)
            case Command.SET_MEMORY:
                self.memory = value
            case Command.COPY_BEGIN:
                self.left = self.script.polls
            case Command.COPY_POLL:
                self.left = max(0, self.left - (0 if self.script.stalls else 1))
                return Ok(self.left)
            case Command.COPY_TAKE:
                return Ok(self.memory.to_bytes(STATE_BYTES, "big"))
            case Command.LOAD_STATE:
                if len(value) != STATE_BYTES:
                    return Refused(NOT_A_STATE)
                self.memory = int.from_bytes(value, "big")
            case Command.POWERDOWN:
                self.kick(1)
            case Command.KICK:
                self.kick(value)
            case Command.QUIT:
                self.ended = Reason.KILLED
        return Ok()

    def kick(self, number: int) -> None:
        events, end = KICKS[number]
        self.queue += events
        self.ends_as = self.ends_as or end

    def kill(self) -> None:
        """Ends the guest at once; a guest that has ended keeps its first reason."""
        self.ended = self.ended or Reason.KILLED

    def hear(self) -> GuestEvent | Ended | None:
        """The next thing that is heard: events in order, then the end; else nothing."""
        if self.queue:
            return self.queue.pop(0)
        self.ended = self.ended or self.ends_as
        return Ended(self.ended) if self.ended else None
