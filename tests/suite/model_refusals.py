"""Refusals as the model makes them: the code and the kept text."""

from __future__ import annotations

from enum import IntEnum
from uuid import UUID

from suite.model_guest import Refused as AnswerRefused

MOST_KEPT_BYTES = 1_024


class Code(IntEnum):
    """The codes that a domain, the list of domains and the store refuse with."""

    UNKNOWN_PROCEDURE = 3
    INVALID_ARGUMENT = 8
    OPERATION_FAILED = 9
    BAD_DEFINITION = 27
    DOMAIN_EXISTS = 28
    MALFORMED_CALL = 39
    NO_DOMAIN = 42
    OPERATION_INVALID = 55
    OPERATION_TIMEOUT = 68
    NO_SNAPSHOT = 72
    GUEST_ENDED = 201
    MONITOR_LOST = 202
    LIST_FULL = 204
    NOT_BUILT = 206
    STALLED = 207
    SNAPSHOT_EXISTS = 208
    NO_FREE_SLOT = 209


class Refused(Exception):
    """A call is refused. The kept text is cut to whole characters within its bound."""

    def __init__(self, code: Code, kept: object = "") -> None:
        text = str(kept).encode()[:MOST_KEPT_BYTES].decode(errors="ignore")
        super().__init__(f"{code.name} {text!r}")
        self.code = code
        self.kept = text


class AskFailed(Refused):
    """What was asked was refused; the boot goes on."""

    def __init__(self, answer: AnswerRefused) -> None:
        super().__init__(Code.OPERATION_FAILED, f"class {answer.reason_class}")


class BootEnded(Refused):
    """The boot that the call or the operation carries is not live."""

    def __init__(self, boot: int) -> None:
        super().__init__(Code.GUEST_ENDED, f"boot {boot}")


class LinkLost(Refused):
    """The monitor of the boot was lost, and with it the boot."""

    def __init__(self) -> None:
        super().__init__(Code.MONITOR_LOST)


def within(value: int, least: int, most: int) -> None:
    """Refuses a value outside of its range with the bound that it passes."""
    if value < least:
        raise Refused(Code.INVALID_ARGUMENT, f"{value} {least}")
    if value > most:
        raise Refused(Code.INVALID_ARGUMENT, f"{value} {most}")


def no_domain(asked: str | UUID = "") -> Refused:
    """What was asked for is absent; a vacant cell keeps nothing."""
    return Refused(Code.NO_DOMAIN, asked)
