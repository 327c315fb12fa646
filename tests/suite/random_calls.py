"""Calls made at random, most of them such that the model's daemon accepts them."""

from __future__ import annotations

import random
from collections.abc import Callable, Iterator
from dataclasses import replace

from suite.model import Daemon
from suite.model_domain import Domain, Kind, State
from suite.model_markup import NotInGrammar
from suite.model_texts import BadDefinition, read_domain
from suite.procedures import DRIVER_PROGRAM, PROCEDURES, SECOND_PROGRAM
from suite.random_acts import NAMES, PING, STATES, Act, Identified, Passed, Target, identifier_of
from suite.random_series import SERIES, SERIES_WEIGHTS
from suite.random_texts import TARGETS, Texts
from suite.wire import Packet

IMAGES = ("one", "two", "drei", "b", "by-hand", "by-hand-too", "a file")
SNAPSHOTS = ("s1", "s2", "s3", "snap1", "snap2", "é")
#: With fewer domains, and fewer that are active, most calls would be refused.
FEW_DOMAINS = 4
FEW_GUESTS = 3
#: The domain of images that are put into a store by hand.
BY_HAND = "a"
NO_NAMES = ("a/b", "", ".", "..", "\x01", "y" * 129)


class Caller:
    """Makes the next act from what the model's daemon has."""

    def __init__(self, source: random.Random, waits: int) -> None:
        self.random = source
        self.texts = Texts(source)
        #: How many more calls may wait for a job, which takes the daemon seconds.
        self.waits = waits
        self.series: Iterator[Act] | None = None

    def often(self, chance: float) -> bool:
        return self.random.random() < chance

    def next(self, daemon: Daemon) -> Act | Passed:
        """One more act: the next of a series that was begun, or any."""
        if self.series is None and self.often(0.04):
            self.series = self.random.choices(SERIES, SERIES_WEIGHTS)[0](self, daemon)
        if self.series is not None and self.often(0.9):
            act = next(self.series, None)
            if act is not None and self.is_soon_answered(daemon, act):
                return act
            self.series = None
        return self.any(daemon)

    def any(self, daemon: Daemon) -> Act | Passed:
        """An act that is needed or chosen, with something wrong with it now and then."""
        if self.often(0.01):
            return self.passed()
        act = None
        while act is None or not self.is_soon_answered(daemon, act):
            act = self.chosen(daemon)
        return self.bend(act) if self.often(0.03) else act

    def chosen(self, daemon: Daemon) -> Act:
        """An act by the weights of the table; where little is there, rather one that adds to it."""
        there = [slot.cell.domain for slot in daemon.slots if slot.cell.domain]
        if len(there) < FEW_DOMAINS and self.often(0.5):
            return self.define(daemon)
        if sum(domain.live is not None for domain in there) < FEW_GUESTS and self.often(0.3):
            return Act("DOMAIN_CREATE", (self.idle(daemon),))
        return self.random.choices(MAKERS, WEIGHTS)[0](self, daemon)

    def is_soon_answered(self, daemon: Daemon, act: Act) -> bool:
        """Whether the call is let in at once, or is one of the few that may wait in vain."""
        if not self.is_kept_out(daemon, act):
            return True
        if self.waits == 0 or self.often(0.4):
            return False
        self.waits -= 1
        return True

    def is_kept_out(self, daemon: Daemon, act: Act) -> bool:
        """Whether a migration that rests keeps the call out, through the daemon's thirty looks."""
        held = {slot.name: slot.cell.resting for slot in daemon.slots if slot.cell.resting}
        resting = held.get(self._name_of(daemon, act)) if held else None
        if resting is None or act.procedure in NEVER_WAITS:
            return False
        is_admitted = act.procedure in ADMITTED_WHILE_MOVING_OUT
        return not (resting.kind is Kind.MIGRATE_OUT and is_admitted)

    def _name_of(self, daemon: Daemon, act: Act) -> str | None:
        """The name of the domain that a call is about."""
        match act.arguments:
            case (Target(name), *_):
                return name
            case (str(name),) if act.procedure == "DOMAIN_RESTORE":
                image = daemon.store.saves.get(name)
                if isinstance(image, bytes):
                    return BY_HAND
                return image.definition.name if image else None
            case (str(text), *_):
                try:
                    return read_domain(text.encode()).name
                except (NotInGrammar, BadDefinition):
                    return None
        return None

    # Which domain

    def domain(self, daemon: Daemon, wants: Callable[[Domain], bool] = lambda _: True) -> Target:
        """A domain for which the call is likely to be accepted, or now and then any."""
        there = [slot for slot in daemon.slots if slot.cell.is_occupied]
        good = [slot for slot in there if slot.cell.domain and wants(slot.cell.domain)]
        if good and self.often(0.9):
            return Target(self.random.choice(good).name)
        if there and self.often(0.8):
            return Target(self.random.choice(there).name)
        return Target(self.random.choice(NAMES))

    def active(self, daemon: Daemon) -> Target:
        return self.domain(daemon, lambda domain: domain.live is not None)

    def running(self, daemon: Daemon) -> Target:
        return self.domain(daemon, lambda domain: domain.state is State.RUNNING)

    def idle(self, daemon: Daemon) -> Target:
        return self.domain(daemon, lambda domain: domain.live is None)

    def found(self, daemon: Daemon, target: Target) -> Domain | None:
        slot = next((one for one in daemon.slots if one.name == target.name), None)
        return slot.cell.domain if slot else None

    # Definitions

    def text(self, daemon: Daemon, name: str | None = None) -> str:
        """A definition of a name, with its identifier, another one, or none."""
        name = name or self.random.choice(NAMES)
        held = next((s for s in daemon.slots if s.cell.is_occupied and s.name == name), None)
        identifier = held.identifier if held else identifier_of(name)
        if self.often(0.05):
            identifier = identifier_of(self.random.choice(NAMES))
        elif self.often(0.02 if held else 0.1):
            identifier = None
        boots = held.cell.boots if held else 0
        text = self.texts.domain(name, identifier, boots)
        return self.texts.bent(text) if self.often(0.05) else text

    def define(self, daemon: Daemon) -> Act:
        return Act("DOMAIN_DEFINE_XML", (self.text(daemon),))

    def create(self, daemon: Daemon) -> Act:
        vacant = [name for name in NAMES if all(slot.name != name or not slot.cell.is_occupied
                                                for slot in daemon.slots)]
        name = self.random.choice(vacant) if vacant and self.often(0.8) else None
        return Act("DOMAIN_CREATE_XML", (self.text(daemon, name), self.random.randint(-1, 3)))

    # What a call on a domain bears

    def number(self, good: tuple[int, int], bad: tuple[int, ...]) -> int:
        return self.random.choice(bad) if self.often(0.1) else self.random.randint(*good)

    def set_memory(self, daemon: Daemon) -> Act:
        target = self.active(daemon)
        domain = self.found(daemon, target)
        most = domain.definition.memory if domain else 1
        memory = self.number((1, most), (0, most + 1, (1 << 64) - 1))
        return Act("DOMAIN_SET_MEMORY", (target, memory))

    def set_vcpus(self, daemon: Daemon) -> Act:
        target = self.active(daemon)
        domain = self.found(daemon, target)
        most = domain.definition.vcpus if domain else 1
        return Act("DOMAIN_SET_VCPUS", (target, self.number((1, most), (0, most + 1, 0xFFFFFFFF))))

    def attach(self, daemon: Daemon) -> Act:
        text = self.texts.device()
        text = self.texts.bent(text) if self.often(0.05) else text
        return Act("DOMAIN_ATTACH_DEVICE", (self.active(daemon), text))

    def detach(self, daemon: Daemon) -> Act:
        target = self.domain(daemon, lambda domain: domain.live and domain.live.slots)
        domain = self.found(daemon, target)
        keys = [device.key for device in domain.definition.devices] if domain else []
        known = [key for key in keys if "#" not in key]
        if known and self.often(0.8):
            key = self.random.choice(known)
            text = self.texts.interface(key) if ":" in key else self.texts.disk(key)
        else:
            text = self.texts.device()
        return Act("DOMAIN_DETACH_DEVICE", (target, text))

    def file(self, names: tuple[str, ...] = IMAGES) -> str:
        return self.random.choice(NO_NAMES if self.often(0.03) else names)

    def save(self, daemon: Daemon) -> Act:
        return Act("DOMAIN_SAVE", (self.running(daemon), self.file()))

    def dump(self, daemon: Daemon) -> Act:
        flags = self.random.randint(0, 9)
        return Act("DOMAIN_CORE_DUMP", (self.active(daemon), self.file(), flags))

    def restore(self, daemon: Daemon) -> Act:
        saved = tuple(daemon.store.saves)
        good = [name for name, image in daemon.store.saves.items() if not isinstance(image, bytes)
                and not self._is_live(daemon, image.definition.name)]
        if good and self.often(0.7):
            return Act("DOMAIN_RESTORE", (self.random.choice(good),))
        return Act("DOMAIN_RESTORE", (self.file(saved or IMAGES),))

    def _is_live(self, daemon: Daemon, name: str) -> bool:
        domain = self.found(daemon, Target(name))
        return bool(domain and domain.live)

    # Snapshots

    def snapshot_of(self, daemon: Daemon) -> tuple[Target, str]:
        target = self.domain(daemon, lambda domain: domain.snapshots.by_name)
        domain = self.found(daemon, target)
        names = tuple(domain.snapshots.by_name) if domain else ()
        good = names and self.often(0.9)
        return target, self.file(names if good else SNAPSHOTS)

    def create_snapshot(self, daemon: Daemon) -> Act:
        name = None if self.often(0.2) else self.file(SNAPSHOTS)
        text = self.texts.snapshot(name)
        text = self.texts.bent(text) if self.often(0.04) else text
        return Act("SNAP_CREATE", (self.domain(daemon), text))

    def delete_snapshot(self, daemon: Daemon) -> Act:
        children = self.random.choice((0, 0, 0, 0, 0, 0, 1, 1, 2, -1))
        return Act("SNAP_DELETE", (*self.snapshot_of(daemon), children))

    # Migrations

    def resting(self, daemon: Daemon, kind: Kind) -> Target:
        there = [slot for slot in daemon.slots
                 if slot.cell.resting and slot.cell.resting.kind is kind]
        if there and self.often(0.95):
            return Target(self.random.choice(there).name)
        return self.domain(daemon)

    def prepare(self, daemon: Daemon) -> Act:
        if self.often(0.8):
            free = [name for name in NAMES if not self._is_live(daemon, name)]
            name = self.random.choice(free) if free else None
        else:
            name = None
        state = self.random.choice(STATES[:3] if self.often(0.8) else STATES)
        text = self.text(daemon, name)
        return Act("MIGRATE_PREPARE", (text, self.random.choice((0, 1, 1, 1, 2)), state))

    def verdict(self) -> int:
        return self.random.choice((0, 0, 0, 1, 1, 1, 1, 2, -1))

    # Something wrong with a call

    def bend(self, act: Act) -> Act:
        """The same call with something wrong with its header or its payload."""
        match self.random.randint(0, 7):
            case 0:
                return replace(act, program=self.random.choice((0x20008087, 0, 0xFFFFFFFF)))
            case 1:
                return replace(act, version=self.random.choice((0, 2)))
            case 2:
                return replace(act, number=self.random.choice((0, 12, 13, 9_999, 0xFFFFFFFF)))
            case 3:
                return replace(act, more=self.random.choice((b"\0", bytes(4), b"more")))
            case 4:
                return replace(act, cut=self.random.randint(0, 1 << 16))
            case _:
                byte = self.random.choice((0, 1, 2, 0x7F, 0xC3, 0xFF))
                return replace(act, put=(self.random.randint(0, 1 << 16), byte))

    def passed(self) -> Passed:
        """A packet that is no call."""
        if self.often(0.3):
            return Passed(PING)
        program = self.random.choice((DRIVER_PROGRAM, SECOND_PROGRAM, 5))
        kind, status = self.random.choice(((1, 0), (1, 1), (1, 2), (2, 0)))
        return Passed(Packet(program, 1, 12, kind, 3, status, bytes(self.random.randint(0, 9))))


#: Calls that never look for a job, so never wait for one.
NEVER_WAITS = frozenset(
    {"DOMAIN_GET_XML_DESC", "DOMAIN_GET_AUTOSTART", "DOMAIN_GET_INFO", "JOB_INFO", "SNAP_LIST",
     "SNAP_PARENT", "SNAP_XML", "MIGRATE_CONFIRM", "MIGRATE_FINISH"}
)
#: Calls that a guest which is to leave admits.
ADMITTED_WHILE_MOVING_OUT = frozenset(
    {"MEMORY_STATS", "KICK", "DOMAIN_DESTROY", "DOMAIN_SUSPEND", "JOB_ABORT", "MIGRATE_LIMIT"}
)


def _plain(procedure: str, which: Callable, *values: Callable[[Caller], object]) -> Callable:
    """A call on a domain, with values that are made anew each time."""

    def make(caller: Caller, daemon: Daemon) -> Act:
        return Act(procedure, (which(caller, daemon), *(value(caller) for value in values)))

    return make


def _about_snapshot(procedure: str) -> Callable:
    return lambda caller, daemon: Act(procedure, caller.snapshot_of(daemon))


def _without(procedure: str, *values: Callable[[Caller], object]) -> Callable:
    """A call on no domain."""
    return lambda caller, _daemon: Act(procedure, tuple(value(caller) for value in values))


def _lookup(caller: Caller, daemon: Daemon) -> Act:
    name = caller.domain(daemon).name
    return Act("DOMAIN_LOOKUP_BY_NAME", ("é" * 600 if caller.often(0.03) else name,))


def _lookup_identifier(caller: Caller, daemon: Daemon) -> Act:
    return Act("DOMAIN_LOOKUP_BY_UUID", (Identified(caller.domain(daemon).name),))


def _unserved(caller: Caller, _daemon: Daemon) -> Act:
    """A procedure of the tables that is not served, whatever its payload."""
    number = caller.random.choice([p for p in PROCEDURES.values() if not p.served])
    return Act("CONNECT_CLOSE", program=number.program, number=number.number, more=bytes(3))


def _choice(*values: object) -> Callable[[Caller], object]:
    return lambda caller: caller.random.choice(values)


_FLAGS = _choice(0, 1, 2, 3, 0xFFFFFFFF)

#: How often what is made, of a thousand or so.
_TABLE: tuple[tuple[int, Callable], ...] = (
    (60, Caller.define),
    (20, Caller.create),
    (15, _plain("DOMAIN_UNDEFINE", Caller.domain)),
    (110, _plain("DOMAIN_CREATE", Caller.idle)),
    (30, _plain("DOMAIN_DESTROY", Caller.active)),
    (15, _plain("DOMAIN_SHUTDOWN", Caller.running)),
    (25, _plain("DOMAIN_REBOOT", Caller.active, _FLAGS)),
    (40, _plain("DOMAIN_SUSPEND", Caller.running)),
    (50, _plain("DOMAIN_RESUME", Caller.active)),
    (40, Caller.set_memory),
    (30, Caller.set_vcpus),
    (60, Caller.attach),
    (35, Caller.detach),
    (15, _plain("DOMAIN_SET_AUTOSTART", Caller.domain, _choice(0, 1, 1, 1, 2, -1))),
    (20, Caller.save),
    (20, Caller.dump),
    (25, Caller.restore),
    (50, Caller.create_snapshot),
    (30, Caller.delete_snapshot),
    (40, _about_snapshot("SNAP_REVERT")),
    (20, _about_snapshot("SNAP_PARENT")),
    (20, _about_snapshot("SNAP_XML")),
    (15, _plain("SNAP_LIST", Caller.domain)),
    (40, _plain("MEMORY_STATS", Caller.active)),
    (40, _plain("KICK", Caller.active, _choice(1, 2, 2, 3, 4, 4, 5, 5, 0, 6, -(1 << 31)))),
    (10, _plain("JOB_INFO", Caller.domain)),
    (8, _plain("JOB_ABORT", Caller.domain)),
    (30, _plain("DOMAIN_GET_XML_DESC", Caller.domain, _FLAGS)),
    (40, _plain("DOMAIN_GET_INFO", Caller.domain)),
    (15, _plain("DOMAIN_GET_AUTOSTART", Caller.domain)),
    (15, _without("CONNECT_LIST_DEFINED_DOMAINS", _choice(0, 1, 3, 1_024, 1_025, -1))),
    (15, _lookup),
    (15, _lookup_identifier),
    (15, _without("LIST_ALL")),
    (10, _without("TITLES")),
    (3, _without("CONNECT_OPEN", _choice(None, "qemu:///system"), _choice(0, 7))),
    (12, _plain("MIGRATE_PERFORM", Caller.running)),
    (12, lambda caller, daemon: Act(
        "MIGRATE_CONFIRM", (caller.resting(daemon, Kind.MIGRATE_OUT), caller.verdict()))),
    (10, Caller.prepare),
    (12, lambda caller, daemon: Act(
        "MIGRATE_FINISH", (caller.resting(daemon, Kind.MIGRATE_IN), caller.verdict()))),
    (5, _plain("MIGRATE_LIMIT", Caller.domain, _choice(0, 1 << 40, (1 << 64) - 1))),
    (8, _unserved),
)
WEIGHTS = [weight for weight, _ in _TABLE]
MAKERS = [make for _, make in _TABLE]
