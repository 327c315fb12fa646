"""One domain after another in a cell: what each call does to it (docs/DRIVER.md).

A session serves one call after the other, so each call is done as a whole here: it is let in, its
tests are looked at in order, its asks are made, and what the guest did is heard after it.
"""

from __future__ import annotations

from dataclasses import dataclass, field, replace
from enum import Enum
from uuid import UUID

from suite.model_definitions import Device, DomainDefinition, Interface
from suite.model_devices import least_free_slot, place_of, place_of_new
from suite.model_guest import Command, Ended, Guest, GuestEvent, Lost
from suite.model_guest import Refused as AnswerRefused
from suite.model_refusals import (
    AskFailed,
    BootEnded,
    Code,
    LinkLost,
    Refused,
    no_domain,
    within,
)
from suite.model_snapshots import Snapshots
from suite.model_store import Entry, Status, Store

GREATEST_NUMBER = 2_147_483_647
#: Class of a refused lease: there is no such network. Networks are not served yet.
NO_NETWORK = 11


class State(Enum):
    """A domain's state: the word that refusals keep, and the number on the wire."""

    RUNNING = ("running", 1)
    PAUSED = ("paused", 3)
    SHUT_OFF = ("shut off", 5)
    CRASHED = ("crashed", 6)

    def __init__(self, word: str, number: int) -> None:
        self.word = word
        self.number = number


class Job(Enum):
    """The normal job that a call takes."""

    QUERY = "query"
    DESTROY = "destroy"
    SUSPEND = "suspend"
    MODIFY = "modify"
    ABORT = "abort"
    MIGRATION_OP = "migration"


class Kind(Enum):
    """A migration, which rests between two calls: its word, its number, and what it admits."""

    MIGRATE_OUT = (
        "migrate-out",
        7,
        frozenset({Job.QUERY, Job.DESTROY, Job.ABORT, Job.SUSPEND, Job.MIGRATION_OP}),
    )
    MIGRATE_IN = ("migrate-in", 8, frozenset())

    def __init__(self, word: str, number: int, admits: frozenset[Job]) -> None:
        self.word = word
        self.number = number
        self.admits = admits


#: The phase that JOB_INFO tells of an operation that rests.
RESTING_PHASE = 13


@dataclass
class Resting:
    """A migration that rests: its boot, whether its guest ran, and what its last poll saw left."""

    kind: Kind
    boot: int
    ran: bool
    left: int


@dataclass
class Live:
    """One boot of a guest. It is paused as it starts, or between two hosts."""

    boot: int
    definition: DomainDefinition
    slots: list[int]
    guest: Guest | None = None
    state: State = State.PAUSED
    between_hosts: bool = False


@dataclass
class Domain:
    """A domain has a stored definition, a live part, or both."""

    name: str
    identifier: UUID
    stored: DomainDefinition | None = None
    live: Live | None = None
    autostart: bool = False
    snapshots: Snapshots = field(default_factory=Snapshots)

    @property
    def state(self) -> State:
        return self.live.state if self.live else State.SHUT_OFF

    @property
    def definition(self) -> DomainDefinition:
        """The definition in force: of the guest, or the stored one where there is no guest."""
        return self.live.definition if self.live else self.stored

    @property
    def number(self) -> int:
        """The number on the wire."""
        return min(self.live.boot, GREATEST_NUMBER) if self.live else -1


@dataclass(frozen=True)
class Ask:
    """A command with what it bears, and what undoes it where it is refused."""

    command: Command
    value: int | bytes | None = None
    undo: Command | None = None


class Cell:
    """Holds one domain after another, and is vacant in between. Boots are counted through all."""

    def __init__(self, store: Store) -> None:
        self.store = store
        self.boots = 0
        self.domain: Domain | None = None
        self.resting: Resting | None = None

    @property
    def is_occupied(self) -> bool:
        return self.domain is not None or self.resting is not None

    # What every call has in common

    def let_in(self, job: Job) -> Domain:
        """The domain, for a call whose job the operation that rests admits."""
        if self.resting and job not in self.resting.kind.admits:
            raise Refused(Code.OPERATION_TIMEOUT, self.resting.kind.word)
        return self.occupied()

    def occupied(self) -> Domain:
        """The domain; 42 where the cell is vacant."""
        if self.domain is None:
            raise no_domain()
        return self.domain

    def invalid(self) -> Refused:
        """The refusal of a call that the domain's state does not allow."""
        state = self.domain.state if self.domain else State.SHUT_OFF
        return Refused(Code.OPERATION_INVALID, state.word)

    def active(self, *wrong: State, job: Job = Job.MODIFY) -> Live:
        """The live part, for a call that an inactive domain and these states refuse."""
        live = self.let_in(job).live
        if live is None or live.state in wrong:
            raise self.invalid()
        return live

    def ask(self, live: Live, *asks: Ask) -> list[int | bytes | None]:
        """Asks the guest one after the other; the first answer that is not Ok ends the list."""
        values = []
        for ask in asks:
            answer = live.guest.ask(ask.command, ask.value)
            match answer:
                case Ended():
                    self.end_boot(live)
                    raise BootEnded(live.boot)
                case Lost():
                    self.end_boot(live)
                    raise LinkLost
                case AnswerRefused():
                    if ask.undo:
                        self.undo(live, ask.undo)
                    raise AskFailed(answer)
            values.append(answer.value)
        return values

    def undo(self, live: Live, command: Command) -> None:
        """The answer to an undo is not looked at, but that it may end the boot."""
        match live.guest.ask(command):
            case Ended():
                self.end_boot(live)
                raise BootEnded(live.boot)
            case Lost():
                self.end_boot(live)

    def end_boot(self, live: Live) -> None:
        """The live part is gone; a domain that has neither part is gone with its snapshots."""
        if self.domain is not None and self.domain.live is live:
            self.domain.live = None
            self.unless_gone()

    def unless_gone(self) -> None:
        if self.domain.stored is None and self.domain.live is None:
            self.domain = None

    def hear(self) -> None:
        """What the guest does by itself, up to its end, is heard after each call."""
        live = self.domain.live if self.domain else None
        while live is not None and live.guest is not None:
            match live.guest.hear():
                case None:
                    return
                case Ended():
                    self.end_boot(live)
                    return
                case event:
                    self.apply(live, event)

    def apply(self, live: Live, event: GuestEvent) -> None:
        match event:
            case GuestEvent.STOP if live.state is State.RUNNING:
                live.state = State.PAUSED
            case GuestEvent.RESUME if live.state is State.PAUSED and not live.between_hosts:
                live.state = State.RUNNING
            case GuestEvent.PANIC:
                live.state = State.CRASHED

    def status(self) -> Status | None:
        """What the status file of the live boot says."""
        if self.domain is None or self.domain.live is None:
            return None
        kind, phase, _ = self.job_info()
        domain = self.domain
        return Status(domain.name, domain.live.boot, domain.state.number, kind, phase)

    # Queries

    def text(self, wants_stored: bool) -> tuple[DomainDefinition, list[int] | None]:
        """The definition that is told, and the slots of a guest's devices."""
        domain = self.occupied()
        if domain.live is None or (wants_stored and domain.stored is not None):
            return domain.stored, None
        return domain.live.definition, domain.live.slots

    def job_info(self) -> tuple[int, int, int]:
        """Kind and phase of the operation that rests, and what its last poll saw left."""
        self.occupied()
        if self.resting is None:
            return 0, 0, 0
        return self.resting.kind.number, RESTING_PHASE, self.resting.left

    # What is stored

    def define(self, definition: DomainDefinition) -> Domain:
        """Stores the definition, of a new domain too; the flag of the one before stays."""
        if self.resting:
            raise Refused(Code.OPERATION_TIMEOUT, self.resting.kind.word)
        if self.domain is None:
            self.domain = Domain(definition.name, definition.identifier)
        self.domain.stored = definition
        self.put()
        return self.domain

    def undefine(self) -> None:
        domain = self.let_in(Job.MODIFY)
        if domain.stored is None or (domain.live is None and domain.snapshots.by_name):
            raise self.invalid()
        domain.stored = None
        domain.autostart = False
        del self.store.entries[domain.identifier]
        self.unless_gone()

    def set_autostart(self, flag: bool) -> None:
        domain = self.let_in(Job.MODIFY)
        if domain.stored is None:
            raise self.invalid()
        domain.autostart = flag
        self.put()

    def put(self) -> None:
        entry = Entry(self.domain.stored, self.domain.autostart)
        self.store.entries[self.domain.identifier] = entry

    # The guest's life

    def suspend(self) -> None:
        live = self.active(State.CRASHED, job=Job.SUSPEND)
        if live.between_hosts:
            raise self.invalid()
        if live.state is State.RUNNING:
            self.ask(live, Ask(Command.STOP))
        live.state = State.PAUSED

    def resume(self) -> None:
        live = self.active(State.CRASHED)
        if live.state is State.PAUSED:
            self.ask(live, Ask(Command.CONT))
        live.state = State.RUNNING

    def shutdown(self) -> None:
        self.ask(self.active(State.CRASHED), Ask(Command.POWERDOWN))

    def reboot(self) -> None:
        live = self.active()
        self.ask(live, Ask(Command.RESET))
        if live.state is State.CRASHED:
            live.state = State.RUNNING

    def destroy(self) -> None:
        """One that is not let in kills the guest before it waits."""
        try:
            live = self.active(job=Job.DESTROY)
        except Refused as refusal:
            if refusal.code is Code.OPERATION_TIMEOUT and self.domain and self.domain.live:
                self.domain.live.guest.kill()
            raise
        try:
            self.ask(live, Ask(Command.QUIT))
        except BootEnded:
            return
        self.end_boot(live)

    def kick(self, number: int) -> None:
        self.let_in(Job.QUERY)
        within(number, 1, 5)
        self.ask(self.active(job=Job.QUERY), Ask(Command.KICK, number))

    def memory_stats(self) -> int:
        return self.ask(self.active(job=Job.QUERY), Ask(Command.QUERY_MEMORY))[0]

    # Memory, processors and devices

    def set_memory(self, memory: int) -> None:
        live = self.active()
        within(memory, 1, live.definition.memory)
        self.ask(live, Ask(Command.SET_MEMORY, memory))
        live.definition = replace(live.definition, current_memory=memory)

    def set_vcpus(self, vcpus: int) -> None:
        live = self.active()
        within(vcpus, 1, live.definition.vcpus)
        self.ask(live, Ask(Command.SET_VCPUS, vcpus))
        live.definition = replace(live.definition, current_vcpus=vcpus)

    def attach(self, device: Device) -> None:
        live = self.active()
        if place_of(live.definition, device) is not None:
            raise self.invalid()
        slot = least_free_slot(live.slots)
        self.lease(device)
        self.ask(
            live,
            Ask(Command.ADD_BACKEND),
            Ask(Command.ADD_DEVICE, undo=Command.REMOVE_BACKEND),
        )
        live.slots.insert(place_of_new(live.definition, device), slot)
        live.definition = live.definition.with_device(device)

    def detach(self, device: Device) -> None:
        live = self.active()
        place = place_of(live.definition, device)
        if place is None:
            raise Refused(Code.INVALID_ARGUMENT, device.key)
        self.ask(
            live,
            Ask(Command.REMOVE_DEVICE),
            Ask(Command.REMOVE_BACKEND, undo=Command.ADD_DEVICE),
        )
        del live.slots[place]
        live.definition = live.definition.without_device(device)

    def lease(self, device: Device) -> None:
        """An interface on a network needs an address there, and no network is served."""
        on_network = isinstance(device, Interface) and device.type == "network"
        if on_network and device.address is not None:
            raise AskFailed(AnswerRefused(NO_NETWORK))

    # What can only be refused to a session that is alone, and deletions of snapshots

    def abort(self) -> None:
        """No save, dump, snapshot or moving copy is under way between two calls."""
        self.let_in(Job.ABORT)
        raise self.invalid()

    def limit(self) -> None:
        """No copy of a migration is under way between two calls."""
        self.let_in(Job.MIGRATION_OP)
        raise self.invalid()

    def delete_snapshot(self, name: str, with_children: bool) -> None:
        self.let_in(Job.MODIFY).snapshots.delete(name, with_children)
