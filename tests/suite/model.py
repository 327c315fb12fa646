"""A plain model of the daemon: what each call is answered, and what there is after it.

It is written from docs/DRIVER.md, docs/PROTOCOL.md, docs/TEXTS.md and docs/STORE.md and never from
the daemon's sources, so that a session in which both agree has been thought through twice. It
serves one session at a time, as the daemon does. What the daemon draws by chance (identifiers and
addresses of interfaces) is taken from its replies and looked at for its form.
"""

from __future__ import annotations

from collections.abc import Callable
from dataclasses import dataclass, replace
from uuid import UUID

from suite import model_operations as operations
from suite.model_definitions import DomainDefinition, Draws, is_name
from suite.model_domain import Cell, Domain, State
from suite.model_markup import NotInGrammar
from suite.model_payload import BadPayload, read_arguments
from suite.model_refusals import Code, Refused, no_domain, within
from suite.model_store import Entry, Store
from suite.model_texts import (
    BadDefinition,
    print_domain,
    print_running,
    print_snapshot,
    read_device,
    read_domain,
    read_snapshot,
)
from suite.procedures import BY_NUMBER, DRIVER_PROGRAM, MESSAGES, SECOND_PROGRAM, VERSION
from suite.wire import Domain as Reference
from suite.wire import Packet, Refusal, refusal

MOST_DOMAINS = 256
MOST_NAMES = 1_024
MOST_TITLE_BYTES = 1_024
#: The bit of a text's flags that asks for the stored definition.
STORED = 2


@dataclass
class Slot:
    """A place in the list of domains: a cell, and whose it is while it is held."""

    cell: Cell
    name: str = ""
    identifier: UUID = UUID(int=0)


class Daemon:
    """A daemon over a store. `lines` is what it says on standard error as it is opened."""

    def __init__(self, store: Store, draws: Draws) -> None:
        self.store = store
        self.draws = draws
        #: The slots that were used so far; one that is free is used again before a new one.
        self.slots: list[Slot] = []
        self.lines = store.take_reports()
        for entry in self._entries():
            slot = self.free_slot(entry.name, entry.definition.identifier)
            slot.cell.domain = Domain(
                slot.name, slot.identifier, entry.definition, autostart=entry.autostart
            )
        self._start_what_is_marked()

    def _entries(self) -> list[Entry]:
        return sorted(self.store.entries.values(), key=lambda entry: entry.name.encode())

    def _start_what_is_marked(self) -> None:
        """A start that is refused is said, and the others go on."""
        for entry in self._entries():
            if entry.autostart:
                try:
                    self._on(entry.definition.identifier, operations.start)
                except Refused as refused:
                    kept = f": {refused.kept}" if refused.kept else ""
                    message = MESSAGES[refused.code]
                    self.lines.append(f"virtd: {entry.name} is not started: {message}{kept}")

    # A packet

    def answer(self, packet: Packet, came: object) -> object:
        """What a call is answered: its result, or a `Refusal`.

        `came` is what the daemon answered, of which only what it drew is taken.
        """
        self.draws.identifier = _drawn(came)
        try:
            name, arguments = self._read(packet)
            return self._learn(SERVES[name](self, *arguments), came)
        except Refused as refused:
            return refusal(refused.code, refused.kept or None)

    def _read(self, packet: Packet) -> tuple[str, tuple[object, ...]]:
        """The call, or the first of what is wrong with it."""
        if packet.program not in (DRIVER_PROGRAM, SECOND_PROGRAM):
            raise Refused(Code.MALFORMED_CALL, "program")
        if packet.version != VERSION:
            raise Refused(Code.MALFORMED_CALL, "version")
        procedure = BY_NUMBER.get((packet.program, packet.procedure))
        if procedure is None:
            raise Refused(Code.UNKNOWN_PROCEDURE, packet.procedure)
        if not procedure.served:
            raise Refused(Code.NOT_BUILT, packet.procedure)
        try:
            return procedure.name, read_arguments(procedure.arguments, packet.payload)
        except BadPayload as fault:
            raise Refused(Code.MALFORMED_CALL, f"at {fault.at}") from None

    def _learn(self, result: object, came: object) -> object:
        """The result with the addresses that what came shows."""
        if isinstance(result, str) and isinstance(came, str):
            return self.draws.learn(result, came)
        if isinstance(result, tuple) and isinstance(came, tuple) and len(result) == len(came):
            return tuple(self._learn(*both) for both in zip(result, came))
        return result

    # The list of domains

    def _held(self) -> list[Slot]:
        return [slot for slot in self.slots if slot.cell.is_occupied]

    def find(self, identifier: UUID) -> Slot:
        """The slot of the domain with this identifier; 42 keeps the identifier."""
        for slot in self._held():
            if slot.identifier == identifier:
                return slot
        raise no_domain(identifier)

    def find_name(self, name: str) -> Slot:
        """The slot of the domain with this name; 42 keeps the name, whatever it is."""
        for slot in self._held():
            if slot.name == name:
                return slot
        raise no_domain(name)

    def claim(self, definition: DomainDefinition) -> Slot:
        """The slot of this name and identifier, or the least free one."""
        for slot in self._held():
            if slot.name == definition.name:
                if slot.identifier != definition.identifier:
                    raise Refused(Code.DOMAIN_EXISTS, slot.identifier)
                return slot
        for slot in self._held():
            if slot.identifier == definition.identifier:
                raise Refused(Code.DOMAIN_EXISTS, slot.name)
        return self.free_slot(definition.name, definition.identifier)

    def free_slot(self, name: str, identifier: UUID) -> Slot:
        """The least free slot, for a domain of this name and identifier."""
        free = next((slot for slot in self.slots if not slot.cell.is_occupied), None)
        if free is None:
            if len(self.slots) == MOST_DOMAINS:
                raise Refused(Code.LIST_FULL, MOST_DOMAINS)
            free = Slot(Cell(self.store))
            self.slots.append(free)
        free.name, free.identifier = name, identifier
        return free

    def _rows(self) -> list[Domain]:
        """All domains by rising name."""
        there = (slot.cell.domain for slot in self._held() if slot.cell.domain)
        return sorted(there, key=lambda domain: domain.name.encode())

    # Calls of domains

    def _on(self, identifier: UUID, call: Callable, *arguments: object) -> object:
        """Runs a call on a domain."""
        return self._in(self.find(identifier), call, *arguments)

    def _in(self, slot: Slot, call: Callable, *arguments: object) -> object:
        """Runs a call in a cell; then its guest is heard, and the status of its boot is kept."""
        try:
            return call(slot.cell, *arguments)
        finally:
            slot.cell.hear()
            self._keep_status(slot)

    def _keep_status(self, slot: Slot) -> None:
        status = slot.cell.status()
        if status:
            self.store.statuses[slot.identifier] = status
        else:
            self.store.statuses.pop(slot.identifier, None)

    # Procedures: what is told

    def nothing(self, *_: object) -> None:
        """A session is opened and closed without a word."""

    def lookup_name(self, name: str) -> Reference:
        return _reference(self.find_name(name).cell.occupied())

    def lookup_identifier(self, identifier: UUID) -> Reference:
        return _reference(self.find(identifier).cell.occupied())

    def list_all(self) -> list[tuple[Reference, int]]:
        return [(_reference(domain), domain.state.number) for domain in self._rows()]

    def list_defined(self, most: int) -> list[str]:
        within(most, 0, MOST_NAMES)
        return [domain.name for domain in self._rows() if domain.state is State.SHUT_OFF][:most]

    def titles(self) -> list[tuple[str, str]]:
        return [(entry.name, _cut(entry.title)) for entry in self._entries()]

    def text(self, of: Reference, flags: int) -> str:
        definition, slots = self.find(of.identifier).cell.text(bool(flags & STORED))
        return print_domain(definition) if slots is None else print_running(definition, slots)

    def autostart(self, of: Reference) -> int:
        return int(self.find(of.identifier).cell.occupied().autostart)

    def info(self, of: Reference) -> tuple[int, int, int, int, int]:
        domain = self.find(of.identifier).cell.occupied()
        definition = domain.definition
        memory = (definition.memory, definition.current_memory)
        return domain.state.number, *memory, definition.current_vcpus, 0

    def job_info(self, of: Reference) -> tuple[int, int, int]:
        return self.find(of.identifier).cell.job_info()

    def snapshot_names(self, of: Reference) -> list[str]:
        return self.find(of.identifier).cell.occupied().snapshots.names()

    def snapshot_parent(self, of: Reference, name: str) -> str | None:
        _check_name(name)
        return self.find(of.identifier).cell.occupied().snapshots.find(name).parent

    def snapshot_text(self, of: Reference, name: str) -> str:
        _check_name(name)
        snapshot = self.find(of.identifier).cell.occupied().snapshots.find(name)
        return print_snapshot(name, snapshot.description, snapshot.word, snapshot.parent)

    # Procedures: what is changed

    def define(self, text: str) -> Reference:
        definition = self.draws.fill_domain(_read(read_domain, text))
        return _reference(self._in(self.claim(definition), Cell.define, definition))

    def create_xml(self, text: str, _flags: int) -> Reference:
        definition = self.draws.fill_domain(_read(read_domain, text))
        return _reference(self._in(self.claim(definition), operations.create, definition))

    def set_autostart(self, of: Reference, flag: int) -> None:
        within(flag, 0, 1)
        self._on(of.identifier, Cell.set_autostart, flag == 1)

    def attach(self, of: Reference, text: str) -> None:
        self._on(of.identifier, Cell.attach, self.draws.fill_device(_read(read_device, text)))

    def detach(self, of: Reference, text: str) -> None:
        self._on(of.identifier, Cell.detach, _read(read_device, text))

    def save(self, of: Reference, name: str) -> None:
        _check_name(name)
        self._on(of.identifier, operations.save, name)

    def dump(self, of: Reference, name: str, _flags: int) -> None:
        _check_name(name)
        self._on(of.identifier, operations.dump, name)

    def restore(self, name: str) -> None:
        """An image by another program may lack addresses; its identifier has to be there."""
        _check_name(name)
        image = self.store.image(name)
        image = replace(image, definition=self.draws.fill_domain(image.definition))
        self._in(self.claim(image.definition), operations.restore, image)

    def create_snapshot(self, of: Reference, text: str) -> str:
        said = _read(read_snapshot, text)
        create = operations.create_snapshot
        return self._on(of.identifier, create, said.name, said.description)

    def delete_snapshot(self, of: Reference, name: str, with_children: int) -> None:
        _check_name(name)
        within(with_children, 0, 1)
        self._on(of.identifier, Cell.delete_snapshot, name, with_children == 1)

    def revert(self, of: Reference, name: str) -> None:
        _check_name(name)
        self._on(of.identifier, operations.revert, name)

    def perform(self, of: Reference) -> tuple[str, int, bytes]:
        definition, ran, state = self._on(of.identifier, operations.perform)
        return print_domain(definition), int(ran), state

    def confirm(self, of: Reference, arrived: int) -> None:
        within(arrived, 0, 1)
        self._on(of.identifier, operations.confirm, arrived == 1)

    def prepare(self, text: str, ran: int, state: bytes) -> Reference:
        within(ran, 0, 1)
        definition = self.draws.fill_domain(_read(read_domain, text))
        slot = self.claim(definition)
        return _reference(self._in(slot, operations.prepare, definition, ran == 1, state))

    def finish(self, of: Reference, goes_on: int) -> None:
        within(goes_on, 0, 1)
        self._on(of.identifier, operations.finish, goes_on == 1)


def _reference(domain: Domain) -> Reference:
    return Reference(domain.name, domain.identifier, domain.number)


def _drawn(came: object) -> UUID | None:
    """An identifier that the daemon may have drawn: one of version 4."""
    if isinstance(came, Reference) and came.identifier.version == 4:
        return came.identifier
    return None


def _read(read: Callable, text: str) -> object:
    """What a text says; 27 where it says nothing."""
    try:
        return read(text.encode())
    except NotInGrammar as fault:
        raise Refused(Code.BAD_DEFINITION, f"at {fault.at}") from None
    except BadDefinition as fault:
        raise Refused(Code.BAD_DEFINITION, fault.path) from None


def _check_name(name: str) -> None:
    """The name of a file or of a snapshot among the arguments has to be a name."""
    if not is_name(name):
        raise Refused(Code.INVALID_ARGUMENT, name)


def _cut(title: str) -> str:
    """A title in a reply is cut to whole characters."""
    return title.encode()[:MOST_TITLE_BYTES].decode(errors="ignore")


def _on_domain(call: Callable) -> Callable:
    """A procedure that is one call on a domain; other arguments are passed on."""

    def serve(daemon: Daemon, of: Reference, *arguments: object) -> object:
        return daemon._on(of.identifier, call, *arguments)

    return serve


#: What each procedure that is served does.
SERVES: dict[str, Callable] = {
    "CONNECT_OPEN": Daemon.nothing,
    "CONNECT_CLOSE": Daemon.nothing,
    "DOMAIN_ATTACH_DEVICE": Daemon.attach,
    "DOMAIN_CREATE": _on_domain(operations.start),
    "DOMAIN_CREATE_XML": Daemon.create_xml,
    "DOMAIN_DEFINE_XML": Daemon.define,
    "DOMAIN_DESTROY": _on_domain(Cell.destroy),
    "DOMAIN_DETACH_DEVICE": Daemon.detach,
    "DOMAIN_GET_XML_DESC": Daemon.text,
    "DOMAIN_GET_AUTOSTART": Daemon.autostart,
    "DOMAIN_GET_INFO": Daemon.info,
    "CONNECT_LIST_DEFINED_DOMAINS": Daemon.list_defined,
    "DOMAIN_LOOKUP_BY_NAME": Daemon.lookup_name,
    "DOMAIN_LOOKUP_BY_UUID": Daemon.lookup_identifier,
    "DOMAIN_REBOOT": lambda daemon, of, _flags: daemon._on(of.identifier, Cell.reboot),
    "DOMAIN_RESUME": _on_domain(Cell.resume),
    "DOMAIN_SET_AUTOSTART": Daemon.set_autostart,
    "DOMAIN_SET_MEMORY": _on_domain(Cell.set_memory),
    "DOMAIN_SET_VCPUS": _on_domain(Cell.set_vcpus),
    "DOMAIN_SHUTDOWN": _on_domain(Cell.shutdown),
    "DOMAIN_SUSPEND": _on_domain(Cell.suspend),
    "DOMAIN_UNDEFINE": _on_domain(Cell.undefine),
    "DOMAIN_CORE_DUMP": Daemon.dump,
    "DOMAIN_RESTORE": Daemon.restore,
    "DOMAIN_SAVE": Daemon.save,
    "LIST_ALL": Daemon.list_all,
    "JOB_INFO": Daemon.job_info,
    "JOB_ABORT": _on_domain(Cell.abort),
    "SNAP_CREATE": Daemon.create_snapshot,
    "SNAP_LIST": Daemon.snapshot_names,
    "SNAP_PARENT": Daemon.snapshot_parent,
    "SNAP_DELETE": Daemon.delete_snapshot,
    "SNAP_REVERT": Daemon.revert,
    "SNAP_XML": Daemon.snapshot_text,
    "MEMORY_STATS": _on_domain(Cell.memory_stats),
    "KICK": _on_domain(Cell.kick),
    "TITLES": Daemon.titles,
    "MIGRATE_PERFORM": Daemon.perform,
    "MIGRATE_CONFIRM": Daemon.confirm,
    "MIGRATE_PREPARE": Daemon.prepare,
    "MIGRATE_FINISH": Daemon.finish,
    "MIGRATE_LIMIT": lambda daemon, of, _left: daemon._on(of.identifier, Cell.limit),
}
