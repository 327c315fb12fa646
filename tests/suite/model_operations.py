"""What begins an operation, or takes one up: phases one after the other (docs/DRIVER.md).

A session that is alone sees no operation under way but a migration that rests between two calls.
"""

from __future__ import annotations

from contextlib import contextmanager
from collections.abc import Iterator

from suite.model_definitions import DomainDefinition
from suite.model_devices import slots_at_start
from suite.model_domain import Ask, Cell, Domain, Kind, Live, Resting, State
from suite.model_guest import Command, Guest
from suite.model_refusals import AskFailed, BootEnded, Code, Refused
from suite.model_snapshots import Snapshot
from suite.model_store import DUMP, SAVE, Image

#: So many polls in a row that saw no less left than the one before give a copy up.
MOST_STILL_POLLS = 64


def need_no_operation(cell: Cell) -> None:
    """An operation begins only where none is held, not even one that rests."""
    if cell.resting:
        raise Refused(Code.OPERATION_TIMEOUT, cell.resting.kind.word)


def begin(cell: Cell) -> Domain:
    """The domain, for a call that begins an operation on one."""
    need_no_operation(cell)
    return cell.occupied()


def begin_on_guest(cell: Cell, *wrong: State) -> Live:
    """The live part, for an operation that an inactive domain and these states refuse."""
    live = begin(cell).live
    if live is None or live.state in wrong:
        raise cell.invalid()
    return live


# A new boot ---------------------------------------------------------------------------------------


def new_boot(cell: Cell, definition: DomainDefinition, between_hosts: bool = False) -> Live:
    """The live part that an operation begins with; it has no guest yet."""
    cell.boots += 1
    live = Live(cell.boots, definition, slots_at_start(definition), between_hosts=between_hosts)
    cell.domain.live = live
    return live


@contextmanager
def gone_if_refused(cell: Cell, live: Live) -> Iterator[None]:
    """Where the guest of a new boot can't be made, run or loaded, the boot is gone."""
    try:
        yield
    except AskFailed:
        cell.end_boot(live)
        raise


def make(cell: Cell, live: Live) -> None:
    """An address for each interface that needs one, and then the guest."""
    for interface in live.definition.interfaces:
        cell.lease(interface)
    live.guest = Guest(live.definition.script, live.boot, live.definition.current_memory)


def run(cell: Cell, live: Live) -> None:
    cell.ask(
        live,
        Ask(Command.QUERY_STATUS, undo=Command.QUIT),
        Ask(Command.CONT, undo=Command.QUIT),
    )
    live.state = State.RUNNING


def load(cell: Cell, live: Live, state: bytes, ran: bool) -> None:
    """Loads a state into a new guest, which goes on where that guest ran."""
    cell.ask(live, Ask(Command.LOAD_STATE, state, undo=Command.QUIT))
    if ran:
        cell.ask(live, Ask(Command.CONT, undo=Command.QUIT))
    live.state = State.RUNNING if ran else State.PAUSED


def start(cell: Cell) -> None:
    domain = begin(cell)
    if domain.live:
        raise cell.invalid()
    live = new_boot(cell, domain.stored)
    with gone_if_refused(cell, live):
        make(cell, live)
        run(cell, live)


def create(cell: Cell, definition: DomainDefinition) -> Domain:
    """Starts a domain that is not stored, in a vacant cell."""
    need_no_operation(cell)
    if cell.domain:
        raise cell.invalid()
    domain = cell.domain = Domain(definition.name, definition.identifier)
    live = new_boot(cell, definition)
    with gone_if_refused(cell, live):
        make(cell, live)
        run(cell, live)
    return domain


def come_in(cell: Cell, definition: DomainDefinition) -> Domain:
    """The domain that a guest comes into: the cell's own, or a new one that is not stored."""
    need_no_operation(cell)
    if cell.domain and cell.domain.live:
        raise cell.invalid()
    if cell.domain is None:
        cell.domain = Domain(definition.name, definition.identifier)
    return cell.domain


def restore(cell: Cell, image: Image) -> None:
    come_in(cell, image.definition)
    live = new_boot(cell, image.definition)
    with gone_if_refused(cell, live):
        make(cell, live)
        load(cell, live, image.state, image.ran)


# Copies of a guest's state ------------------------------------------------------------------------


def copy(cell: Cell, live: Live) -> bool:
    """Stops the guest and begins to copy its state; whether it ran."""
    ran = live.state is State.RUNNING
    undo = Command.CONT if ran else None
    stop = [Ask(Command.STOP, undo=undo)] if ran else []
    cell.ask(live, *stop, Ask(Command.COPY_BEGIN, undo=undo))
    if ran:
        live.state = State.PAUSED
    return ran


def poll(cell: Cell, live: Live) -> None:
    """Polls until nothing is left, or until too many polls in a row saw no headway."""
    before: int | None = None
    still = 0
    while still < MOST_STILL_POLLS:
        left = cell.ask(live, Ask(Command.COPY_POLL))[0]
        if left == 0:
            return
        still = still + 1 if before is not None and left >= before else 0
        before = left
    raise Refused(Code.STALLED, before)


@contextmanager
def cancelled_if_refused(cell: Cell, live: Live, goes_on: bool) -> Iterator[None]:
    """A refusal, or no headway, gives the copy up; a guest that ran before it goes on."""
    try:
        yield
    except Refused as refusal:
        if not isinstance(refusal, AskFailed) and refusal.code is not Code.STALLED:
            raise
        cancel(cell, live, goes_on)
        raise


def cancel(cell: Cell, live: Live, goes_on: bool) -> None:
    """A refusal in a cancel ends it; the one that led there is the reply all the same."""
    if cell.domain is None or cell.domain.live is not live:
        raise BootEnded(live.boot)
    try:
        cell.ask(live, Ask(Command.COPY_CANCEL))
        if goes_on:
            cell.ask(live, Ask(Command.CONT))
            live.state = State.RUNNING
    except AskFailed:
        pass


def go_on(cell: Cell, live: Live, ran: bool) -> None:
    """Lets a guest that ran before the copy go on after it."""
    if ran:
        cell.ask(live, Ask(Command.CONT))
        live.state = State.RUNNING


def image_of(cell: Cell, live: Live, kind: int, ran: bool) -> Image:
    state = cell.ask(live, Ask(Command.COPY_TAKE))[0]
    return Image(kind, ran, live.definition, state)


def save(cell: Cell, name: str) -> None:
    live = begin_on_guest(cell, State.CRASHED)
    ran = copy(cell, live)
    with cancelled_if_refused(cell, live, ran):
        poll(cell, live)
        cell.store.saves[name] = image_of(cell, live, SAVE, ran)
        cell.ask(live, Ask(Command.QUIT))
    cell.end_boot(live)


def dump(cell: Cell, name: str) -> None:
    live = begin_on_guest(cell)
    ran = copy(cell, live)
    with cancelled_if_refused(cell, live, ran):
        poll(cell, live)
        cell.store.dumps[name] = image_of(cell, live, DUMP, ran)
        go_on(cell, live, ran)


# Snapshots ----------------------------------------------------------------------------------------


def create_snapshot(cell: Cell, name: str | None, description: str) -> str:
    """Takes a snapshot of the guest, or of the stored definition where there is none."""
    domain = begin(cell)
    domain.snapshots.check_room(name)
    if domain.state is State.CRASHED:
        raise cell.invalid()
    name = name or domain.snapshots.free_name()
    live = domain.live
    ran, state = None, b""
    definition = domain.definition
    if live:
        ran = copy(cell, live)
        with cancelled_if_refused(cell, live, ran):
            poll(cell, live)
            state = cell.ask(live, Ask(Command.COPY_TAKE))[0]
            go_on(cell, live, ran)
    domain.snapshots.add(Snapshot(name, description, None, definition, ran, state))
    return name


def revert(cell: Cell, name: str) -> None:
    """Goes back to a snapshot, which then is the current one."""
    domain = begin(cell)
    snapshot = domain.snapshots.find(name)
    live = domain.live
    if live and snapshot.ran is not None:
        load_live(cell, live, snapshot)
    elif live:
        with cancelled_if_refused(cell, live, False):
            cell.ask(live, Ask(Command.QUIT))
        cell.end_boot(live)
    elif snapshot.ran is not None:
        live = new_boot(cell, snapshot.definition)
        with gone_if_refused(cell, live):
            make(cell, live)
            load(cell, live, snapshot.state, snapshot.ran)
    domain.snapshots.current = name


def load_live(cell: Cell, live: Live, snapshot: Snapshot) -> None:
    """Loads the snapshot's state into the guest that is there, in the same boot."""
    was_running = live.state is State.RUNNING
    undo = Command.CONT if was_running else None
    asks = [Ask(Command.STOP, undo=undo)] if was_running else []
    asks.append(Ask(Command.LOAD_STATE, snapshot.state, undo=undo))
    asks += [Ask(Command.CONT, undo=undo)] if snapshot.ran else []
    cell.ask(live, *asks)
    live.state = State.RUNNING if snapshot.ran else State.PAUSED
    live.definition = snapshot.definition
    live.slots = slots_at_start(snapshot.definition)


# Migrations ---------------------------------------------------------------------------------------


def perform(cell: Cell) -> tuple[DomainDefinition, bool, bytes]:
    """Copies the guest for another host; it then waits between two hosts."""
    live = begin_on_guest(cell, State.CRASHED)
    cell.ask(live, Ask(Command.COPY_BEGIN))
    with cancelled_if_refused(cell, live, False):
        poll(cell, live)
        ran = live.state is State.RUNNING
        stop = [Ask(Command.STOP)] if ran else []
        cell.ask(live, *stop)
        undo = Command.CONT if ran else None
        state = cell.ask(live, Ask(Command.COPY_TAKE, undo=undo))[0]
    live.state = State.PAUSED
    live.between_hosts = True
    cell.resting = Resting(Kind.MIGRATE_OUT, live.boot, ran, left=0)
    return live.definition, ran, state


def prepare(cell: Cell, definition: DomainDefinition, ran: bool, state: bytes) -> Domain:
    """Makes a guest of one that comes from another host; it waits for its word to go on."""
    domain = come_in(cell, definition)
    live = new_boot(cell, definition, between_hosts=True)
    with gone_if_refused(cell, live):
        make(cell, live)
        cell.ask(live, Ask(Command.LOAD_STATE, state, undo=Command.QUIT))
    cell.resting = Resting(Kind.MIGRATE_IN, live.boot, ran, left=0)
    return domain


def confirm(cell: Cell, arrived: bool) -> None:
    """Ends the guest that arrived at the other host, or lets it go on here."""
    with taken_up(cell, Kind.MIGRATE_OUT) as (live, resting):
        if arrived:
            cell.ask(live, Ask(Command.QUIT))
            cell.end_boot(live)
        else:
            set_going(cell, live, resting.ran)


def finish(cell: Cell, goes_on: bool) -> None:
    """Sets the guest going that came, or gives it up."""
    with taken_up(cell, Kind.MIGRATE_IN) as (live, resting):
        if goes_on:
            set_going(cell, live, resting.ran)
        else:
            cell.ask(live, Ask(Command.QUIT))
            cell.end_boot(live)


@contextmanager
def taken_up(cell: Cell, kind: Kind) -> Iterator[tuple[Live, Resting]]:
    """Takes up the migration that rests. After a refusal of the guest it rests again."""
    resting = cell.resting
    if resting is None:
        cell.occupied()
    if resting is None or resting.kind is not kind:
        raise cell.invalid()
    cell.resting = None
    live = cell.domain.live if cell.domain else None
    if live is None or live.boot != resting.boot:
        raise BootEnded(resting.boot)
    try:
        yield live, resting
    except AskFailed:
        cell.resting = resting
        raise


def set_going(cell: Cell, live: Live, ran: bool) -> None:
    if ran:
        cell.ask(live, Ask(Command.CONT))
    live.state = State.RUNNING if ran else State.PAUSED
    live.between_hosts = False
