"""Series of calls that lead to what single calls hardly come to."""

from __future__ import annotations

from collections.abc import Callable, Iterator
from typing import TYPE_CHECKING

from suite.model import MOST_DOMAINS, Daemon
from suite.model_definitions import MOST_DEVICES
from suite.model_snapshots import MOST_SNAPSHOTS
from suite.random_acts import NAMES, STATES, Act, Target, identifier_of

if TYPE_CHECKING:
    from suite.random_calls import Caller


def fill_slots(caller: Caller, daemon: Daemon) -> Iterator[Act]:
    """Takes all slots of a guest, and one device more."""
    target = caller.running(daemon)
    letters = "abcdefghijklmnopqrstuvwxyz"
    for number in range(MOST_DEVICES + 2):
        text = caller.texts.disk(f"sd{letters[number % 26]}{number // 26}")
        yield Act("DOMAIN_ATTACH_DEVICE", (target, text))
    yield Act("DOMAIN_GET_XML_DESC", (target, 0))
    slots = range(caller.random.randint(2, 6))
    for number in slots:
        text = caller.texts.disk(f"sd{letters[number * 5]}0")
        yield Act("DOMAIN_DETACH_DEVICE", (target, text))
    yield Act("DOMAIN_ATTACH_DEVICE", (target, caller.texts.disk("sdz9")))
    yield Act("DOMAIN_GET_XML_DESC", (target, 0))


def fill_snapshots(caller: Caller, daemon: Daemon) -> Iterator[Act]:
    """Takes as many snapshots of a domain as there may be, and one more."""
    target = caller.idle(daemon)
    for _ in range(MOST_SNAPSHOTS + 1):
        yield Act("SNAP_CREATE", (target, caller.texts.snapshot(None)))
    yield Act("SNAP_LIST", (target,))
    yield Act("SNAP_DELETE", (target, "snap2", 1))
    yield Act("SNAP_DELETE", (target, "snap1", 1))


def fill_list(caller: Caller, _daemon: Daemon) -> Iterator[Act]:
    """Creates domains until the list is full, and one more where one was ended."""
    for number in range(MOST_DOMAINS + 1):
        yield one_of_many(caller, number)
    yield Act("LIST_ALL")
    yield Act("DOMAIN_DESTROY", (Target("one-7"),))
    yield one_of_many(caller, MOST_DOMAINS + 1)
    yield one_of_many(caller, MOST_DOMAINS + 2)
    yield from large(caller)


def one_of_many(caller: Caller, number: int) -> Act:
    name = f"one-{number}"
    text = caller.texts.plain_domain(name, identifier_of(name))
    return Act("DOMAIN_CREATE_XML", (text, 0))


def mishap(caller: Caller, daemon: Daemon) -> Iterator[Act]:
    """Calls of several asks on a guest that at one of them ends, refuses it or is lost."""
    name = caller.random.choice(NAMES)
    target = Target(name)
    slot = next((slot for slot in daemon.slots if slot.name == name), None)
    boot = (slot.cell.boots if slot else 0) + caller.random.choice((1, 1, 1, 2))
    deed = caller.random.choice(("end", "refuse", "refuse", "refuse", "lost"))
    entries = [f"boot {boot} command {caller.random.randint(1, 14)} {deed}"]
    if caller.often(0.3):
        entries.append(f"boot {boot} command {caller.random.randint(4, 14)} refuse")
    if caller.often(0.5):
        entries.append(f"slow {caller.random.randint(0, 2)}")
    text = caller.texts.plain_domain(name, identifier_of(name), "; ".join(entries), "vda")
    yield Act("DOMAIN_DESTROY", (target,))
    yield Act("DOMAIN_DEFINE_XML", (text,))
    yield Act("DOMAIN_CREATE", (target,))
    for _ in range(caller.random.randint(1, 3)):
        yield from caller.random.choice(COURSES)(caller, target, text)
        yield Act("DOMAIN_GET_INFO", (target,))
        if caller.often(0.5):
            yield Act("DOMAIN_RESUME", (target,))
    yield Act("MEMORY_STATS", (target,))


def saved(caller: Caller, target: Target, _text: str) -> Iterator[Act]:
    yield Act("DOMAIN_SAVE", (target, "two"))
    yield Act("DOMAIN_RESTORE", ("two",))


def dumped(caller: Caller, target: Target, _text: str) -> Iterator[Act]:
    yield Act("DOMAIN_CORE_DUMP", (target, "two", 0))


def reverted(caller: Caller, target: Target, _text: str) -> Iterator[Act]:
    yield Act("SNAP_CREATE", (target, caller.texts.snapshot("s1")))
    if caller.often(0.5):
        yield caller.random.choice(
            (Act("DOMAIN_SUSPEND", (target,)), Act("KICK", (target, 2)),
             Act("DOMAIN_DESTROY", (target,)), Act("DOMAIN_SET_MEMORY", (target, 99)))
        )
    yield Act("SNAP_REVERT", (target, "s1"))
    yield Act("SNAP_DELETE", (target, "s1", 0))


def ended_by_snapshot(caller: Caller, target: Target, _text: str) -> Iterator[Act]:
    yield Act("DOMAIN_DESTROY", (target,))
    yield Act("SNAP_CREATE", (target, caller.texts.snapshot("s2")))
    yield Act("DOMAIN_CREATE", (target,))
    yield Act("SNAP_REVERT", (target, "s2"))
    yield Act("SNAP_DELETE", (target, "s2", 0))


def moved(caller: Caller, target: Target, text: str) -> Iterator[Act]:
    yield Act("MIGRATE_PERFORM", (target,))
    for _ in range(2):
        yield Act("MIGRATE_CONFIRM", (target, caller.random.choice((0, 1, 1))))
    yield Act("MIGRATE_PREPARE", (text, caller.random.randint(0, 1), caller.random.choice(STATES)))
    for _ in range(2):
        yield Act("MIGRATE_FINISH", (target, caller.random.choice((0, 1, 1))))


def plugged(caller: Caller, target: Target, _text: str) -> Iterator[Act]:
    yield Act("DOMAIN_ATTACH_DEVICE", (target, caller.texts.disk("vdb")))
    yield Act("DOMAIN_DETACH_DEVICE", (target, caller.texts.disk("vda")))
    yield Act("DOMAIN_ATTACH_DEVICE", (target, caller.texts.disk("vdc")))
    yield Act("DOMAIN_GET_XML_DESC", (target, 0))


def stall(caller: Caller, _daemon: Daemon) -> Iterator[Act]:
    """Copies a guest whose copy makes no headway."""
    name = caller.random.choice(NAMES)
    script = caller.random.choice(("stall", "slow 3; stall", "slow 70; stall", "slow 64"))
    text = caller.texts.plain_domain(name, identifier_of(name), script)
    target = Target(name)
    yield Act("DOMAIN_DESTROY", (target,))
    yield Act("DOMAIN_DEFINE_XML", (text,))
    yield Act("DOMAIN_CREATE", (target,))
    yield caller.random.choice(
        (Act("DOMAIN_SAVE", (target, "one")), Act("DOMAIN_CORE_DUMP", (target, "one", 0)),
         Act("SNAP_CREATE", (target, caller.texts.snapshot(None))),
         Act("MIGRATE_PERFORM", (target,)))
    )
    yield Act("JOB_INFO", (target,))
    yield Act("DOMAIN_GET_INFO", (target,))


def move(caller: Caller, daemon: Daemon) -> Iterator[Act]:
    """Lets a guest leave or come back, with calls of all kinds while it is between two hosts."""
    target = caller.running(daemon)
    yield Act("MIGRATE_PERFORM", (target,))
    for _ in range(caller.random.randint(0, 3)):
        yield while_moving(caller, target)
    yield Act("MIGRATE_CONFIRM", (target, caller.random.randint(0, 1)))
    yield Act("DOMAIN_GET_INFO", (target,))


def while_moving(caller: Caller, target: Target) -> Act:
    return caller.random.choice(
        (Act("JOB_INFO", (target,)), Act("MEMORY_STATS", (target,)), Act("JOB_ABORT", (target,)),
         Act("KICK", (target, caller.random.randint(0, 5))), Act("DOMAIN_SUSPEND", (target,)),
         Act("MIGRATE_LIMIT", (target, 5)), Act("MIGRATE_FINISH", (target, 1)),
         Act("DOMAIN_GET_XML_DESC", (target, 0)), Act("DOMAIN_DESTROY", (target,)))
    )


def large(caller: Caller) -> Iterator[Act]:
    """Texts at their greatest length, levels and elements, and with one more of each."""
    target = Target("one-0")
    disk = caller.texts.disk("vda")
    for length in (65_536, 65_537):
        yield Act("DOMAIN_ATTACH_DEVICE", (target, disk + " " * (length - len(disk.encode()))))
    for levels in (31, 32):
        yield snapshot_around(target, "<a>" * levels + "</a>" * levels)
    for count in (4_095, 4_096):
        yield snapshot_around(target, "<a/>" * count)


def snapshot_around(target: Target, content: str) -> Act:
    return Act("SNAP_CREATE", (target, f"<domainsnapshot>{content}</domainsnapshot>"))


#: Series of calls, and how often each is begun beside the others.
_SERIES_TABLE: tuple[tuple[int, Callable], ...] = (
    (1, fill_slots),
    (1, fill_snapshots),
    (3, stall),
    (6, move),
    (20, mishap),
)
SERIES_WEIGHTS = [weight for weight, _ in _SERIES_TABLE]
SERIES = [series for _, series in _SERIES_TABLE]

#: Calls of several asks, in each of which a guest may come to grief.
COURSES = (
    saved,
    dumped,
    reverted,
    ended_by_snapshot,
    moved,
    plugged,
)
