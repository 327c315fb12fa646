"""Slots of a guest's devices (docs/DRIVER.md, "Devices")."""

from __future__ import annotations

from suite.model_definitions import Device, Disk, DomainDefinition
from suite.model_refusals import Code, Refused

FIRST_SLOT = 0x02
LAST_SLOT = 0x1F


def slots_at_start(definition: DomainDefinition) -> list[int]:
    """At a start the devices take the slots in order, disks first."""
    return list(range(FIRST_SLOT, FIRST_SLOT + len(definition.devices)))


def least_free_slot(slots: list[int]) -> int:
    """The slot of a device that is attached, or 209."""
    free = set(range(FIRST_SLOT, LAST_SLOT + 1)) - set(slots)
    if not free:
        raise Refused(Code.NO_FREE_SLOT)
    return min(free)


def place_of(definition: DomainDefinition, device: Device) -> int | None:
    """Where among the devices the one with this key is."""
    same = (place for place, one in enumerate(definition.devices) if device.same_key(one))
    return next(same, None)


def place_of_new(definition: DomainDefinition, device: Device) -> int:
    """Where a new device stands: after those of its kind."""
    return len(definition.disks) if isinstance(device, Disk) else len(definition.devices)
