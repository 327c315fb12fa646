"""The snapshots of a domain: a tree by names (docs/DRIVER.md, "Snapshots")."""

from __future__ import annotations

from dataclasses import dataclass, field, replace

from suite.model_definitions import DomainDefinition
from suite.model_refusals import Code, Refused

MOST_SNAPSHOTS = 64


@dataclass(frozen=True)
class Snapshot:
    """A snapshot. `ran` is absent where it was taken of no guest; else it has a guest's state."""

    name: str
    description: str
    parent: str | None
    definition: DomainDefinition
    ran: bool | None
    state: bytes

    @property
    def word(self) -> str:
        """The guest's state as the snapshot's text tells it."""
        return "shutoff" if self.ran is None else "running" if self.ran else "paused"


@dataclass
class Snapshots:
    """All snapshots of a domain, and which is the current one."""

    by_name: dict[str, Snapshot] = field(default_factory=dict)
    current: str | None = None

    def names(self) -> list[str]:
        """The names, rising."""
        return sorted(self.by_name, key=str.encode)

    def find(self, name: str) -> Snapshot:
        """The snapshot of this name, or 72."""
        if name not in self.by_name:
            raise Refused(Code.NO_SNAPSHOT, name)
        return self.by_name[name]

    def check_room(self, name: str | None) -> None:
        """Whether one more of this name may be taken."""
        if name in self.by_name:
            raise Refused(Code.SNAPSHOT_EXISTS, name)
        if len(self.by_name) >= MOST_SNAPSHOTS:
            raise Refused(Code.LIST_FULL, MOST_SNAPSHOTS)

    def free_name(self) -> str:
        """`snapN` with the least N that is free."""
        number = 1
        while f"snap{number}" in self.by_name:
            number += 1
        return f"snap{number}"

    def add(self, snapshot: Snapshot) -> None:
        """Puts a snapshot under the current one and makes it the current one."""
        self.by_name[snapshot.name] = replace(snapshot, parent=self.current)
        self.current = snapshot.name

    def delete(self, name: str, with_children: bool) -> None:
        """Takes one out; its children take its parent, or go with it."""
        parent = self.find(name).parent
        gone = self.family(name) if with_children else {name}
        for other in gone:
            del self.by_name[other]
        for other in list(self.by_name.values()):
            if other.parent == name:
                self.by_name[other.name] = replace(other, parent=parent)
        if self.current in gone:
            self.current = parent

    def family(self, name: str) -> set[str]:
        """A snapshot and all that come from it."""
        found = {name}
        while True:
            more = {s.name for s in self.by_name.values() if s.parent in found} - found
            if not more:
                return found
            found |= more
