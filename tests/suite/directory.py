"""The files of a store, read as docs/STORE.md has them, and a judge of what a kill left."""

import re
from collections.abc import Sequence
from dataclasses import dataclass, replace
from pathlib import Path
from uuid import UUID

from suite.cases import Failed

KINDS = ("domain", "network", "pool")
_FILE = re.compile(r"(domain|network|pool)-([0-9a-f-]{36})\.def")
_FIRST = re.compile(rb"def 1 autostart=(yes|no) name=([^\n]+)\n(.*)", re.S)
_SECOND = re.compile(
    rb"def 2 autostart=(yes|no) name=([^\n]+)\ntitle=([^\n]*)\nlength=(0|[1-9][0-9]*)\n(.*)", re.S
)


@dataclass(frozen=True)
class Entry:
    """One definition that a store holds."""

    name: str
    autostart: bool
    title: str
    text: str


#: What a directory stands for: the definitions of domains by their identifiers.
Map = dict[UUID, Entry]


@dataclass(frozen=True)
class Put:
    """A change: this definition is stored under this identifier."""

    identifier: UUID
    entry: Entry


@dataclass(frozen=True)
class Mark:
    """A change: whether the domain is to be started with the daemon."""

    identifier: UUID
    autostart: bool


@dataclass(frozen=True)
class Drop:
    """A change: no definition is stored under this identifier."""

    identifier: UUID


Change = Put | Mark | Drop


def read_entry(content: bytes) -> Entry:
    """The definition that a file holds. Fails where it holds none."""
    second = _SECOND.fullmatch(content)
    if second:
        flag, name, title, length, text = second.groups()
        if len(text) != int(length):
            raise Failed(f"a text of {len(text)} bytes, where {int(length)} are said")
        return Entry(name.decode(), flag == b"yes", title.decode(), text.decode())
    first = _FIRST.fullmatch(content)
    if first:
        flag, name, text = first.groups()
        return Entry(name.decode(), flag == b"yes", "", text.decode())
    raise Failed(f"no definition: {content[:80]!r}")


def read_directory(directory: Path) -> Map:
    """The map that a directory stands for. Fails where a definition's file is no definition."""
    found: Map = {}
    for path in sorted(directory.glob("*.def")):
        named = _FILE.fullmatch(path.name)
        if named is None:
            raise Failed(f"{path.name} is no name of a definition's file")
        found[UUID(named[2])] = read_entry(path.read_bytes())
    names = [entry.name for entry in found.values()]
    if len(set(names)) < len(names):
        raise Failed(f"two definitions of one name: {sorted(names)}")
    return found


def changed(before: Map, change: Change) -> Map:
    """The map after one more change."""
    after = dict(before)
    match change:
        case Put(identifier, entry):
            autostart = before[identifier].autostart if identifier in before else False
            after[identifier] = replace(entry, autostart=autostart)
        case Mark(identifier, autostart):
            after[identifier] = replace(before[identifier], autostart=autostart)
        case Drop(identifier):
            del after[identifier]
    return after


def judge(base: Map, changes: Sequence[Change], acknowledged: int, found: Map) -> int:
    """How many of the changes the found map has: it is the map after the first ones of them.

    Fails where it is none, or where a change is missing of the first `acknowledged` ones.
    """
    after = dict(base)
    for count in range(len(changes) + 1):
        if count >= acknowledged and after == found:
            return count
        if count < len(changes):
            after = changed(after, changes[count])
    raise Failed(
        f"the directory holds no front of the changes with the first {acknowledged}:\n"
        + "\n".join(f"  {identifier} {entry.name}" for identifier, entry in sorted(found.items()))
    )
