"""What a row is made of."""

from dataclasses import dataclass, field
from pathlib import Path

from suite.notation import Atom, Domains


@dataclass
class Step:
    """One step of a row: what is done, its words, its bytes, and where it is written."""

    verb: str
    words: str
    line: int
    remark: str = ""
    atoms: list[Atom] = field(default_factory=list)


@dataclass(frozen=True)
class Row:
    """One row of a file: its title, and its steps in order."""

    subject: str
    title: str
    steps: list[Step]
    path: Path
    domains: Domains
