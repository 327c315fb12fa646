"""How rows write bytes, values, and what the daemon draws at random. README.md has it in words."""

import re
from dataclasses import dataclass
from uuid import UUID

from suite.wire import Domain


class BadRow(Exception):
    """A file of rows that is not written as README.md says."""


# Bytes


@dataclass(frozen=True)
class Drawn:
    """So many bytes that the daemon draws at random, to be known by this name from here on."""

    name: str
    size: int


@dataclass(frozen=True)
class Again:
    """The bytes of a name once more, or the identifier that they are, written out."""

    name: str
    as_identifier: bool


Atom = bytes | Drawn | Again
Names = dict[str, bytes]

_TOKEN = re.compile(
    r"""\s+
    | (?P<remark>\#.*)
    | (?P<hex>(?:[0-9a-f]{2})+)
    | \[(?P<text>(?:\\.|[^\]\\])*)\]
    | \{(?P<drawn>\w+)\s(?P<size>\d+)\}
    | \{(?P<again>\w+)(?P<identifier>\sas\sidentifier)?\}
    """,
    re.X,
)

_ESCAPES = {b"n": b"\n", b"r": b"\r", b"t": b"\t", b"\\": b"\\", b"]": b"]"}


def _unescaped(text: str) -> bytes:
    return re.sub(
        rb"\\(?:x([0-9a-f]{2})|(.))",
        lambda found: bytes.fromhex(found[1].decode()) if found[1] else _ESCAPES[found[2]],
        text.encode(),
    )


def read_bytes(notation: str) -> list[Atom]:
    """The bytes that a line of a row writes: digits, [texts], and what is drawn."""
    atoms: list[Atom] = []
    place = 0
    while place < len(notation):
        token = _TOKEN.match(notation, place)
        if token is None:
            raise BadRow(f"not bytes: {notation[place:]!r}")
        place = token.end()
        if token["hex"] is not None:
            atoms.append(bytes.fromhex(token["hex"]))
        elif token["text"] is not None:
            atoms.append(_unescaped(token["text"]))
        elif token["drawn"] is not None:
            atoms.append(Drawn(token["drawn"], int(token["size"])))
        elif token["again"] is not None:
            atoms.append(Again(token["again"], token["identifier"] is not None))
    return atoms


def spelled(atoms: list[Atom], names: Names) -> bytes:
    """The bytes of these atoms. What is drawn is not known before it came."""
    return b"".join(_spelled_one(atom, names) for atom in atoms)


def _spelled_one(atom: Atom, names: Names) -> bytes:
    match atom:
        case Drawn(name, _):
            raise BadRow(f"{name} is drawn by the daemon, and a row can't say it")
        case Again(name, True):
            return str(UUID(bytes=names[name])).encode()
        case Again(name, False):
            return names[name]
    return atom


def taken(atoms: list[Atom], came: bytes, names: Names) -> bytes:
    """The bytes of these atoms, where what is drawn is taken from what came, and named."""
    wanted = b""
    for atom in atoms:
        if isinstance(atom, Drawn):
            drawn = came[len(wanted) : len(wanted) + atom.size]
            names[atom.name] = drawn.ljust(atom.size, b"\0")
            wanted += names[atom.name]
        else:
            wanted += _spelled_one(atom, names)
    return wanted


# Calls by their names


Domains = dict[str, UUID]

_VALUE = re.compile(r"\[((?:\\.|[^\]\\])*)\]|([,()])|([^\s,()\[\]]+)")


def read_values(notation: str) -> list[object]:
    """The values of a line: words, bytes of texts, and lists. Texts side by side are one."""
    values: list[object] = []
    outer: list[list[object]] = []
    last = ","
    for text, sign, word in (found.groups() for found in _VALUE.finditer(notation)):
        if sign == "(":
            outer.append(values)
            values = []
        elif sign == ")":
            outer[-1].append(values)
            values = outer.pop()
        elif sign is None and word is None:
            if last == "text":
                values[-1] += _unescaped(text)
            else:
                values.append(_unescaped(text))
        elif word is not None:
            values.append(word)
        last = sign or ("text" if word is None else "word")
    return values


def value_in(shape: str, said: object, domains: Domains) -> object:
    """What a row says, as a value of this shape."""
    match shape:
        case "word" | "integer" | "long" | "state" | "job" | "phase":
            return int(said)
        case "domain":
            return _domain_in(said, domains)
        case "identifier":
            return UUID(said)
        case "optional string":
            return None if said == "absent" else said
        case "guest":
            return bytes.fromhex(said.removeprefix("0x")) if isinstance(said, str) else said
        case "domains":
            return [
                (_domain_in(domain, domains), int(state))
                for domain, state in zip(said[::2], said[1::2])
            ]
        case "titles":
            return list(zip(said[::2], said[1::2]))
    return said


def _domain_in(said: str, domains: Domains) -> Domain:
    name, _, number = said.partition("/")
    return Domain(name, domains[name], int(number or -1))


def values_in(shapes: tuple[str, ...], notation: str, domains: Domains) -> list[object]:
    """The values of a line, as those of a call or a reply of these shapes."""
    said = read_values(notation)
    if len(said) != len(shapes):
        raise BadRow(f"{len(said)} values, where there are to be {', '.join(shapes) or 'none'}")
    return [value_in(shape, one, domains) for shape, one in zip(shapes, said)]
