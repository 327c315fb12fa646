"""Rows: transcripts of runs of the daemon, as data files.

README.md says how a row is written. A row waits where it has `<`, and a reply is found by its
serial, so that a row stands also where the daemon serves several calls at once.
"""

import re
from collections.abc import Iterator
from pathlib import Path
from uuid import UUID

from suite.cases import Case, register
from suite.notation import BadRow, Domains, read_bytes
from suite.playing import play
from suite.steps import Row, Step

#: Steps that are a word, a colon, and words.
VERBS = {"file", "folder", "remove", "run", "ends", "says", "prints", "kill", "has", "lacks"}

#: Steps that are followed by bytes.
WITH_BYTES = {">", "<", "file", "has"}


#: How what is said begins where it is bytes, and no name of a procedure and no value.
BYTES = {">": re.compile(r"[0-9a-f]{2}"), "<": re.compile(r"[0-9a-f]{8} [0-9a-f]{8}")}


def read_rows(path: Path) -> list[Row]:
    """The rows of a file."""
    rows: list[Row] = []
    domains: Domains = {}
    remark = ""
    for number, line in enumerate(path.read_text().splitlines(), 1):
        try:
            remark = _read_line(path, rows, domains, number, line, remark)
        except (BadRow, KeyError, ValueError) as fault:
            raise BadRow(f"{path.name}:{number}: {fault}") from fault
    return rows


def _read_line(
    path: Path, rows: list[Row], domains: Domains, number: int, line: str, remark: str
) -> str:
    text = line.strip()
    word, colon, rest = text.partition(":")
    if not text:
        return remark
    if text.startswith("#"):
        return text[1:].strip()
    if colon and word == "domain":
        name, identifier = rest.split()
        domains[name] = UUID(identifier)
        return remark
    if colon and word == "row":
        rows.append(Row(path.stem.replace("_", " "), rest.strip(), [], path, domains))
        return ""
    steps = rows[-1].steps
    if text[0] in "<>":
        said = text[1:].strip()
        if not BYTES[text[0]].match(said):
            steps.append(Step("call" if text[0] == ">" else "answer", said, number, remark))
            return remark
        steps.append(Step(text[0], "", number, remark))
        text = said
    elif colon and word in VERBS:
        steps.append(Step(word, rest.strip(), number, remark))
        return remark
    elif steps and steps[-1].verb in ("call", "answer"):
        steps[-1].words += " " + text
        return remark
    if not steps or steps[-1].verb not in WITH_BYTES:
        raise BadRow(f"bytes that belong to no step: {text!r}")
    steps[-1].atoms += read_bytes(text)
    return remark


def all_rows(directory: Path) -> Iterator[Row]:
    """The rows of all files, by the files' names."""
    for path in sorted(directory.glob("*.rows")):
        yield from read_rows(path)


def register_all(directory: Path) -> None:
    """Register each row of each file as a case."""
    for row in all_rows(directory):
        register(Case(row.subject, row.title, lambda place, row=row: play(row, place)))
