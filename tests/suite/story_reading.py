"""Reading the files of tests/stories/: their stories, the lines of these, and what a line wants.

tests/stories/README.md has the notation.
"""

import re
from collections.abc import Iterator
from dataclasses import dataclass, field
from pathlib import Path

from suite.story_requests import Unreadable

#: What begins a story, what says something to the reader, what parts a request from its answer.
HEADING, REMARK, ANSWER = "== ", "#", " => "

#: What begins a line that belongs to the one above.
UNDER = "  "

#: What begins a line under `end` that has the events of a domain.
TOLD = "told of "

#: The events that listeners are to be told. Nobody can listen yet, so none are compared.
_EVENTS = re.compile(r"( \(\d+,\d+\))+$")

#: How often a request is made, one after the other.
_TIMES = re.compile(r"(\d+) times (.*)")


@dataclass(frozen=True)
class Line:
    """A line of a story with its number in the file, and the indented lines under it."""

    number: int
    text: str
    under: list[str] = field(default_factory=list)

    @property
    def inner(self) -> list["Line"]:
        """The lines under it as lines of their own."""
        return [Line(self.number + at, text) for at, text in enumerate(self.under, 1)]

    @property
    def said(self) -> str:
        """The lines under it that are compared."""
        return "\n".join(text for text in self.under if not text.startswith(TOLD))


@dataclass(frozen=True)
class Story:
    """A story: its heading, the file that it is in, and its lines."""

    file: str
    title: str
    lines: list[Line]


@dataclass(frozen=True)
class Exchange:
    """A request, how often it is made, its reply, and maybe the domain's state after it."""

    request: str
    times: int
    reply: str
    state: str | None


def stories_of(path: Path) -> Iterator[Story]:
    """The stories of a file. What is before the first heading is for readers."""
    story = None
    for number, text in enumerate(path.read_text().splitlines(), 1):
        if text.startswith(HEADING):
            if story is not None:
                yield story
            story = Story(path.name, text.removeprefix(HEADING), [])
        elif story is None or not text or text.startswith(REMARK):
            continue
        elif text.startswith(UNDER) and story.lines:
            story.lines[-1].under.append(text.removeprefix(UNDER))
        else:
            story.lines.append(Line(number, text))
    if story is not None:
        yield story


def exchange_of(line: Line) -> Exchange:
    """Read the line of a request."""
    asked, answer, wanted = line.text.partition(ANSWER)
    if not answer:
        raise Unreadable(f"{line.text!r}: a request without its answer")
    often = _TIMES.fullmatch(asked)
    times, asked = (int(often[1]), often[2]) if often else (1, asked)
    reply, _, state = wanted.partition(" | ")
    reply = "\n".join([_EVENTS.sub("", reply), *(UNDER + text for text in line.under)])
    return Exchange(asked, times, reply, state or None)
