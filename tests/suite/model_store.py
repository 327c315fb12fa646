"""The files of a store as the model has them (docs/STORE.md).

What the daemon writes is kept here as what it says and not as bytes, since an address that the
daemon drew may not be known yet; `files` spells it. What a test puts there by hand are bytes.
"""

from __future__ import annotations

import struct
from dataclasses import dataclass, field
from uuid import UUID

from suite.model_definitions import DomainDefinition
from suite.model_markup import MOST_TEXT_BYTES, NotInGrammar
from suite.model_refusals import AskFailed, Code, Refused
from suite.model_guest import Refused as AnswerRefused
from suite.model_texts import BadDefinition, print_domain, read_domain

IMAGE_MAGIC = 0x56444D49
IMAGE_VERSION = 1
IMAGE_WORDS = struct.Struct(">7I")
SAVE, DUMP = 1, 2
MOST_STATE_BYTES = 4_096

#: Classes of refusals of images.
NO_IMAGE = 21
BAD_IMAGE = 22


@dataclass(frozen=True)
class Entry:
    """A stored definition. A text that was put there by hand stays as it is until the next put."""

    definition: DomainDefinition
    autostart: bool
    by_hand: str | None = None

    @property
    def name(self) -> str:
        return self.definition.name

    def content(self) -> str:
        """The file of version 2."""
        text = self.by_hand or print_domain(self.definition)
        head = f"def 2 autostart={'yes' if self.autostart else 'no'} name={self.name}\n"
        return f"{head}title={self.title}\nlength={len(text.encode())}\n{text}"

    @property
    def title(self) -> str:
        """The title up to its first line feed."""
        return (self.definition.title or "").split("\n")[0]


@dataclass(frozen=True)
class Status:
    """What a status file says of a live boot."""

    name: str
    boot: int
    state: int
    operation: int
    phase: int

    def content(self) -> str:
        return (
            f"run 1 boot={self.boot} state={self.state} op={self.operation} phase={self.phase}"
            f" name={self.name}\n"
        )


@dataclass(frozen=True)
class Image:
    """A guest that was saved or dumped."""

    kind: int
    ran: bool
    definition: DomainDefinition
    state: bytes

    def content(self) -> bytes:
        text = print_domain(self.definition).encode()
        words = (IMAGE_MAGIC, IMAGE_VERSION, self.kind, int(self.ran), 0, len(text))
        return IMAGE_WORDS.pack(*words, len(self.state)) + text + self.state


def definition_file(identifier: UUID) -> str:
    """The file of a domain's stored definition."""
    return f"domain-{identifier}.def"


def status_file(identifier: UUID) -> str:
    """The file that says what is known of a live boot."""
    return f"run-{identifier}.sta"


@dataclass
class Store:
    """What the directory holds. `saves` also has images that were put there by hand, and `unread`
    the names of status files that tell nothing."""

    entries: dict[UUID, Entry] = field(default_factory=dict)
    statuses: dict[UUID, Status] = field(default_factory=dict)
    saves: dict[str, Image | bytes] = field(default_factory=dict)
    dumps: dict[str, Image] = field(default_factory=dict)
    unread: set[str] = field(default_factory=set)

    def reports(self) -> list[str]:
        """What is said of the status files, by rising names."""
        reports = {name: "was running ? boot ?" for name in self.unread}
        for identifier, status in self.statuses.items():
            reports[status_file(identifier)] = f"was running {status.name} boot {status.boot}"
        return [reports[name] for name in sorted(reports)]

    def take_reports(self) -> list[str]:
        """What an opening says of the status files; then they are gone."""
        reports = self.reports()
        self.unread.clear()
        self.statuses.clear()
        return reports

    def image(self, name: str) -> Image:
        """The image of a save, or the refusal of a restore."""
        if name not in self.saves:
            raise AskFailed(AnswerRefused(NO_IMAGE))
        image = self.saves[name]
        return read_image(image) if isinstance(image, bytes) else image

    def files(self) -> dict[str, str | bytes]:
        """Each file of the directory with its content."""
        files: dict[str, str | bytes] = {}
        for identifier, entry in self.entries.items():
            files[definition_file(identifier)] = entry.content()
        for identifier, status in self.statuses.items():
            files[status_file(identifier)] = status.content()
        for name, image in self.saves.items():
            files[f"{name}.img"] = image if isinstance(image, bytes) else image.content()
        for name, image in self.dumps.items():
            files[f"{name}.dump"] = image.content()
        return files


def read_image(content: bytes) -> Image:
    """The guest that an image's bytes are, or the refusal: class 22, or that of its text."""
    bad = AskFailed(AnswerRefused(BAD_IMAGE))
    if len(content) < IMAGE_WORDS.size:
        raise bad
    magic, version, kind, ran, packed, text_bytes, state_bytes = IMAGE_WORDS.unpack_from(content)
    if (magic, version, kind, packed) != (IMAGE_MAGIC, IMAGE_VERSION, SAVE, 0) or ran > 1:
        raise bad
    text = content[IMAGE_WORDS.size : IMAGE_WORDS.size + text_bytes]
    state = content[IMAGE_WORDS.size + text_bytes :]
    if text_bytes > MOST_TEXT_BYTES or state_bytes > MOST_STATE_BYTES:
        raise bad
    if len(text) != text_bytes or len(state) != state_bytes:
        raise bad
    try:
        return Image(kind, ran == 1, read_domain(text), state)
    except NotInGrammar as fault:
        raise Refused(Code.BAD_DEFINITION, f"at {fault.at}") from None
    except BadDefinition as fault:
        raise Refused(Code.BAD_DEFINITION, fault.path) from None
