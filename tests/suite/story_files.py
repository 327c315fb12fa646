"""The files of a store as docs/STORE.md has them, for stories."""

import re
from pathlib import Path
from uuid import UUID

from suite.story_replies import KINDS, PHASES, STATES, identifier_text, word_of

_SOUND = re.compile(r"domain (?P<name>.*) (?P<identifier>[0-9a-f-]{36}) ok")
_RAN = re.compile(r"was running (?P<name>.*) boot (?P<boot>\d+)")
_STATUS = re.compile(
    r"run 1 boot=(?P<boot>\d+) state=(?P<state>\d+) op=(?P<kind>\d+) phase=(?P<phase>\d+)"
    r" name=(?P<name>.*)\n"
)


def file_of(name: str, autostart: bool, title: str, text: str) -> bytes:
    """The file of a definition, in version 2."""
    content = text.encode()
    flag = "yes" if autostart else "no"
    head = f"def 2 autostart={flag} name={name}\ntitle={title}\nlength={len(content)}\n"
    return head.encode() + content


def _has_autostart(directory: Path, identifier: str) -> bool:
    line = (directory / f"domain-{identifier}.def").read_text().splitlines()[0]
    return re.match(r"def [12] autostart=yes name=", line) is not None


def _status(directory: Path, name: str, boot: str) -> str:
    """What the status file of this boot says of it."""
    for path in sorted(directory.glob("run-*.sta")):
        told = _STATUS.fullmatch(path.read_text(errors="replace"))
        if told is not None and (told["name"], told["boot"]) == (name, boot):
            state = int(told["state"])
            text = STATES.get(state, str(state))
            if told["kind"] == "0":
                return text
            kind, phase = int(told["kind"]), int(told["phase"])
            return f"{text}, {word_of(KINDS, kind)}, {word_of(PHASES, phase)}"
    return "without a status file"


def check_line(directory: Path, line: str) -> str:
    """A line of `check`, and with it what the file says that the line leaves out."""
    sound = _SOUND.fullmatch(line)
    if sound is not None:
        flag = ", with autostart" if _has_autostart(directory, sound["identifier"]) else ""
        identifier = identifier_text(UUID(sound["identifier"]))
        return f"domain {sound['name']} {identifier} ok{flag}"
    ran = _RAN.fullmatch(line)
    return line if ran is None else f"{line}, {_status(directory, ran['name'], ran['boot'])}"
