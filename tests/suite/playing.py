"""Plays a row: runs the daemon as it says, and holds what comes against what is wanted."""

import shlex
from pathlib import Path

from suite.cases import EXPECTED, Failed, check
from suite.daemon import NO_WORDS, Place, Session
from suite.notation import (
    Atom,
    BadRow,
    Domains,
    Names,
    read_values,
    spelled,
    taken,
    values_in,
)
from suite.procedures import PROCEDURES, REPLY
from suite.steps import Row, Step
from suite.wire import HEADER, call, refused, reply

#: The word of a row that stands for the path of its store.
STORE = "STORE"


class Play:
    """One row as it is played."""

    def __init__(self, place: Place, domains: Domains):
        self.place = place
        self.domains = domains
        self.serial = 0
        self.unanswered: list[tuple[str, int]] = []
        self.names: Names = {}
        self.session: Session | None = None
        self.status = 0
        self.says: list[str] = []
        self.prints: list[str] = []
        self.is_ending = False

    def do(self, step: Step) -> None:
        """Do one step."""
        if self.is_ending and step.verb not in ("says", "prints"):
            self.end()
        match step.verb:
            case ">":
                self.running().send(spelled(step.atoms, self.names))
            case "<":
                self.compare(step)
            case "call":
                self.call(step.words)
            case "answer":
                self.answer(step.words)
            case "file":
                (self.place.directory / step.words).write_bytes(spelled(step.atoms, self.names))
            case "folder":
                (self.place.directory / step.words).mkdir()
            case "remove":
                self.remove(self.place.directory / step.words)
            case "run":
                self.end()
                self.start(step.words)
            case "ends":
                self.running()
                self.is_ending, self.status = True, int(step.words)
            case "says":
                self.says.append(step.words)
            case "prints":
                self.prints.append(step.words)
            case "kill":
                self.running().kill()
                self.session = None
            case "has":
                self.compare_file(step)
            case "lacks":
                if (self.place.directory / step.words).exists():
                    raise Failed(f"there is a file {step.words}")

    def start(self, words: str) -> None:
        """Start the daemon with these words."""
        store = str(self.place.directory)
        given = [word.replace(STORE, store) for word in shlex.split(words)]
        self.session = Session(self.place, *(given or [NO_WORDS]))

    def running(self) -> Session:
        """The run that is under way; where there is none, `stdio` on the store is started."""
        if self.session is None:
            self.start(f"stdio {STORE}")
        return self.session

    def compare(self, step: Step) -> None:
        """Wait for a reply, or the next message, and hold it against what is wanted."""
        head = _front(step.atoms)[: HEADER.size]
        if len(head) < HEADER.size:
            raise BadRow("a wanted packet has its seven words as they are")
        _, _, _, _, kind, serial, _ = HEADER.unpack(head)
        session = self.running()
        came = session.reply_of(serial) if kind == REPLY else session.next_message()
        check(taken(step.atoms, came.to_bytes(), self.names), came.to_bytes(), "the reply")

    def call(self, words: str) -> None:
        """Call a procedure by its name."""
        name, _, said = words.partition(" ")
        values = values_in(PROCEDURES[name].arguments, said, self.domains)
        self.serial += 1
        self.unanswered.append((name, self.serial))
        self.running().send(call(name, self.serial, *values))

    def answer(self, words: str) -> None:
        """Wait for the reply to the first call by name that has none yet, and compare it."""
        name, serial = self.unanswered.pop(0)
        verdict, _, said = words.partition(" ")
        if verdict == "refused":
            code, *kept = read_values(said)
            wanted = refused(name, serial, int(code), *kept)
        else:
            said = "" if words == "done" else words
            values = values_in(PROCEDURES[name].results, said, self.domains)
            wanted = reply(name, serial, *values)
        came = self.running().reply_of(serial)
        check(wanted.to_bytes(), came.to_bytes(), f"the reply to {name}")

    def compare_file(self, step: Step) -> None:
        """Hold a file of the store against what is wanted."""
        path = self.place.directory / step.words
        if not path.is_file():
            raise Failed(f"there is no file {step.words}")
        came = path.read_bytes()
        check(taken(step.atoms, came, self.names), came, f"the file {step.words}")

    def end(self) -> None:
        """Close the input of the run that is under way, and look at how it ended."""
        if self.session is None:
            return
        ended = self.session.finish()
        wanted = "".join(line + "\n" for line in self.prints).encode()
        check(wanted, ended.unread, "what is left of standard output")
        check("".join(line + "\n" for line in self.says), ended.stderr, "standard error")
        check(self.status, ended.status, "the exit status")
        self.session, self.is_ending, self.status = None, False, 0
        self.says, self.prints = [], []

    @staticmethod
    def remove(path: Path) -> None:
        """Remove a file or an empty folder."""
        path.rmdir() if path.is_dir() else path.unlink()


def _front(atoms: list[Atom]) -> bytes:
    front = b""
    for atom in atoms:
        if not isinstance(atom, bytes):
            break
        front += atom
    return front


def play(row: Row, place: Place) -> None:
    """Play a row in a fresh place."""
    steps = Play(place, row.domains)
    for step in row.steps:
        with _told(row, step):
            steps.do(step)
    with _told(row, row.steps[-1]):
        steps.end()


class _told:
    """Says of a failure at which step of which row it was."""

    def __init__(self, row: Row, step: Step):
        self.where = f"{row.path.name}:{step.line}" + (f" ({step.remark})" if step.remark else "")

    def __enter__(self) -> None:
        pass

    def __exit__(self, kind, fault, trace) -> None:
        if isinstance(fault, EXPECTED):
            raise Failed(f"{self.where}: {fault}") from fault
