"""Playing runs of the daemon over one directory, judged by the model."""

from __future__ import annotations

import struct
from collections import Counter
from collections.abc import Callable, Iterable
from dataclasses import dataclass, field
from enum import Enum

from suite.cases import Failed, difference
from suite.daemon import Hang, NoReply, Place, Session
from suite.model import Daemon
from suite.model_definitions import Draws
from suite.model_store import Store, definition_file
from suite.procedures import BY_NUMBER, REPLY
from suite.random_acts import Act, Passed
from suite.wire import Malformed, Packet, Refusal, show, split, value_of

# What a history is --------------------------------------------------------------------------------


class End(Enum):
    """How a run of the daemon ends: its exit status, and the last line on standard error."""

    EOF = ("end of input", 0, "")
    CLOSED = ("a close", 0, "")
    KILLED = ("a kill", -9, "")
    TRUNCATED = ("part of a packet", 8, "virtd: truncated 20")
    SHORT = ("a length too low", 7, "virtd: bad packet LengthLow 27")
    LONG = ("a length too high", 7, "virtd: bad packet LengthHigh 4194305")
    KIND = ("no kind", 7, "virtd: bad packet Kind 3")
    STATUS = ("a call with a status", 7, "virtd: bad packet Status 1")

    def __init__(self, shown: str, status: int, line: str) -> None:
        self.shown = shown
        self.status = status
        self.line = line


#: The bytes at which a daemon ends: part of a packet, or what begins none.
LAST_BYTES = {
    End.TRUNCATED: struct.pack(">5I", 36, 0x20008086, 1, 23, 0),
    End.SHORT: struct.pack(">I", 27),
    End.LONG: struct.pack(">I", 4_194_305),
    End.KIND: struct.pack(">5I", 28, 5, 5, 5, 3),
    End.STATUS: struct.pack(">7I", 28, 5, 5, 5, 0, 1, 1),
}


@dataclass(frozen=True)
class Plant:
    """A file that is put into the directory by hand, and what it means to the store."""

    file: str
    content: bytes
    put: Callable[[Store], None]


@dataclass
class Run:
    """One run of the daemon over the directory: what is put there before, the acts, the end."""

    plants: list[Plant]
    end: End
    acts: list[Act | Passed] = field(default_factory=list)


class Differs(Exception):
    """The daemon did otherwise than the model, at the last act of these runs."""

    def __init__(self, runs: list[Run], text: str) -> None:
        super().__init__(text)
        self.runs = runs
        self.text = text


# Playing it ---------------------------------------------------------------------------------------


class Player:
    """Plays runs over one directory, and judges each reply and the files that are left."""

    def __init__(self, place: Place) -> None:
        self.place = place
        self.store = Store()
        self.draws = Draws()
        self.played: list[Run] = []
        self.seen: Counter[str] = Counter()
        self.shown: list[str] = []

    def play(self, run: Run, acts: Callable[[Daemon], Iterable[Act | Passed]]) -> None:
        """Plays one run; `acts` gives what is done next by what the daemon then has."""
        self.played.append(Run(run.plants, run.end))
        self.shown.append(f"-- virtd stdio, ended by {run.end.shown}")
        for plant in run.plants:
            (self.place.directory / plant.file).write_bytes(plant.content)
            plant.put(self.store)
            self.shown.append(f"   file {plant.file}: {plant.content!r}")
        daemon = Daemon(self.store, self.draws)
        session = Session(self.place)
        try:
            self._judge_acts(session, daemon, acts)
            self._judge_end(session, daemon, run.end)
        except (Hang, NoReply, Malformed, Failed) as fault:
            session.kill()
            raise Differs(self.played, f"{fault}") from None
        self._judge_files()

    def _judge_acts(
        self, session: Session, daemon: Daemon, acts: Callable[[Daemon], Iterable[Act | Passed]]
    ) -> None:
        for serial, act in enumerate(acts(daemon), start=1):
            self.played[-1].acts.append(act)
            if isinstance(act, Passed):
                session.send(act.packet)
                self.shown.append(f"   {show(act.packet)}")
            else:
                self._judge_call(session, daemon, act.packet(daemon, serial))

    def _judge_call(self, session: Session, daemon: Daemon, packet: Packet) -> None:
        self.shown.append(f"   {show(packet)}")
        session.send(packet)
        reply = session.reply_of(packet.serial)
        came = value_of(reply)
        wanted = daemon.answer(packet, came)
        self._count(packet, wanted)
        if came != wanted:
            raise Failed(difference(wanted, came, show(packet)))
        status = int(isinstance(came, Refusal))
        header = (packet.program, packet.version, packet.procedure, REPLY, packet.serial, status)
        words = (reply.program, reply.version, reply.procedure, reply.kind, reply.serial)
        if (*words, reply.status) != header:
            raise Failed(difference(header, (*words, reply.status), f"header of {show(reply)}"))

    def _count(self, packet: Packet, wanted: object) -> None:
        self.seen["packets"] += 1
        if isinstance(wanted, Refusal):
            self.seen[f"code {int(wanted.code)}"] += 1
        procedure = BY_NUMBER.get((packet.program, packet.procedure))
        if procedure:
            self.seen[procedure.name] += 1
            self.seen[f"{procedure.name} done"] += not isinstance(wanted, Refusal)

    def _judge_end(self, session: Session, daemon: Daemon, end: End) -> None:
        if end is End.KILLED:
            session.ask("CONNECT_OPEN", None, 0)  # so that the store was opened
            session.process.kill()
        elif end is End.CLOSED:
            session.ask("CONNECT_CLOSE")
            self.seen["CONNECT_CLOSE done"] += 1
            session.send(b"what follows is not looked at")
        elif end in LAST_BYTES:
            session.send(LAST_BYTES[end])
        ended = session.wait() if end is End.KILLED else session.finish()
        if ended.status != end.status:
            raise Failed(difference(end.status, ended.status, "the exit status"))
        lines = daemon.lines + ([end.line] if end.line else [])
        text = "".join(f"{line}\n" for line in lines)
        if ended.stderr != text:
            raise Failed(difference(text, ended.stderr, "standard error"))
        pings = sum(isinstance(act, Passed) and act.is_ping for act in self.played[-1].acts)
        packets, rest = split(ended.unread)
        if (len(packets), rest) != (pings, b""):
            raise Failed(difference(f"{pings} answers to pings", ended.unread, "what is left"))

    def _judge_files(self) -> None:
        """The directory holds just what the model's store does."""
        wanted = self.store.files()
        came = {path.name: path.read_bytes() for path in self.place.directory.iterdir()}
        if sorted(came) != sorted(wanted):
            text = difference(sorted(wanted), sorted(came), "the files of the directory")
            raise Differs(self.played, text)
        for name, content in came.items():
            text = wanted[name]
            if isinstance(text, str):
                text = self.draws.learn(text, content.decode(errors="replace")).encode()
            elif self.draws.has_unknown(text):
                continue
            if text != content:
                raise Differs(self.played, difference(text, content, f"the file {name}"))

    def judge_check(self) -> None:
        """`check` says of each file what the model's store has there."""
        ended = self.place.run("check", self.place.directory)
        entries = sorted(
            (definition_file(identifier), f"domain {entry.name} {identifier} ok")
            for identifier, entry in self.store.entries.items()
        )
        text = "".join(f"{line}\n" for line in [line for _, line in entries] + self.store.reports())
        came = (ended.status, ended.stderr, ended.unread.decode(errors="replace"))
        if came != (0, "", text):
            raise Differs(self.played, difference((0, "", text), came, "what `check` says"))
