"""Starting the daemon, talking to it, and ending it.

Nothing here sleeps: a wait ends with what it waits for, or fails at its deadline.
"""

import os
import select
import socket
import subprocess
import threading
import time
from collections.abc import Callable, Sequence
from dataclasses import dataclass
from pathlib import Path

from suite.procedures import CALL, REPLY
from suite.wire import Packet, call, show, split, value_of

#: A wait that takes longer than this many seconds is a hang, and a failure.
DEADLINE = 60.0

#: How many bytes are read from a pipe at once.
PIECE = 65_536


#: As the only word of a session: the daemon is started without any.
NO_WORDS = object()


class Hang(Exception):
    """Something did not come before the deadline."""


class NoReply(Exception):
    """The reply that was waited for can not come any more, or another came in its place."""


@dataclass(frozen=True)
class Ended:
    """How a run of the daemon ended.

    `status` is the exit status, or minus the signal that ended it. `unread` is what came on
    standard output and was not taken as a reply.
    """

    status: int
    stderr: str
    unread: bytes


class Place:
    """A directory of a case's own, and the daemon and the client that it runs there.

    `root` is empty but for `directory`, an empty store. All that was started is ended by `close`.
    """

    def __init__(self, binary: Path, root: Path, client: Path | None = None):
        self.binary = binary
        self.client = client
        self.root = root
        #: In pieces of how many bytes each session is given its input; None for all at once.
        self.pieces: int | None = None
        self.directory = root / "store"
        self.directory.mkdir(parents=True)
        self._sessions: list["Session"] = []

    def keep(self, session: "Session") -> None:
        """Remember a session, so that it is ended with the place."""
        self._sessions.append(session)

    def close(self) -> None:
        """End what still runs."""
        for session in self._sessions:
            session.kill()

    def run(self, *words: str | Path, given: bytes = b"", **pipes) -> Ended:
        """Run the binary with these words on this input, and wait for its end."""
        session = Session(self, *words, **pipes)
        session.send(given)
        return session.finish()


class _Drain:
    """Reads a pipe to its end in a thread of its own, so that nobody ever blocks on it."""

    def __init__(self, pipe):
        self.bytes = bytearray()
        self.ended = False
        self.news = threading.Condition()
        self._pipe = pipe
        self._thread = threading.Thread(target=self._read, daemon=True)
        self._thread.start()

    def _read(self) -> None:
        while True:
            try:
                piece = os.read(self._pipe.fileno(), PIECE)
            except (OSError, ValueError):
                piece = b""
            with self.news:
                self.bytes += piece
                self.ended = not piece
                self.news.notify_all()
            if not piece:
                return

    def close(self) -> None:
        """Give the pipe back, once its other side is closed."""
        self.wait_for_end(time.monotonic() + DEADLINE)
        self._pipe.close()

    def wait_for_end(self, deadline: float) -> None:
        """Wait until the pipe's other side is closed."""
        self._thread.join(max(0.0, deadline - time.monotonic()))
        if self._thread.is_alive():
            raise Hang("a pipe of the daemon stays open")


def _records() -> tuple[socket.socket, socket.socket]:
    """Two ends of a socket of which each read gives just what one write gave."""
    return socket.socketpair(socket.AF_UNIX, socket.SOCK_SEQPACKET)


class Session:
    """One run of the daemon with pipes to it.

    Without words it is `stdio` on the place's store; `NO_WORDS` is a command line without words.
    `stdin`, `stdout` and `stderr` are as for `subprocess.Popen`; only with pipes are there replies
    and lines to be read. `under` are the words of a program that becomes the daemon.
    """

    def __init__(
        self,
        place: Place,
        *words: str | Path,
        stdin=subprocess.PIPE,
        stdout=subprocess.PIPE,
        stderr=subprocess.PIPE,
        under: Sequence[str] = (),
    ):
        if not words:
            words = ("stdio", place.directory)
        records = None
        if place.pieces is not None and stdin is subprocess.PIPE:
            records, stdin = _records()
        self._pieces = place.pieces
        self.process = subprocess.Popen(
            [*under, str(place.binary), *(str(word) for word in words if word is not NO_WORDS)],
            stdin=stdin,
            stdout=stdout,
            stderr=stderr,
            cwd=place.root,
            bufsize=0,
        )
        if records is not None:
            stdin.close()
        self._input = records or self.process.stdin
        if self._input is not None:
            os.set_blocking(self._input.fileno(), False)
        place.keep(self)
        self._output = _Drain(self.process.stdout) if self.process.stdout else None
        self._errors = _Drain(self.process.stderr) if self.process.stderr else None
        self._arrived: list[Packet] = []
        self._looked_at = 0
        self._serial = 0
        self._called: set[int] = set()
        self._unparsed = b""

    def send(self, what: bytes | Packet) -> None:
        """Write bytes or a packet to the daemon. It may end before it has read them all."""
        given = what.to_bytes() if isinstance(what, Packet) else what
        self._note_calls(given)
        size = self._pieces or len(given)
        try:
            for begin in range(0, len(given), size or 1):
                self._write(given[begin : begin + size])
        except (BrokenPipeError, ConnectionResetError):
            pass  # how it ended says why; a socket is reset where records of it were left unread

    def _note_calls(self, given: bytes) -> None:
        packets, self._unparsed = split(self._unparsed + given)
        self._called.update(packet.serial for packet in packets if packet.kind == CALL)

    def _write(self, given: bytes) -> None:
        """Write all of this, as the daemon makes room for it."""
        deadline = time.monotonic() + DEADLINE
        while given:
            left = max(0.0, deadline - time.monotonic())
            _, writable, _ = select.select([], [self._input], [], left)
            if not writable:
                raise Hang(f"the daemon did not read its input within {DEADLINE:.0f} s")
            given = given[os.write(self._input.fileno(), given) :]

    def call(self, name: str, *values: object) -> object:
        """Call a procedure, wait for its reply, and give what it says (`wire.value_of`)."""
        return value_of(self.ask(name, *values))

    def ask(self, name: str, *values: object) -> Packet:
        """Call a procedure, wait for its reply, and give the packet."""
        return self.reply_of(self.begin(name, *values))

    def begin(self, name: str, *values: object) -> int:
        """Send a call without waiting, and give its serial."""
        self._serial += 1
        self.send(call(name, self._serial, *values))
        return self._serial

    def reply_of(self, serial: int) -> Packet:
        """Wait for the reply to a call, and take it. Replies may come in any order."""

        def taken() -> Packet | None:
            for at, packet in enumerate(self._arrived):
                if packet.kind == REPLY and packet.serial == serial:
                    return self._arrived.pop(at)
                if packet.kind == REPLY and packet.serial not in self._called:
                    raise NoReply(f"a reply came to a call that nobody made: {show(packet)}")
            return None

        return self._await(taken, f"the reply to call {serial}")

    def next_message(self) -> Packet:
        """Wait for what the daemon says unasked, and take the first of it."""

        def taken() -> Packet | None:
            for at, packet in enumerate(self._arrived):
                if packet.kind != REPLY:
                    return self._arrived.pop(at)
            return None

        return self._await(taken, "a message")

    def packets(self, count: int) -> list[Packet]:
        """Wait until so many packets have come, and take them in the order of their coming."""

        def taken() -> list[Packet] | None:
            if len(self._arrived) < count:
                return None
            front, self._arrived = self._arrived[:count], self._arrived[count:]
            return front

        return self._await(taken, f"{count} packets")

    def _await(self, taken: Callable[[], object], what: str):
        """Wait until `taken` finds among what arrived what it looks for."""
        deadline = time.monotonic() + DEADLINE
        output = self._output
        with output.news:
            while True:
                self._split_output()
                found = taken()
                if found is not None:
                    return found
                if output.ended:
                    break
                left = deadline - time.monotonic()
                if left <= 0:
                    came = "; ".join(show(packet) for packet in self._arrived) or "nothing"
                    raise Hang(f"{what} did not come within {DEADLINE:.0f} s, but {came}")
                output.news.wait(left)
        raise NoReply(f"the output ended before {what}{self._last_words()}")

    def left(self) -> list[Packet]:
        """The packets that came and were not taken, of a session that was killed."""
        self._split_output()
        return self._arrived

    def _split_output(self) -> None:
        packets, rest = split(bytes(self._output.bytes[self._looked_at :]))
        self._looked_at = len(self._output.bytes) - len(rest)
        self._arrived += packets

    def _last_words(self) -> str:
        if self._errors is None:
            return ""
        self._errors.wait_for_end(time.monotonic() + DEADLINE)
        return f"; standard error: {bytes(self._errors.bytes).decode(errors='replace')!r}"

    def close_input(self) -> None:
        """Say that nothing more comes."""
        if self._input is not None:
            self._input.close()

    def finish(self) -> Ended:
        """Close the input, wait for the daemon's end, and say how it ended."""
        self.close_input()
        return self.wait()

    def wait(self) -> Ended:
        """Wait for the daemon's end with the input as it is."""
        deadline = time.monotonic() + DEADLINE
        try:
            status = self.process.wait(DEADLINE)
        except subprocess.TimeoutExpired as late:
            raise Hang(f"the daemon did not end within {DEADLINE:.0f} s") from late
        for drain in (self._output, self._errors):
            if drain is not None:
                drain.wait_for_end(deadline)
        errors = bytes(self._errors.bytes).decode(errors="replace") if self._errors else ""
        return Ended(status, errors, self._unread())

    def _unread(self) -> bytes:
        if self._output is None:
            return b""
        self._split_output()
        rest = bytes(self._output.bytes[self._looked_at :])
        return b"".join(packet.to_bytes() for packet in self._arrived) + rest

    def kill(self) -> None:
        """End the daemon at once, as a crash would (SIGKILL), and wait until it is gone."""
        self.process.kill()
        self.process.wait(DEADLINE)
        self.close_input()
        for drain in (self._output, self._errors):
            if drain is not None:
                drain.close()
