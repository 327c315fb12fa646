"""Running the client against a small daemon that answers by a script.

The daemon takes one connection. It checks nothing by itself: it answers call after call as the
script says, and keeps the bytes that it was sent, which the case compares with the calls that the
command has to make.
"""

import contextlib
import socket
import subprocess
import threading
from collections.abc import Callable, Sequence
from dataclasses import dataclass
from pathlib import Path

from suite.cases import check
from suite.daemon import DEADLINE, Hang, Place
from suite.wire import call, refused, reply

#: What the daemon sends after a call, by the call's serial.
Answer = Callable[[int], bytes]


@dataclass(frozen=True)
class Step:
    """One call that the client has to make, and what the daemon sends then."""

    name: str
    values: tuple[object, ...]
    answer: Answer


@dataclass(frozen=True)
class Ran:
    """How a run of the client ended, and what the daemon was sent."""

    status: int
    stdout: bytes
    stderr: str
    sent: bytes


def done(name: str, *values: object, gives: tuple[object, ...] = ()) -> Step:
    """A call that is done, with this result."""
    return Step(name, values, lambda serial: reply(name, serial, *gives).to_bytes())


def refusing(name: str, *values: object, code: int, kept: str | None = None) -> Step:
    """A call that is refused."""
    return Step(name, values, lambda serial: refused(name, serial, code, kept).to_bytes())


def sending(name: str, *values: object, sends: Answer) -> Step:
    """A call after which the daemon sends these bytes."""
    return Step(name, values, sends)


def calls_of(steps: Sequence[Step]) -> bytes:
    """The calls of a script as the client has to send them, with serials from 1."""
    return b"".join(
        call(step.name, serial, *step.values).to_bytes() for serial, step in enumerate(steps, 1)
    )


class ScriptedDaemon:
    """Listens on loopback, takes one connection, and answers as a script says.

    `pieces` cuts what it sends. After the last step it waits for the client's end, unless
    `closes` is set.
    """

    def __init__(self, steps: Sequence[Step], pieces: int | None = None, closes: bool = False):
        self._steps = list(steps)
        self._pieces = pieces
        self._closes = closes
        self._listener = socket.create_server(("127.0.0.1", 0))
        self._listener.settimeout(DEADLINE)
        self.sent = bytearray()
        self.accepted = 0
        self._thread = threading.Thread(target=self._serve, daemon=True)
        self._thread.start()

    @property
    def address(self) -> str:
        """Where it listens."""
        host, port = self._listener.getsockname()
        return f"{host}:{port}"

    def _serve(self) -> None:
        try:
            connection, _ = self._listener.accept()
        except OSError:
            return
        self.accepted += 1
        with connection:
            connection.settimeout(DEADLINE)
            connection.setsockopt(socket.IPPROTO_TCP, socket.TCP_NODELAY, 1)
            try:
                self._talk(connection)
            except OSError:
                pass  # the client ended; the case sees how

    def _talk(self, connection: socket.socket) -> None:
        for serial, step in enumerate(self._steps, 1):
            if not self._take_packet(connection):
                return
            self._send(connection, step.answer(serial))
        if self._closes:
            return
        while piece := connection.recv(65_536):
            self.sent += piece

    def _take_packet(self, connection: socket.socket) -> bool:
        """Take one packet, and say whether it came whole."""
        head = self._take(connection, 4)
        if len(head) < 4:
            return False
        length = int.from_bytes(head, "big")
        return len(self._take(connection, length - 4)) == length - 4

    def _take(self, connection: socket.socket, count: int) -> bytes:
        taken = b""
        while len(taken) < count:
            piece = connection.recv(count - len(taken))
            if not piece:
                break
            taken += piece
        self.sent += taken
        return taken

    def _send(self, connection: socket.socket, given: bytes) -> None:
        size = self._pieces or len(given) or 1
        for begin in range(0, len(given), size):
            connection.sendall(given[begin : begin + size])

    def close(self) -> None:
        """Stop listening, and wait until the connection is over."""
        with contextlib.suppress(OSError):
            self._listener.shutdown(socket.SHUT_RDWR)  # ends a wait for a connection
        self._listener.close()
        self._thread.join(DEADLINE)


def run_client(place: Place, *words: str | Path | bytes, **pipes) -> Ran:
    """Run the client with these words and nothing on its input."""
    given = [word if isinstance(word, bytes) else str(word) for word in words]
    try:
        ended = subprocess.run(
            [str(place.client), *given],
            stdin=subprocess.DEVNULL,
            stdout=pipes.get("stdout", subprocess.PIPE),
            stderr=subprocess.PIPE,
            cwd=place.root,
            timeout=DEADLINE,
            check=False,
        )
    except subprocess.TimeoutExpired as late:
        raise Hang(f"the client did not end within {DEADLINE:.0f} s") from late
    return Ran(ended.returncode, ended.stdout or b"", ended.stderr.decode(errors="replace"), b"")


def ask(
    place: Place,
    steps: Sequence[Step],
    *words: str | Path,
    pieces: int | None = None,
    closes: bool = False,
    **pipes,
) -> Ran:
    """Run a command against a daemon that answers by a script."""
    daemon = ScriptedDaemon(steps, pieces, closes)
    try:
        ran = run_client(place, "-c", daemon.address, *words, **pipes)
    finally:
        daemon.close()
    return Ran(ran.status, ran.stdout, ran.stderr, bytes(daemon.sent))


def check_done(place: Place, steps: Sequence[Step], printed: str, *words: str | Path, **how) -> None:
    """A command makes just these calls, prints this, and ends with status 0."""
    ran = ask(place, steps, *words, **how)
    what = " ".join(str(word) for word in words)
    check("", ran.stderr, f"{what}: standard error")
    check(printed.encode(), ran.stdout, f"{what}: standard output")
    check(0, ran.status, f"{what}: the status")
    check(calls_of(steps), ran.sent, f"{what}: what was sent")


def check_failed(
    place: Place,
    steps: Sequence[Step],
    status: int,
    said: str,
    *words: str | Path,
    printed: str = "",
    made: int | None = None,
    **how,
) -> None:
    """A command ends so, once it made the calls of the script, or the first so many."""
    ran = ask(place, steps, *words, **how)
    what = " ".join(str(word) for word in words)
    check(said, ran.stderr, f"{what}: standard error")
    check(printed.encode(), ran.stdout, f"{what}: standard output")
    check(status, ran.status, f"{what}: the status")
    check(calls_of(steps[:made]), ran.sent, f"{what}: what was sent")


