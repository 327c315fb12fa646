"""A host of a story: a store's directory, and the daemon that serves it from line to line."""

from suite.cases import Failed
from suite.daemon import Place, Session
from suite.story_files import check_line, file_of
from suite.story_requests import STORED
from suite.wire import Packet, value_of


class Host:
    """A store and the daemon on it. A daemon is started where a call finds none."""

    def __init__(self, place: Place):
        self.place = place
        self._session: Session | None = None

    def ask(self, procedure: str, *arguments: object) -> Packet:
        """The reply to a call."""
        return self._running().ask(procedure, *arguments)

    def _call(self, procedure: str, *arguments: object) -> object:
        return value_of(self.ask(procedure, *arguments))

    def _running(self) -> Session:
        if self._session is None:
            self._session = Session(self.place)
        return self._session

    def _idle(self) -> None:
        if self._session is not None:
            raise Failed("a daemon serves the directory, which is to be changed or checked")

    def end(self) -> str:
        """Close the daemon's input, wait for its end, and say what it said and left.

        The files have to say just what the daemon told of its definitions before.
        """
        session = self._running()
        definitions = self._definitions()
        session.close_input()
        lines = self._ended(session)
        for name, told in definitions.items():
            self._compare(name, told)
        return "\n".join([*lines, *self._checked()])

    def close(self) -> tuple[Packet, str]:
        """The reply to CONNECT_CLOSE, and what the daemon said, which ends by itself then."""
        session = self._running()
        reply = session.ask("CONNECT_CLOSE")
        return reply, "\n".join(self._ended(session))

    def stop(self) -> None:
        """End the daemon, if one runs, at the end of a story. It has to end well and in silence."""
        if self._session is not None:
            self._session.close_input()
            lines = self._ended(self._session)
            if lines:
                raise Failed("\n".join(["the daemon did not end well and in silence", *lines]))

    def _ended(self, session: Session) -> list[str]:
        self._session = None
        ended = session.wait()
        lines = [f"said {line}" for line in ended.stderr.splitlines()]
        if ended.status != 0:
            lines.append(f"status {ended.status}")
        if ended.unread:
            lines.append(f"unread {ended.unread.hex(' ', 4)}")
        return lines

    def _definitions(self) -> dict[str, bytes]:
        """The files that the store has to have, by what the daemon tells of its definitions."""
        files = {}
        for name, title in self._call("TITLES"):
            domain = self._call("DOMAIN_LOOKUP_BY_NAME", name)
            text = self._call("DOMAIN_GET_XML_DESC", domain, STORED)
            autostart = self._call("DOMAIN_GET_AUTOSTART", domain) == 1
            files[f"domain-{domain.identifier}.def"] = file_of(name, autostart, title, text)
        return files

    def _compare(self, name: str, told: bytes) -> None:
        path = self.place.directory / name
        has = path.read_bytes() if path.is_file() else None
        if has != told:
            raise Failed(f"{name} is not what the daemon told\n  wanted {told!r}\n  came   {has!r}")

    def checked(self) -> str:
        """What `check` says of the directory, each line with what its file says besides."""
        return "\n".join(self._checked())

    def _checked(self) -> list[str]:
        self._idle()
        ended = self.place.run("check", self.place.directory)
        printed = ended.unread.decode().splitlines()
        lines = [check_line(self.place.directory, line) for line in printed]
        lines += [f"said {line}" for line in ended.stderr.splitlines()]
        if ended.status != 0:
            lines.append(f"status {ended.status}")
        return lines

    def put(self, name: str, content: bytes) -> None:
        """Put a file beside the others."""
        self._idle()
        (self.place.directory / name).write_bytes(content)

    def block(self, name: str) -> None:
        """Make it impossible to write a file of this name: a directory has the name."""
        (self.place.directory / name).mkdir()

    def unblock(self, name: str) -> None:
        """Make it possible again."""
        (self.place.directory / name).rmdir()
