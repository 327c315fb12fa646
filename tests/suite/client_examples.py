"""The examples of docs/PROGRAMS.md: each is run against a small daemon, and prints what it shows."""

import re
import socket
import threading
from pathlib import Path
from uuid import UUID

from suite.cases import Failed, case, check
from suite.client import run_client
from suite.client_words import WANTED
from suite.daemon import DEADLINE, Place
from suite.procedures import BY_NUMBER
from suite.wire import Domain, Object, event, refused, reply, split

DOCUMENT = Path(__file__).resolve().parents[2] / "docs/PROGRAMS.md"

WEB = Domain("web", UUID("6f1a2b3c-4d5e-4f60-8a7b-9c0d1e2f3a4b"), 7)
DEMO = Domain("demo", UUID("00000000-0000-4000-8000-000000000001"))
NET = Object("default", UUID(int=1))
POOL = Object("images", UUID(int=2))

#: What the daemon of the examples answers to each procedure; nothing to those that are not here.
ANSWERS: dict[str, tuple[object, ...]] = {
    "LIST_ALL": ([(WEB, 1), (DEMO, 5)],),
    "DOMAIN_LOOKUP_BY_NAME": (WEB,),
    "DOMAIN_DEFINE_XML": (WEB,),
    "DOMAIN_CREATE_XML": (WEB,),
    "DOMAIN_GET_INFO": (1, 2_097_152, 1_048_576, 2, 0),
    "DOMAIN_GET_AUTOSTART": (1,),
    "DOMAIN_GET_XML_DESC": ("<domain type='qemu'>\n  <name>web</name>\n</domain>\n",),
    "JOB_INFO": (2, 5, 40),
    "MEMORY_STATS": (1_048_576,),
    "SNAP_CREATE": ("before",),
    "SNAP_LIST": (["before", "later"],),
    "SNAP_PARENT": ("before",),
    "SNAP_XML": ("<domainsnapshot>\n  <name>later</name>\n</domainsnapshot>\n",),
    "CONNECT_LIST_NETWORKS": (["default"],),
    "CONNECT_LIST_DEFINED_NETWORKS": (["lab"],),
    "NETWORK_LOOKUP_BY_NAME": (NET,),
    "NETWORK_DEFINE_XML": (NET,),
    "NETWORK_GET_XML_DESC": ("<network>\n  <name>default</name>\n</network>\n",),
    "LEASES": ([("52:54:00:12:34:56", "10.0.0.2")],),
    "POOL_LOOKUP": (POOL,),
    "POOL_DEFINE": (POOL,),
    "POOL_LIST": ([(POOL, 1), (Object("spare", UUID(int=3)), 0)],),
    "POOL_XML": ("<pool type='dir'>\n  <name>images</name>\n</pool>\n",),
    "VOL_CREATE": ("web.qcow2",),
    "VOL_LIST": (["web.qcow2"],),
    "VOL_XML": ("<volume>\n  <name>web.qcow2</name>\n</volume>\n",),
}

#: The names of domains that there are none of.
ABSENT = b"none"


class AnsweringDaemon:
    """Listens on loopback, and answers each call of each connection by the table."""

    def __init__(self) -> None:
        self._listener = socket.create_server(("127.0.0.1", 0))
        self._listener.settimeout(DEADLINE)
        threading.Thread(target=self._serve, daemon=True).start()

    @property
    def address(self) -> str:
        """Where it listens."""
        host, port = self._listener.getsockname()
        return f"{host}:{port}"

    def _serve(self) -> None:
        while True:
            try:
                connection, _ = self._listener.accept()
            except OSError:
                return
            with connection:
                self._talk(connection)

    def _talk(self, connection: socket.socket) -> None:
        came = b""
        while piece := connection.recv(65_536):
            packets, came = split(came + piece)
            for packet in packets:
                connection.sendall(answer_to(packet))

    def close(self) -> None:
        """Stop listening."""
        self._listener.shutdown(socket.SHUT_RDWR)
        self._listener.close()


def answer_to(packet) -> bytes:
    """The reply to a call, and after a registration two events."""
    name = BY_NUMBER[packet.program, packet.procedure].name
    if name == "DOMAIN_LOOKUP_BY_NAME" and packet.payload[4:] == ABSENT:
        return refused(name, packet.serial, 42, ABSENT.decode()).to_bytes()
    answer = reply(name, packet.serial, *ANSWERS.get(name, ())).to_bytes()
    if name == "EVENT_REGISTER":
        of = Domain(WEB.name, WEB.identifier)
        answer += event(12, of, 3, 0).to_bytes() + event(12, of, 4, 0).to_bytes()
    return answer


def examples() -> list[tuple[list[str], str]]:
    """The words of each example, and what it shows."""
    found: list[tuple[list[str], str]] = []
    for block in re.findall(r"^```\n(\$ virsh .*?)^```$", DOCUMENT.read_text(), re.M | re.S):
        for part in re.split(r"^\$ virsh", block, flags=re.M)[1:]:
            words, _, shown = part.partition("\n")
            found.append((words.split(), shown))
    return found


@case("client", "Each example of the document prints what it shows", client=True)
def printed_examples(place: Place) -> None:
    daemon = AnsweringDaemon()
    for words, shown in examples():
        for word in words:
            if word.endswith(".xml"):
                (place.root / word).write_text("<a/>")
        ran = run_client(place, "-c", daemon.address, *words)
        check(shown, ran.stdout.decode() + ran.stderr, f"virsh {' '.join(words)}")
        check(1 if shown.startswith("error: ") else 0, ran.status, f"virsh {' '.join(words)}: the status")
    daemon.close()


@case("client", "Each command that is served has an example in the document")
def exampled_commands(_: Place) -> None:
    lacking = WANTED.keys() - {words[0] for words, _ in examples()}
    if lacking:
        raise Failed(f"no example: {' '.join(sorted(lacking))}")
