"""The client against the built daemon, which serves one connection over its standard input and output.

A relay listens on loopback and gives connection after connection to one run of the daemon: to the daemon they are one
session. So a domain that one command starts still runs at the next.
"""

import select
import socket
import subprocess
import threading
from pathlib import Path

from suite.cases import case, check
from suite.client import run_client
from suite.daemon import DEADLINE, Place
from suite.samples import definition, disk, named

TABLE = "   Id Name                 State\n"


class Relay:
    """A run of the daemon, and an address at which it is spoken to, one connection after another."""

    def __init__(self, place: Place, *words: str | Path):
        self._place = place
        self._process = subprocess.Popen(
            [str(place.binary), *(str(word) for word in words)],
            stdin=subprocess.PIPE,
            stdout=subprocess.PIPE,
            bufsize=0,
        )
        self._listener = socket.create_server(("127.0.0.1", 0))
        self._listener.settimeout(DEADLINE)
        self._thread = threading.Thread(target=self._serve, daemon=True)
        self._thread.start()

    def _serve(self) -> None:
        while True:
            try:
                connection, _ = self._listener.accept()
            except OSError:
                return
            with connection:
                self._carry(connection)

    def _carry(self, connection: socket.socket) -> None:
        """Carry bytes both ways until the client is gone. It waits for its replies, so none is left over."""
        while True:
            ready, _, _ = select.select([connection, self._process.stdout], [], [], DEADLINE)
            if self._process.stdout in ready:
                connection.sendall(self._process.stdout.read(65_536) or b"")
            if connection in ready:
                piece = connection.recv(65_536)
                if not piece:
                    return
                self._process.stdin.write(piece)
            if not ready:
                return

    def run(self, *words: str | Path):
        """Run a command of the client against the daemon."""
        host, port = self._listener.getsockname()
        return run_client(self._place, "-c", f"{host}:{port}", *words)

    def prints(self, printed: str, *words: str | Path) -> None:
        """A command prints this, and ends with status 0."""
        ran = self.run(*words)
        what = " ".join(str(word) for word in words)
        check("", ran.stderr, f"{what}: standard error")
        check(printed.encode(), ran.stdout, f"{what}: standard output")
        check(0, ran.status, f"{what}: the status")

    def refuses(self, said: str, *words: str | Path) -> None:
        """A command is refused so, and prints nothing."""
        ran = self.run(*words)
        what = " ".join(str(word) for word in words)
        check(f"error: {said}\n", ran.stderr, f"{what}: standard error")
        check((1, b""), (ran.status, ran.stdout), f"{what}: the status, and what is printed")

    def close(self) -> None:
        """Close the daemon's input, and see that it ends well."""
        self._listener.shutdown(socket.SHUT_RDWR)
        self._listener.close()
        self._thread.join(DEADLINE)
        self._process.stdin.close()
        try:
            check(0, self._process.wait(DEADLINE), "the daemon's status")
        finally:
            self._process.kill()
            self._process.stdout.close()


@case("client", "The demo store is listed, and its one domain is shown", client=True, daemon=True)
def demo(place: Place) -> None:
    relay = Relay(place, "demo")
    relay.prints(f"{TABLE}    - demo                 shut off\n", "list", "--all")
    relay.prints(TABLE, "list")
    relay.prints(
        "Name:           demo\n"
        "UUID:           00000000-0000-4000-8000-000000000001\n"
        "State:          shut off\n"
        "CPU(s):         1\n"
        "Max memory:     1048576 KiB\n"
        "Used memory:    1048576 KiB\n"
        "Autostart:      disable\n",
        "dominfo",
        "demo",
    )
    relay.refuses("no domain: none", "dominfo", "none")
    relay.prints("shut off\n", "domstate", "demo")
    relay.close()


@case("client", "A domain lives from its definition to its end, command by command", client=True, daemon=True)
def life(place: Place) -> None:
    domain = named("web", 1)
    (place.root / "web.xml").write_text(definition(domain, vcpus=2))
    (place.root / "disk.xml").write_text(disk("vda"))
    relay = Relay(place, "stdio", place.directory)
    relay.prints("Domain web defined\n", "define", "web.xml")
    relay.prints("Domain web marked\n", "autostart", "web")
    relay.prints("Domain web unmarked\n", "autostart", "web", "--disable")
    relay.prints("Domain web started\n", "start", "web")
    relay.refuses("operation invalid: running", "start", "web")
    relay.prints(f"{TABLE}    1 web                  running\n", "list")
    relay.prints("Domain web suspended\n", "suspend", "web")
    relay.prints("paused\n", "domstate", "web")
    relay.prints("Domain web resumed\n", "resume", "web")
    relay.prints("Domain web being rebooted\n", "reboot", "web")
    relay.prints("", "setmem", "web", "512")
    relay.prints("actual 512\n", "dommemstat", "web")
    relay.prints("", "setvcpus", "web", "1")
    relay.refuses("invalid argument: 3 2", "setvcpus", "web", "3")
    relay.prints("Device attached\n", "attach-device", "web", "disk.xml")
    relay.refuses("operation invalid: running", "attach-device", "web", "disk.xml")
    live, stored = relay.run("dumpxml", "web").stdout, relay.run("dumpxml", "web", "--inactive").stdout
    check((True, False), (b"'vda'" in live, b"'vda'" in stored), "whether each text has the disk")
    relay.prints("Device detached\n", "detach-device", "web", "disk.xml")
    relay.prints("0 0 0\n", "domjobinfo", "web")
    relay.refuses("operation invalid: running", "domjobabort", "web")
    relay.prints("Domain web dumped\n", "dump", "web", "core")
    relay.prints("Domain web saved\n", "save", "web", "image")
    relay.prints("shut off\n", "domstate", "web")
    relay.prints("Domain restored\n", "restore", "image")
    relay.prints("running\n", "domstate", "web")
    relay.prints("", "guest-kick", "web", "2")
    relay.prints("crashed\n", "domstate", "web")
    relay.prints("Domain web destroyed\n", "destroy", "web")
    relay.prints("Domain web undefined\n", "undefine", "web")
    relay.refuses("no domain: web", "start", "web")
    relay.prints("Domain web created\n", "create", "web.xml")
    relay.prints("Domain web being shut down\n", "shutdown", "web")
    relay.refuses("no domain: web", "domstate", "web")
    relay.close()
    names = sorted(file.name for file in place.directory.iterdir())
    check(["core.dump", "image.img"], names, "the files of the store")


@case("client", "Snapshots of a domain, command by command", client=True, daemon=True)
def snapshots(place: Place) -> None:
    (place.root / "a.xml").write_text(definition(named("a", 1)))
    (place.root / "s.xml").write_text("<domainsnapshot><name>first</name></domainsnapshot>")
    (place.root / "none.xml").write_text("<domainsnapshot/>")
    relay = Relay(place, "stdio", place.directory)
    relay.prints("Domain a defined\n", "define", "a.xml")
    relay.prints("Domain snapshot first created\n", "snapshot-create", "a", "s.xml")
    relay.refuses("snapshot exists: first", "snapshot-create", "a", "s.xml")
    relay.prints("Domain snapshot snap1 created\n", "snapshot-create", "a", "none.xml")
    relay.prints("first\nsnap1\n", "snapshot-list", "a")
    relay.prints("first\n", "snapshot-parent", "a", "snap1")
    relay.prints("", "snapshot-parent", "a", "first")
    relay.prints(
        "<domainsnapshot>\n"
        "  <name>snap1</name>\n"
        "  <state>shutoff</state>\n"
        "  <parent>\n"
        "    <name>first</name>\n"
        "  </parent>\n"
        "</domainsnapshot>\n",
        "snapshot-dumpxml",
        "a",
        "snap1",
    )
    relay.prints("", "snapshot-revert", "a", "first")
    relay.prints("Domain snapshot first deleted\n", "snapshot-delete", "--children", "a", "first")
    relay.prints("", "snapshot-list", "a")
    relay.refuses("no snapshot: first", "snapshot-revert", "a", "first")
    relay.close()


@case("client", "What the daemon does not serve yet is refused by its number", client=True, daemon=True)
def not_built(place: Place) -> None:
    relay = Relay(place, "demo")
    relay.refuses("not built: 38", "net-list")
    relay.refuses("not built: 46", "net-start", "default")
    relay.refuses("not built: 26", "pool-list")
    relay.refuses("not built: 25", "vol-list", "images")
    relay.refuses("not built: 10", "event", "demo", "1")
    relay.close()


@case("client", "A definition that is none is refused, and one that is too long is not sent", client=True, daemon=True)
def bad_definitions(place: Place) -> None:
    relay = Relay(place, "stdio", place.directory)
    (place.root / "a.xml").write_text("<domain>")
    relay.refuses("bad definition: at 8", "define", "a.xml")
    (place.root / "a.xml").write_text("<domain type='qemu'/>")
    relay.refuses("bad definition: /domain/name", "define", "a.xml")
    text = definition(named("a", 1))
    (place.root / "a.xml").write_text(text + " " * (65_536 - len(text)))
    relay.prints("Domain a defined\n", "define", "a.xml")
    (place.root / "a.xml").write_text(text + " " * (65_537 - len(text)))
    check(3, relay.run("define", "a.xml").status, "the status of a longer text")
    relay.close()
