"""`virsh event`: a registration, and the events that come after it."""

import socket
import subprocess
import threading
from uuid import UUID

from suite.cases import case, check
from suite.client import Step, ask, calls_of, check_done, check_failed, refusing, sending
from suite.client_commands import DEMO, domain
from suite.daemon import DEADLINE, Place
from suite.wire import Domain, call, event, reply

REGISTERED = reply("EVENT_REGISTER", 2).to_bytes()


def registering(*events: bytes) -> Step:
    """The registration, after which these events come."""
    return sending("EVENT_REGISTER", DEMO, sends=lambda serial: REGISTERED + b"".join(events))


def happened(number: int, detail: int, of: Domain = DEMO) -> bytes:
    """An event of a domain."""
    return event(12, of, number, detail).to_bytes()


SUSPENDED, RESUMED, LOST = happened(3, 0), happened(4, 0), event(13, DEMO).to_bytes()


@case("client", "event prints so many events, each in its line", client=True)
def prints_events(place: Place) -> None:
    lines = "event 3 detail 0\nevent 4 detail 0\n"
    for pieces in (None, 1, 7):
        steps = [domain(), registering(SUSPENDED, RESUMED, SUSPENDED)]
        check_done(place, steps, lines, "event", "demo", "2", pieces=pieces)
    check_done(place, [domain(), registering()], "", "event", "demo", "0")
    steps = [domain(), registering(happened(4_294_967_295, 4_294_967_295))]
    printed = "event 4294967295 detail 4294967295\n"
    check_done(place, steps, printed, "event", "demo", "1")


@case("client", "Events that come with the reply to the registration are printed too", client=True)
def early_events(place: Place) -> None:
    step = sending("EVENT_REGISTER", DEMO, sends=lambda serial: SUSPENDED + REGISTERED + RESUMED)
    lines = "event 3 detail 0\nevent 4 detail 0\n"
    check_done(place, [domain(), step], lines, "event", "demo", "2")


@case("client", "After lost events no more come, and that is no fault", client=True)
def lost_events(place: Place) -> None:
    steps = [domain(), registering(SUSPENDED, LOST, RESUMED)]
    check_done(place, steps, "event 3 detail 0\nevents lost\n", "event", "demo", "9")


@case("client", "Where the events end too early, those before are printed, and it is status 5", client=True)
def events_end(place: Place) -> None:
    other = happened(2, 0, Domain("other", DEMO.identifier))
    foreign = happened(2, 0, Domain(DEMO.name, UUID(int=7)))
    for what, last in (
        ("a close", b""),
        ("half an event", SUSPENDED[:-1]),
        ("a reply", reply("EVENT_REGISTER", 3).to_bytes()),
        ("the same reply again", REGISTERED),
        ("an event of another name", other),
        ("an event of another identifier", foreign),
        ("no packet", b"\0\0\0\0"),
        ("an event with a word too many", b"\0\0\0\x48" + SUSPENDED[4:] + bytes(4)),
    ):
        steps = [domain(), registering(SUSPENDED, last)]
        ran = ask(place, steps, "event", "demo", "2", closes=True)
        check(
            (5, b"event 3 detail 0\n", "virsh: link\n"),
            (ran.status, ran.stdout, ran.stderr),
            f"what comes of {what}",
        )
        check(calls_of(steps), ran.sent, f"{what}: what was sent")


@case("client", "A registration that is refused is status 1", client=True)
def refused_registration(place: Place) -> None:
    full = refusing("EVENT_REGISTER", DEMO, code=204, kept="16")
    check_failed(place, [domain(), full], 1, "error: list full: 16\n", "event", "demo", "1")


@case("client", "event prints each line as it comes, while its connection is open", client=True)
def line_by_line(place: Place) -> None:
    listener = socket.create_server(("127.0.0.1", 0))
    listener.settimeout(DEADLINE)
    host, port = listener.getsockname()
    process = subprocess.Popen(
        [str(place.client), "-c", f"{host}:{port}", "event", "demo", "2"],
        stdout=subprocess.PIPE,
        stderr=subprocess.PIPE,
        bufsize=0,
    )
    guard = threading.Timer(DEADLINE, process.kill)
    guard.start()
    try:
        connection, _ = listener.accept()
        with connection:
            connection.settimeout(DEADLINE)
            calls = [call("DOMAIN_LOOKUP_BY_NAME", 1, "demo"), call("EVENT_REGISTER", 2, DEMO)]
            for made, answer in zip(calls, (reply("DOMAIN_LOOKUP_BY_NAME", 1, DEMO).to_bytes(), REGISTERED)):
                wanted, came = made.to_bytes(), b""
                while len(came) < len(wanted) and (piece := connection.recv(4_096)):
                    came += piece
                check(wanted, came, "a call")
                connection.sendall(answer)
            for sent, line in ((SUSPENDED, b"event 3 detail 0\n"), (RESUMED, b"event 4 detail 0\n")):
                connection.sendall(sent)
                check(line, process.stdout.readline(), "the line, before the next event is sent")
        check(0, process.wait(DEADLINE), "the status")
    finally:
        guard.cancel()
        process.kill()
        process.communicate()
        listener.close()
