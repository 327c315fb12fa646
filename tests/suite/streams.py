"""Standard input and output that fail, and files that may not grow as far as the daemon likes.

The status of a fault of either is 5, and the replies before it have come.
"""

import os
import socket
import struct
import sys

from suite.cases import Failed, case, check
from suite.daemon import Place, Session
from suite.samples import definition, named
from suite.wire import call, refusal

#: Becomes the daemon, which may then write no file beyond so many bytes; more of it is a fault
#: (EFBIG), as on a device that is full.
LIMITED = (
    "import os, resource, signal, sys;"
    "most = int(sys.argv[1]);"
    "resource.setrlimit(resource.RLIMIT_FSIZE, (most, most));"
    "signal.signal(signal.SIGXFSZ, signal.SIG_IGN);"
    "os.execv(sys.argv[2], sys.argv[2:])"
)

#: Three calls of 36 bytes each, and how long their replies are.
CALLS = [
    call("CONNECT_OPEN", 1, None, 0),
    call("DOMAIN_LOOKUP_BY_NAME", 2, "demo"),
    call("DOMAIN_LOOKUP_BY_NAME", 3, "none"),
]
REPLIES = [28, 56, 96]


def limited(most: int) -> tuple[str, ...]:
    """The words of a program that becomes the daemon, whose files have at most so many bytes."""
    return (sys.executable, "-c", LIMITED, str(most))


def _all_calls() -> bytes:
    return b"".join(packet.to_bytes() for packet in CALLS)


def _whole_replies(place: Place) -> bytes:
    ended = place.run("demo", given=_all_calls())
    check(sum(REPLIES), len(ended.unread), "the bytes of three replies")
    return ended.unread


@case("streams", "Nobody reads the replies: the session ends with the fault of its output")
def closed_output(place: Place) -> None:
    reading, writing = os.pipe()
    session = Session(place, "demo", stdout=writing)
    os.close(writing)
    session.send(CALLS[0])
    check(REPLIES[0], len(os.read(reading, 100)), "the length of the first reply")
    os.close(reading)
    session.send(CALLS[1])
    ended = session.finish()
    check("virtd: link\n", ended.stderr, "standard error")
    check(5, ended.status, "the exit status")


@case("streams", "A full device takes no reply")
def full_device(place: Place) -> None:
    for words in (["demo"], ["stdio", place.directory]):
        with open("/dev/full", "wb") as full:
            session = Session(place, *words, stdout=full)
            session.send(CALLS[0])
            ended = session.finish()
        check("virtd: link\n", ended.stderr, f"standard error of {words[0]}")
        check(5, ended.status, f"the exit status of {words[0]}")


@case("streams", "A full device takes no list of words and no lines of a check")
def full_device_without_a_session(place: Place) -> None:
    (place.directory / "domain-x.def").write_text("none")
    for words in (["words"], ["check", place.directory]):
        with open("/dev/full", "wb") as full:
            ended = Session(place, *words, stdout=full).finish()
        check("virtd: link\n", ended.stderr, f"standard error of {words[0]}")
        check(5, ended.status, f"the exit status of {words[0]}")


@case("streams", "An output that takes so many bytes has the front of the replies")
def output_of_a_size(place: Place) -> None:
    whole = _whole_replies(place)
    for most in (1, 27, 28, 29, 83, 84, 85, 179, 180):
        path = place.root / f"output-{most}"
        with path.open("wb") as output:
            session = Session(place, "demo", stdout=output, under=limited(most))
            session.send(_all_calls())
            ended = session.finish()
        check(whole[:most], path.read_bytes(), f"what came before {most} bytes were full")
        is_whole = most == len(whole)
        check("" if is_whole else "virtd: link\n", ended.stderr, f"standard error at {most}")
        check(0 if is_whole else 5, ended.status, f"the exit status at {most}")


@case("streams", "Words that are cut off by their output are a fault")
def words_of_a_size(place: Place) -> None:
    whole = place.run("words").unread
    for most in (1, 8, len(whole) - 1, len(whole)):
        path = place.root / f"words-{most}"
        with path.open("wb") as output:
            ended = Session(place, "words", stdout=output, under=limited(most)).finish()
        check(whole[:most], path.read_bytes(), f"what came before {most} bytes were full")
        check(0 if most == len(whole) else 5, ended.status, f"the exit status at {most}")


@case("streams", "Lines of a check that are cut off are a fault, whatever the files are")
def check_of_a_size(place: Place) -> None:
    (place.directory / "domain-x.def").write_text("none")
    path = place.root / "lines"
    with path.open("wb") as output:
        words = ("check", place.directory)
        ended = Session(place, *words, stdout=output, under=limited(6)).finish()
    check(b"domain", path.read_bytes(), "what came before 6 bytes were full")
    check("virtd: link\n", ended.stderr, "standard error")
    check(5, ended.status, "the exit status")


def _reset_pair() -> tuple[socket.socket, socket.socket]:
    """Two ends of a connection of which the first can be reset."""
    with socket.create_server(("127.0.0.1", 0)) as server:
        ours = socket.create_connection(server.getsockname())
        theirs, _ = server.accept()
    return ours, theirs


@case("streams", "An input that fails leaves the replies before it")
def input_that_fails(place: Place) -> None:
    ours, theirs = _reset_pair()
    with ours, theirs:
        session = Session(place, "demo", stdin=theirs)
        theirs.close()
        for serial, packet in enumerate(CALLS[:2], 1):
            ours.sendall(packet.to_bytes())
            session.reply_of(serial)
        ours.setsockopt(socket.SOL_SOCKET, socket.SO_LINGER, struct.pack("ii", 1, 0))
        ours.close()
        ended = session.wait()
    check(b"", ended.unread, "what is left of standard output")
    check("virtd: link\n", ended.stderr, "standard error")
    check(5, ended.status, "the exit status")


@case("streams", "An input that can not be read is a fault")
def input_that_is_a_directory(place: Place) -> None:
    directory = os.open(place.root, os.O_RDONLY | os.O_DIRECTORY)
    try:
        ended = Session(place, "demo", stdin=directory).wait()
    finally:
        os.close(directory)
    check("virtd: link\n", ended.stderr, "standard error")
    check(5, ended.status, "the exit status")


@case("streams", "A definition that the store can not take is refused, and the next one is taken")
def full_store(place: Place) -> None:
    session = Session(place, under=limited(1000))
    small, large = named("small", 1), named("large", 2)
    title = "<title>" + "x" * 700 + "</title>"
    text = definition(large).replace("<memory>", title + "<memory>")
    for _ in range(2):
        check(refusal(38), session.call("DOMAIN_DEFINE_XML", text), "a definition that is too long")
        check(refusal(42, "large"), session.call("DOMAIN_LOOKUP_BY_NAME", "large"), "its lookup")
    check(small, session.call("DOMAIN_DEFINE_XML", definition(small)), "a shorter definition")
    check(0, session.finish().status, "the exit status")
    again = Session(place)
    check(["small"], again.call("CONNECT_LIST_DEFINED_DOMAINS", 10), "what the next daemon finds")


@case("streams", "An image that the store can not take is refused, and the guest runs on")
def full_store_of_images(place: Place) -> None:
    session = Session(place, under=limited(100))
    domain = named("a", 1)
    session.call("DOMAIN_CREATE_XML", definition(domain), 0)
    check(1, session.call("DOMAIN_GET_INFO", domain)[0], "the state of a guest that runs")
    check(refusal(38), session.call("DOMAIN_SAVE", domain, "s"), "a save")
    check(1, session.call("DOMAIN_GET_INFO", domain)[0], "the state after it")
    if (place.directory / "s.img").exists():
        raise Failed("there is an image of a save that failed")
    check(0, session.finish().status, "the exit status")
