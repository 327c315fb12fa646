"""Files that are damaged: what `virtd check` says of each, and how a start on them ends."""

from suite.cases import case, check
from suite.daemon import Place, Session
from suite.samples import definition, named
from suite.wire import Domain, refusal

DOMAIN = named("a", 1)
FILE = f"domain-{DOMAIN.identifier}.def"

#: The most bytes that a file of a directory may have.
MOST_FILE_BYTES = 1 << 20


def second(text: str, name: str = "a", title: str = "", flag: str = "no") -> bytes:
    """A file of version 2 with this text."""
    head = f"def 2 autostart={flag} name={name}\ntitle={title}\nlength={len(text.encode())}\n"
    return head.encode() + text.encode()


def first(text: str, name: str = "a", flag: str = "no") -> bytes:
    """A file of version 1 with this text."""
    return f"def 1 autostart={flag} name={name}\n{text}".encode()


def _damaged() -> dict[str, bytes]:
    """Files that are no definitions, and what is wrong with each."""
    text = definition(DOMAIN)
    good = second(text)
    length = b"length=%d\n" % len(text)
    renamed = text.replace("<name>a<", "<name>b<")
    foreign = text.replace(str(DOMAIN.identifier), str(named("b", 2).identifier))
    bare = text.replace("<devices>", "<devices><interface type='user'/>")
    return {
        "nothing at all": b"",
        "another version": good.replace(b"def 2", b"def 3"),
        "a flag that is neither": good.replace(b"autostart=no", b"autostart=maybe"),
        "an empty name": good.replace(b"name=a\n", b"name=\n"),
        "no name": good.replace(b"name=a\n", b"name=a/b\n"),
        "only a front of its first line": b"def 2 autostart=no name=a",
        "another line for the title": good.replace(b"title=", b"name="),
        "two titles": good.replace(b"title=\n", b"title=\ntitle=\n"),
        "no title": good.replace(b"title=\n", b""),
        "a length that is too great": good.replace(length, b"length=%d\n" % (len(text) + 1)),
        "a length that is too small": good.replace(length, b"length=%d\n" % (len(text) - 1)),
        "a length with a zero before it": good.replace(b"length=", b"length=0"),
        "one byte more": good + b"\n",
        "one byte less": good[:-1],
        "a text that is no UTF-8": good.replace(b"hvm", b"\xff\xfe\xfd"),
        "version 1 without a text": b"def 1 autostart=no name=a",
        "a text that is no definition": second("<a/>"),
        "a text of another name": second(renamed),
        "a text of another identifier": second(foreign),
        "a title that is not the text's": second(text, title="other"),
        "an interface without an address": second(bare),
        "version 1 with a text of another name": first(renamed),
    }


def _check_file(place: Place, name: str, content: bytes, what: str) -> None:
    path = place.directory / name
    path.write_bytes(content)
    ended = Session(place).finish()
    check((6, f"virtd: damaged {name}\n"), (ended.status, ended.stderr), f"a start on {what}")
    ended = place.run("check", place.directory)
    check(f"{name} damaged\n".encode(), ended.unread, f"a check of {what}")
    check((6, f"virtd: damaged {name}\n"), (ended.status, ended.stderr), f"a check of {what}")
    check(content, path.read_bytes(), f"the bytes of {what}, after both")
    path.unlink()


@case("damaged", "Each file that is no definition is damaged, for a start and for a check")
def contents(place: Place) -> None:
    for what, content in _damaged().items():
        _check_file(place, FILE, content, what)


@case("damaged", "Each name that ends in .def and is no definition's is damaged")
def names(place: Place) -> None:
    content = second(definition(DOMAIN))
    identifier = str(DOMAIN.identifier)
    for name in (
        ".def",
        "x.def",
        "domain-x.def",
        f"volume-{identifier}.def",
        f"domain-{identifier.upper()}x.def",
        f"domain-{identifier.replace('-', '')}.def",
        f"domain-{identifier[:-1]}A.def",
        f"domain_{identifier}.def",
    ):
        _check_file(place, name, content, name)


@case("damaged", "A file of more than 1 MiB is a fault of the store, and one of 1 MiB is damaged")
def long_files(place: Place) -> None:
    _check_file(place, FILE, bytes(MOST_FILE_BYTES), "a file of 1 MiB")
    (place.directory / FILE).write_bytes(bytes(MOST_FILE_BYTES + 1))
    for words in (["stdio", place.directory], ["check", place.directory]):
        ended = place.run(*words)
        check((4, "virtd: store\n"), (ended.status, ended.stderr), f"{words[0]} on a longer file")


@case("damaged", "A definition of version 1 is served, and written again in version 2")
def rewritten(place: Place) -> None:
    text = definition(DOMAIN).replace("<memory>", "<title>The first\nof two</title><memory>")
    (place.directory / FILE).write_bytes(first(text, flag="yes"))
    session = Session(place)
    check([("a", "The first")], session.call("TITLES"), "the titles")
    check(1, session.call("DOMAIN_GET_AUTOSTART", DOMAIN), "autostart")
    check(1, session.call("DOMAIN_GET_INFO", DOMAIN)[0], "its state")
    check(0, session.finish().status, "the exit status")
    wanted = second(text, title="The first", flag="yes")
    check(wanted, (place.directory / FILE).read_bytes(), "the file")


@case("damaged", "Of several damaged files the first by name is said")
def first_of_several(place: Place) -> None:
    text = definition(DOMAIN)
    (place.directory / FILE).write_bytes(second(text))
    other = f"domain-{named('b', 2).identifier}.def"
    (place.directory / other).write_bytes(second(text))
    (place.directory / "pool-x.def").write_bytes(b"")
    ended = Session(place).finish()
    check((6, f"virtd: damaged {other}\n"), (ended.status, ended.stderr), "a start")
    ended = place.run("check", place.directory)
    lines = f"domain a {DOMAIN.identifier} ok\n{other} damaged\npool-x.def damaged\n"
    check(lines, ended.unread.decode(), "the lines of a check")
    check((6, f"virtd: damaged {other}\n"), (ended.status, ended.stderr), "a check")


@case("damaged", "Definitions of networks and pools stay as they are, and are not served")
def other_kinds(place: Place) -> None:
    kept = {}
    for kind in ("network", "pool"):
        kept[f"{kind}-{DOMAIN.identifier}.def"] = second("any text", name="a")
    for name, content in kept.items():
        (place.directory / name).write_bytes(content)
    session = Session(place)
    check([], session.call("LIST_ALL"), "the domains")
    check(DOMAIN, session.call("DOMAIN_DEFINE_XML", definition(DOMAIN)), "a domain of that name")
    check(0, session.finish().status, "the exit status")
    for name, content in kept.items():
        check(content, (place.directory / name).read_bytes(), f"the file {name}")
    ended = place.run("check", place.directory)
    lines = [f"{kind} a {DOMAIN.identifier} ok" for kind in ("domain", "network", "pool")]
    check(lines, ended.unread.decode().splitlines(), "the lines of a check")
    check(0, ended.status, "its status")


@case("damaged", "A stored definition is two lines and a text of just so many bytes")
def written(place: Place) -> None:
    session = Session(place)
    text = definition(DOMAIN).replace("<memory>", "<title>One\nTwo</title><memory>")
    check(DOMAIN, session.call("DOMAIN_DEFINE_XML", text), "a definition")
    stored = session.call("DOMAIN_GET_XML_DESC", DOMAIN, 2)
    wanted = second(stored, title="One")
    check(wanted, (place.directory / FILE).read_bytes(), "the file")
    check(None, session.call("DOMAIN_SET_AUTOSTART", DOMAIN, 1), "an autostart")
    wanted = second(stored, title="One", flag="yes")
    check(wanted, (place.directory / FILE).read_bytes(), "the file with the flag")
    check([FILE], sorted(path.name for path in place.directory.iterdir()), "the files")
    check(None, session.call("DOMAIN_UNDEFINE", DOMAIN), "an undefine")
    check([], list(place.directory.iterdir()), "the files after it")


#: A byte of an image that ran, and what it is instead; which part of it is wrong then.
WRONG_BYTES = [
    (0, 0, "the magic"),
    (7, 2, "the version"),
    (11, 3, "the kind"),
    (15, 2, "whether it ran"),
    (19, 1, "whether its state is packed"),
    (21, 2, "the length of the text, too great for any"),
    (23, 255, "the length of the text"),
    (27, 9, "the length of the state, too great"),
    (27, 7, "the length of the state, too small"),
    (40, 255, "the text, which is no UTF-8"),
]


def _image(domain: Domain, state: bytes) -> bytes:
    text = definition(domain).encode()
    words = (0x56444D49, 1, 1, 1, 0, len(text), len(state))
    return b"".join(word.to_bytes(4, "big") for word in words) + text + state


@case("damaged", "An image is restored where each of its fields is right, and else none of it")
def images(place: Place) -> None:
    session = Session(place)
    good = _image(DOMAIN, (1000).to_bytes(8, "big"))
    path = place.directory / "s.img"
    check(refusal(9, "class 21"), session.call("DOMAIN_RESTORE", "s"), "no image")
    for at, value, what in WRONG_BYTES:
        path.write_bytes(good[:at] + bytes([value]) + good[at + 1 :])
        check(refusal(9, "class 22"), session.call("DOMAIN_RESTORE", "s"), what)
    for cut in (0, 27, 28, len(good) - 1):
        path.write_bytes(good[:cut])
        check(refusal(9, "class 22"), session.call("DOMAIN_RESTORE", "s"), f"its first {cut} bytes")
    path.write_bytes(good + b"\0")
    check(refusal(9, "class 22"), session.call("DOMAIN_RESTORE", "s"), "one byte more")
    check([], session.call("LIST_ALL"), "the domains")
    path.write_bytes(good)
    check(None, session.call("DOMAIN_RESTORE", "s"), "a good image")
    check(1000, session.call("MEMORY_STATS", DOMAIN), "what its guest has")


@case("damaged", "A folder in the place of an image is a fault of the store")
def image_that_is_a_folder(place: Place) -> None:
    session = Session(place)
    check(None, session.call("CONNECT_OPEN", None, 0), "a connection")
    (place.directory / "s.img").mkdir()
    check(refusal(38), session.call("DOMAIN_RESTORE", "s"), "a restore")
    check(0, session.finish().status, "the exit status")
