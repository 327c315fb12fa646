"""Texts of domains: what is read of them, what is stored, and what is filled in.

`tests/texts` has pairs of files: NAME.xml is what a client defines, and NAME.stored.xml what the
daemon tells of it then. There `{uuid}` and `{mac}` stand for what it draws.
"""

import re
from pathlib import Path

from suite.cases import Case, Failed, case, check, register
from suite.daemon import Place, Session
from suite.wire import Domain, refusal

TEXTS = Path(__file__).resolve().parents[1] / "texts"

#: An identifier of version 4 (RFC 9562), and an address of the range that is libvirt's for QEMU.
DRAWN = {
    "uuid": "[0-9a-f]{8}-[0-9a-f]{4}-4[0-9a-f]{3}-[89ab][0-9a-f]{3}-[0-9a-f]{12}",
    "mac": "52:54:00(?::[0-9a-f]{2}){3}",
}

#: What the pairs are about.
PAIRS = {
    "worked": "A text as a tool writes it is stored in its one spelling",
    "mixed": "Attributes in any order, comments, sections, references and other elements are read",
    "least": "The least domain gets the defaults",
    "lacking": "An identifier and addresses that are left out are filled in, and the rest stays",
    "addressed": "Addresses of devices are passed over",
}


def fill(stored: str, came: str) -> str:
    """The stored text with what was drawn in it, as it came; as it is, where it does not fit."""
    pattern = re.escape(stored)
    for name, form in DRAWN.items():
        pattern = pattern.replace(re.escape("{" + name + "}"), f"({form})")
    found = re.fullmatch(pattern, came)
    return came if found else stored


def _play(place: Place, name: str) -> None:
    given = (TEXTS / f"{name}.xml").read_bytes()
    stored = (TEXTS / f"{name}.stored.xml").read_text()
    session = Session(place)
    domain = session.call("DOMAIN_DEFINE_XML", given)
    if not isinstance(domain, Domain):
        raise Failed(f"the text is refused: {domain}")
    text = session.call("DOMAIN_GET_XML_DESC", domain, 2)
    check(fill(stored, text), text, "the stored text")
    check(domain, session.call("DOMAIN_DEFINE_XML", text), "a definition by the stored text")
    check(text, session.call("DOMAIN_GET_XML_DESC", domain, 2), "the text that is stored then")
    check(0, session.finish().status, "the exit status")
    again = Session(place)
    check(text, again.call("DOMAIN_GET_XML_DESC", domain, 2), "what the next daemon tells")


for _name, _shows in PAIRS.items():
    register(Case("texts", _shows, lambda place, name=_name: _play(place, name)))


@case("texts", "Identifiers and addresses that are left out differ, and have their forms")
def drawn(place: Place) -> None:
    session = Session(place)
    identifiers, addresses = set(), set()
    for number in range(20):
        domain = session.call(
            "DOMAIN_DEFINE_XML",
            f"<domain type='qemu'><name>d{number}</name><memory>1</memory><os><type/></os>"
            "<devices><interface type='user'/><interface type='user'/></devices></domain>",
        )
        if not re.fullmatch(DRAWN["uuid"], str(domain.identifier)):
            raise Failed(f"no identifier of version 4: {domain.identifier}")
        identifiers.add(domain.identifier)
        text = session.call("DOMAIN_GET_XML_DESC", domain, 2)
        found = re.findall(f"<mac address='({DRAWN['mac']})'/>", text)
        check(2, len(set(found)), "the different addresses of two interfaces")
        addresses.update(found)
    check(20, len(identifiers), "the different identifiers of twenty domains")
    if len(addresses) < 30:
        raise Failed(f"of forty addresses only {len(addresses)} differ")


@case("texts", "An address that another interface has is not drawn for one that has none")
def kept_addresses(place: Place) -> None:
    session = Session(place)
    given = "".join(
        f"<interface type='user'><mac address='52:54:00:00:00:{last:02x}'/></interface>"
        for last in range(15)
    )
    domain = session.call(
        "DOMAIN_DEFINE_XML",
        "<domain type='qemu'><name>a</name><memory>1</memory><os><type/></os><devices>"
        + given
        + "<interface type='user'/>" * 15
        + "</devices></domain>",
    )
    found = re.findall("<mac address='([^']*)'/>", session.call("DOMAIN_GET_XML_DESC", domain, 2))
    check(30, len(set(found)), "the different addresses of thirty interfaces")
    check([f"52:54:00:00:00:{last:02x}" for last in range(15)], found[:15], "those that were given")


@case("texts", "A text is read down to 32 levels, up to 4,096 elements and up to 65,536 bytes")
def limits(place: Place) -> None:
    session = Session(place)
    rows = [
        ("<a>" * 32 + "</a>" * 32, "/a", "32 levels"),
        ("<a>" * 33, "at 96", "33 levels"),
        ("<a>" + "<b/>" * 4095 + "</a>", "/a", "4,096 elements"),
        ("<a>" + "<b/>" * 4096, f"at {3 + 4 * 4095}", "4,097 elements"),
        ("<a/>" + " " * 65532, "/a", "65,536 bytes"),
    ]
    for text, kept, what in rows:
        check(refusal(27, kept), session.call("DOMAIN_DEFINE_XML", text), what)


@case("texts", "A definition whose own text would have too many elements is refused as a whole")
def grown(place: Place) -> None:
    session = Session(place)
    head = "<domain type='qemu'><name>a</name><memory>1</memory><os><type/></os><devices>"
    for serials, kept in ((4080, None), (4090, "/domain")):
        text = head + "<serial/>" * serials + "</devices></domain>"
        came = session.call("DOMAIN_DEFINE_XML", text)
        if kept is None:
            check("a", came.name, f"a definition with {serials} serials")
        else:
            check(refusal(27, kept), came, f"a definition with {serials} serials")


@case("texts", "Names and texts of other scripts are read and told as they are")
def other_scripts(place: Place) -> None:
    session = Session(place)
    text = (
        "<domain type='qemu'><name>größe</name><title>&#x1F600; 高</title>"
        "<memory>1</memory><os><type/></os></domain>"
    )
    domain = session.call("DOMAIN_DEFINE_XML", text)
    check("größe", domain.name, "the name")
    check(domain, session.call("DOMAIN_LOOKUP_BY_NAME", "größe"), "its lookup")
    check([("größe", "\U0001f600 高")], session.call("TITLES"), "the titles")
