"""Slots and lists that are full, and the ends of what may wait."""

from suite.cases import case, check
from suite.daemon import Place, Session
from suite.samples import definition, disk, interface, named
from suite.wire import Domain, refusal, value_of

MOST_DOMAINS = 256
MOST_SNAPSHOTS = 64

#: The slots of a guest's devices: 0x02 to 0x1f.
SLOTS = range(0x02, 0x20)


def _running(session: Session) -> Domain:
    domain = named("a", 1)
    check(domain, session.call("DOMAIN_DEFINE_XML", definition(domain)), "a definition")
    check(None, session.call("DOMAIN_CREATE", domain), "a start")
    return domain


@case("fullness", "A daemon holds 256 domains, and the next one once one of them is gone")
def domains(place: Place) -> None:
    session = Session(place, "stdio", place.directory)
    for number in range(MOST_DOMAINS):
        domain = named(f"n{number:03}", number)
        check(domain, session.call("DOMAIN_DEFINE_XML", definition(domain)), f"domain {number}")
    more = named("more", 999)
    full = refusal(204, "256")
    check(full, session.call("DOMAIN_DEFINE_XML", definition(more)), "one more")
    check(full, session.call("DOMAIN_CREATE_XML", definition(more), 0), "one more that runs")
    last = named("n255", 255)
    check(last, session.call("DOMAIN_DEFINE_XML", definition(last)), "one that is there already")
    check(None, session.call("DOMAIN_UNDEFINE", last), "an undefine")
    check(more, session.call("DOMAIN_DEFINE_XML", definition(more)), "another one in its place")
    check(MOST_DOMAINS, len(session.call("LIST_ALL")), "how many are listed")
    check(0, session.finish().status, "the exit status")
    again = Session(place)
    check(MOST_DOMAINS, len(again.call("LIST_ALL")), "how many the next daemon lists")


@case("fullness", "A directory with a definition too many is damaged at the last of its files")
def files(place: Place) -> None:
    for number in range(MOST_DOMAINS + 1):
        domain = named(f"n{number:03}", number)
        text = definition(domain)
        head = f"def 2 autostart=no name={domain.name}\ntitle=\nlength={len(text)}\n"
        (place.directory / f"domain-{domain.identifier}.def").write_text(head + text)
    last = f"domain-{named('n256', 256).identifier}.def"
    ended = Session(place).finish()
    check(f"virtd: damaged {last}\n", ended.stderr, "standard error")
    check(6, ended.status, "the exit status")
    ended = place.run("check", place.directory)
    check(MOST_DOMAINS + 1, ended.unread.count(b" ok\n"), "how many files are well by themselves")
    check(0, ended.status, "the status of `virtd check`")


def _slot(name: str, slot: int) -> str:
    return (
        f"    <disk type='file' device='disk'>\n      <target dev='{name}'/>\n"
        f"      <address type='pci' domain='0x0000' bus='0x00' slot='0x{slot:02x}'"
        " function='0x0'/>\n    </disk>\n"
    )


@case("fullness", "A guest has 30 slots, which are taken from the least")
def slots(place: Place) -> None:
    session = Session(place)
    domain = _running(session)
    names = {slot: f"d{slot:02}" for slot in SLOTS}
    for name in names.values():
        check(None, session.call("DOMAIN_ATTACH_DEVICE", domain, disk(name)), f"disk {name}")
    for device in (disk("more"), interface(1)):
        check(refusal(209), session.call("DOMAIN_ATTACH_DEVICE", domain, device), "one more")
    check(None, session.call("DOMAIN_DETACH_DEVICE", domain, disk(names[5])), "a detach")
    check(None, session.call("DOMAIN_ATTACH_DEVICE", domain, disk("more")), "one in its place")
    del names[5]
    wanted = "".join(_slot(name, slot) for slot, name in names.items()) + _slot("more", 5)
    text = session.call("DOMAIN_GET_XML_DESC", domain, 0)
    check(wanted, text[text.index("    <disk") : text.index("  </devices>")], "the disks' slots")


@case("fullness", "A domain has 64 snapshots, and the next one once one of them is gone")
def snapshots(place: Place) -> None:
    session = Session(place)
    domain = _running(session)
    for number in range(1, MOST_SNAPSHOTS + 1):
        came = session.call("SNAP_CREATE", domain, "<domainsnapshot/>")
        check(f"snap{number}", came, "the name of a snapshot")
    full = refusal(204, "64")
    check(full, session.call("SNAP_CREATE", domain, "<domainsnapshot/>"), "one more")
    check(None, session.call("SNAP_DELETE", domain, "snap7", 0), "a deletion")
    check("snap7", session.call("SNAP_CREATE", domain, "<domainsnapshot/>"), "one in its place")
    names = sorted(f"snap{number}" for number in range(1, MOST_SNAPSHOTS + 1))
    check(names, session.call("SNAP_LIST", domain), "the names")


@case("fullness", "A definition of 31 devices is refused, and one of 30 is started")
def devices(place: Place) -> None:
    session = Session(place)
    domain = named("a", 1)
    thirty = "".join(disk(f"d{number}") for number in range(30))
    text = definition(domain, devices=thirty + interface(1))
    check(refusal(27, "/domain/devices"), session.call("DOMAIN_DEFINE_XML", text), "31 devices")
    check(domain, session.call("DOMAIN_DEFINE_XML", definition(domain, devices=thirty)), "30")
    check(None, session.call("DOMAIN_CREATE", domain), "a start")
    check(refusal(209), session.call("DOMAIN_ATTACH_DEVICE", domain, disk("more")), "one more")


@case("fullness", "What an operation that rests excludes is answered after 30 looks")
def looks(place: Place) -> None:
    session = Session(place)
    domain = _running(session)
    session.call("MIGRATE_PERFORM", domain)
    came = session.call("DOMAIN_SET_MEMORY", domain, 512)
    check(refusal(68, "migrate-out"), came, "a call that the operation excludes")
    check(None, session.call("MIGRATE_CONFIRM", domain, 0), "the confirm")
    check(None, session.call("DOMAIN_SET_MEMORY", domain, 512), "the same call after it")


@case("fullness", "A domain goes on once its history has begun another chapter")
def chapters(place: Place) -> None:
    session = Session(place)
    domain = _running(session)
    # each of these calls leaves two marks, and a chapter ends behind 4,096
    serials = [
        session.begin("DOMAIN_SET_MEMORY", domain, number % 1024 + 1) for number in range(2100)
    ]
    for number, serial in enumerate(serials):
        check(None, value_of(session.reply_of(serial)), f"call {number}")
    check(None, session.call("DOMAIN_SET_MEMORY", domain, 77), "one more call")
    check((1, 1024, 77, 1, 0), session.call("DOMAIN_GET_INFO", domain), "the domain")
    check(None, session.call("DOMAIN_DESTROY", domain), "a destroy")
    check(None, session.call("DOMAIN_CREATE", domain), "a start")
    looked_up = session.call("DOMAIN_LOOKUP_BY_NAME", domain.name)
    check(2, looked_up.number, "its boot, which is counted on")
