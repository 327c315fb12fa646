"""Each command of the client: the calls that it makes, and what it prints."""

from uuid import UUID

from suite.cases import case
from suite.client import check_done, done
from suite.daemon import Place
from suite.wire import Domain, Object

DEMO = Domain("demo", UUID("00000000-0000-4000-8000-000000000001"))
NET = Object("default", UUID("11111111-2222-4333-8444-555555555501"))
POOL = Object("images", UUID("11111111-2222-4333-8444-555555555502"))
XML = "<domain type='qemu'/>\n"


def domain(name: str = "demo", found: Domain = DEMO):
    """The lookup that each command for a domain begins with."""
    return done("DOMAIN_LOOKUP_BY_NAME", name, gives=(found,))


def network():
    """That of each command for a network."""
    return done("NETWORK_LOOKUP_BY_NAME", NET.name, gives=(NET,))


def pool():
    """That of each command for a pool."""
    return done("POOL_LOOKUP", POOL.name, gives=(POOL,))


def table(*rows: str) -> str:
    """The table of `list`."""
    return "\n".join(["   Id Name                 State", *rows, ""])


def check_command(place: Place, words: str, printed: str, *steps) -> None:
    """A command prints this, also where the daemon's answers come byte by byte."""
    check_done(place, steps, printed, *words.split(" "))
    check_done(place, steps, printed, *words.split(" "), pieces=1)


@case("client", "list shows active domains, or all, by rising name", client=True)
def lists(place: Place) -> None:
    rows = [
        (Domain("web", UUID(int=3), 7), 1),
        (DEMO, 5),
        (Domain("á" * 21, UUID(int=4), 2_147_483_647), 3),
        (Domain("Zoo", UUID(int=5), 12_345), 6),
    ]
    shown = {
        "Zoo": "12345 Zoo                  crashed",
        "demo": "    - demo                 shut off",
        "web": "    7 web                  running",
        "long": f"2147483647 {'á' * 21} paused",
    }
    listed = done("LIST_ALL", gives=(rows,))
    active = table(shown["Zoo"], shown["web"], shown["long"])
    check_command(place, "list", active, listed)
    every = table(shown["Zoo"], shown["demo"], shown["web"], shown["long"])
    check_command(place, "list --all", every, listed)
    check_command(place, "list", table(), done("LIST_ALL", gives=([],)))
    only = table(shown["demo"])
    check_command(place, "list --all", only, done("LIST_ALL", gives=([(DEMO, 5)],)))


@case("client", "dominfo and domstate show a domain", client=True)
def shows(place: Place) -> None:
    info = done("DOMAIN_GET_INFO", DEMO, gives=(5, 1_048_576, 524_288, 2, 0))
    on = done("DOMAIN_GET_AUTOSTART", DEMO, gives=(1,))
    off = done("DOMAIN_GET_AUTOSTART", DEMO, gives=(0,))
    text = (
        "Name:           demo\n"
        "UUID:           00000000-0000-4000-8000-000000000001\n"
        "State:          shut off\n"
        "CPU(s):         2\n"
        "Max memory:     1048576 KiB\n"
        "Used memory:    524288 KiB\n"
        "Autostart:      {}\n"
    )
    check_command(place, "dominfo demo", text.format("enable"), domain(), info, on)
    check_command(place, "dominfo demo", text.format("disable"), domain(), info, off)
    for state, word in ((1, "running"), (3, "paused"), (5, "shut off"), (6, "crashed")):
        info = done("DOMAIN_GET_INFO", DEMO, gives=(state, 1, 1, 1, 0))
        check_command(place, "domstate demo", f"{word}\n", domain(), info)


@case("client", "A definition is read from a file, and named as the daemon names it", client=True)
def defines(place: Place) -> None:
    (place.root / "a.xml").write_text(XML)
    defined = done("DOMAIN_DEFINE_XML", XML, gives=(DEMO,))
    check_command(place, "define a.xml", "Domain demo defined\n", defined)
    created = done("DOMAIN_CREATE_XML", XML, 0, gives=(DEMO,))
    check_command(place, "create a.xml", "Domain demo created\n", created)
    defined = done("NETWORK_DEFINE_XML", XML, gives=(NET,))
    check_command(place, "net-define a.xml", "Network default defined\n", defined)
    defined = done("POOL_DEFINE", XML, gives=(POOL,))
    check_command(place, "pool-define a.xml", "Pool images defined\n", defined)


@case("client", "What is done with a domain is said in a line", client=True)
def acts(place: Place) -> None:
    for verb, procedure, values, line in (
        ("start", "DOMAIN_CREATE", (), "started"),
        ("shutdown", "DOMAIN_SHUTDOWN", (), "being shut down"),
        ("reboot", "DOMAIN_REBOOT", (0,), "being rebooted"),
        ("suspend", "DOMAIN_SUSPEND", (), "suspended"),
        ("resume", "DOMAIN_RESUME", (), "resumed"),
        ("destroy", "DOMAIN_DESTROY", (), "destroyed"),
        ("undefine", "DOMAIN_UNDEFINE", (), "undefined"),
        ("autostart", "DOMAIN_SET_AUTOSTART", (1,), "marked"),
        ("autostart --disable", "DOMAIN_SET_AUTOSTART", (0,), "unmarked"),
    ):
        did = done(procedure, DEMO, *values)
        check_command(place, f"{verb} demo", f"Domain demo {line}\n", domain(), did)


@case("client", "A name is looked up as it is given, and printed as the daemon has it", client=True)
def names(place: Place) -> None:
    other = Domain("Ünïcode ✓", UUID(int=9), 3)
    steps = [domain("-x", other), done("DOMAIN_CREATE", other)]
    check_done(place, steps, "Domain Ünïcode ✓ started\n", "start", "-x")
    steps = [domain("", other), done("DOMAIN_CREATE", other)]
    check_done(place, steps, "Domain Ünïcode ✓ started\n", "start", "")
    long = "n" * 65_536
    steps = [domain(long, other), done("DOMAIN_CREATE", other)]
    check_done(place, steps, "Domain Ünïcode ✓ started\n", "start", long)


@case("client", "Commands with numbers print nothing", client=True)
def numbers(place: Place) -> None:
    memory = done("DOMAIN_SET_MEMORY", DEMO, 9_999_999_999_999_999_999)
    check_command(place, "setmem demo 9999999999999999999", "", domain(), memory)
    memory = done("DOMAIN_SET_MEMORY", DEMO, 0)
    check_command(place, "setmem demo 0", "", domain(), memory)
    vcpus = done("DOMAIN_SET_VCPUS", DEMO, 999_999_999)
    check_command(place, "setvcpus demo 999999999", "", domain(), vcpus)
    check_command(place, "guest-kick demo 5", "", domain(), done("KICK", DEMO, 5))


@case("client", "Devices are attached and detached by the text of a file", client=True)
def devices(place: Place) -> None:
    (place.root / "disk.xml").write_text("<disk/>")
    did = done("DOMAIN_ATTACH_DEVICE", DEMO, "<disk/>")
    check_command(place, "attach-device demo disk.xml", "Device attached\n", domain(), did)
    did = done("DOMAIN_DETACH_DEVICE", DEMO, "<disk/>")
    check_command(place, "detach-device demo disk.xml", "Device detached\n", domain(), did)


@case("client", "Texts are printed as they come", client=True)
def texts(place: Place) -> None:
    text = "<domain>\n  <title>ä&amp;\x01</title>\n</domain>"
    live = done("DOMAIN_GET_XML_DESC", DEMO, 0, gives=(text,))
    check_command(place, "dumpxml demo", text, domain(), live)
    stored = done("DOMAIN_GET_XML_DESC", DEMO, 2, gives=(text,))
    check_command(place, "dumpxml --inactive demo", text, domain(), stored)
    got = done("SNAP_XML", DEMO, "s", gives=(text,))
    check_command(place, "snapshot-dumpxml demo s", text, domain(), got)
    got = done("NETWORK_GET_XML_DESC", NET, 0, gives=(text,))
    check_command(place, "net-dumpxml default", text, network(), got)
    check_command(place, "pool-dumpxml images", text, pool(), done("POOL_XML", POOL, gives=(text,)))
    got = done("VOL_XML", POOL, "v", gives=("",))
    check_command(place, "vol-dumpxml images v", "", pool(), got)


@case("client", "Images are names in the daemon's store, which the client does not read", client=True)
def images(place: Place) -> None:
    did = done("DOMAIN_SAVE", DEMO, "no/such/file")
    check_command(place, "save demo no/such/file", "Domain demo saved\n", domain(), did)
    did = done("DOMAIN_CORE_DUMP", DEMO, "f", 0)
    check_command(place, "dump demo f", "Domain demo dumped\n", domain(), did)
    check_command(place, "restore f", "Domain restored\n", done("DOMAIN_RESTORE", "f"))


@case("client", "The job and the memory of a domain are shown as numbers", client=True)
def jobs(place: Place) -> None:
    job = done("JOB_INFO", DEMO, gives=(2, 5, 18_446_744_073_709_551_615))
    check_command(place, "domjobinfo demo", "2 5 18446744073709551615\n", domain(), job)
    job = done("JOB_INFO", DEMO, gives=(0, 0, 0))
    check_command(place, "domjobinfo demo", "0 0 0\n", domain(), job)
    check_command(place, "domjobabort demo", "", domain(), done("JOB_ABORT", DEMO))
    memory = done("MEMORY_STATS", DEMO, gives=(524_288,))
    check_command(place, "dommemstat demo", "actual 524288\n", domain(), memory)


@case("client", "Snapshots are made, listed, shown, deleted and reverted to", client=True)
def snapshots(place: Place) -> None:
    (place.root / "s.xml").write_text("<domainsnapshot/>")
    made = done("SNAP_CREATE", DEMO, "<domainsnapshot/>", gives=("snap1",))
    line = "Domain snapshot snap1 created\n"
    check_command(place, "snapshot-create demo s.xml", line, domain(), made)
    listed = done("SNAP_LIST", DEMO, gives=(["s1", "s 2", "é"],))
    check_command(place, "snapshot-list demo", "s1\ns 2\né\n", domain(), listed)
    listed = done("SNAP_LIST", DEMO, gives=([],))
    check_command(place, "snapshot-list demo", "", domain(), listed)
    parent = done("SNAP_PARENT", DEMO, "s2", gives=("s1",))
    check_command(place, "snapshot-parent demo s2", "s1\n", domain(), parent)
    parent = done("SNAP_PARENT", DEMO, "s1", gives=(None,))
    check_command(place, "snapshot-parent demo s1", "", domain(), parent)
    line = "Domain snapshot s1 deleted\n"
    check_command(place, "snapshot-delete demo s1", line, domain(), done("SNAP_DELETE", DEMO, "s1", 0))
    deleted = done("SNAP_DELETE", DEMO, "s1", 1)
    check_command(place, "snapshot-delete --children demo s1", line, domain(), deleted)
    check_command(place, "snapshot-revert demo s1", "", domain(), done("SNAP_REVERT", DEMO, "s1"))


@case("client", "Networks are listed, the active ones first, and what is done with one is said", client=True)
def networks(place: Place) -> None:
    active = done("CONNECT_LIST_NETWORKS", 1024, gives=(["b", "z"],))
    inactive = done("CONNECT_LIST_DEFINED_NETWORKS", 1024, gives=(["a"],))
    check_command(place, "net-list", "b\nz\na\n", active, inactive)
    for verb, procedure, values, line in (
        ("start", "NETWORK_CREATE", (), "started"),
        ("destroy", "NETWORK_DESTROY", (), "destroyed"),
        ("undefine", "NETWORK_UNDEFINE", (), "undefined"),
        ("autostart", "NETWORK_SET_AUTOSTART", (1,), "marked"),
    ):
        did = done(procedure, NET, *values)
        check_command(place, f"net-{verb} default", f"Network default {line}\n", network(), did)
    rows = [("52:54:00:12:34:56", "10.0.0.2"), ("52:54:00:00:00:01", "255.1.0.3")]
    leases = done("LEASES", NET, gives=(rows,))
    lines = "52:54:00:12:34:56 10.0.0.2\n52:54:00:00:00:01 255.1.0.3\n"
    check_command(place, "net-leases default", lines, network(), leases)


@case("client", "Pools and volumes are listed, and what is done with one is said", client=True)
def pools(place: Place) -> None:
    (place.root / "v.xml").write_text("<volume/>")
    listed = done("POOL_LIST", gives=([(POOL, 1), (Object("p2", UUID(int=2)), 0)],))
    check_command(place, "pool-list", "images active\np2 inactive\n", listed)
    for verb, procedure, values, line in (
        ("start", "POOL_CREATE", (), "started"),
        ("destroy", "POOL_DESTROY", (), "destroyed"),
        ("undefine", "POOL_UNDEFINE", (), "undefined"),
        ("autostart", "POOL_AUTOSTART", (1,), "marked"),
    ):
        did = done(procedure, POOL, *values)
        check_command(place, f"pool-{verb} images", f"Pool images {line}\n", pool(), did)
    made = done("VOL_CREATE", POOL, "<volume/>", gives=("v1",))
    check_command(place, "vol-create images v.xml", "Vol v1 created\n", pool(), made)
    listed = done("VOL_LIST", POOL, gives=(["v1", "v2"],))
    check_command(place, "vol-list images", "v1\nv2\n", pool(), listed)
    deleted = done("VOL_DELETE", POOL, "v1")
    check_command(place, "vol-delete images v1", "Vol v1 deleted\n", pool(), deleted)
