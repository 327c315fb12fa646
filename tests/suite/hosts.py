"""Two daemons, each a process with a store of its own, between which a guest is moved by hand.

The one that has the guest is asked to perform, and gives what the other is to prepare; then the
other is told to finish, and the first one that the guest arrived, or that it did not.
"""

from suite.cases import case, check
from suite.daemon import Place, Session
from suite.samples import definition, named
from suite.wire import Domain, refusal

RUNNING, PAUSED, SHUT_OFF = 1, 3, 5

#: The kinds of operations, as JOB_INFO tells them.
MIGRATE_OUT, MIGRATE_IN = 7, 8


class Hosts:
    """Two daemons; the first one runs the guest of a stored domain."""

    def __init__(self, place: Place, script: str = ""):
        self.place = place
        for name in ("first", "second"):
            (place.root / name).mkdir()
        self.first = self.start("first")
        self.second = self.start("second")
        self.guest = named("guest", 15)
        self.first.call("DOMAIN_DEFINE_XML", definition(self.guest, script, memory=2048))
        check(None, self.first.call("DOMAIN_CREATE", self.guest), "a start")
        check(None, self.first.call("DOMAIN_SET_MEMORY", self.guest, 1536), "its memory")

    def start(self, name: str) -> Session:
        """Start the daemon on the store of this name."""
        return Session(self.place, "stdio", self.place.root / name)

    def perform(self) -> tuple[object, ...]:
        """Copy the guest off the first host: its definition, whether it ran, and its state."""
        return self.first.call("MIGRATE_PERFORM", self.guest)

    def carry(self) -> tuple[object, ...]:
        """Copy the guest off the first host, and prepare it on the second."""
        copied = self.perform()
        arrived = self.second.call("MIGRATE_PREPARE", *copied)
        check(self.moved(), arrived, "what was prepared")
        return copied

    def moved(self, boot: int = 1) -> Domain:
        """The guest as a host tells it that has it in this boot."""
        return Domain(self.guest.name, self.guest.identifier, boot)

    def state(self, host: Session) -> object:
        """In which state a host has the guest, or why it does not have it."""
        info = host.call("DOMAIN_GET_INFO", self.guest)
        return info[0] if isinstance(info, tuple) else info


def absent(hosts: Hosts):
    """How a host refuses that does not know the guest."""
    return refusal(42, str(hosts.guest.identifier))


@case("hosts", "A guest leaves one host and goes on at the other, with the memory that it had")
def moved(place: Place) -> None:
    hosts = Hosts(place, "slow 2")
    text, ran, state = hosts.perform()
    check((1, (1536).to_bytes(8, "big")), (ran, state), "whether it ran, and its state")
    check(PAUSED, hosts.state(hosts.first), "its state once it is copied")
    job = hosts.first.call("JOB_INFO", hosts.guest)
    check((MIGRATE_OUT, 0), (job[0], job[2]), "its operation, and what is left of the copy")
    check(absent(hosts), hosts.state(hosts.second), "the other host before it")
    check(hosts.moved(), hosts.second.call("MIGRATE_PREPARE", text, ran, state), "the prepare")
    check(PAUSED, hosts.state(hosts.second), "its state before it goes on")
    check(MIGRATE_IN, hosts.second.call("JOB_INFO", hosts.guest)[0], "its operation there")
    check(None, hosts.second.call("MIGRATE_FINISH", hosts.guest, 1), "the finish")
    check(None, hosts.first.call("MIGRATE_CONFIRM", hosts.guest, 1), "the confirm")
    check((1, 2048, 1536, 1, 0), hosts.second.call("DOMAIN_GET_INFO", hosts.guest), "the guest")
    check(1536, hosts.second.call("MEMORY_STATS", hosts.guest), "what the guest has")
    check(SHUT_OFF, hosts.state(hosts.first), "the domain that it left")
    check(refusal(55, "shut off"), hosts.first.call("MIGRATE_CONFIRM", hosts.guest, 1), "again")


@case("hosts", "A guest that is not let go on goes on where it was")
def not_let_go_on(place: Place) -> None:
    hosts = Hosts(place)
    hosts.carry()
    check(None, hosts.second.call("MIGRATE_FINISH", hosts.guest, 0), "the finish")
    check(absent(hosts), hosts.state(hosts.second), "the other host")
    check(None, hosts.first.call("MIGRATE_CONFIRM", hosts.guest, 0), "the confirm")
    check((1, 2048, 1536, 1, 0), hosts.first.call("DOMAIN_GET_INFO", hosts.guest), "the guest")


@case("hosts", "A guest that was paused is paused at the other host, and where it was not taken")
def paused(place: Place) -> None:
    hosts = Hosts(place)
    check(None, hosts.first.call("DOMAIN_SUSPEND", hosts.guest), "a suspend")
    for finish, confirm in ((0, 0), (1, 1)):
        copied = hosts.carry() if finish == 0 else hosts.perform()
        check(0, copied[1], "whether it ran")
        if finish == 1:
            boot = hosts.second.call("MIGRATE_PREPARE", *copied)
            check(hosts.moved(2), boot, "what was prepared the second time")
        check(None, hosts.second.call("MIGRATE_FINISH", hosts.guest, finish), "the finish")
        check(None, hosts.first.call("MIGRATE_CONFIRM", hosts.guest, confirm), "the confirm")
        check(PAUSED, hosts.state(hosts.second if finish else hosts.first), "the guest")
    check(SHUT_OFF, hosts.state(hosts.first), "the domain that it left")


@case("hosts", "What a migration admits, and which of its calls come at the wrong time")
def calls_between(place: Place) -> None:
    hosts = Hosts(place)
    first, second, guest = hosts.first, hosts.second, hosts.guest
    check(refusal(55, "running"), first.call("MIGRATE_LIMIT", guest, 0), "a limit without a copy")
    check(refusal(55, "running"), first.call("MIGRATE_CONFIRM", guest, 1), "a confirm before it")
    check(refusal(55, "running"), first.call("MIGRATE_FINISH", guest, 1), "a finish before it")
    hosts.carry()
    check(refusal(55, "paused"), first.call("DOMAIN_SUSPEND", guest), "a suspend of what rests")
    check(refusal(68, "migrate-out"), first.call("DOMAIN_RESUME", guest), "a resume")
    check(refusal(68, "migrate-out"), first.call("MIGRATE_PERFORM", guest), "a second copy")
    check(refusal(55, "paused"), first.call("MIGRATE_FINISH", guest, 1), "a finish")
    check(refusal(55, "paused"), first.call("JOB_ABORT", guest), "an abort of what rests")
    check(refusal(68, "migrate-in"), second.call("DOMAIN_SUSPEND", guest), "a suspend there")
    check(refusal(55, "paused"), second.call("MIGRATE_CONFIRM", guest, 1), "a confirm there")
    check(refusal(8, "2 1"), second.call("MIGRATE_FINISH", guest, 2), "neither yes nor no")
    check(refusal(8, "-1 0"), second.call("MIGRATE_FINISH", guest, -1), "neither, below")
    check(refusal(8, "2 1"), first.call("MIGRATE_CONFIRM", guest, 2), "neither, of a confirm")
    check(None, second.call("MIGRATE_FINISH", guest, 1), "the finish")
    check(None, first.call("MIGRATE_CONFIRM", guest, 1), "the confirm")


@case("hosts", "The other host is killed before it finishes, and the guest goes on where it was")
def killed_there(place: Place) -> None:
    hosts = Hosts(place)
    hosts.carry()
    hosts.second.kill()
    check(None, hosts.first.call("MIGRATE_CONFIRM", hosts.guest, 0), "the confirm")
    check((1, 2048, 1536, 1, 0), hosts.first.call("DOMAIN_GET_INFO", hosts.guest), "the guest")
    again = hosts.start("second")
    check(absent(hosts), hosts.state(again), "the other host, started anew")
    ended = again.finish()
    check("was running guest boot 1\n", ended.stderr, "what the other host says of it")
    copied = hosts.perform()
    third = hosts.start("second")
    check(hosts.moved(), third.call("MIGRATE_PREPARE", *copied), "the second prepare")
    check(None, third.call("MIGRATE_FINISH", hosts.guest, 1), "the finish")
    check(RUNNING, hosts.state(third), "the guest")


@case("hosts", "The first host is killed once the guest is copied, and it goes on at the other")
def killed_here(place: Place) -> None:
    hosts = Hosts(place)
    hosts.carry()
    hosts.first.kill()
    check(None, hosts.second.call("MIGRATE_FINISH", hosts.guest, 1), "the finish")
    check((1, 2048, 1536, 1, 0), hosts.second.call("DOMAIN_GET_INFO", hosts.guest), "the guest")
    again = hosts.start("first")
    check(SHUT_OFF, hosts.state(again), "the domain at the first host, started anew")
    rests_no_more = again.call("MIGRATE_CONFIRM", hosts.guest, 1)
    check(refusal(55, "shut off"), rests_no_more, "a confirm after it")
    check("was running guest boot 1\n", again.finish().stderr, "what the first host says of it")


@case("hosts", "A guest whose copy stalls stays where it is")
def stalled(place: Place) -> None:
    hosts = Hosts(place, "stall")
    check(refusal(207, "1"), hosts.perform(), "a copy that stalls")
    check(RUNNING, hosts.state(hosts.first), "the guest")


@case("hosts", "A guest whose state the other host can not take does not come")
def refused_there(place: Place) -> None:
    hosts = Hosts(place)
    text, ran, state = hosts.perform()
    check(refusal(8, "2 1"), hosts.second.call("MIGRATE_PREPARE", text, 2, state), "neither ran")
    came = hosts.second.call("MIGRATE_PREPARE", text, ran, state + b"\0")
    check(refusal(9, "class 2"), came, "a state of nine bytes")
    check(absent(hosts), hosts.state(hosts.second), "the other host")
    check(None, hosts.first.call("MIGRATE_CONFIRM", hosts.guest, 0), "the confirm")
    check(RUNNING, hosts.state(hosts.first), "the guest")


@case("hosts", "A guest comes to a host that has its definition, and leaves it stored there")
def stored_there(place: Place) -> None:
    hosts = Hosts(place)
    hosts.second.call("DOMAIN_DEFINE_XML", definition(hosts.guest, memory=4096))
    hosts.carry()
    check(None, hosts.second.call("MIGRATE_FINISH", hosts.guest, 1), "the finish")
    check((1, 2048, 1536, 1, 0), hosts.second.call("DOMAIN_GET_INFO", hosts.guest), "the guest")
    check(None, hosts.second.call("DOMAIN_DESTROY", hosts.guest), "a destroy")
    check((5, 4096, 4096, 1, 0), hosts.second.call("DOMAIN_GET_INFO", hosts.guest), "the domain")


@case("hosts", "A guest goes from host to host and back, and both stores stay as they were")
def to_and_fro(place: Place) -> None:
    hosts = Hosts(place)
    sides = [hosts.first, hosts.second]
    for _ in range(4):
        here, there = sides
        copied = here.call("MIGRATE_PERFORM", hosts.guest)
        there.call("MIGRATE_PREPARE", *copied)
        check(None, there.call("MIGRATE_FINISH", hosts.guest, 1), "the finish")
        check(None, here.call("MIGRATE_CONFIRM", hosts.guest, 1), "the confirm")
        check(RUNNING, hosts.state(there), "the guest")
        sides.reverse()
    check(1536, hosts.first.call("MEMORY_STATS", hosts.guest), "what the guest has")
    check([], hosts.second.call("CONNECT_LIST_DEFINED_DOMAINS", 10), "what the second host stores")
    check(0, hosts.first.finish().status, "the exit status of the first")
    check(0, hosts.second.finish().status, "the exit status of the second")
