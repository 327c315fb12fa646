"""The daemon is killed, and what it acknowledged is there.

The moments are given by replies: so many of them have come, and the daemon is at work on what was
asked beside them. What the directory then holds is read by the suite itself, by `virtd check`, and
by the next daemon.
"""

import random
from dataclasses import dataclass, field
from pathlib import Path

from suite.cases import Failed, case, check
from suite.daemon import Place, Session
from suite.directory import Change, Drop, Entry, Map, Mark, Put, judge, read_directory
from suite.samples import definition, named
from suite.wire import Domain, Refusal, show

#: How many changes, or suspends and resumes, are asked for at once, before a kill.
BURST = 12

#: How many kills there are under suspends and resumes.
STATUS_KILLS = 40


def text_of(place: Place, domain: Domain) -> str:
    """The text that is stored of the definition that `definition` gives of this domain."""
    session = Session(place, "demo")
    session.call("DOMAIN_DEFINE_XML", definition(domain))
    return str(session.call("DOMAIN_GET_XML_DESC", domain, 2))


class Changes:
    """Changes of a few domains, drawn at random, as calls and as what they do to the map."""

    def __init__(self, place: Place, chance: random.Random):
        self._chance = chance
        self.domains = [named(f"web{number}", number) for number in range(6)]
        self._texts = {domain: text_of(place, domain) for domain in self.domains}

    def draw(self, stored: set[Domain]) -> tuple[tuple[object, ...], Change]:
        """A call, and the change that it makes. `stored` says what is there, and is kept so."""
        domain = self._chance.choice(self.domains)
        kind = self._chance.choice(("define", "define", "mark", "undefine"))
        if domain not in stored or kind == "define":
            stored.add(domain)
            entry = Entry(domain.name, False, "", self._texts[domain])
            return ("DOMAIN_DEFINE_XML", definition(domain)), Put(domain.identifier, entry)
        if kind == "mark":
            flag = self._chance.randrange(2)
            return ("DOMAIN_SET_AUTOSTART", domain, flag), Mark(domain.identifier, flag == 1)
        stored.remove(domain)
        return ("DOMAIN_UNDEFINE", domain), Drop(domain.identifier)


def check_directory(place: Place, found: Map) -> None:
    """`virtd check` says of the files what the suite has read."""
    ended = place.run("check", place.directory)
    lines = [line for line in ended.unread.decode().splitlines() if not line.startswith("was ")]
    wanted = [f"domain {found[one].name} {one} ok" for one in sorted(found, key=str)]
    check(wanted, lines, "the lines of `virtd check`")
    check(0, ended.status, "the status of `virtd check`")


def check_next_daemon(place: Place, found: Map) -> None:
    """The next daemon has just the definitions that are found."""
    session = Session(place)
    rows = session.call("LIST_ALL")
    check(sorted(entry.name for entry in found.values()), [row[0].name for row in rows], "the list")
    for domain, _ in rows:
        entry = found[domain.identifier]
        check(int(entry.autostart), session.call("DOMAIN_GET_AUTOSTART", domain), "autostart")
        check(entry.text, session.call("DOMAIN_GET_XML_DESC", domain, 2), "the stored text")
    check(0, session.finish().status, "the exit status")


def _burst_and_kill(
    place: Place, draw: Changes, stored: set[Domain], waits: int
) -> tuple[list[Change], int]:
    """Ask for a burst of changes, kill after so many replies; the changes and the replies."""
    session = Session(place)
    changes = []
    serials = []
    for _ in range(BURST):
        (name, *values), change = draw.draw(stored)
        changes.append(change)
        serials.append(session.begin(name, *values))
    replies = [session.reply_of(serial) for serial in serials[:waits]]
    session.kill()
    replies += session.left()
    for packet in replies:
        if packet.status != 0:
            raise Failed(f"a change is refused: {show(packet)}")
    return changes, len(replies)


@case("kills", "A kill after so many replies leaves the first changes, with each answered one")
def among_changes(place: Place) -> None:
    chance = random.Random(19)
    draw = Changes(place, chance)
    for waits in range(BURST + 1):
        base = read_directory(place.directory)
        stored = {domain for domain in draw.domains if domain.identifier in base}
        changes, replies = _burst_and_kill(place, draw, stored, waits)
        found = read_directory(place.directory)
        judge(base, changes, replies, found)
        check_directory(place, found)
        check_next_daemon(place, found)


@case("kills", "A kill at its start leaves the files of definitions as they were")
def at_its_start(place: Place) -> None:
    domain = named("a", 1)
    session = Session(place)
    session.call("DOMAIN_DEFINE_XML", definition(domain))
    session.call("DOMAIN_SET_AUTOSTART", domain, 1)
    check(0, session.finish().status, "the exit status")
    before = read_directory(place.directory)
    for _ in range(8):
        Session(place).kill()
        check(before, read_directory(place.directory), "the definitions")
    check_next_daemon(place, before)


@case("kills", "A kill at its start leaves a definition of version 1, or the same in version 2")
def at_a_rewriting(place: Place) -> None:
    domain = named("a", 1)
    text = definition(domain)
    path = place.directory / f"domain-{domain.identifier}.def"
    for waits in range(8):
        path.write_text(f"def 1 autostart=no name=a\n{text}")
        session = Session(place)
        if waits % 2:
            check(None, session.call("CONNECT_OPEN", None, 0), "a connection")
        session.kill()
        found = read_directory(place.directory)
        check({domain.identifier: Entry("a", False, "", text)}, found, "the definitions")
        check_directory(place, found)


@case("kills", "A guest that ran as its daemon was killed is told of by the next one, once")
def told_of(place: Place) -> None:
    domain = named("a", 1)
    session = Session(place)
    session.call("DOMAIN_DEFINE_XML", definition(domain))
    for _ in range(2):
        session.call("DOMAIN_CREATE", domain)
        session.call("DOMAIN_DESTROY", domain)
    session.call("DOMAIN_CREATE", domain)
    session.kill()
    status = place.directory / f"run-{domain.identifier}.sta"
    wanted = b"run 1 boot=3 state=1 op=0 phase=0 name=a\n"
    check(wanted, status.read_bytes(), "the status file")
    ended = place.run("check", place.directory)
    lines = f"domain a {domain.identifier} ok\nwas running a boot 3\n"
    check(lines, ended.unread.decode(), "the lines of `virtd check`")
    check("was running a boot 3\n", place.run("stdio", place.directory).stderr, "what is said")
    check("", place.run("stdio", place.directory).stderr, "what is said by the one after")


@case("kills", "A guest that had ended as its daemon was killed is not told of")
def not_told_of(place: Place) -> None:
    domain = named("a", 1)
    session = Session(place)
    session.call("DOMAIN_DEFINE_XML", definition(domain))
    session.call("DOMAIN_CREATE", domain)
    session.call("DOMAIN_DESTROY", domain)
    session.kill()
    check("", place.run("stdio", place.directory).stderr, "what is said by the next")


@case("kills", "A guest that was started again after it was paused is told of by its last boot")
def told_of_last_boot(place: Place) -> None:
    domain = named("a", 1)
    session = Session(place)
    session.call("DOMAIN_DEFINE_XML", definition(domain))
    session.call("DOMAIN_CREATE", domain)
    session.call("DOMAIN_SUSPEND", domain)
    status = place.directory / f"run-{domain.identifier}.sta"
    paused = b"run 1 boot=1 state=3 op=0 phase=0 name=a\n"
    check(paused, status.read_bytes(), "the status file of a paused guest")
    session.call("DOMAIN_DESTROY", domain)
    check(False, status.exists(), "whether a status file is there of a domain without a guest")
    session.call("DOMAIN_CREATE", domain)
    session.kill()
    ended = place.run("check", place.directory)
    lines = f"domain a {domain.identifier} ok\nwas running a boot 2\n"
    check(lines, ended.unread.decode(), "the lines of `virtd check`")


@dataclass
class Guest:
    """A guest that runs in its first boot: by each of its calls whether it is paused then."""

    domain: Domain
    calls: dict[int, bool] = field(default_factory=dict)

    def begin_next(self, session: Session) -> int:
        """Ask for it to be suspended, or, where it is by then, resumed; the call's serial."""
        paused = list(self.calls.values())[-1:] == [True]
        serial = session.begin("DOMAIN_RESUME" if paused else "DOMAIN_SUSPEND", self.domain)
        self.calls[serial] = not paused
        return serial

    def judge_status(self, directory: Path, answered: set[int]) -> bool:
        """Whether it is reported, by its last status.

        That is the one after the last answered call or after a later one. Only where a call of it
        is not answered there may be none.
        """
        path = directory / f"run-{self.domain.identifier}.sta"
        done = sum(serial in answered for serial in self.calls)
        if not path.exists():
            check(True, done < len(self.calls), "that a guest without a report has an open call")
            return False
        wanted = {
            f"run 1 boot=1 state={3 if paused else 1} op=0 phase=0 name={self.domain.name}\n"
            for paused in [False, *self.calls.values()][done:]
        }
        if path.read_text() not in wanted:
            raise Failed(f"{path.name} is {path.read_text()!r}, and is to be of {sorted(wanted)}")
        return True


@case("kills", "A kill under suspends and resumes leaves of each guest its last status, or none")
def among_suspends(place: Place) -> None:
    chance = random.Random(21)
    domains = [named(f"web{number}", number) for number in range(4)]
    first = Session(place)
    for domain in domains:
        first.call("DOMAIN_DEFINE_XML", definition(domain))
    check(0, first.finish().status, "the exit status")
    for _ in range(STATUS_KILLS):
        session = Session(place)
        guests = [Guest(domain) for domain in domains]
        for guest in guests:
            check(None, session.call("DOMAIN_CREATE", guest.domain), "a start")
        serials = [chance.choice(guests).begin_next(session) for _ in range(BURST)]
        replies = [session.reply_of(one) for one in serials[: chance.randrange(BURST + 1)]]
        session.kill()
        replies += session.left()
        for packet in replies:
            check(0, packet.status, "the status of a reply")
        answered = {packet.serial for packet in replies}
        told = [guest for guest in guests if guest.judge_status(place.directory, answered)]
        lines = [f"domain {domain.name} {domain.identifier} ok" for domain in domains]
        lines += [f"was running {guest.domain.name} boot 1" for guest in told]
        ended = place.run("check", place.directory)
        check(lines, ended.unread.decode().splitlines(), "the lines of `virtd check`")


@case("kills", "An image that was acknowledged is restored by the next daemon")
def saved(place: Place) -> None:
    domain = named("a", 1)
    session = Session(place)
    session.call("DOMAIN_CREATE_XML", definition(domain, memory=2048), 0)
    session.call("DOMAIN_SET_MEMORY", domain, 1500)
    check(None, session.call("DOMAIN_SAVE", domain, "s"), "a save")
    session.kill()
    again = Session(place)
    check(None, again.call("DOMAIN_RESTORE", "s"), "a restore")
    check((1, 2048, 1500, 1, 0), again.call("DOMAIN_GET_INFO", domain), "how it runs")
    check(1500, again.call("MEMORY_STATS", domain), "what its guest has")


@case("kills", "A kill during a save leaves the whole image or none")
def during_a_save(place: Place) -> None:
    domain = named("a", 1)
    for _ in range(6):
        session = Session(place)
        session.call("DOMAIN_CREATE_XML", definition(domain, script="slow 3"), 0)
        session.begin("DOMAIN_SAVE", domain, "s")
        session.kill()
        again = Session(place)
        has_image = (place.directory / "s.img").exists()
        came = again.call("DOMAIN_RESTORE", "s")
        if has_image:
            check(None, came, "the restore of an image")
        elif not isinstance(came, Refusal):
            raise Failed("an image was restored that is not there")
        check(0, again.finish().status, "the exit status")
        (place.directory / "s.img").unlink(missing_ok=True)


@case("kills", "Two hundred rounds of changes and kills on one directory", long=True)
def many_rounds(place: Place) -> None:
    chance = random.Random(20)
    draw = Changes(place, chance)
    for _ in range(200):
        base = read_directory(place.directory)
        stored = {domain for domain in draw.domains if domain.identifier in base}
        changes, replies = _burst_and_kill(place, draw, stored, chance.randrange(BURST + 1))
        judge(base, changes, replies, read_directory(place.directory))
    check_next_daemon(place, read_directory(place.directory))
