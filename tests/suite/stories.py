"""The stories of tests/stories/: what a client asks of a daemon, line by line, and is answered.

A line is turned into a call, the reply into the notation, and the two are compared. The first line
on which they differ fails the story.
"""

from pathlib import Path

from suite.cases import Case, Failed, check, register
from suite.daemon import Hang, NoReply, Place
from suite.story_hosts import Host
from suite.story_reading import Exchange, Line, Story, exchange_of, stories_of
from suite.story_replies import SLOTS, reply_text, state_text
from suite.story_requests import Leaving, Request, Words, request_of
from suite.wire import Domain, Malformed, Packet, Refusal, show, value_of

STORIES = Path(__file__).resolve().parents[1] / "stories"


class Player:
    """Plays one story: its hosts, the guest that left last, and the domain that was named last."""

    def __init__(self, place: Place, story: Story):
        self._story = story
        self._second = Place(place.binary, place.root / "second host")
        self._hosts = {"1": Host(place), "2": Host(self._second)}
        self._host = self._hosts["1"]
        self._left: Leaving | None = None
        self._named: Domain | None = None

    def play(self) -> None:
        """Play all lines, and end the daemons."""
        try:
            self._play_all(self._story.lines)
            for host in self._hosts.values():
                host.stop()
        finally:
            self._second.close()

    def _play_all(self, lines: list[Line]) -> None:
        for line in lines:
            where = f"tests/stories/{self._story.file}:{line.number}: {line.text}"
            try:
                self._play(line, where)
            except (Hang, NoReply, Malformed) as fault:
                raise Failed(f"{where}\n  {fault}") from fault

    def _play(self, line: Line, where: str) -> None:
        words = Words(line.text)
        match words[0]:
            case "host":
                self._host = self._hosts[words[1]]
            case "end":
                check(line.said, self._host.end(), where)
            case "check":
                check(line.said, self._host.checked(), where)
            case "close":
                self._close(line, where)
            case "put":
                self._host.put(words[1], words.after(2).replace("\\n", "\n").encode())
            case "put-bytes":
                self._host.put(words[1], bytes.fromhex(words.after(2)))
            case "block":
                self._host.block(words[1])
            case "unblock":
                self._host.unblock(words[1])
            case _ if words.get(1) == "rounds":
                for _ in range(words.number(0)):
                    self._play_all(line.inner)
            case _:
                exchange = exchange_of(line)
                for _ in range(exchange.times):
                    self._exchange(exchange, where)

    def _close(self, line: Line, where: str) -> None:
        packet, said = self._host.close()
        wanted = exchange_of(Line(line.number, line.text)).reply
        self._compare(wanted, reply_text("CONNECT_CLOSE", value_of(packet)), where, packet)
        check(line.said, said, where)

    def _exchange(self, exchange: Exchange, where: str) -> None:
        request = request_of(exchange.request, self._left)
        packet = self._host.ask(request.procedure, *request.arguments)
        value = value_of(packet)
        self._remember(request, value)
        teller = SLOTS if exchange.request.startswith("slots ") else request.procedure
        self._compare(exchange.reply, reply_text(teller, value), where, packet)
        if exchange.state is not None:
            packet = self._host.ask("DOMAIN_GET_INFO", self._named)
            state = state_text(value_of(packet))
            self._compare(exchange.state, state, f"{where}: the state", packet)

    def _remember(self, request: Request, value: object) -> None:
        self._named = request.domain or (value if isinstance(value, Domain) else self._named)
        if request.procedure == "MIGRATE_PERFORM" and not isinstance(value, Refusal):
            self._left = Leaving(*value)

    def _compare(self, wanted: str, came: str, where: str, packet: Packet) -> None:
        try:
            check(wanted, came, where)
        except Failed as fault:
            raise Failed(f"{fault}\n  by     {show(packet)}") from None


def _case(path: Path, story: Story) -> Case:
    def run(place: Place) -> None:
        Player(place, story).play()

    return Case(f"stories of {path.stem}", story.title, run)


for _path in sorted(STORIES.glob("*.story")):
    for _story in stories_of(_path):
        register(_case(_path, _story))
