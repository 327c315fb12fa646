"""Histories made from a seed: runs of the daemon over one directory, one after the other."""

from __future__ import annotations

import random
from collections.abc import Iterator
from dataclasses import replace
from uuid import UUID

from suite.model import Daemon
from suite.model_store import (
    IMAGE_MAGIC,
    IMAGE_VERSION,
    IMAGE_WORDS,
    SAVE,
    Entry,
    Status,
    Store,
    definition_file,
    status_file,
)
from suite.model_texts import read_domain
from suite.random_acts import NAMES, STATES, Act, Passed, identifier_of
from suite.random_calls import BY_HAND, Caller
from suite.random_playing import LAST_BYTES, End, Plant, Player, Run
from suite.random_series import fill_list
from suite.random_texts import Texts

PACKETS_A_HISTORY = 500
MOST_ACTS_A_RUN = 250
#: One of so many histories has a call that waits for a job, which takes the daemon seconds.
HISTORIES_A_WAIT = 8
#: One of so many begins with a run in which the list of domains becomes full.
HISTORIES_A_FULL_LIST = 20


class Maker:
    """Makes a history from a seed and plays it at once, since what is made follows the state."""

    def __init__(self, seed: str) -> None:
        number = int(seed.rsplit(".", 1)[1])
        self.random = random.Random(f"sessions {seed}")
        self.texts = Texts(self.random)
        self.caller = Caller(self.random, waits=int(number % HISTORIES_A_WAIT == 0))
        self.fills_list = number % HISTORIES_A_FULL_LIST == 1

    def play(self, player: Player) -> None:
        """Plays as many runs as bring the history to its number of packets."""
        while (left := PACKETS_A_HISTORY - player.seen["packets"]) > 0:
            run = Run(self.plants(player.store), self.random.choice(ENDS))
            if self.fills_list and not player.played:
                player.play(run, lambda daemon: fill_list(self.caller, daemon))
            else:
                self.caller.series = None
                count = self.random.randint(1, min(left + 20, MOST_ACTS_A_RUN))
                player.play(run, lambda daemon: self.acts(daemon, count))
        player.judge_check()

    def acts(self, daemon: Daemon, count: int) -> Iterator[Act | Passed]:
        for _ in range(count):
            yield self.caller.next(daemon)

    def plants(self, store: Store) -> list[Plant]:
        makers = (self.image, self.image, self.unread_status, self.status, self.old_definition)
        made = [make(store) for make in makers if self.random.random() < 0.2]
        return [plant for plant in made if plant is not None]

    def image(self, _store: Store) -> Plant:
        """An image that another program wrote, often with something wrong with it."""
        name = self.random.choice(("by-hand", "by-hand-too"))
        disk = self.random.choice(("", "vda"))
        text = self.texts.plain_domain(BY_HAND, identifier_of(BY_HAND), disk=disk).encode()
        state = self.random.choice(STATES)
        words = [IMAGE_MAGIC, IMAGE_VERSION, SAVE, self.random.randint(0, 1), 0]
        if self.random.random() < 0.4:
            words[self.random.randint(0, 4)] = self.random.choice((0, 2, 1 << 31))
        if self.random.random() < 0.1:
            text = self.texts.bent(text.decode()).encode()
        content = IMAGE_WORDS.pack(*words, len(text), len(state)) + text + state
        if self.random.random() < 0.1:
            content = content[: self.random.randint(0, len(content))]
        elif self.random.random() < 0.05:
            content += b"\0"
        return Plant(f"{name}.img", content, lambda store: store.saves.update({name: content}))

    def status(self, _store: Store) -> Plant:
        """A status file of a boot that no domain of the store had."""
        identifier = UUID(int=self.random.getrandbits(128))
        status = Status("gone", self.random.choice((1, 1 << 62)), 1, 0, 0)
        content = status.content().encode()
        put = lambda store: store.statuses.update({identifier: status})
        return Plant(status_file(identifier), content, put)

    def unread_status(self, _store: Store) -> Plant:
        """A status file that tells nothing."""
        content = self.random.choice(
            (b"", b"run 1 boot=1", b"run 1 boot=0 state=1 op=0 phase=0 name=a\n",
             b"run 1 boot=01 state=1 op=0 phase=0 name=a\n", b"\xff\n",
             b"run 1 boot=1 state=1 op=0 phase=0 name=a/b\n",
             b"run 1 boot=1 state=1 op=0 phase=0 name=a\nmore",
             b"run 2 boot=1 state=1 op=0 phase=0 name=a\n")
        )
        file = self.random.choice((status_file(UUID(int=self.random.getrandbits(128))),
                                   "run-.sta", "run-nobody.sta"))
        return Plant(file, content, lambda store: store.unread.add(file))

    def old_definition(self, store: Store) -> Plant | None:
        """A definition of version 1, which the daemon puts again as one of version 2.

        A text that names no identifier is of the domain of its file.
        """
        free = [name for name in NAMES if identifier_of(name) not in store.entries
                and all(entry.name != name for entry in store.entries.values())]
        if not free:
            return None
        name = self.random.choice(free)
        identifier = identifier_of(name)
        named = identifier if self.random.random() < 0.7 else None
        text = self.texts.plain_domain(name, named)
        flag = self.random.random() < 0.5
        definition = replace(read_domain(text.encode()), identifier=identifier)
        entry = Entry(definition, flag, by_hand=text)
        content = f"def 1 autostart={'yes' if flag else 'no'} name={name}\n{text}".encode()
        put = lambda store: store.entries.update({identifier: entry})
        return Plant(definition_file(identifier), content, put)


ENDS = (End.EOF,) * 4 + (End.CLOSED,) * 3 + (End.KILLED,) * 4 + tuple(LAST_BYTES)
