"""Making a history shorter in which the daemon does otherwise than the model."""

from __future__ import annotations

import time

from suite.daemon import Place
from suite.random_playing import Differs, Player, Run

#: How often, and how long in seconds, a history is played again to make it shorter.
MOST_REPLAYS = 200
MOST_SECONDS = 30.0
#: How many lines are shown of what then is left, and how much of each.
MOST_LINES = 60
MOST_SHOWN = 600


class Shortener:
    """Plays runs again with acts left out, and keeps what was last seen to differ."""

    def __init__(self, place: Place) -> None:
        self.place = place
        self.replays = 0
        self.until = time.monotonic() + MOST_SECONDS
        self.shown: list[str] = []
        self.text = "it does not differ when it is played again"

    def differs(self, runs: list[Run]) -> bool:
        """Whether the daemon still does otherwise; no, where there was no more time to see."""
        if self.replays == MOST_REPLAYS or time.monotonic() > self.until:
            return False
        self.replays += 1
        place = Place(self.place.binary, self.place.root / f"replay-{self.replays}")
        player = Player(place)
        try:
            for run in runs:
                player.play(run, lambda _daemon, run=run: run.acts)
            player.judge_check()
        except Differs as fault:
            self.shown, self.text = player.shown, fault.text
            return True
        finally:
            place.close()
        return False

    def shorten(self, runs: list[Run]) -> None:
        """Leaves out whole runs, then many acts at once, and then fewer."""
        if not self.differs(runs):
            return
        for run in runs[:-1]:
            fewer = [other for other in runs if other is not run]
            runs = fewer if self.differs(fewer) else runs
        size = max(len(run.acts) for run in runs)
        while size:
            for run in runs:
                self.leave_out(runs, run, size)
            size //= 2

    def leave_out(self, runs: list[Run], run: Run, size: int) -> None:
        """Leaves out so many acts of a run at once, wherever the daemon differs without them."""
        at = 0
        while at < len(run.acts):
            acts = run.acts
            run.acts = acts[:at] + acts[at + size :]
            if not self.differs(runs):
                run.acts = acts
                at += size


def told(place: Place, fault: Differs) -> str:
    """The fault, and the fewest acts that were found to lead to one."""
    shortener = Shortener(place)
    shortener.shorten(fault.runs)
    lines = [
        line if len(line) <= MOST_SHOWN else f"{line[:MOST_SHOWN]}.." for line in shortener.shown
    ]
    left_out = len(lines) - MOST_LINES
    if left_out > 0:
        lines = [f"   {left_out} lines before", *lines[left_out:]]
    acts = "\n".join(lines)
    return f"{fault.text}\nshortened to:\n{acts}\n{shortener.text}"
