"""Sessions made at random over one directory after another, judged call by call by the model.

What is made follows from a seed alone. `VIRTD_TESTS_SEED=SEED tests/run -k "random sessions"` plays
the histories of another seed, and `SEED.N` the N-th of them alone.
"""

from __future__ import annotations

import os
import random
from collections import Counter
from concurrent.futures import ThreadPoolExecutor

from suite.cases import Failed, case
from suite.daemon import Place
from suite.procedures import PROCEDURES
from suite.random_histories import PACKETS_A_HISTORY, Maker
from suite.random_playing import Differs, Player
from suite.random_shortening import told

PACKETS = 20_000
PACKETS_WITH_LONG = 200_000
#: Histories that are played at a time, each with a daemon of its own.
THREADS = 4
SEED = "1"
SEED_VARIABLE = "VIRTD_TESTS_SEED"

#: Every code that a session which is alone can cause; each has to come.
CODES = (3, 8, 9, 27, 28, 39, 42, 55, 68, 72, 201, 202, 204, 206, 207, 208, 209)

#: What can't be done for a session that is alone, since it needs an operation under way.
NEVER_DONE = {"JOB_ABORT done": "JOB_ABORT", "MIGRATE_LIMIT done": "MIGRATE_LIMIT"}


def play_one(place: Place, seed: str) -> Counter[str]:
    """Plays the history of a seed. Gives how often each procedure was done and each code came."""
    own = Place(place.binary, place.root / f"history-{seed}")
    player = Player(own)
    try:
        Maker(seed).play(player)
    except Differs as fault:
        raise Failed(f"{SEED_VARIABLE}={seed}\n{told(own, fault)}") from None
    except Exception as fault:  # of the model itself
        fault.add_note(f"{SEED_VARIABLE}={seed}")
        raise
    finally:
        own.close()
    return player.seen


def play_all(place: Place, seed: str, packets: int) -> None:
    """Plays so many packets, and looks whether all procedures and codes came up."""
    asked = os.environ.get(SEED_VARIABLE, seed)
    if "." in asked:
        play_one(place, asked)
        return
    seeds = [f"{asked}.{number}" for number in range(packets // PACKETS_A_HISTORY)]
    with ThreadPoolExecutor(THREADS) as pool:
        played = [pool.submit(play_one, place, one) for one in seeds]
        try:
            seen = sum((one.result() for one in played), Counter())
        finally:
            pool.shutdown(cancel_futures=True)
    served = [line.name for line in PROCEDURES.values() if line.served]
    wanted = [f"code {code}" for code in CODES] + [f"{name} done" for name in served]
    wanted = [name for name in wanted if name not in NEVER_DONE] + sorted(NEVER_DONE.values())
    missing = [name for name in wanted if not seen[name]]
    if missing:
        counts = ", ".join(f"{name} {count}" for name, count in sorted(seen.items()))
        raise Failed(f"{SEED_VARIABLE}={asked}: never came: {missing}\n  of {counts}")


@case("random sessions", f"Of {PACKETS} calls each is answered as the model says")
def random_sessions(place: Place) -> None:
    play_all(place, SEED, PACKETS)


@case("random sessions", f"Of {PACKETS_WITH_LONG} more, of another seed each time, too", long=True)
def many_random_sessions(place: Place) -> None:
    play_all(place, str(random.SystemRandom().randrange(1 << 32)), PACKETS_WITH_LONG)
