"""The words of the client's command line, against a second reading of their grammar.

The reading below is written from docs/PROGRAMS.md alone. 10,000 command lines are made at random,
most of them near to a right one. A right one is told from a wrong one by what comes of it where
nobody answers and no file is there: status 5 or 4, and 2.
"""

import random
import re
from collections import Counter
from concurrent.futures import ThreadPoolExecutor

from suite.cases import Failed, case
from suite.client import run_client
from suite.daemon import Place

LINES = 10_000
SEED = 20_261_201
THREADS = 4

#: What each command wants after its word, and its option. `n` is a name or an image, `f` a file,
#: `9` and `19` a number of so many digits.
WANTED: dict[str, tuple[str, str | None]] = {
    "list": ("", "--all"),
    "dominfo": ("n", None),
    "domstate": ("n", None),
    "define": ("f", None),
    "create": ("f", None),
    "start": ("n", None),
    "shutdown": ("n", None),
    "reboot": ("n", None),
    "suspend": ("n", None),
    "resume": ("n", None),
    "destroy": ("n", None),
    "undefine": ("n", None),
    "autostart": ("n", "--disable"),
    "setmem": ("n 19", None),
    "setvcpus": ("n 9", None),
    "attach-device": ("n f", None),
    "detach-device": ("n f", None),
    "dumpxml": ("n", "--inactive"),
    "save": ("n n", None),
    "dump": ("n n", None),
    "restore": ("n", None),
    "domjobinfo": ("n", None),
    "domjobabort": ("n", None),
    "dommemstat": ("n", None),
    "guest-kick": ("n 9", None),
    "event": ("n 9", None),
    "snapshot-create": ("n f", None),
    "snapshot-list": ("n", None),
    "snapshot-parent": ("n n", None),
    "snapshot-dumpxml": ("n n", None),
    "snapshot-delete": ("n n", "--children"),
    "snapshot-revert": ("n n", None),
    "net-list": ("", None),
    "net-define": ("f", None),
    "pool-list": ("", None),
    "pool-define": ("f", None),
    "vol-create": ("n f", None),
    "vol-list": ("n", None),
    "vol-delete": ("n n", None),
    "vol-dumpxml": ("n n", None),
    "net-leases": ("n", None),
} | {
    f"{kind}-{verb}": ("n", None)
    for kind in ("net", "pool")
    for verb in ("start", "destroy", "undefine", "autostart", "dumpxml")
}

OPTIONS = ["--all", "--disable", "--inactive", "--children", "--verbose"]
JUNK = ["--", "--all=yes", "--a", "--ALL", "-", "-c", "-x", "", "a", "ä", "0", "00", "events", "List"]
NUMBERS = ["0", "1", "999999999", "1000000000", "9999999999999999999", "10000000000000000000"]
NUMBERS += ["01", "+1", "-1", "1 ", "1a", "٣", ""]


def is_right(words: list[str]) -> bool:
    """Whether a command line is one of a command that is served, as the document has them."""
    if words[:1] == ["-c"]:
        if len(words) < 2 or words[1].startswith("--"):
            return False
        words = words[2:]
    if not words or words[0] not in WANTED:
        return False
    wanted, option = WANTED[words[0]]
    given = [word for word in words[1:] if word.startswith("--")]
    if len(given) > 1 or any(word != option for word in given):
        return False
    plain = [word for word in words[1:] if not word.startswith("--")]
    kinds = wanted.split()
    return len(plain) == len(kinds) and all(map(_is_word, plain, kinds))


def _is_word(word: str, kind: str) -> bool:
    if kind in ("9", "19"):
        return re.fullmatch(f"0|[1-9][0-9]{{0,{int(kind) - 1}}}", word, re.ASCII) is not None
    return len(word.encode()) <= 65_536


def status_of(words: list[str]) -> int:
    """What comes of a command line where nobody answers and no file is there."""
    if not is_right(words):
        return 2
    command = words[2] if words[0] == "-c" else words[0]
    return 4 if "f" in WANTED[command][0] else 5


def made(draw: random.Random) -> list[str]:
    """A command line: a right one, in which now and then something is changed."""
    command = draw.choice([*WANTED, "save", "event"])
    wanted, option = WANTED[command]
    words = [command]
    for kind in wanted.split():
        words.append(draw.choice(NUMBERS) if kind in ("9", "19") else draw.choice(["a", "-", "é", ""]))
    if option and draw.random() < 0.5:
        words.insert(draw.randrange(1, len(words) + 1), option)
    if draw.random() < 0.4:
        _change(draw, words)
    address = ["-c", "127.0.0.1:1"]
    if draw.random() < 0.05:
        address = [draw.choice(["-c", "-C", "--c"]), draw.choice(["--x", "-c", "", "127.0.0.1:1"])]
    return address + words


def _change(draw: random.Random, words: list[str]) -> None:
    """Leave a word out, put one in, or put another in its place."""
    at = draw.randrange(len(words))
    match draw.randrange(4):
        case 0:
            del words[at]
        case 1:
            words.insert(at + 1, draw.choice(JUNK + OPTIONS))
        case 2:
            words[at] = draw.choice(JUNK + OPTIONS + list(WANTED))
        case 3:
            words.insert(draw.randrange(1, len(words) + 1), draw.choice(words))


@case("client", f"{LINES:,} command lines at random are told right from wrong", client=True)
def random_lines(place: Place) -> None:
    draw = random.Random(SEED)
    lines = [made(draw) for _ in range(LINES)]
    wanted = [status_of(words) for words in lines]
    counts = Counter(wanted)
    if min(counts[2], counts[4], counts[5]) < LINES // 20:
        raise Failed(f"too few of one kind: {counts}")

    def status(words: list[str]) -> int:
        return run_client(place, *words).status

    with ThreadPoolExecutor(THREADS) as pool:
        came = list(pool.map(status, lines))
    wrong = [
        f"{words!r}: wanted {one}, came {other}"
        for words, one, other in zip(lines, wanted, came)
        if one != other
    ]
    if wrong:
        raise Failed("\n".join([f"{len(wrong)} lines", *wrong[:20]]))


@case("client", "A word is as long as 65,536 bytes, wherever it stands", client=True)
def longest_words(place: Place) -> None:
    for words in (["start", "é" * 32_768], ["vol-delete", "a", "n" * 65_536], ["save", "n" * 65_536, "f"]):
        more = words[-1] + "n" * (65_537 - len(words[-1].encode()))
        came = run_client(place, "-c", "127.0.0.1:1", *words).status
        longer = run_client(place, "-c", "127.0.0.1:1", *words[:-1], more).status
        if (came, longer) != (5, 2):
            raise Failed(f"{words[0]}: {came} and {longer}, and not 5 and 2")
