"""It does not matter how the input is cut: rows of several packets again, in pieces.

A piece is a record of a socket, so that one read of the daemon gives one piece and no more.
"""

from pathlib import Path

from suite.cases import case
from suite.daemon import Place
from suite.playing import play
from suite.rows import all_rows
from suite.steps import Row

ROWS = Path(__file__).resolve().parents[1] / "rows"


def _sessions() -> list[Row]:
    """The rows in which more than one thing is said to the daemon."""
    return [
        row
        for row in all_rows(ROWS)
        if sum(step.verb in (">", "call") for step in row.steps) > 1
    ]


def _play_all(place: Place, pieces: int) -> None:
    for number, row in enumerate(_sessions()):
        root = place.root / str(number)
        root.mkdir()
        own = Place(place.binary, root)
        own.pieces = pieces
        try:
            play(row, own)
        finally:
            own.close()


@case("cuts", "Rows of several packets stand where each read gives one byte")
def one_byte(place: Place) -> None:
    _play_all(place, 1)


@case("cuts", "Rows of several packets stand where each read gives at most 5 bytes")
def five_bytes(place: Place) -> None:
    _play_all(place, 5)


@case("cuts", "Rows of several packets stand where each read gives at most 7 bytes")
def seven_bytes(place: Place) -> None:
    _play_all(place, 7)


@case("cuts", "Rows of several packets stand where each read gives at most 8,192 bytes")
def pages(place: Place) -> None:
    _play_all(place, 8192)
