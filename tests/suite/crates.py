"""What `crates.txt` may cost the gate."""

from functools import cache
from pathlib import Path

from suite.cases import Failed, case
from suite.daemon import Place

CRATES = Path(__file__).resolve().parents[2] / "crates.txt"

#: The gate walks each path down `crates.txt` twice, and reads the files of each crate on the way.
MOST_PATHS = 60_000


def libraries() -> dict[str, list[str]]:
    """The crates of the repository, each with what its line lists."""
    rows = (line.partition(":") for line in CRATES.read_text().splitlines() if line[:1].islower())
    return {head.split()[0]: listed.split() for head, _, listed in rows}


@case("crates", f"The paths down crates.txt are at most {MOST_PATHS:,} in all")
def paths_are_few(_: Place) -> None:
    """Those down from a crate are one, for itself, and those of each library on its line."""
    below = libraries()

    @cache
    def paths(crate: str) -> int:
        return 1 + sum(paths(library) for library in below[crate] if library in below)

    found = sum(map(paths, below))
    if found > MOST_PATHS:
        most = sorted(below, key=paths)[-5:]
        raise Failed(
            f"{found:,} paths; the most are down from "
            + ", ".join(f"{crate} ({paths(crate):,})" for crate in reversed(most))
        )
