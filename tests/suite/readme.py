"""The cases that README.md names are there."""

import re
from pathlib import Path

from suite.cases import CASES, case, check
from suite.daemon import Place

README = Path(__file__).resolve().parents[1] / "README.md"


@case("the suite itself", "each case that its README names is there")
def named_cases(_: Place) -> None:
    subjects = "|".join(sorted({re.escape(known.subject) for known in CASES}))
    named = set(re.findall(f"`((?:{subjects}): [^`]+)`", README.read_text()))
    names = {known.name for known in CASES}
    check([], sorted(named - names), "the cases that are named and are not there")
