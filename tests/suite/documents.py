"""That documents hold what they say of the repository: their links, paths and clauses, and the list of crates.

Nothing here starts the daemon.
"""

import re
import subprocess
import sys
from functools import cache
from pathlib import Path

from suite.cases import case, check
from suite.daemon import Place

TOP = Path(__file__).resolve().parents[2]

#: The folders at the top that documents name files of.
FOLDERS = ("bench", "crates", "docs", "edits", "examples", "tests")


def documents() -> list[Path]:
    """All documents of the repository."""
    found = [TOP / "README.md", *TOP.glob("crates/*/README.md")]
    for folder in FOLDERS:
        if folder != "crates":
            found += TOP.glob(f"{folder}/**/*.md")
    return sorted(found)


def prose(text: str) -> str:
    """A document without its blocks of code."""
    return re.sub(r"^```.*?^```$|^    [^\n]*$", "", text, flags=re.M | re.S)


@cache
def anchors(file: Path) -> set[str]:
    """The names by which links find the headings of a document."""
    headings = re.findall(r"^#+ (.*)$", prose(file.read_text()), re.M)
    return {re.sub(r"[^\w\- ]", "", heading.lower()).replace(" ", "-") for heading in headings}


def is_there(file: Path, link: str) -> bool:
    """Whether a link of a document leads to a file and, where it names one, to a heading of it."""
    path, _, anchor = link.partition("#")
    target = (file.parent / path).resolve() if path else file
    return target.exists() and (not anchor or anchor in anchors(target))


def is_path(word: str) -> bool:
    """Whether a word in code is a path from the top, or within a crate from its name. NAME is any name, out/ is made."""
    within = re.match(r"\w+/(src|specs|proofs|must-fail)/", word)
    if "NAME" in word or "/out/" in word:
        return False
    return word.partition("/")[0] in FOLDERS or within is not None


def text_of(crate: str) -> str:
    """The sources and definitions of a crate."""
    folders = (TOP / "crates" / crate / part for part in ("src", "specs"))
    files = (file for folder in folders for file in folder.rglob("*") if file.suffix in (".rt", ".antt"))
    return "\n".join(file.read_text() for file in files)


@case("documents", "The list of crates is what docs/crates prints")
def list_of_crates(_: Place) -> None:
    printed = subprocess.run(
        [sys.executable, TOP / "docs/crates"], check=True, capture_output=True, text=True
    ).stdout
    check(printed, (TOP / "docs/CRATES.md").read_text(), "docs/crates > docs/CRATES.md makes it anew")


@case("documents", "Each link leads to a file and a heading that are there")
def links(_: Place) -> None:
    lost = []
    for file in documents():
        found = re.findall(r"\]\(([^)\s]+)\)", prose(file.read_text()))
        lost += [f"{file.relative_to(TOP)}: {link}" for link in found if "//" not in link and not is_there(file, link)]
    check([], lost, "the links that lead nowhere")


@case("documents", "Each path that is named is there")
def paths(_: Place) -> None:
    lost = []
    for file in documents():
        for word in re.findall(r"`([\w./-]+/[\w./-]*)`", prose(file.read_text())):
            if is_path(word) and not (TOP / word).exists() and not (TOP / "crates" / word).exists():
                lost.append(f"{file.relative_to(TOP)}: {word}")
    check([], lost, "the paths that are not there")


@case("documents", "Each clause that PROMISES names is there")
def clauses(_: Place) -> None:
    """In its tables the first cell names calls with their crates (`crate::call`), and the next one their clauses."""
    lost = []
    for first, second in re.findall(r"^\| (`\w+::.*?) \| (.*?) \|$", (TOP / "docs/PROMISES.md").read_text(), re.M):
        crates = sorted(set(re.findall(r"`(\w+)::", first)))
        sources = "\n".join(map(text_of, crates))
        words = re.findall(r"\w+", " ".join(re.findall(r"`([^`]*)`", f"{first} {second}")))
        lost += [word for word in words if word not in crates and not re.search(rf"\b{word}\b", sources)]
    check([], lost, "the calls, clauses and definitions that are not there")
