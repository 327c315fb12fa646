"""Texts of XML 1.0 without a document type, read into trees and written (docs/TEXTS.md).

A text that is not in the grammar has one fault, whose place is the first byte of what is wrong.
Its kind is never sent, so `NotInGrammar` has the place alone.
"""

from __future__ import annotations

import re
from dataclasses import dataclass, field

MOST_TEXT_BYTES = 65_536
MOST_LEVELS = 32
MOST_ELEMENTS = 4_096

BLANKS = " \t\n\r"
NAMED_REFERENCES = {"lt": "<", "gt": ">", "amp": "&", "quot": '"', "apos": "'"}

_NAME_START = (
    ":A-Z_a-z\u00c0-\u00d6\u00d8-\u00f6\u00f8-\u02ff\u0370-\u037d\u037f-\u1fff\u200c-\u200d"
    "\u2070-\u218f\u2c00-\u2fef\u3001-\ud7ff\uf900-\ufdcf\ufdf0-\ufffd\U00010000-\U000effff"
)
_NAME = re.compile(f"[{_NAME_START}][{_NAME_START}\\-.0-9\u00b7\u0300-\u036f\u203f-\u2040]*")
_BLANKS = re.compile(f"[{BLANKS}]*")
_RUN_END = re.compile("[<&]")
_NAME_FIRST = re.compile(f"[{_NAME_START}]")
_CHARACTER = "[\t\n\r\u0020-\ud7ff\ue000-\ufffd\U00010000-\U0010ffff]"
_CHARACTERS = re.compile(f"{_CHARACTER}*")
#: What a value holds up to a reference, its quote, or what it may not hold.
_VALUE_RUN = {quote: re.compile(f"(?:(?![<&{quote}]){_CHARACTER})*") for quote in "'\""}
_GREATEST_CHARACTER = 0x10FFFF


class NotInGrammar(Exception):
    """The text leaves the grammar; `at` is the place as an offset in bytes."""

    def __init__(self, at: int) -> None:
        super().__init__(f"at {at}")
        self.at = at


@dataclass
class Tree:
    """An element: `text` is all that it holds itself, without the blanks at both ends."""

    name: str
    attributes: list[tuple[str, str]] = field(default_factory=list)
    text: str = ""
    children: list["Tree"] = field(default_factory=list)

    def attribute(self, name: str) -> str | None:
        """The value of the attribute of this name."""
        return next((value for key, value in self.attributes if key == name), None)

    def first(self, name: str) -> "Tree | None":
        """The first child of this name, which is the one that counts."""
        return next((child for child in self.children if child.name == name), None)

    def all(self, name: str) -> list["Tree"]:
        """All children of this name, in order."""
        return [child for child in self.children if child.name == name]


def is_character(number: int) -> bool:
    """Whether a text may hold the character of this number."""
    return number <= _GREATEST_CHARACTER and bool(
        number in (0x9, 0xA, 0xD)
        or 0x20 <= number <= 0xD7FF
        or 0xE000 <= number <= 0xFFFD
        or 0x10000 <= number
    )


# Reading ------------------------------------------------------------------------------------------


def read_tree(text: bytes) -> Tree:
    """The tree of a whole text, or `NotInGrammar`."""
    if len(text) > MOST_TEXT_BYTES:
        raise NotInGrammar(MOST_TEXT_BYTES)
    try:
        return _Reader(text.decode()).document()
    except UnicodeDecodeError as fault:
        # What comes before the bytes that are not UTF-8 may be at fault already.
        reader = _Reader(text[: fault.start].decode())
        try:
            reader.document()
        except _EndsEarly:
            pass
        raise NotInGrammar(fault.start) from None
    except _EndsEarly:
        raise NotInGrammar(len(text)) from None


class _EndsEarly(Exception):
    """The text ends where more could make it a whole one."""


class _Reader:
    """Reads one text from left to right; `place` counts characters."""

    def __init__(self, text: str) -> None:
        self.text = text
        self.place = 0
        self.elements = 0

    def fault(self, place: int) -> NotInGrammar:
        """The fault of what begins at this place."""
        return NotInGrammar(len(self.text[:place].encode()))

    # Pieces

    def peek(self) -> str:
        """The next character; the text must not end here."""
        if self.place == len(self.text):
            raise _EndsEarly
        return self.text[self.place]

    def at_end(self) -> bool:
        return self.place == len(self.text)

    def sees(self, word: str) -> bool:
        """Whether `word` comes next. A text that ends within it may still become it."""
        return self.text.startswith(word, self.place)

    def may_become(self, word: str) -> bool:
        """Whether the text ends within what could become `word`."""
        left = len(self.text) - self.place
        return left < len(word) and word.startswith(self.text[self.place :])

    def expect(self, word: str, start: int) -> None:
        """Takes `word`, or what begins at `start` is at fault."""
        if self.may_become(word):
            raise _EndsEarly
        if not self.sees(word):
            raise self.fault(start)
        self.place += len(word)

    def blanks(self) -> bool:
        """Takes blanks; whether there were any."""
        begin = self.place
        self.place = _BLANKS.match(self.text, begin).end()
        return self.place > begin

    def name(self, start: int) -> str:
        """Takes a name, which may go on where the text ends."""
        self.peek()
        match = _NAME.match(self.text, self.place)
        if match is None:
            raise self.fault(start)
        self.place = match.end()
        return match.group()

    def characters_up_to(self, end: str, start: int) -> str:
        """Takes characters up to `end`, and that too."""
        found = self.text.find(end, self.place)
        stop = len(self.text) if found < 0 else found
        if _CHARACTERS.match(self.text, self.place, stop).end() < stop:
            raise self.fault(start)
        if found < 0:
            raise _EndsEarly
        taken = self.text[self.place : found]
        self.place = found + len(end)
        return taken

    # The document

    def document(self) -> Tree:
        if self.sees("\ufeff"):
            self.place += 1
        if self.sees("<?xml") and self.text[self.place + 5 : self.place + 6] in (*BLANKS, "?"):
            if self.place + 5 < len(self.text):
                self.declaration()
        self.miscellany()
        start = self.place
        if self.peek() != "<":
            raise self.fault(start)
        root = self.element(1)
        self.miscellany()
        if not self.at_end():
            raise self.fault(self.place)
        return root

    def declaration(self) -> None:
        """Version 1.0, perhaps an encoding, which is UTF-8, and whether it stands alone."""
        start = self.place
        self.expect("<?xml", start)
        blank = self.blanks()
        self.pseudo_attribute("version", ("1.0",), blank, start)
        blank = self.blanks()
        if blank and (self.sees("e") or self.at_end()):
            self.pseudo_attribute("encoding", ("utf-8",), blank, start)
            blank = self.blanks()
        if blank and (self.sees("s") or self.at_end()):
            self.pseudo_attribute("standalone", ("yes", "no"), blank, start)
            self.blanks()
        self.expect("?>", start)

    def pseudo_attribute(self, name: str, values: tuple[str, ...], blank: bool, start: int) -> None:
        if not blank:
            self.peek()
            raise self.fault(start)
        self.expect(name, start)
        self.blanks()
        self.expect("=", start)
        self.blanks()
        quote = self.peek()
        if quote not in "'\"":
            raise self.fault(start)
        self.place += 1
        rest = self.text[self.place :]
        given = rest.split(quote)[0]
        same = (lambda word: word.lower()) if name == "encoding" else (lambda word: word)
        if quote not in rest and any(value.startswith(same(given)) for value in values):
            raise _EndsEarly
        if quote not in rest or same(given) not in values:
            raise self.fault(start)
        self.place += len(given) + 1

    def miscellany(self) -> None:
        """Takes blanks, comments and processing instructions outside of the root element."""
        while True:
            self.blanks()
            if self.sees("<!--") or self.sees("<?"):
                self.comment_or_instruction()
            elif self.may_become("<!--") and not self.at_end():
                raise _EndsEarly
            else:
                return

    def comment_or_instruction(self) -> None:
        if self.sees("<?"):
            self.instruction()
        else:
            self.comment()

    def comment(self) -> None:
        start = self.place
        self.expect("<!--", start)
        self.characters_up_to("--", start)
        self.expect(">", start)

    def instruction(self) -> None:
        start = self.place
        self.expect("<?", start)
        target = self.name(start)
        if self.at_end():
            raise _EndsEarly
        if target.lower() == "xml":
            raise self.fault(start)
        if self.sees("?"):
            self.expect("?>", start)
        elif self.blanks():
            self.characters_up_to("?>", start)
        else:
            raise self.fault(start)

    # Elements

    def element(self, level: int) -> Tree:
        start = self.place
        self.place += 1
        if _NAME_FIRST.match(self.peek()) is None:
            raise self.fault(start)
        self.elements += 1
        if level > MOST_LEVELS or self.elements > MOST_ELEMENTS:
            raise self.fault(start)
        tree = Tree(self.name(start))
        if self.opening_tag(tree, start):
            self.content(tree, level)
            self.closing_tag(tree.name)
        return tree

    def opening_tag(self, tree: Tree, start: int) -> bool:
        """Takes the rest of an opening tag; whether content follows."""
        while True:
            blank = self.blanks()
            if self.peek() == ">":
                self.place += 1
                return True
            if self.peek() == "/":
                self.expect("/>", start)
                return False
            if not blank:
                raise self.fault(start)
            tree.attributes.append(self.attribute(tree, start))

    def attribute(self, tree: Tree, start: int) -> tuple[str, str]:
        name = self.name(start)
        if self.at_end():
            raise _EndsEarly
        if tree.attribute(name) is not None:
            raise self.fault(start)
        self.blanks()
        self.expect("=", start)
        self.blanks()
        quote = self.peek()
        if quote not in "'\"":
            raise self.fault(start)
        self.place += 1
        value = ""
        while self.peek() != quote:
            match = _VALUE_RUN[quote].match(self.text, self.place)
            if match.end() > self.place:
                value += match.group()
                self.place = match.end()
            elif self.peek() == "&":
                value += self.reference()
            else:
                raise self.fault(start)
        self.place += 1
        return name, value

    def content(self, tree: Tree, level: int) -> None:
        """Takes all up to the closing tag, which is left."""
        text = ""
        while not self.sees("</"):
            if self.peek() == "&":
                text += self.reference()
            elif self.peek() != "<":
                text += self.run()
            elif self.sees("<!") or self.sees("<?"):
                text += self.section_or_aside()
            else:
                tree.children.append(self.element(level + 1))
        tree.text = text.strip(BLANKS)

    def section_or_aside(self) -> str:
        """Takes a section, whose text counts, or a comment or an instruction, which is nothing."""
        start = self.place
        if self.sees("<!--") or self.sees("<?"):
            self.comment_or_instruction()
            return ""
        if self.may_become("<!--"):
            raise _EndsEarly
        self.expect("<![CDATA[", start)
        return self.characters_up_to("]]>", start)

    def run(self) -> str:
        """Takes a run of text, up to the next tag or reference."""
        start = self.place
        stop = _RUN_END.search(self.text, start)
        end = stop.start() if stop else len(self.text)
        run = self.text[start:end]
        if _CHARACTERS.fullmatch(run) is None or "]]>" in run:
            raise self.fault(start)
        self.place = end
        return run

    def closing_tag(self, name: str) -> None:
        start = self.place
        self.expect("</", start)
        self.expect(name, start)
        self.blanks()
        self.expect(">", start)

    def reference(self) -> str:
        """Takes one of the five named references, or the number of a character."""
        start = self.place
        self.place += 1
        if self.peek() == "#":
            return self.numbered_reference(start)
        for name, character in NAMED_REFERENCES.items():
            if self.sees(f"{name};"):
                self.place += len(name) + 1
                return character
            if self.may_become(f"{name};"):
                raise _EndsEarly
        raise self.fault(start)

    def numbered_reference(self, start: int) -> str:
        self.place += 1
        base, digits = 10, "0123456789"
        if self.peek() == "x":
            self.place += 1
            base, digits = 16, "0123456789abcdefABCDEF"
        first = self.place
        number = 0
        while not self.at_end() and self.text[self.place] in digits:
            number = min(number * base + int(self.text[self.place], base), 1 << 62)
            self.place += 1
        if self.at_end():
            if is_character(number) or number * base <= _GREATEST_CHARACTER:
                raise _EndsEarly
            raise self.fault(start)
        if self.place == first or self.peek() != ";" or not is_character(number):
            raise self.fault(start)
        self.place += 1
        return chr(number)


# Writing ------------------------------------------------------------------------------------------


def write_tree(tree: Tree) -> str:
    """The one text of a tree: an element a line, two blanks a level, a line feed at the end."""
    return "".join(f"{line}\n" for line in _lines(tree, 0))


def count_elements(tree: Tree) -> int:
    """How many elements a tree has."""
    return 1 + sum(count_elements(child) for child in tree.children)


def _lines(tree: Tree, level: int) -> list[str]:
    indent = "  " * level
    tag = tree.name + "".join(f" {name}='{_quoted(value)}'" for name, value in tree.attributes)
    if not tree.children and not tree.text:
        return [f"{indent}<{tag}/>"]
    if not tree.children:
        return [f"{indent}<{tag}>{_escaped(tree.text)}</{tree.name}>"]
    inner = [line for child in tree.children for line in _lines(child, level + 1)]
    return [f"{indent}<{tag}>{_escaped(tree.text)}", *inner, f"{indent}</{tree.name}>"]


def _escaped(text: str) -> str:
    return text.replace("&", "&amp;").replace("<", "&lt;").replace(">", "&gt;")


def _quoted(text: str) -> str:
    return _escaped(text).replace("'", "&apos;").replace('"', "&quot;")
