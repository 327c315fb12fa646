"""Texts of definitions made at random: most of them good, in any style that the grammar allows."""

from __future__ import annotations

import random
from uuid import UUID

from suite.model_markup import Tree
from suite.model_texts import (
    BOOT_DEVICES,
    DISK_DEVICES,
    DISK_TYPES,
    DOMAIN_TYPES,
    ON_CRASH,
    ON_POWEROFF,
    ON_REBOOT,
)

#: Texts that writers and readers have to get right.
TEXTS = (
    "plain", "", "two  words", "a & b < c > d", "\"quoted\" and 'so'", "tab\there",
    "é ü 漢字 🖥", "first line\nsecond line", "]]", "&amp;", "x" * 1_022 + "é" + "y" * 40,
)
ATTRIBUTES = ("plain", "", " blank ", "a & b", "\"quoted\"", "it's", "é", "1 < 2", "tab\there")
MEMORIES = (
    ("2048", None), ("1048576", "KiB"), ("1", "G"), ("2", "mb"), ("5000001", "b"), ("3", "MiB"),
    ("0004096", "k"), ("1", "EB"), ("1024", "bytes"), ("65536", None), ("7", "KB"),
)
TARGETS = tuple(f"vd{letter}" for letter in "abcdefghijklmnopqrstuvwxyz")

#: Values that are not allowed at a place, each with where it is put.
WRONG = (
    ("domain", "type", "xen"), ("name", None, "a/b"), ("name", None, ".."), ("name", None, ""),
    ("uuid", None, "6f1a2b3c"), ("memory", None, "0"), ("memory", None, "many"),
    ("memory", "unit", "parsec"), ("memory", None, "99999999999999999999"),
    ("memory", None, "1099511627777"), ("currentMemory", None, "0"), ("vcpu", None, "256"),
    ("vcpu", None, "0"), ("vcpu", "current", "9"), ("on_crash", None, "explode"),
    ("on_reboot", None, "coredump-destroy"), ("boot", "dev", "tape"), ("disk", "type", "tape"),
    ("disk", "device", "tape"), ("target", "dev", ""), ("interface", "type", "wifi"),
    ("mac", "address", "52:54:00:00:00"), ("guest", None, "boot 0 command 1 end"),
    ("guest", None, "slow 1000001"), ("guest", None, "stall;"), ("guest", None, "boot 1 end"),
)
#: What is put into a text to bend it.
SPLINTERS = (
    "<", ">", "&", "'", '"', "=", "/", "]]>", "--", "<!DOCTYPE a>", "<?xml?>", "\x01", "é",
    "&#0;", "&#65;", "&nbsp;", "</a>", "<a>", "<a/>", "<![CDATA[x]]>", "<!-- x -->", " x=''",
)
#: Elements without which there is no domain.
NEEDED = ("name", "memory", "os", "type", "target")
UNKNOWN = (
    Tree("features", children=[Tree("acpi"), Tree("apic")]),
    Tree("clock", [("offset", "utc")], children=[Tree("timer", [("name", "hpet")])]),
    Tree("qemu:commandline", [("xmlns:qemu", "http://libvirt.org/schemas/domain/qemu/1.0")]),
    Tree("cpu", [("mode", "host-passthrough")], text="of the host"),
)


class Texts:
    """Makes texts by one source of random words."""

    def __init__(self, source: random.Random) -> None:
        self.random = source

    def often(self, chance: float) -> bool:
        return self.random.random() < chance

    # Definitions

    def domain(self, name: str, identifier: UUID | None, boots: int = 0) -> str:
        """A domain's definition; its script speaks of the boots that come next."""
        tree = self._domain(name, identifier, boots)
        if self.often(0.04):
            self._spoil(tree)
        return self.styled(tree)

    def plain_domain(
        self, name: str, identifier: UUID | None, script: str = "", disk: str = ""
    ) -> str:
        """A small definition with just this script, and perhaps one disk."""
        children = [Tree("name", text=name), Tree("memory", text="4096")]
        if disk:
            target = Tree("target", [("dev", disk)])
            children.append(Tree("devices", children=[Tree("disk", children=[target])]))
        if identifier:
            children.append(Tree("uuid", text=str(identifier)))
        if script:
            children.append(Tree("metadata", children=[Tree("guest", text=script)]))
        children += [Tree("vcpu", text="2"), Tree("os", children=[Tree("type", text="hvm")])]
        return self.styled(Tree("domain", [("type", "qemu")], children=children))

    def _domain(self, name: str, identifier: UUID | None, boots: int) -> Tree:
        children = [Tree("name", text=name), self._memory(), self._os()]
        if identifier:
            children.append(Tree("uuid", text=self._identifier(identifier)))
        for element in ("title", "description"):
            if self.often(0.3):
                children.append(Tree(element, text=self.random.choice(TEXTS)))
        if self.often(0.5):
            guest = Tree("guest", text=self.script(boots))
            children.append(Tree("metadata", children=[guest, Tree("other")]))
        if self.often(0.3):
            number, unit = self.random.choice(MEMORIES)
            children.append(Tree("currentMemory", [("unit", unit)] if unit else [], number))
        if self.often(0.7):
            children.append(self._vcpu())
        for element, words in (("on_poweroff", ON_POWEROFF), ("on_reboot", ON_REBOOT)):
            if self.often(0.1):
                children.append(Tree(element, text=self.random.choice(words)))
        if self.often(0.1):
            children.append(Tree("on_crash", text=self.random.choice(ON_CRASH)))
        if self.often(0.6):
            children.append(Tree("devices", children=self._devices()))
        if self.often(0.2):
            children.append(self.random.choice(UNKNOWN))
        if self.often(0.03):
            children.append(Tree(self.random.choice(children).name, text="the second one"))
        else:
            self.random.shuffle(children)
        return Tree("domain", [("type", self.random.choice(DOMAIN_TYPES))], children=children)

    def _memory(self) -> Tree:
        number, unit = self.random.choice(MEMORIES)
        return Tree("memory", [("unit", unit)] if unit else [], number)

    def _vcpu(self) -> Tree:
        count = self.random.randint(1, 8)
        current = [("current", str(self.random.randint(1, count)))] if self.often(0.3) else []
        return Tree("vcpu", current, str(count))

    def _os(self) -> Tree:
        attributes = [("arch", "x86_64"), ("machine", "q35")][: self.random.randint(0, 2)]
        boots = [
            Tree("boot", [("dev", self.random.choice(BOOT_DEVICES))])
            for _ in range(self.random.randint(0, 2))
        ]
        return Tree("os", children=[Tree("type", attributes, "hvm"), *boots])

    def _identifier(self, identifier: UUID) -> str:
        plain = str(identifier)
        forms = (identifier.hex, f"{{{plain}}}", f"urn:uuid:{plain}", plain.upper())
        return self.random.choice((plain, plain, plain, *forms))

    def script(self, boots: int) -> str:
        """What a guest is to do in one of the boots that come next."""
        entries = []
        for _ in range(self.random.randint(1, 3)):
            boot = boots + self.random.choice((1, 1, 1, 1, 2, 2, 3))
            command = self.random.choice((1, 2, *range(3, 13), *range(3, 24)))
            deed = self.random.choice(("end", "refuse", "refuse", "refuse", "lost"))
            entries.append(f"boot {boot} command {command} {deed}")
        if self.often(0.4):
            entries.append(f"slow {self.random.randint(0, 5)}")
        self.random.shuffle(entries)
        return self.random.choice((";", "; ", " ;\t")).join(entries)

    def _devices(self) -> list[Tree]:
        devices = [self._disk(target) for target in self.random.sample(TARGETS, self._few())]
        devices += [self._interface() for _ in range(self._few())]
        if self.often(0.3):
            devices.append(Tree("emulator", text="/usr/bin/qemu-system-x86_64"))
        for element in ("serial", "console", "graphics", "memballoon", "controller"):
            if self.often(0.2):
                attributes = [("type", "pty"), ("port", "1"), ("model", "virtio")]
                self.random.shuffle(attributes)
                devices.append(Tree(element, attributes[: self.random.randint(0, 3)]))
        self.random.shuffle(devices)
        return devices

    def _few(self) -> int:
        return self.random.choice((0, 0, 1, 1, 2, 3))

    # Devices

    def device(self) -> str:
        """A device to attach; of the same few targets, so that keys meet."""
        if self.often(0.75):
            return self.disk(self.random.choice(TARGETS[:6]))
        return self.styled(self._interface())

    def disk(self, target: str) -> str:
        """A disk of this target."""
        tree = self._disk(target)
        if self.often(0.03):
            tree.name = "drive"
        return self.styled(tree)

    def interface(self, address: str) -> str:
        """An interface of this address."""
        mac = Tree("mac", [("address", address)])
        return self.styled(Tree("interface", [("type", "user")], children=[mac]))

    def _disk(self, target: str) -> Tree:
        tree = Tree("disk")
        if self.often(0.5):
            tree.attributes.append(("type", self.random.choice(DISK_TYPES)))
        if self.often(0.3):
            tree.attributes.append(("device", self.random.choice(DISK_DEVICES)))
        bus = [("bus", "virtio")] if self.often(0.5) else []
        tree.children.append(Tree("target", [("dev", target), *bus]))
        if self.often(0.4):
            tree.children.append(Tree("driver", [("name", "qemu"), ("type", "qcow2")]))
        if self.often(0.4):
            name = self.random.choice(("file", "dev", "pool", "volume", "startupPolicy"))
            tree.children.append(Tree("source", [(name, self.random.choice(ATTRIBUTES))]))
        if self.often(0.2):
            tree.children.append(Tree("readonly"))
        self.random.shuffle(tree.children)
        return tree

    def _interface(self) -> Tree:
        type_ = self.random.choice(("user",) * 10 + ("bridge",) * 10 + ("network",))
        tree = Tree("interface", [("type", type_)])
        if self.often(0.6):
            address = f"52:54:00:00:00:{self.random.randint(0, 30):02x}"
            tree.children.append(Tree("mac", [("address", address)]))
        if self.often(0.5):
            source = [("network", "default"), ("bridge", "br0")][self.random.randint(0, 1)]
            tree.children.append(Tree("source", [source]))
        if self.often(0.3):
            tree.children.append(Tree("model", [("type", "virtio")]))
        return tree

    # Snapshots

    def snapshot(self, name: str | None) -> str:
        """What a caller says of a snapshot."""
        tree = Tree("domainsnapshot" if self.often(0.98) else "snapshot")
        if name is not None:
            tree.children.append(Tree("name", text=name))
        if self.often(0.3):
            tree.children.append(Tree("description", text=self.random.choice(TEXTS)))
        if self.often(0.1):
            tree.children.append(Tree("state", text="running"))
        return self.styled(tree)

    # Faults

    def _spoil(self, tree: Tree) -> None:
        """Puts a value where it is not allowed, or takes out what is needed."""
        everything = list(_all_elements(tree))
        if self.often(0.2):
            name = self.random.choice(NEEDED)
            for element in everything:
                element.children = [child for child in element.children if child.name != name]
            return
        name, attribute, value = self.random.choice(WRONG)
        for element in everything:
            if element.name == name and attribute is None:
                element.text = value
            elif element.name == name:
                kept = [(key, old) for key, old in element.attributes if key != attribute]
                element.attributes = [*kept, (attribute, value)]

    def bent(self, text: str) -> str:
        """The text cut off, or with a few characters more, fewer or others."""
        if self.often(0.3):
            return text[: self.random.randint(0, len(text))]
        at = self.random.randint(0, len(text))
        piece = self.random.choice(SPLINTERS)
        return text[:at] + piece + text[at + self.random.randint(0, 2) :]

    # Styles

    def styled(self, tree: Tree) -> str:
        """A tree as one of the many texts that mean it."""
        head = ""
        if self.often(0.1):
            encoding = self.random.choice(("", " encoding='UTF-8'", ' encoding="utf-8"'))
            alone = self.random.choice(("", " standalone='yes'", " standalone = 'no' "))
            head = f"<?xml version='1.0'{encoding}{alone}?>\n"
        if self.often(0.03):
            head = "\ufeff" + head
        return head + self._aside() + self._styled(tree) + self._aside()

    def _styled(self, tree: Tree) -> str:
        attributes = "".join(
            f"{self._blank()}{name}{self._equals()}{self._quoted(value)}"
            for name, value in tree.attributes
        )
        end = self.random.choice(("", "", " ", "\n"))
        content = self._content(tree.text) if tree.text else ""
        content += "".join(self._aside() + self._styled(child) for child in tree.children)
        if not content and self.often(0.8):
            return f"<{tree.name}{attributes}{end}/>"
        return f"<{tree.name}{attributes}{end}>{content}</{tree.name}{end}>"

    def _blank(self) -> str:
        return self.random.choice((" ", " ", " ", "  ", "\n ", "\t"))

    def _equals(self) -> str:
        return "=" if self.often(0.9) else " = "

    def _aside(self) -> str:
        """What means nothing between elements."""
        return self.random.choice(
            ("",) * 12 + ("\n", "  ", "\r\n\t", "<!-- a comment -->", "<?pi with > in it?>")
        )

    def _content(self, text: str) -> str:
        if self.often(0.05) and "]]>" not in text:
            return f"<![CDATA[{text}]]>"
        return self._blanks_around(
            "".join(self._character(character) for character in text.replace("]]>", "]]&gt;"))
            if self.often(0.05)
            else text.replace("&", "&amp;").replace("<", "&lt;")
        )

    def _blanks_around(self, text: str) -> str:
        return f"\n  {text} " if self.often(0.1) else text

    def _character(self, character: str) -> str:
        if character in "&<" or self.often(0.2):
            form = "&#{};" if self.often(0.5) else "&#x{:x};"
            return form.format(ord(character))
        return character

    def _quoted(self, value: str) -> str:
        quote, reference = self.random.choice((("'", "&apos;"), ('"', "&quot;")))
        value = value.replace("&", "&amp;").replace("<", "&lt;").replace(quote, reference)
        return f"{quote}{value}{quote}"


def _all_elements(tree: Tree) -> list[Tree]:
    return [tree] + [element for child in tree.children for element in _all_elements(child)]
