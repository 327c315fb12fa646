"""Texts of definitions: trees read by the tables of docs/TEXTS.md, and definitions printed.

A definition that is none has one fault, the first in the order of the table, whose path is told.
"""

from __future__ import annotations

from dataclasses import replace
from uuid import UUID

from suite.model_definitions import (
    MOST_DEVICES,
    Attributes,
    Device,
    Disk,
    DomainDefinition,
    Interface,
    SnapshotSaid,
    is_name,
    read_address,
    read_identifier,
    read_kibibytes,
    read_number,
)
from suite.model_guest import Script, read_script
from suite.model_markup import (
    MOST_ELEMENTS,
    MOST_TEXT_BYTES,
    Tree,
    count_elements,
    read_tree,
    write_tree,
)

MOST_MEMORY = 1 << 40
MOST_VCPUS = 255

DOMAIN_TYPES = ("kvm", "qemu")
BOOT_DEVICES = ("hd", "cdrom", "network", "fd")
ON_POWEROFF = ON_REBOOT = ("destroy", "restart", "preserve", "rename-restart")
ON_CRASH = (*ON_POWEROFF, "coredump-destroy", "coredump-restart")
DISK_TYPES = ("file", "block", "volume")
DISK_DEVICES = ("disk", "cdrom", "lun", "floppy")
INTERFACE_TYPES = ("network", "bridge", "user")

#: Stands for what is drawn when the length of a filled definition is measured.
_SOME_IDENTIFIER = UUID(int=0)
_SOME_ADDRESS = "52:54:00:00:00:00"


class BadDefinition(Exception):
    """The text is no definition; `path` is that of the first fault's element."""

    def __init__(self, path: str) -> None:
        super().__init__(path)
        self.path = path


# Pieces of tables ---------------------------------------------------------------------------------


def _child(tree: Tree | None, name: str) -> Tree | None:
    return tree.first(name) if tree else None


def _text(tree: Tree | None) -> str | None:
    return tree.text if tree else None


def _word(value: str | None, words: tuple[str, ...], default: str | None, path: str) -> str:
    """One of a list of words; without a default it is needed."""
    value = default if value is None else value
    if value not in words:
        raise BadDefinition(path)
    return value


def _kibibytes(tree: Tree, path: str) -> int:
    number = read_kibibytes(tree.text, tree.attribute("unit"))
    if number is None or not 1 <= number <= MOST_MEMORY:
        raise BadDefinition(path)
    return number


def _count(text: str, most: int, path: str) -> int:
    number = read_number(text)
    if number is None or not 1 <= number <= most:
        raise BadDefinition(path)
    return number


def _attributes(tree: Tree | None, *names: str) -> Attributes | None:
    """The named attributes of an element that is there, in the order of the table."""
    if tree is None:
        return None
    values = ((name, tree.attribute(name)) for name in names)
    return Attributes(tuple((name, value) for name, value in values if value is not None))


# Reading ------------------------------------------------------------------------------------------


def read_domain(text: bytes) -> DomainDefinition:
    """The domain that a text means; `NotInGrammar` or `BadDefinition` where it means none."""
    root = read_tree(text)
    if root.name != "domain":
        raise BadDefinition(f"/{root.name}")
    definition = _domain(root)
    if not _fits(print_tree_of_domain(_filled(definition))):
        raise BadDefinition("/domain")
    return definition


def _domain(root: Tree) -> DomainDefinition:
    """Reads the rows in the order of the table, so that the first fault is the one told."""
    at = "/domain"
    type_ = _word(root.attribute("type"), DOMAIN_TYPES, None, at)
    name = _needed_name(root.first("name"), f"{at}/name")
    identifier = _identifier(root.first("uuid"), f"{at}/uuid")
    title, description = _text(root.first("title")), _text(root.first("description"))
    script = _script(_child(root.first("metadata"), "guest"), f"{at}/metadata/guest")
    memory, current_memory = _memory(root, at)
    vcpus, current_vcpus = _vcpus(root.first("vcpu"), f"{at}/vcpu")
    os_ = root.first("os")
    os_type = _child(os_, "type")
    if os_type is None:
        raise BadDefinition(f"{at}/os/type")
    boot = tuple(
        _word(one.attribute("dev"), BOOT_DEVICES, None, f"{at}/os/boot") for one in os_.all("boot")
    )
    on_poweroff = _action(root, "on_poweroff", ON_POWEROFF, "destroy")
    on_reboot = _action(root, "on_reboot", ON_REBOOT, "restart")
    on_crash = _action(root, "on_crash", ON_CRASH, "destroy")
    devices = root.first("devices") or Tree("devices")
    disks = _devices(devices.all("disk"), f"{at}/devices/disk")
    interfaces = _devices(devices.all("interface"), f"{at}/devices/interface")
    if len(disks) + len(interfaces) > MOST_DEVICES:
        raise BadDefinition(f"{at}/devices")
    return DomainDefinition(
        type=type_,
        name=name,
        identifier=identifier,
        title=title,
        description=description,
        script=script,
        memory=memory,
        current_memory=current_memory,
        vcpus=vcpus,
        current_vcpus=current_vcpus,
        os=_attributes(os_type, "arch", "machine"),
        os_type=os_type.text,
        boot=boot,
        on_poweroff=on_poweroff,
        on_reboot=on_reboot,
        on_crash=on_crash,
        emulator=_text(devices.first("emulator")),
        disks=disks,
        interfaces=interfaces,
        serials=tuple(_attributes(one, "type") for one in devices.all("serial")),
        consoles=tuple(_attributes(one, "type") for one in devices.all("console")),
        graphics=tuple(_attributes(one, "type", "port") for one in devices.all("graphics")),
        memballoon=_attributes(devices.first("memballoon"), "model"),
    )


def _needed_name(tree: Tree | None, path: str) -> str:
    if tree is None or not is_name(tree.text):
        raise BadDefinition(path)
    return tree.text


def _identifier(tree: Tree | None, path: str) -> UUID | None:
    if tree is None:
        return None
    identifier = read_identifier(tree.text)
    if identifier is None:
        raise BadDefinition(path)
    return identifier


def _script(tree: Tree | None, path: str) -> Script:
    script = read_script(tree.text if tree else "")
    if script is None:
        raise BadDefinition(path)
    return script


def _memory(root: Tree, at: str) -> tuple[int, int]:
    """Memory, which is needed, and the current one, which is taken down to it."""
    tree, current = root.first("memory"), root.first("currentMemory")
    if tree is None:
        raise BadDefinition(f"{at}/memory")
    memory = _kibibytes(tree, f"{at}/memory")
    if current is None:
        return memory, memory
    return memory, min(memory, _kibibytes(current, f"{at}/currentMemory"))


def _vcpus(tree: Tree | None, path: str) -> tuple[int, int]:
    if tree is None:
        return 1, 1
    vcpus = _count(tree.text, MOST_VCPUS, path)
    current = tree.attribute("current")
    return vcpus, vcpus if current is None else _count(current, vcpus, path)


def _action(root: Tree, name: str, words: tuple[str, ...], default: str) -> str:
    return _word(_text(root.first(name)), words, default, f"/domain/{name}")


def _devices(trees: list[Tree], path: str) -> tuple[Device, ...]:
    """Devices of one kind, each by its own table and then its key."""
    devices: list[Device] = []
    for tree in trees:
        device = _device(tree, path)
        if any(device.same_key(other) for other in devices):
            raise BadDefinition(f"{path}/{'target' if isinstance(device, Disk) else 'mac'}")
        devices.append(device)
    return tuple(devices)


def _device(tree: Tree, path: str) -> Device:
    return _disk(tree, path) if tree.name == "disk" else _interface(tree, path)


def _disk(tree: Tree, path: str) -> Disk:
    type_ = _word(tree.attribute("type"), DISK_TYPES, "file", path)
    device = _word(tree.attribute("device"), DISK_DEVICES, "disk", path)
    target = _attributes(tree.first("target"), "dev", "bus")
    if target is None or not target.get("dev"):
        raise BadDefinition(f"{path}/target")
    return Disk(
        type=type_,
        device=device,
        driver=_attributes(tree.first("driver"), "name", "type"),
        source=_attributes(tree.first("source"), "file", "dev", "pool", "volume"),
        target=target,
        readonly=tree.first("readonly") is not None,
    )


def _interface(tree: Tree, path: str) -> Interface:
    type_ = _word(tree.attribute("type"), INTERFACE_TYPES, None, path)
    mac = tree.first("mac")
    written = mac.attribute("address") if mac else None
    address = None if written is None else read_address(written)
    if written is not None and address is None:
        raise BadDefinition(f"{path}/mac")
    return Interface(
        type=type_,
        address=address,
        source=_attributes(tree.first("source"), "network", "bridge"),
        model=_attributes(tree.first("model"), "type"),
    )


def read_device(text: bytes) -> Device:
    """The device that a text means."""
    root = read_tree(text)
    if root.name not in ("disk", "interface"):
        raise BadDefinition(f"/{root.name}")
    device = _device(root, f"/{root.name}")
    filled = device
    if isinstance(device, Interface) and device.address is None:
        filled = replace(device, address=_SOME_ADDRESS)
    if not _fits(_tree_of_device(filled, None)):
        raise BadDefinition(f"/{root.name}")
    return device


def read_snapshot(text: bytes) -> SnapshotSaid:
    """What a text says of the snapshot that is to be taken."""
    root = read_tree(text)
    if root.name != "domainsnapshot":
        raise BadDefinition(f"/{root.name}")
    name = root.first("name")
    said = SnapshotSaid(
        name=None if name is None else _needed_name(name, "/domainsnapshot/name"),
        description=_text(root.first("description")) or "",
    )
    if not _fits(_tree_of_snapshot(said.name, said.description, None, None)):
        raise BadDefinition("/domainsnapshot")
    return said


def _filled(definition: DomainDefinition) -> DomainDefinition:
    """The definition with something in place of what would be drawn: all of it takes one room."""
    return replace(
        definition,
        identifier=definition.identifier or _SOME_IDENTIFIER,
        interfaces=tuple(
            replace(one, address=one.address or _SOME_ADDRESS) for one in definition.interfaces
        ),
    )


def _fits(tree: Tree) -> bool:
    return (
        count_elements(tree) <= MOST_ELEMENTS and len(write_tree(tree).encode()) <= MOST_TEXT_BYTES
    )


# Printing -----------------------------------------------------------------------------------------


def print_domain(definition: DomainDefinition) -> str:
    """The one text of a definition."""
    return write_tree(print_tree_of_domain(definition))


def print_running(definition: DomainDefinition, slots: list[int]) -> str:
    """The text of a running domain: each disk and interface with the address of its slot."""
    return write_tree(print_tree_of_domain(definition, slots))


def print_snapshot(
    name: str, description: str, state: str, parent: str | None
) -> str:
    """What is told of a snapshot that is kept."""
    return write_tree(_tree_of_snapshot(name, description, state, parent))


def print_tree_of_domain(definition: DomainDefinition, slots: list[int] | None = None) -> Tree:
    """Elements in the order of the table; what is absent is not printed."""
    children = [
        Tree("name", text=definition.name),
        *_optional_text("uuid", definition.identifier and str(definition.identifier)),
        *_optional_text("title", definition.title),
        *_optional_text("description", definition.description),
    ]
    if definition.script.text:
        children.append(Tree("metadata", children=[Tree("guest", text=definition.script.text)]))
    children += [
        _tree_of_memory("memory", definition.memory),
        _tree_of_memory("currentMemory", definition.current_memory),
        _tree_of_vcpus(definition),
        _tree_of_os(definition),
        Tree("on_poweroff", text=definition.on_poweroff),
        Tree("on_reboot", text=definition.on_reboot),
        Tree("on_crash", text=definition.on_crash),
    ]
    devices = _trees_of_devices(definition, slots)
    if devices:
        children.append(Tree("devices", children=devices))
    return Tree("domain", [("type", definition.type)], children=children)


def _optional_text(name: str, text: str | None) -> list[Tree]:
    return [] if text is None else [Tree(name, text=text)]


def _optional(name: str, attributes: Attributes | None) -> list[Tree]:
    return [] if attributes is None else [Tree(name, list(attributes.values))]


def _tree_of_memory(name: str, kibibytes: int) -> Tree:
    return Tree(name, [("unit", "KiB")], str(kibibytes))


def _tree_of_vcpus(definition: DomainDefinition) -> Tree:
    fewer = definition.current_vcpus < definition.vcpus
    current = [("current", str(definition.current_vcpus))] if fewer else []
    return Tree("vcpu", current, str(definition.vcpus))


def _tree_of_os(definition: DomainDefinition) -> Tree:
    boot = [Tree("boot", [("dev", device)]) for device in definition.boot]
    type_ = Tree("type", list(definition.os.values), definition.os_type)
    return Tree("os", children=[type_, *boot])


def _trees_of_devices(definition: DomainDefinition, slots: list[int] | None) -> list[Tree]:
    places = slots if slots is not None else [None] * len(definition.devices)
    return [
        *_optional_text("emulator", definition.emulator),
        *(_tree_of_device(one, slot) for one, slot in zip(definition.devices, places)),
        *(Tree("serial", list(one.values)) for one in definition.serials),
        *(Tree("console", list(one.values)) for one in definition.consoles),
        *(Tree("graphics", list(one.values)) for one in definition.graphics),
        *_optional("memballoon", definition.memballoon),
    ]


def _tree_of_device(device: Device, slot: int | None) -> Tree:
    if isinstance(device, Disk):
        tree = Tree("disk", [("type", device.type), ("device", device.device)])
        tree.children += _optional("driver", device.driver) + _optional("source", device.source)
        tree.children += _optional("target", device.target)
        tree.children += [Tree("readonly")] if device.readonly else []
    else:
        tree = Tree("interface", [("type", device.type)])
        if device.address is not None:
            tree.children.append(Tree("mac", [("address", str(device.address))]))
        tree.children += _optional("source", device.source) + _optional("model", device.model)
    if slot is not None:
        tree.children.append(_tree_of_slot(slot))
    return tree


def _tree_of_slot(slot: int) -> Tree:
    place = [("domain", "0x0000"), ("bus", "0x00"), ("slot", f"0x{slot:02x}"), ("function", "0x0")]
    return Tree("address", [("type", "pci"), *place])


def _tree_of_snapshot(
    name: str | None, description: str, state: str | None, parent: str | None
) -> Tree:
    children = _optional_text("name", name) + _optional_text("description", description or None)
    children += _optional_text("state", state)
    if parent is not None:
        children.append(Tree("parent", children=[Tree("name", text=parent)]))
    return Tree("domainsnapshot", children=children)
