"""Definitions, identifiers and devices that cases use."""

from uuid import UUID

from suite.wire import Domain


def identifier(number: int) -> UUID:
    """An identifier that ends in this number, in decimal digits."""
    return UUID(f"11111111-2222-4333-8444-{number:012d}")


def named(name: str, number: int) -> Domain:
    """A domain of this name, under the identifier of this number."""
    return Domain(name, identifier(number))


def definition(
    domain: Domain, script: str = "", devices: str = "", memory: int = 1024, vcpus: int = 1
) -> str:
    """The text of a domain, whose modelled guest has this script."""
    guest = f"<metadata><guest>{script}</guest></metadata>" if script else ""
    return (
        f"<domain type='qemu'><name>{domain.name}</name><uuid>{domain.identifier}</uuid>{guest}"
        f"<memory>{memory}</memory><vcpu>{vcpus}</vcpu><os><type>hvm</type></os>"
        f"<devices>{devices}</devices></domain>"
    )


def disk(target: str) -> str:
    """The text of a disk with this target."""
    return f"<disk><target dev='{target}'/></disk>"


def interface(last: int) -> str:
    """The text of an interface whose address ends in this byte."""
    return f"<interface type='user'><mac address='52:54:00:00:00:{last:02x}'/></interface>"
