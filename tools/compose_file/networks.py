"""Networks and their subnets."""

from __future__ import annotations

from dataclasses import dataclass
from ipaddress import IPv4Network
from itertools import islice

from compose_file.tree import Fault, Notes, Table, Value
from compose_file.words import name

SUBNET_LENGTHS = range(16, 30)
DEFAULT = "default"


@dataclass(frozen=True)
class Subnet:
    addresses: IPv4Network
    line: int


@dataclass(frozen=True)
class Network:
    """A network; it has no subnet where the file names none, and isn't the script's to create where it is external."""

    name: str
    line: int
    subnet: Subnet | None
    is_external: bool = False


def read_subnet(value: Value) -> Subnet | None:
    """The subnet; none where it is one of the sixth version."""
    text = value.text()
    if ":" in text:
        return None
    try:
        addresses = IPv4Network(text)
    except ValueError as error:
        raise Fault(value.line, f"{value.path}: {error}") from error
    if addresses.prefixlen not in SUBNET_LENGTHS:
        raise Fault(value.line, f"{value.path}: the language takes lengths of 16 to 29, and {text} has another")
    return Subnet(addresses, value.line)


def first_subnet(table: Table, notes: Notes) -> Subnet | None:
    """The first subnet of a network's `ipam`; whatever stands beside it is named."""
    found: Subnet | None = None
    ipam = table.take_table("ipam")
    config = ipam.take("config")
    notes.no_words(ipam)
    for item in config.items() if config else []:
        pool = item.table()
        value = pool.take("subnet")
        subnet = read_subnet(value) if value else None
        if value and (subnet is None or found):
            notes.no_word(value, "the language has one subnet a network, of version 4")
        found = found or subnet
        notes.no_words(pool)
    return found


def read_network(key: str, value: Value, notes: Notes) -> Network:
    table = value.table()
    named, external = table.take("name"), table.take("external")
    is_external = external is not None and (external.is_table() or external.text().lower() == "true")
    if external is not None and external.is_table():
        inner = external.table()
        named = inner.take("name") or named
        notes.no_words(inner)
    if external is not None and is_external:
        notes.no_word(external, "the script doesn't create this network; lines before it have to")
    subnet = first_subnet(table, notes)
    notes.no_words(table)
    own = name(named, named.text()) if named else name(value, key)
    return Network(own, value.line, None if is_external else subnet, is_external)


def check_apart(networks: list[Network]) -> None:
    """No two have one name, and no two subnets an address in common."""
    for i, network in enumerate(networks):
        for other in networks[:i]:
            if network.name == other.name:
                raise Fault(network.line, f"two networks of the name {network.name}, the first at line {other.line}")
            mine, its = network.subnet, other.subnet
            if mine and its and mine.addresses.overlaps(its.addresses):
                raise Fault(mine.line, f"the subnet {mine.addresses} overlaps that of {other.name}, line {its.line}")


def read_networks(table: Table, notes: Notes) -> dict[str, Network]:
    """The networks of the file by their keys."""
    networks = {key: read_network(key, value, notes) for key, value in table.entries.items()}
    check_apart(list(networks.values()))
    return networks


def with_subnets(networks: list[Network]) -> list[tuple[Network, IPv4Network]]:
    """Those to create; where the file names no subnet, the first of 10.0.1.0/24, 10.0.2.0/24, .. that is free."""
    taken = [network.subnet.addresses for network in networks if network.subnet]
    pool = islice(IPv4Network("10.0.0.0/8").subnets(new_prefix=24), 1, None)
    free = (subnet for subnet in pool if not any(subnet.overlaps(other) for other in taken))
    created = [network for network in networks if not network.is_external]
    return [(network, network.subnet.addresses if network.subnet else next(free)) for network in created]
