"""A whole Compose file as the lines of a script: its networks first, then its services, each below a comment."""

from __future__ import annotations

from compose_file.networks import DEFAULT, Network, check_apart, read_networks, with_subnets
from compose_file.services import Service, read_service
from compose_file.tree import Fault, Notes, Value

LONGEST_LINE = 8_192


def check_ports(services: list[Service]) -> None:
    """No number of the ingress is published by two services."""
    held: dict[object, tuple[Service, int]] = {}
    for service in services:
        for port in service.ports:
            key = port.holds() if port.mode == "ingress" else None
            other, line = held.setdefault(key, (service, port.line)) if key else (service, port.line)
            if other is not service:
                raise Fault(port.line, f"{port.word()} is published by {other.name} too, at line {line}")


def network_lines(networks: list[Network]) -> list[str]:
    lines = []
    for network, subnet in with_subnets(networks):
        chosen = "" if network.subnet else ", whose subnet the file leaves open"
        lines.append(f"# line {network.line}: the network {network.name}{chosen}")
        lines.append(f"network create {network.name} subnet={subnet}")
    return lines


def service_lines(service: Service) -> list[str]:
    # whatever stands in an image's name, the comment stays one line of the script
    image = f", the image {ascii(service.image)[1:-1]}" if service.image else ""
    line = " ".join(["service create", service.name, *service.words])
    if len(line) > LONGEST_LINE:
        raise Fault(service.line, f"the line of {service.name} is longer than the language takes, {LONGEST_LINE} bytes")
    return [f"# line {service.line}: the service {service.name}{image}"[:LONGEST_LINE], line]


def script_of(file: Value, notes: Notes) -> list[str]:
    """The lines of the script; what it can't say is noted, and a fault is raised where the file can't be meant."""
    top = file.table()
    version = top.take("version")
    if version is not None and version.text().split(".")[0] != "3":
        notes.no_word(version, "the file is read as one of version 3")
    networks = read_networks(top.take_table("networks"), notes)
    entries = top.take_table("services")
    notes.no_words(top)
    if not entries.entries:
        raise Fault(entries.line, "the file has no services")
    read = [read_service(key, value, networks, notes) for key, value in entries.entries.items()]
    services = [service for service in read if service is not None]
    check_ports(services)
    if DEFAULT not in networks and any(DEFAULT in service.networks for service in services):
        networks[DEFAULT] = Network(DEFAULT, entries.line, None)
        check_apart(list(networks.values()))
    return [*network_lines(list(networks.values())), *(line for service in services for line in service_lines(service))]
