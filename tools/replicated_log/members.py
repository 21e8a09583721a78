"""Members of etcd on this machine, for a demonstration: they keep what they have in a folder that goes with them."""

from __future__ import annotations

from collections.abc import Iterator
from contextlib import contextmanager
from dataclasses import dataclass
from pathlib import Path
import socket
import subprocess

from replicated_log.etcd import Etcd


@dataclass
class Member:
    address: str
    process: subprocess.Popen[bytes]

    def stop(self) -> None:
        self.process.kill()
        self.process.wait()


def free_ports(count: int) -> list[int]:
    """Ports that nobody listens on at the moment."""
    sockets = [socket.create_server(("127.0.0.1", 0)) for _ in range(count)]
    ports = [int(one.getsockname()[1]) for one in sockets]
    for one in sockets:
        one.close()
    return ports


def start(name: str, client: int, peer: int, cluster: str, folder: Path) -> Member:
    listen, talk = f"http://127.0.0.1:{client}", f"http://127.0.0.1:{peer}"
    words = ["etcd", "--name", name, "--data-dir", str(folder / name), "--logger", "zap", "--log-level", "error"]
    words += ["--listen-client-urls", listen, "--advertise-client-urls", listen]
    words += ["--listen-peer-urls", talk, "--initial-advertise-peer-urls", talk, "--initial-cluster", cluster]
    with (folder / f"{name}.messages").open("wb") as messages:
        process = subprocess.Popen(words, stdout=messages, stderr=messages)
    return Member(f"127.0.0.1:{client}", process)


@contextmanager
def started(count: int, folder: Path) -> Iterator[list[Member]]:
    """A cluster of so many members that answers; all are stopped at the end."""
    folder.mkdir(parents=True, exist_ok=True)
    ports = free_ports(2 * count)
    names = [f"member{i}" for i in range(1, count + 1)]
    cluster = ",".join(f"{name}=http://127.0.0.1:{peer}" for name, peer in zip(names, ports[count:]))
    members: list[Member] = []
    try:
        for name, client, peer in zip(names, ports, ports[count:]):
            members.append(start(name, client, peer, cluster, folder))
        for member in members:
            Etcd([member.address]).get("ready")
        yield members
    finally:
        for member in members:
            member.stop()
