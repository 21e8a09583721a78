"""A demonstration: followers of one log, one of which is killed and begun again, have one journal."""

from __future__ import annotations

from contextlib import ExitStack
from dataclasses import dataclass, field
import hashlib
import os
from pathlib import Path
import signal
import subprocess
import sys
import time

from replicated_log.etcd import Etcd
from replicated_log.follower import JOURNAL
from replicated_log.log import Log
from replicated_log.members import Member, started

LOG = "demonstration"
# Between two lines, so that they come while the followers run; and until one is killed that has given no reply yet.
BETWEEN_LINES = 0.02
LONG = 10.0


@dataclass
class Follower:
    """A follower as a process of its own, with all that it starts in one group."""

    name: str
    words: list[str]
    folder: Path
    process: subprocess.Popen[bytes] | None = field(default=None, repr=False)

    def begin(self) -> None:
        self.folder.mkdir(parents=True, exist_ok=True)
        with (self.folder / "replies").open("wb") as replies:
            words = [*self.words, "--into", str(self.folder)]
            self.process = subprocess.Popen(words, stdout=replies, start_new_session=True)

    def kill(self) -> None:
        """Ends it with all that it started, as a machine that loses its power does."""
        if self.process is not None and self.process.poll() is None:
            os.killpg(self.process.pid, signal.SIGKILL)
            self.process.wait()

    def replies(self) -> int:
        return (self.folder / "replies").read_bytes().count(b"\n")

    def journal(self) -> bytes:
        """Its journal, once it has ended."""
        assert self.process is not None
        self.process.wait()
        return (self.folder / JOURNAL).read_bytes()


def await_reply(follower: Follower) -> None:
    end = time.monotonic() + LONG
    while follower.replies() == 0 and time.monotonic() < end:
        time.sleep(BETWEEN_LINES)


def append_slowly(log: Log, lines: list[bytes], length: int) -> int:
    for line in lines:
        length = log.append([line], length)
        time.sleep(BETWEEN_LINES)
    return length


def fail_and_go_on(log: Log, lines: list[bytes], followers: list[Follower], members: list[Member]) -> None:
    """Appends the lines in three parts; after the first a follower is killed, after the second it is begun again."""
    third = max(1, len(lines) // 3)
    length = append_slowly(log, lines[:third], 0)
    victim = followers[len(followers) // 2]
    await_reply(victim)
    victim.kill()
    print(f"after line {third} {victim.name} is killed, when it has given {victim.replies()} lines of replies")
    if len(members) > 2:
        members[0].stop()
        print("and so is the first member of etcd; the others go on")
    length = append_slowly(log, lines[third : 2 * third], length)
    victim.begin()
    print(f"after line {length} {victim.name} is begun again, from the log's first line")
    append_slowly(log, lines[2 * third :], length)
    print(f"the log is closed at line {log.close()}")


def own_journal(program: Path, script: Path, folder: Path) -> bytes:
    """The journal of the script itself, without any log."""
    folder.mkdir()
    with script.open("rb") as lines:
        subprocess.run([program, "run", "--workers", "0"], stdin=lines, stdout=subprocess.DEVNULL, cwd=folder)
    return (folder / JOURNAL).read_bytes()


def are_equal(journals: dict[str, bytes]) -> bool:
    for name, journal in journals.items():
        entries = journal.count(b"\n") - 1
        print(f"{name}: {entries} entries, sha256 {hashlib.sha256(journal).hexdigest()}")
    equal = len(set(journals.values())) == 1
    print("all journals are equal, byte for byte" if equal else "the journals DIFFER")
    return equal


def demonstrate(command: Path, program: Path, script: Path, folder: Path, members: int, followers: int) -> bool:
    """Whether all followers, and a run of the script itself, have one journal."""
    lines = script.read_bytes().splitlines()
    # a launcher that has to build the program first does so here, once
    itself = own_journal(program, script, folder / "itself")
    with ExitStack() as stack:
        cluster = stack.enter_context(started(members, folder / "etcd"))
        addresses = ",".join(member.address for member in cluster)
        print(f"members of etcd: {addresses}")
        words = [sys.executable, str(command), "follow", LOG, "--etcd", addresses, "--swarm", str(program)]
        all_of_them = [Follower(f"follower {i}", words, folder / f"follower{i}") for i in range(1, followers + 1)]
        for follower in all_of_them:
            stack.callback(follower.kill)
            follower.begin()
        print(f"{followers} followers wait for lines")
        fail_and_go_on(Log(Etcd(addresses.split(",")), LOG), lines, all_of_them, cluster)
        journals = {follower.name: follower.journal() for follower in all_of_them}
    return are_equal(journals | {f"a run of {script.name} itself": itself})
