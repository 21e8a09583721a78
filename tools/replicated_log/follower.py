"""A follower: it feeds the lines of a log to a run of the program, whose journal it keeps when the log has ended."""

from __future__ import annotations

from pathlib import Path
import shutil
import subprocess
import time
from typing import IO

from replicated_log.log import Log

# How long a follower that has all lines waits before it asks again, in seconds.
PAUSE = 0.1
JOURNAL = "swarm.journal"


def feed(log: Log, run: subprocess.Popen[bytes], script: IO[bytes]) -> None:
    """Writes the lines as they come, until the log has ended, or the run has by itself, as at a bad line."""
    done = 0
    try:
        while run.poll() is None:
            lines = log.read(done)
            script.write(b"".join(line + b"\n" for line in lines))
            script.flush()
            done += len(lines)
            if not lines and log.ends_at() == done:
                break
            if not lines:
                time.sleep(PAUSE)
        script.close()
    except BrokenPipeError:
        return


def follow(log: Log, program: Path, folder: Path) -> int:
    """Runs the log's script, and gives the run's status. The journal comes into the folder when the run has ended."""
    running = folder / "running"
    shutil.rmtree(running, ignore_errors=True)
    running.mkdir(parents=True)
    (folder / JOURNAL).unlink(missing_ok=True)
    run = subprocess.Popen([program, "run", "--workers", "0"], stdin=subprocess.PIPE, cwd=running)
    assert run.stdin is not None
    try:
        feed(log, run, run.stdin)
        status = run.wait()
    finally:
        # a run that is left before the end of the log must not take what it has for the whole script
        if run.poll() is None:
            run.kill()
            run.wait()
    if (running / JOURNAL).exists():
        (running / JOURNAL).replace(folder / JOURNAL)
    shutil.rmtree(running)
    return status
