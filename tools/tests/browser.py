"""A headless Chromium, driven through a pipe by the DevTools protocol: no library and no port is wanted."""

from __future__ import annotations

import base64
from collections.abc import Iterator
from contextlib import contextmanager
import json
import os
from pathlib import Path
import select
import shutil
import struct
import subprocess
import tempfile
import time
from typing import Any
import zlib

FLAGS = (
    *("--headless=new", "--no-sandbox", "--disable-gpu", "--hide-scrollbars", "--no-first-run"),
    "--remote-debugging-pipe",
)


def program() -> str | None:
    return shutil.which("chromium") or shutil.which("chromium-browser") or shutil.which("google-chrome")


class BrowserFault(Exception):
    """The browser ended, didn't answer in time, or refused what it was asked."""


class Page:
    """One page of the browser."""

    def __init__(self, write: int, read: int, patience: float) -> None:
        self.write = write
        self.read = read
        self.patience = patience
        self.asked = 0
        self.session: str | None = None
        self.rest = b""
        self.events: list[dict[str, Any]] = []

    def message(self) -> dict[str, Any]:
        """The next message; each ends with a byte of 0."""
        until = time.monotonic() + self.patience
        while b"\0" not in self.rest:
            ready, _, _ = select.select([self.read], [], [], max(0, until - time.monotonic()))
            chunk = os.read(self.read, 1 << 20) if ready else b""
            if not chunk:
                raise BrowserFault("no answer of the browser")
            self.rest += chunk
        text, _, self.rest = self.rest.partition(b"\0")
        message: dict[str, Any] = json.loads(text)
        return message

    def ask(self, method: str, **words: Any) -> dict[str, Any]:
        self.asked += 1
        session = {"sessionId": self.session} if self.session else {}
        request = {"id": self.asked, "method": method, "params": words, **session}
        left = json.dumps(request).encode() + b"\0"
        while left:
            left = left[os.write(self.write, left) :]
        while (answer := self.message()).get("id") != self.asked:
            self.events.append(answer)
        if "error" in answer:
            raise BrowserFault(f"{method}: {answer['error']}")
        result: dict[str, Any] = answer["result"]
        return result

    def open(self, file: Path, words: str = "") -> None:
        """Opens a file anew, with words behind its `#`, and waits until its scripts have run."""
        self.events.clear()
        # another address with the same file would only move within it
        self.ask("Page.navigate", url="about:blank")
        self.ask("Page.navigate", url=f"{file.resolve().as_uri()}#{words}")
        until = time.monotonic() + self.patience
        while not self.run("location.protocol === 'file:' && document.readyState === 'complete'"):
            if time.monotonic() > until:
                raise BrowserFault(f"{file} isn't loaded")
            time.sleep(0.02)
        self.frame()

    def frame(self) -> None:
        """Waits until what was asked for is drawn."""
        self.run("new Promise(done => requestAnimationFrame(() => requestAnimationFrame(() => done(1))))")

    def faults(self) -> list[str]:
        """What the page's scripts threw and what the browser refused."""
        thrown = [one["params"] for one in self.events if one.get("method") == "Runtime.exceptionThrown"]
        return [str(fault["exceptionDetails"].get("exception", {}).get("description", fault)) for fault in thrown]

    def run(self, script: str) -> Any:
        """The value of an expression in the page."""
        answer = self.ask("Runtime.evaluate", expression=script, returnByValue=True, awaitPromise=True)
        if "exceptionDetails" in answer:
            raise BrowserFault(f"{script}: {answer['exceptionDetails']}")
        return answer["result"].get("value")

    def click(self, x: float, y: float) -> None:
        for kind in ("mousePressed", "mouseReleased"):
            self.ask("Input.dispatchMouseEvent", type=kind, x=x, y=y, button="left", clickCount=1)

    def size(self, width: int, height: int) -> None:
        self.ask("Emulation.setDeviceMetricsOverride", width=width, height=height, deviceScaleFactor=1, mobile=False)

    def picture(self) -> bytes:
        """A PNG of what is seen."""
        return smaller(base64.b64decode(self.ask("Page.captureScreenshot", format="png")["data"]))


def smaller(picture: bytes) -> bytes:
    """The same PNG, pressed as far as it goes: a browser doesn't take the time."""

    def chunk(kind: bytes, content: bytes) -> bytes:
        return struct.pack(">I", len(content)) + kind + content + struct.pack(">I", zlib.crc32(kind + content))

    place, before, pixels, after = 8, picture[:8], b"", b""
    while place < len(picture):
        length = struct.unpack(">I", picture[place : place + 4])[0]
        kind, content = picture[place + 4 : place + 8], picture[place + 8 : place + 8 + length]
        place += 12 + length
        if kind == b"IDAT":
            pixels += content
        elif pixels:
            after += chunk(kind, content)
        else:
            before += chunk(kind, content)
    return before + chunk(b"IDAT", zlib.compress(zlib.decompress(pixels), 9)) + after


@contextmanager
def opened(patience: float = 30) -> Iterator[Page]:
    """A browser of its own for as long as it is wanted; it reads its pipe at 3 and writes it at 4."""
    to_read, to_write = os.pipe()
    from_read, from_write = os.pipe()
    with tempfile.TemporaryDirectory(ignore_cleanup_errors=True) as folder:
        words = [program() or "chromium", *FLAGS, f"--user-data-dir={folder}", "about:blank"]
        shell = ["sh", "-c", f'exec "$@" 3<&{to_read} 4>&{from_write}', "sh", *words]
        browser = subprocess.Popen(shell, pass_fds=(to_read, from_write), stderr=subprocess.DEVNULL)
        os.close(to_read)
        os.close(from_write)
        try:
            page = Page(to_write, from_read, patience)
            targets = page.ask("Target.getTargets")["targetInfos"]
            target = next(one["targetId"] for one in targets if one["type"] == "page")
            page.session = page.ask("Target.attachToTarget", targetId=target, flatten=True)["sessionId"]
            page.ask("Page.enable")
            page.ask("Runtime.enable")
            yield page
        finally:
            browser.terminate()
            browser.wait()
            os.close(to_write)
            os.close(from_read)
