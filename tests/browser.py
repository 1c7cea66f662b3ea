"""Pages as a person sees them: headless Chromium at a width, asked over its debugging pipe.

    with browser.Browser() as shown:
        shown.open("http://127.0.0.1:8000/", 400)
        shown.wider_than_window()

It takes Python's standard library and Debian's `chromium`.
"""

from __future__ import annotations

import base64
import functools
import http.server
import json
import os
import pathlib
import select
import shutil
import subprocess
import tempfile
import threading
import time
import types
import typing

NAMES = ("chromium", "chromium-browser", "google-chrome")
WIDTHS = (1280, 400)
HEIGHT = 900
SECONDS = 300
# The elements that reach past the right edge of the window, but for what scrolls by itself.
WIDER = """
(() => {
  const edge = document.documentElement.clientWidth + 1;
  const scrolls = (it) => {
    for (; it && it !== document.body; it = it.parentElement) {
      const way = getComputedStyle(it).overflowX;
      if (way === "auto" || way === "scroll" || way === "hidden" || getComputedStyle(it).position === "fixed") return true;
    }
    return false;
  };
  return [...document.body.querySelectorAll("*")]
    .filter((it) => it.getBoundingClientRect().width && it.getBoundingClientRect().right > edge && !scrolls(it))
    .slice(0, 5).map((it) => it.tagName + "." + it.className);
})()
"""


def path() -> str | None:
    """The browser of this machine, if there is one."""
    return next((found for name in NAMES for found in [shutil.which(name)] if found), None)


class Browser:
    """A browser with one page."""

    def __init__(self) -> None:
        self.folder = tempfile.mkdtemp(prefix="browser-")
        to_browser, self.to = os.pipe()
        self.of, of_browser = os.pipe()
        options = ["--headless", "--no-sandbox", "--disable-gpu", "--no-first-run", "--remote-debugging-pipe"]
        options.append("--disable-dev-shm-usage")

        def wire() -> None:
            # The browser reads from 3 and writes to 4.
            os.dup2(to_browser, 13)
            os.dup2(of_browser, 14)
            os.dup2(13, 3)
            os.dup2(14, 4)

        self.process = subprocess.Popen(
            [path() or NAMES[0], *options, f"--user-data-dir={self.folder}", "about:blank"], preexec_fn=wire, close_fds=False,
            stdin=subprocess.DEVNULL, stdout=subprocess.DEVNULL, stderr=subprocess.DEVNULL,
        )
        os.close(to_browser)
        os.close(of_browser)
        self.number = 0
        self.text = b""
        self.session = ""
        target = self.ask("Target.createTarget", url="about:blank")["targetId"]
        self.session = self.ask("Target.attachToTarget", targetId=target, flatten=True)["sessionId"]
        self.ask("Page.enable")

    def __enter__(self) -> Browser:
        return self

    def __exit__(self, _kind: type[BaseException] | None, _what: BaseException | None, _where: types.TracebackType | None) -> None:
        self.process.terminate()
        try:
            self.process.wait(SECONDS)
        except subprocess.TimeoutExpired:
            self.process.kill()
            self.process.wait()
        os.close(self.to)
        os.close(self.of)
        shutil.rmtree(self.folder, ignore_errors=True)

    def message(self) -> dict[str, typing.Any]:
        """The next message of the browser."""
        until = time.monotonic() + SECONDS
        while b"\0" not in self.text:
            if not select.select([self.of], [], [], max(0, until - time.monotonic()))[0]:
                raise TimeoutError("the browser does not answer")
            piece = os.read(self.of, 1 << 20)
            if not piece:
                raise EOFError("the browser has ended")
            self.text += piece
        said, _, self.text = self.text.partition(b"\0")
        return typing.cast("dict[str, typing.Any]", json.loads(said))

    def ask(self, method: str, **params: typing.Any) -> dict[str, typing.Any]:
        """What the browser answers to a command of its debugging protocol."""
        self.number += 1
        asked = {"id": self.number, "method": method, "params": params, **({"sessionId": self.session} if self.session else {})}
        os.write(self.to, json.dumps(asked).encode() + b"\0")
        while True:
            said = self.message()
            if said.get("id") == self.number:
                if "error" in said:
                    raise ValueError(f"{method}: {said['error']}")
                return typing.cast("dict[str, typing.Any]", said["result"])

    def open(self, url: str, width: int) -> None:
        """Opens a page in a window of this width, and waits for it to be loaded."""
        self.ask("Emulation.setDeviceMetricsOverride", width=width, height=HEIGHT, deviceScaleFactor=1, mobile=width < 600)
        self.evaluate("window.isLeft = true")
        self.ask("Page.navigate", url=url)
        self.until("document.readyState === 'complete' && !window.isLeft")

    def evaluate(self, script: str) -> typing.Any:
        """The value of an expression in the page."""
        said = self.ask("Runtime.evaluate", expression=script, returnByValue=True, awaitPromise=True)
        if "exceptionDetails" in said:
            raise ValueError(said["exceptionDetails"])
        return said["result"].get("value")

    def until(self, script: str, seconds: float = SECONDS) -> None:
        """Waits so many seconds for an expression of the page to be true."""
        end = time.monotonic() + seconds
        while not self.evaluate(script):
            if time.monotonic() > end:
                raise TimeoutError(f"not true: {script}")
            time.sleep(0.05)

    def wider_than_window(self) -> list[str]:
        """The elements that reach past the right edge of the window."""
        return typing.cast("list[str]", self.evaluate(WIDER))

    def picture(self, file: pathlib.Path) -> None:
        """Writes what is seen as a PNG."""
        file.write_bytes(base64.b64decode(self.ask("Page.captureScreenshot", format="png")["data"]))


class _Quiet(http.server.SimpleHTTPRequestHandler):
    def log_message(self, format: str, *args: typing.Any) -> None:
        """Says nothing."""


class _Patient(http.server.ThreadingHTTPServer):
    def handle_error(self, *_: typing.Any) -> None:
        """Says nothing of a browser that leaves a page before it has all of it."""


class Served:
    """A folder on 127.0.0.1, as long as the block lasts: `with Served(folder) as url`."""

    def __init__(self, folder: pathlib.Path) -> None:
        handler = functools.partial(_Quiet, directory=str(folder))
        self.server = _Patient(("127.0.0.1", 0), handler)
        self.thread = threading.Thread(target=self.server.serve_forever)

    def __enter__(self) -> str:
        self.thread.start()
        return f"http://127.0.0.1:{self.server.server_address[1]}/"

    def __exit__(self, *_: typing.Any) -> None:
        self.server.shutdown()
        self.thread.join()
        self.server.server_close()
