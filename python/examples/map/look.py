#!/usr/bin/env python3
"""Tries the map in a headless browser, and takes a picture of it.

    GIST=.. python3 look.py map.png

It makes an index of 100,000 boxes, loads it, serves it, moves and zooms the
map, adds a box and deletes it. The browser is chromium, or what the
environment variable BROWSER names.
"""

import base64
import json
import os
import subprocess
import sys
import tempfile
import time
from pathlib import Path
from typing import Any, Dict

import gist

HERE = Path(__file__).resolve().parent
COUNT = 100_000
WIDTH, HEIGHT = 1200, 800
SHIFT = 8


class Browser:
    """A page of a headless browser, which is asked over two pipes."""

    def __init__(self, url: str, folder: str) -> None:
        asked, self._to = os.pipe()
        self._from, told = os.pipe()
        # (the browser reads what it is asked from 3, and answers to 4)
        self._process = subprocess.Popen(
            ["bash", "-c", f'exec "$@" 3<&{asked} 4>&{told}', "bash",
             os.environ.get("BROWSER", "chromium"), "--headless",
             "--no-sandbox", "--remote-debugging-pipe", "--hide-scrollbars",
             f"--user-data-dir={folder}", f"--window-size={WIDTH},{HEIGHT}"],
            pass_fds=(asked, told), stderr=subprocess.DEVNULL)
        os.close(asked)
        os.close(told)
        self._read = b""
        self._number = 0
        self._page: Dict[str, str] = {}
        target = self.ask("Target.createTarget", url=url, width=WIDTH,
                          height=HEIGHT, newWindow=True)["targetId"]
        self._page["sessionId"] = self.ask(
            "Target.attachToTarget", targetId=target,
            flatten=True)["sessionId"]

    def ask(self, method: str, **params: Any) -> Dict[str, Any]:
        """Calls a method of the browser's protocol for tools."""
        self._number += 1
        call = {"id": self._number, "method": method, "params": params,
                **self._page}
        os.write(self._to, json.dumps(call).encode() + b"\0")
        while True:
            answer = json.loads(self._next())
            if answer.get("id") == self._number:
                if "error" in answer:
                    raise RuntimeError(f"{method}: {answer['error']}")
                return dict(answer["result"])

    def _next(self) -> bytes:
        while b"\0" not in self._read:
            data = os.read(self._from, 1 << 20)
            if not data:
                raise RuntimeError("the browser has ended")
            self._read += data
        message, _, self._read = self._read.partition(b"\0")
        return message

    def value(self, expression: str) -> Any:
        """What an expression of the page's script gives."""
        return self.ask("Runtime.evaluate", expression=expression,
                        awaitPromise=True, returnByValue=True)[
                            "result"].get("value")

    def mouse(self, kind: str, x: float, y: float, keys: int = 0,
              **more: Any) -> None:
        self.ask("Input.dispatchMouseEvent", type=kind, x=x, y=y,
                 modifiers=keys, button="left", clickCount=1, **more)

    def drag(self, x1: float, y1: float, x2: float, y2: float,
             keys: int = 0) -> None:
        self.mouse("mousePressed", x1, y1, keys)
        for step in range(1, 6):
            self.mouse("mouseMoved", x1 + (x2 - x1) * step / 5,
                       y1 + (y2 - y1) * step / 5, keys, buttons=1)
        self.mouse("mouseReleased", x2, y2, keys)

    def status(self, wanted: str) -> str:
        """Waits until the page shows what is in view, and its line of status
        has this text."""
        text = ""
        for _ in range(1200):
            is_quiet = self.value(
                "answered > 0 && answered === asked && !timer")
            text = self.value("document.getElementById('status').textContent")
            if is_quiet and wanted in text:
                return str(text)
            time.sleep(0.05)
        raise RuntimeError(f"the page says {text!r}, not {wanted!r}")

    def picture(self, path: Path) -> None:
        data = self.ask("Page.captureScreenshot", format="png")["data"]
        path.write_bytes(base64.b64decode(data))

    def close(self) -> None:
        self.ask("Browser.close")
        self._process.wait()


def try_it(browser: Browser, picture: Path) -> None:
    """Moves, zooms, adds and deletes; takes pictures of all and of a town."""
    print(browser.status(f"{COUNT:,} boxes in view"))
    browser.picture(picture.with_name(f"{picture.stem}-all.png"))
    browser.drag(700, 400, 600, 350)
    for _ in range(9):
        browser.mouse("mouseWheel", 600, 400, deltaX=0, deltaY=-200)
    print(browser.status(" boxes in view"))
    before = browser.value("count")
    browser.drag(500, 300, 700, 450, SHIFT)
    print(browser.status("added row"))
    assert browser.value("count") == before + 1
    browser.picture(picture)
    # (its corner may lie under a smaller box, which goes first)
    browser.drag(520, 320, 520, 320, SHIFT)
    print(browser.status("deleted row"))
    assert browser.value("count") == before


def main() -> None:
    picture = Path(sys.argv[1] if len(sys.argv) > 1 else "map.png")
    with tempfile.TemporaryDirectory() as folder:
        table, index = Path(folder, "boxes.csv"), Path(folder, "map.gist")
        with open(table, "w") as lines:
            subprocess.run([sys.executable, HERE / "boxes.py", str(COUNT)],
                           stdout=lines, check=True)
        gist.format(index, 4096)
        subprocess.run([sys.executable, "-m", "gist", "load", table, index],
                       check=True)
        server = subprocess.Popen(
            [sys.executable, HERE / "serve.py", index, "--port", "0"],
            stdout=subprocess.PIPE, text=True)
        assert server.stdout
        try:
            browser = Browser(server.stdout.readline().strip(), folder)
            try_it(browser, picture)
            browser.close()
        finally:
            server.terminate()
            server.wait()
    print(f"see {picture}")


if __name__ == "__main__":
    main()
