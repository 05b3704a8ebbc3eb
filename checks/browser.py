"""A headless Chromium that is told what to do over a pipe, by its DevTools protocol, for checks/report.py."""
from __future__ import annotations

import base64
import fcntl
import json
import os
import shutil
import subprocess
import tempfile
from pathlib import Path
from typing import Any

# Chromium reads what it is told from this descriptor, and answers on that one.
TOLD, ANSWERS = 3, 4
FREE = 10


class Browser:
    """One page of a browser."""

    def __init__(self, program: str = "chromium") -> None:
        self.home = tempfile.mkdtemp()
        told, self.sends = (fcntl.fcntl(end, fcntl.F_DUPFD, FREE) for end in os.pipe())
        self.hears, answers = (fcntl.fcntl(end, fcntl.F_DUPFD, FREE) for end in os.pipe())

        def give_ends() -> None:
            os.dup2(told, TOLD)
            os.dup2(answers, ANSWERS)

        words = ["--headless=new", "--no-sandbox", "--disable-gpu", "--hide-scrollbars", "--no-first-run", "--remote-debugging-pipe"]
        words.append(f"--user-data-dir={self.home}")
        self.process = subprocess.Popen(
            [program, *words, "about:blank"], preexec_fn=give_ends, pass_fds=(TOLD, ANSWERS), stdout=subprocess.DEVNULL, stderr=subprocess.DEVNULL
        )
        os.close(told)
        os.close(answers)
        self.number, self.heard, self.session = 0, b"", None
        self.events: list[dict[str, Any]] = []
        target = self.send("Target.createTarget", url="about:blank")["targetId"]
        self.session = self.send("Target.attachToTarget", targetId=target, flatten=True)["sessionId"]
        for part in ("Page", "Network", "Log", "Runtime"):
            self.send(f"{part}.enable")
        self.send("Performance.enable", timeDomain="threadTicks")

    # What is sent and heard

    def hear(self) -> dict[str, Any]:
        while b"\0" not in self.heard:
            more = os.read(self.hears, 1 << 20)
            if not more:
                raise EOFError("the browser ended")
            self.heard += more
        message, _, self.heard = self.heard.partition(b"\0")
        return json.loads(message)

    def send(self, method: str, **words: object) -> dict[str, Any]:
        self.number += 1
        message = {"id": self.number, "method": method, "params": words, **({"sessionId": self.session} if self.session else {})}
        told = memoryview(json.dumps(message).encode() + b"\0")
        while told:
            told = told[os.write(self.sends, told) :]
        while True:
            heard = self.hear()
            if heard.get("id") == self.number:
                if "error" in heard:
                    raise RuntimeError(f"{method}: {heard['error']}")
                return heard["result"]
            self.events.append(heard)

    def wait_for(self, method: str) -> None:
        while not any(event.get("method") == method for event in self.events):
            self.events.append(self.hear())

    # The page

    def open(self, path: Path) -> None:
        self.events.clear()
        self.send("Page.navigate", url=path.resolve().as_uri())
        self.wait_for("Page.loadEventFired")

    def faults(self) -> list[str]:
        """What the page complained of, and what else it wanted to load."""
        said = []
        for event in self.events:
            words = event.get("params", {})
            if event.get("method") == "Runtime.exceptionThrown":
                said.append(str(words["exceptionDetails"].get("exception", {}).get("description")))
            if event.get("method") == "Log.entryAdded" and words["entry"]["level"] in ("error", "warning"):
                said.append(words["entry"]["text"])
            if event.get("method") == "Network.requestWillBeSent" and not words["request"]["url"].startswith("file:"):
                said.append(f"it wants {words['request']['url']}")
        return said

    def value(self, said: str) -> Any:
        """What an expression of the page comes to."""
        answer = self.send("Runtime.evaluate", expression=said, returnByValue=True, awaitPromise=True)
        if "exceptionDetails" in answer:
            raise RuntimeError(f"{said}: {answer['exceptionDetails']}")
        return answer["result"].get("value")

    def click(self, selector: str) -> None:
        """A click of the mouse on what the selector finds."""
        found = f"document.querySelector({json.dumps(selector)})"
        self.value(f"{found}.scrollIntoView({{block: 'center'}})")
        inside = "[box.x + Math.min(20, box.width / 2), box.y + Math.min(10, box.height / 2)]"
        left, top = self.value(f"(box => {inside})({found}.getBoundingClientRect())")
        for kind in ("mousePressed", "mouseReleased"):
            self.send("Input.dispatchMouseEvent", type=kind, x=left, y=top, button="left", clickCount=1)

    def press(self, key: str, code: int, text: str = "") -> None:
        words = {"key": key, "windowsVirtualKeyCode": code, "text": text}
        for kind in ("keyDown", "keyUp"):
            self.send("Input.dispatchKeyEvent", type=kind, **(words if kind == "keyDown" else {**words, "text": ""}))

    def look(self, width: int = 1280, height: int = 900, scheme: str = "light", media: str = "") -> None:
        self.send("Emulation.setDeviceMetricsOverride", width=width, height=height, deviceScaleFactor=1, mobile=False)
        self.send("Emulation.setEmulatedMedia", media=media, features=[{"name": "prefers-color-scheme", "value": scheme}])

    def has_scripts(self, wanted: bool) -> None:
        self.send("Emulation.setScriptExecutionDisabled", value=not wanted)

    def spent(self) -> float:
        """The processor time of the page's thread since it was opened."""
        found = self.send("Performance.getMetrics")["metrics"]
        return next(metric["value"] for metric in found if metric["name"] == "TaskDuration")

    def height(self) -> int:
        return int(self.send("Page.getLayoutMetrics")["cssContentSize"]["height"])

    def shoot(self, path: Path) -> None:
        path.write_bytes(base64.b64decode(self.send("Page.captureScreenshot", format="png")["data"]))

    def print(self, path: Path) -> None:
        path.write_bytes(base64.b64decode(self.send("Page.printToPDF", printBackground=True)["data"]))

    def close(self) -> None:
        self.process.terminate()
        self.process.wait()
        shutil.rmtree(self.home, ignore_errors=True)
