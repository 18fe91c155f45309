"""A headless browser for tests: Chromium, told what to do over two pipes (its option --remote-debugging-pipe)."""

from __future__ import annotations

import json
import os
import shutil
import subprocess
import tempfile
from typing import Dict, Optional

#: The package of Debian that has the browser.
PACKAGE = "chromium"
_WORDS = (
    "--headless=new", "--no-sandbox", "--disable-gpu", "--no-first-run", "--disable-extensions", "--remote-debugging-pipe"
)


def browser_path() -> Optional[str]:
    """The browser, where it is installed."""
    return shutil.which("chromium")


class Browser:
    """A page in a browser of its own."""

    def __init__(self, url: str) -> None:
        self._folder = tempfile.mkdtemp(prefix="pedx-browser-")
        told, self._to = os.pipe()
        self._from, answers = os.pipe()
        # The browser reads orders at 3 and writes answers at 4.
        command = 'exec 3<&"$1" 4>&"$2"; shift 2; exec "$@"'
        self._process = subprocess.Popen(
            ["bash", "-c", command, "bash", str(told), str(answers), browser_path() or "", *_WORDS,
             f"--user-data-dir={self._folder}", "about:blank"],
            pass_fds=(told, answers), stdout=subprocess.DEVNULL, stderr=subprocess.DEVNULL,
        )
        os.close(told)
        os.close(answers)
        self._number, self._rest = 0, b""
        self._session: Optional[str] = None
        target = self._ask("Target.createTarget", url="about:blank")["targetId"]
        self._session = str(self._ask("Target.attachToTarget", targetId=target, flatten=True)["sessionId"])
        self._ask("Performance.enable", timeDomain="threadTicks")
        self._ask("Page.navigate", url=url)

    def __enter__(self) -> Browser:
        return self

    def __exit__(self, *_: object) -> None:
        self._process.kill()
        self._process.wait()
        os.close(self._to)
        os.close(self._from)
        shutil.rmtree(self._folder, ignore_errors=True)

    def value(self, expression: str) -> object:
        """The value of an expression of the page's language, which may be a promise."""
        answer = self._ask("Runtime.evaluate", expression=expression, returnByValue=True, awaitPromise=True)
        if "exceptionDetails" in answer:
            raise AssertionError(f"{expression}: {answer['exceptionDetails']}")
        result = answer["result"]
        return result.get("value") if isinstance(result, dict) else None

    def seconds(self) -> float:
        """The processor seconds that the page has taken so far."""
        metrics = self._ask("Performance.getMetrics")["metrics"]
        assert isinstance(metrics, list)
        return float(next(one["value"] for one in metrics if one["name"] == "TaskDuration"))

    def picture(self, width: int, height: int) -> str:
        """What the page looks like in a window of this size: a PNG in base 64."""
        self._ask("Emulation.setDeviceMetricsOverride", width=width, height=height, deviceScaleFactor=1, mobile=False)
        drawn = "new Promise(done => requestAnimationFrame(() => requestAnimationFrame(done)))"
        self.value(f"document.fonts.ready.then(() => {drawn})")
        return str(self._ask("Page.captureScreenshot", format="png")["data"])

    def look(self, media: str, scheme: str) -> None:
        """Has the page look as on a screen or on paper, and in light or dark colours."""
        self._ask("Emulation.setEmulatedMedia", media=media, features=[{"name": "prefers-color-scheme", "value": scheme}])

    def press(self, key: str) -> None:
        """Presses a key."""
        text = key if len(key) == 1 else None
        for kind in ("keyDown", "keyUp"):
            words: Dict[str, object] = {"type": kind, "key": key}
            if text is not None and kind == "keyDown":
                words["text"] = text
            self._ask("Input.dispatchKeyEvent", **words)

    def _ask(self, method: str, **words: object) -> Dict[str, object]:
        self._number += 1
        order: Dict[str, object] = {"id": self._number, "method": method, "params": words}
        if self._session is not None:
            order["sessionId"] = self._session
        os.write(self._to, json.dumps(order).encode() + b"\0")
        while True:
            answer = self._answer()
            if answer.get("id") == self._number:
                result = answer.get("result")
                if not isinstance(result, dict):
                    raise AssertionError(f"{method}: {answer}")
                return result

    def _answer(self) -> Dict[str, object]:
        while b"\0" not in self._rest:
            part = os.read(self._from, 1 << 16)
            if not part:
                raise AssertionError("the browser has ended")
            self._rest += part
        text, _, self._rest = self._rest.partition(b"\0")
        answer: Dict[str, object] = json.loads(text)
        return answer
