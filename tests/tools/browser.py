"""A browser without a screen, driven by its debugging protocol: opens pages, presses keys, and asks
the page what it shows.

The protocol runs through two pipes, one message of JSON after the other, each ended by a zero byte.
"""
import atexit
import base64
import contextlib
import json
import os
import select
import shutil
import subprocess
import tempfile
import time
from typing import Any, Callable, Dict, List, Optional, Tuple

NAMES = ("chromium", "chromium-browser", "google-chrome")
PROGRAM = next(filter(None, map(shutil.which, NAMES)), None)
WORDS = ["--headless=new", "--no-sandbox", "--disable-gpu", "--disable-dev-shm-usage",
         "--no-first-run", "--hide-scrollbars", "--remote-debugging-pipe", "about:blank"]
CODES = {"Tab": 9, "Enter": 13, "Escape": 27, " ": 32, "PageUp": 33, "PageDown": 34, "End": 35,
         "Home": 36, "ArrowLeft": 37, "ArrowUp": 38, "ArrowRight": 39, "ArrowDown": 40}
TEXTS = {"Enter": "\r", " ": " "}
# how many seconds an answer may take
LONGEST = 120
# whether an expression holds in the end; the page looks itself, which is less work than to ask it
UNTIL = """(async () => {
    const begun = performance.now(), holds = () => %s;
    while (!holds()) {
        if (performance.now() - begun > %d) return false;
        await new Promise(done => setTimeout(done, 10));
    }
    return true;
})()"""
# where a click on an element goes
MIDDLE = """(element => {
    element.scrollIntoView({ block: "nearest" });
    const box = element.getBoundingClientRect();
    return [box.x + box.width / 2, box.y + box.height / 2];
})(document.querySelector(%s))"""


class Browser:
    """A browser with one tab. If the tab isn't painted, no frame comes: the page does all but what
    waits for one, at half the work.

    `requests` has the addresses that it asked for since the last page was opened, and `errors` the
    errors of the page's script."""

    def __init__(self, is_painted: bool = True) -> None:
        self.number, self.loaded, self.is_traced, self.is_running = 0, False, False, False
        self.is_painted = is_painted
        self.session: Optional[str] = None
        self.requests: List[str] = []
        self.errors: List[str] = []
        self.traced: List[Dict[str, Any]] = []

    def start(self) -> None:
        """Starts the browser, if it isn't running."""
        if self.is_running:
            return
        self.folder = tempfile.mkdtemp()
        import fcntl  # which Windows lacks
        pairs = [os.pipe(), os.pipe()]
        theirs = [fcntl.fcntl(end, fcntl.F_DUPFD, 10) for end in (pairs[0][0], pairs[1][1])]
        for end in (pairs[0][0], pairs[1][1]):
            os.close(end)

        def lay() -> None:
            os.dup2(theirs[0], 3)
            os.dup2(theirs[1], 4)

        words = [str(PROGRAM), "--user-data-dir=" + os.path.join(self.folder, "profile"), *WORDS]
        self.process = subprocess.Popen(
            words, stdin=subprocess.DEVNULL, stdout=subprocess.DEVNULL, stderr=subprocess.DEVNULL,
            pass_fds=(3, 4), preexec_fn=lay)
        for end in theirs:
            os.close(end)
        self.writing = os.fdopen(pairs[0][1], "wb", buffering=0)
        self.reading, self.left = pairs[1][0], b""
        self.is_running = True
        atexit.register(self.close)
        tab = self._tab()
        self.session = self.call("Target.attachToTarget", targetId=tab, flatten=True)["sessionId"]
        for domain in ("Page", "Runtime", "Network"):
            self.call(domain + ".enable")

    def close(self) -> None:
        """Ends the browser, if it is running, and removes what it wrote."""
        self.session = None
        with contextlib.suppress(OSError, subprocess.TimeoutExpired):
            if self.is_running:
                self.call("Browser.close")
                self.process.wait(20)
        self._end()

    def _end(self) -> None:
        if self.is_running:
            self.is_running, self.session = False, None
            self.process.kill()
            self.process.wait()
            self.writing.close()
            os.close(self.reading)
            shutil.rmtree(self.folder, ignore_errors=True)

    def _tab(self) -> str:
        """Returns the tab that the browser opens with, or one that no window shows."""
        if not self.is_painted:
            made = self.call("Target.createTarget", url="about:blank", hidden=True)
            return str(made["targetId"])
        while True:
            for target in self.call("Target.getTargets")["targetInfos"]:
                if target["type"] == "page":
                    return str(target["targetId"])
            time.sleep(.02)

    # ---- messages

    def call(self, method: str, **values: Any) -> Any:
        """Sends a command and returns its result."""
        self.number += 1
        message: Dict[str, Any] = {"id": self.number, "method": method, "params": values}
        if self.session:
            message["sessionId"] = self.session
        self.writing.write(json.dumps(message).encode() + b"\0")
        while True:
            answer = self._message()
            if answer.get("id") == self.number:
                if "error" in answer:
                    raise ValueError(f"{method}: {answer['error']}")
                return answer["result"]

    def _message(self) -> Dict[str, Any]:
        while b"\0" not in self.left:
            ready = select.select([self.reading], [], [], LONGEST)[0]
            data = os.read(self.reading, 1 << 20) if ready else b""
            if not data:
                # The next test starts another browser.
                self._end()
                raise OSError("the browser has gone" if ready else "the browser doesn't answer")
            self.left += data
        raw, self.left = self.left.split(b"\0", 1)
        message: Dict[str, Any] = json.loads(raw)
        self._event(message.get("method", ""), message.get("params", {}))
        return message

    def _event(self, name: str, values: Dict[str, Any]) -> None:
        if name == "Network.requestWillBeSent":
            self.requests.append(values["request"]["url"])
        elif name == "Runtime.exceptionThrown":
            details = values["exceptionDetails"]
            self.errors.append(details.get("exception", {}).get("description", details["text"]))
        elif name == "Page.loadEventFired":
            self.loaded = True
        elif name == "Tracing.dataCollected":
            self.traced += values["value"]
        elif name == "Tracing.tracingComplete":
            self.is_traced = True

    # ---- what a user does

    def size(self, width: int, height: int, dark: bool = False) -> None:
        """Sets the size of the tab, and whether the user prefers dark pages."""
        self.call("Emulation.setDeviceMetricsOverride", width=width, height=height,
                  deviceScaleFactor=1, mobile=False)
        scheme = {"name": "prefers-color-scheme", "value": "dark" if dark else "light"}
        self.call("Emulation.setEmulatedMedia", features=[scheme])

    def open(self, address: str) -> None:
        """Opens a page anew, and waits until it is loaded."""
        for place in ("about:blank", address):
            self.requests, self.errors, self.loaded = [], [], False
            self.call("Page.navigate", url=place)
            while not self.loaded:
                self._message()

    def press(self, *keys: str) -> None:
        """Presses keys, each by its name or its character. 'Shift+' before it adds that key."""
        for key in keys:
            shift, name = key.startswith("Shift+"), key.replace("Shift+", "")
            text = TEXTS.get(name, name if len(name) == 1 else "")
            code = CODES.get(name, ord(name.upper()) if len(name) == 1 else 0)
            values = {"key": name, "code": name, "windowsVirtualKeyCode": code,
                      "modifiers": 8 * shift}
            self.call("Input.dispatchKeyEvent", type="keyDown" if text else "rawKeyDown",
                      text=text, **values)
            self.call("Input.dispatchKeyEvent", type="keyUp", **values)

    def click(self, selector: str) -> None:
        """Clicks in the middle of the first element that fits a selector."""
        x, y = self.ask(MIDDLE % json.dumps(selector))
        for kind in ("mousePressed", "mouseReleased"):
            self.call("Input.dispatchMouseEvent", type=kind, x=x, y=y, button="left",
                      clickCount=1)

    # ---- what the page shows

    def ask(self, expression: str) -> Any:
        """Returns the value of an expression in the page."""
        found = self.call("Runtime.evaluate", expression=expression, returnByValue=True,
                          awaitPromise=True)
        if "exceptionDetails" in found:
            raise ValueError(str(found["exceptionDetails"]))
        return found["result"].get("value")

    def until(self, expression: str, seconds: float = 60) -> bool:
        """Waits until an expression holds, or the time has run out. Returns whether it holds."""
        return bool(self.ask(UNTIL % (expression, seconds * 1000)))

    def longest(self, work: Callable[[], None]) -> float:
        """Does some work, and returns the longest time in milliseconds for which the page's script
        didn't answer meanwhile: the processor time of its longest task. So the time that other
        programs take doesn't count."""
        self.traced, self.is_traced = [], False
        self.call("Tracing.start", traceConfig={"includedCategories": ["toplevel"]})
        work()
        self.call("Tracing.end")
        while not self.is_traced:
            self._message()
        threads = {(it["pid"], it["tid"]) for it in self.traced
                   if it["name"] == "thread_name" and it["args"]["name"] == "CrRendererMain"}
        times: List[float] = [
            it.get("tdur", 0) for it in self.traced
            if it["name"].endswith("RunTask") and (it["pid"], it["tid"]) in threads]
        self.traced = []
        return float(max(times)) / 1000

    def picture(self, name: str) -> None:
        """Writes what the tab shows as a picture, to look at."""
        data = self.call("Page.captureScreenshot", format="png")["data"]
        with open(name, "wb") as file:
            file.write(base64.b64decode(data))

    def spoken(self) -> List[Tuple[str, str]]:
        """Returns what the page offers to a screen reader, as pairs of role and name in order."""
        pairs = []
        for node in self.call("Accessibility.getFullAXTree")["nodes"]:
            if not node.get("ignored"):
                pairs.append((node["role"]["value"], node.get("name", {}).get("value", "")))
        return pairs
