"""Drives Chromium by its DevTools over a pipe: no port, and nothing beside the standard library."""
import base64
import json
import os
import shutil
import subprocess
import tempfile
import time

NAMES = ("chromium", "chromium-browser", "google-chrome")
LONGEST = 60


def found():
    """The command of a Chromium that is installed, or none."""
    return next(filter(None, map(shutil.which, NAMES)), None)


class Browser:
    """A Chromium with one page and no window. `events` has what it reports in between."""

    def __init__(self, width=1200, height=900):
        self.home = tempfile.mkdtemp(prefix="cnum-browser-")
        (of_browser, to_browser), (from_browser, by_browser) = os.pipe(), os.pipe()

        def hand_pipes():
            # It reads from descriptor 3 and writes to 4.
            os.dup2(of_browser, 13)
            os.dup2(by_browser, 14)
            os.dup2(13, 3)
            os.dup2(14, 4)

        words = [found(), "--headless", "--no-sandbox", "--disable-gpu", "--remote-debugging-pipe", "--hide-scrollbars", "--no-first-run"]
        words += [f"--user-data-dir={self.home}", f"--window-size={width},{height}", "about:blank"]
        how = {"stdin": subprocess.DEVNULL, "stdout": subprocess.DEVNULL, "stderr": subprocess.DEVNULL}
        self.process = subprocess.Popen(words, close_fds=False, preexec_fn=hand_pipes, start_new_session=True, **how)
        os.close(of_browser)
        os.close(by_browser)
        self.to, self.come, self.rest, self.count, self.events, self.session = to_browser, from_browser, b"", 0, [], None
        page = next(it for it in self.call("Target.getTargets")["targetInfos"] if it["type"] == "page")
        self.session = self.call("Target.attachToTarget", targetId=page["targetId"], flatten=True)["sessionId"]
        for domain in ("Page", "Runtime", "Network", "Log", "Accessibility"):
            self.call(f"{domain}.enable")

    def __enter__(self):
        return self

    def __exit__(self, *_):
        try:
            self.call("Browser.close")
            self.process.wait(10)
        except (EOFError, OSError, RuntimeError, subprocess.TimeoutExpired):
            self.process.kill()
        os.close(self.to)
        os.close(self.come)
        shutil.rmtree(self.home, ignore_errors=True)

    def next_message(self):
        while b"\0" not in self.rest:
            more = os.read(self.come, 1 << 20)
            if not more:
                raise EOFError("the browser ended")
            self.rest += more
        message, self.rest = self.rest.split(b"\0", 1)
        return json.loads(message)

    def call(self, method, **params):
        """What a method of DevTools answers."""
        self.count += 1
        message = {"id": self.count, "method": method, "params": params}
        if self.session and not method.startswith(("Target.", "Browser.")):
            message["sessionId"] = self.session
        os.write(self.to, json.dumps(message).encode() + b"\0")
        while True:
            answer = self.next_message()
            if answer.get("id") == self.count:
                if "error" in answer:
                    raise RuntimeError(f"{method}: {answer['error']}")
                return answer["result"]
            self.events.append(answer)

    def value(self, text):
        """The value of an expression in the page; for a promise, its result."""
        answer = self.call("Runtime.evaluate", expression=text, awaitPromise=True, returnByValue=True)
        if "exceptionDetails" in answer:
            raise RuntimeError(json.dumps(answer["exceptionDetails"])[:800])
        return answer["result"].get("value")

    def open(self, address):
        self.call("Page.navigate", url=address)

    def resize(self, width, height):
        """Gives the page so many points, and not the window."""
        self.call("Emulation.setDeviceMetricsOverride", width=width, height=height, deviceScaleFactor=1, mobile=False)

    def until(self, text, seconds=LONGEST):
        """Whether an expression holds within this time."""
        end = time.monotonic() + seconds
        while time.monotonic() < end:
            try:
                if self.value(text):
                    return True
            except RuntimeError:
                pass
            time.sleep(0.02)
        return False

    def picture(self, selector="body"):
        """A PNG of a part of the page, somewhat smaller."""
        box = self.value(f"(({{ x, y, width, height }}) => ({{ x, y, width, height }}))(document.querySelector({selector!r}).getBoundingClientRect())")
        return base64.b64decode(self.call("Page.captureScreenshot", format="png", captureBeyondViewport=True, clip={**box, "scale": 0.8})["data"])

    def told(self, method):
        """The reports of the browser of this kind."""
        return [it["params"] for it in self.events if it.get("method") == method]
