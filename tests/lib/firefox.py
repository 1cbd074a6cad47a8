"""Drives Firefox by its own protocol, Marionette: messages in JSON, each with its length before it."""
import json
import pathlib
import shutil
import socket
import subprocess
import tempfile
import time

NAMES = ("firefox", "firefox-esr")
LONGEST = 60


def found():
    """The command of a Firefox that is installed, or none."""
    return next(filter(None, map(shutil.which, NAMES)), None)


class Firefox:
    """A Firefox without a window."""

    def __init__(self):
        self.home = tempfile.mkdtemp(prefix="cnum-firefox-")
        pathlib.Path(self.home, "user.js").write_text('user_pref("marionette.port", 0);\n')
        how = {"stdin": subprocess.DEVNULL, "stdout": subprocess.DEVNULL, "stderr": subprocess.DEVNULL}
        words = [found(), "--headless", "--marionette", "--no-remote", "--profile", self.home]
        self.process = subprocess.Popen(words, start_new_session=True, **how)
        self.count, self.socket = 0, socket.create_connection(("127.0.0.1", self.port()))
        self.stream = self.socket.makefile("rb")
        self.message()
        self.call("WebDriver:NewSession", capabilities={"alwaysMatch": {}})
        self.call("WebDriver:SetTimeouts", script=600_000)

    def port(self):
        """The port that Firefox has chosen, once it has."""
        file, end = pathlib.Path(self.home, "MarionetteActivePort"), time.monotonic() + LONGEST
        while not file.exists() or not file.read_text():
            if time.monotonic() > end or self.process.poll() is not None:
                raise EOFError("Firefox did not start")
            time.sleep(0.1)
        return int(file.read_text())

    def __enter__(self):
        return self

    def __exit__(self, *_):
        try:
            self.call("Marionette:Quit", flags=["eForceQuit"])
            self.process.wait(20)
        except (EOFError, OSError, RuntimeError, subprocess.TimeoutExpired):
            self.process.kill()
        self.socket.close()
        shutil.rmtree(self.home, ignore_errors=True)

    def message(self):
        size = b""
        while not size.endswith(b":"):
            letter = self.stream.read(1)
            if not letter:
                raise EOFError("Firefox ended")
            size += letter
        return json.loads(self.stream.read(int(size[:-1])))

    def call(self, command, **params):
        """What a command answers."""
        self.count += 1
        text = json.dumps([0, self.count, command, params]).encode()
        self.socket.sendall(b"%d:%s" % (len(text), text))
        _, _, error, answer = self.message()
        if error:
            raise RuntimeError(f"{command}: {error.get('message')}")
        return answer

    def resize(self, width, height):
        """Gives the page so many points, and not the window."""
        for _ in range(2):
            rect = self.call("WebDriver:GetWindowRect")
            inner = self.value("[innerWidth, innerHeight]")
            self.call("WebDriver:SetWindowRect", width=rect["width"] + width - inner[0], height=rect["height"] + height - inner[1])

    def open(self, address):
        self.call("WebDriver:Navigate", url=address)

    def value(self, text):
        """The value of an expression in the page; for a promise, its result."""
        script = f"const done = arguments[arguments.length - 1]; Promise.resolve({text}).then(it => done([it]), it => done(String(it)));"
        answer = self.call("WebDriver:ExecuteAsyncScript", script=script, args=[], sandbox=None)["value"]
        if not isinstance(answer, list):
            raise RuntimeError(answer)
        return answer[0]

    def until(self, text, seconds=LONGEST):
        """Whether an expression holds within this time."""
        end = time.monotonic() + seconds
        while time.monotonic() < end:
            if self.value(text):
                return True
            time.sleep(0.05)
        return False
