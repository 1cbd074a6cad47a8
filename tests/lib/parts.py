"""Scripts that run others: shows what each prints, adds up the counts of the last lines, and says at the end what was left out."""
import os
import queue
import re
import signal
import subprocess
import sys
import threading
import time

import usage
from built import TOP, built

COUNT = re.compile(rb"(\d+) (?:[a-z]+ )?passed, (\d+) failed\n")
# What a script says of a thing that it leaves out here (tell_omission in tally.py).
LEFT_OUT = re.compile(rb"tests/[a-z_/]+: left out: .*\n")
# A head of the output of `rt ci`, which shows how far it is.
HEAD = re.compile(rb"== (\w+)\n")


class Parts:
    """Commands of the repository, how many of their cases passed and failed, and what they left out."""

    def __init__(self):
        self.passed = self.failed = 0
        self.omissions = []
        self.lock, self.running, self.is_stopped = threading.Lock(), set(), False

    def add(self, *words):
        """Runs a command, and shows each line as it comes."""
        self.run(words, show, stdin=None)

    def hold(self, *words, before=()):
        """Runs a command behind these words, and shows what it printed as one piece, at its end. Answers whether it passed."""
        name = " ".join(os.path.basename(word) if os.path.isabs(word) else word for word in words)
        lines, began = [], time.monotonic()
        self.say(f"{name} begins")

        def keep(line):
            lines.append(line)
            if head := HEAD.fullmatch(line):
                self.say(f"{name}: {head[1].decode()}")

        well = self.run([*before, *words], keep, stdin=subprocess.DEVNULL, process_group=0)
        self.say(f"{name} took {time.monotonic() - began:.0f} s and {'passed' if well else 'failed'}:", lines)
        return well

    def run(self, words, heard, **how):
        """Runs a command, and adds the counts of its last line, 'N .. passed, M failed'. A command without such a line has failed.
        So has one that counts no failure and ends with a status other than 0, or is killed. Answers whether it passed."""
        last, status = b"", 1
        try:
            with subprocess.Popen(words, cwd=TOP, stdout=subprocess.PIPE, stderr=subprocess.STDOUT, **how) as process:
                with self.lock:
                    self.running.add(process)
                    self.is_stopped and end(process)
                for last in process.stdout:
                    heard(last)
                    if LEFT_OUT.fullmatch(last) and last not in self.omissions:
                        self.omissions.append(last)
            if last and not last.endswith(b"\n"):
                heard(b"\n")
            status = process.returncode
            self.running.discard(process)
        except OSError as why:
            heard(f"{why}\n".encode())
        counted = COUNT.fullmatch(last)
        passed, failed = map(int, counted.groups()) if counted else (0, 1)
        failed = failed or int(status != 0)
        with self.lock:
            self.passed += passed
            self.failed += failed
        return not failed

    def say(self, text, lines=()):
        """Shows a line of the script's own, and further lines, as one piece."""
        with self.lock:
            show(f"{usage.LINE.split()[0]}: {text}\n".encode(), *lines)

    def side_by_side(self, *lanes):
        """Calls functions side by side, each of which holds commands. A signal that would end the script ends the commands; those that
        ran, or were to run, have failed."""
        heard = queue.SimpleQueue()
        for it in (signal.SIGINT, signal.SIGTERM, signal.SIGHUP):
            signal.signal(it, lambda *_: heard.put("stop"))

        def run(lane):
            try:
                lane()
            except Exception as why:
                self.failed += 1
                self.say(repr(why))
            heard.put("ended")

        for lane in lanes:
            threading.Thread(target=run, args=(lane,)).start()
        ended = 0
        while ended < len(lanes):
            if heard.get() == "ended":
                ended += 1
            else:
                self.stop()

    def stop(self):
        """Ends the commands that run, and those that are to run as soon as they begin."""
        with self.lock:
            self.is_stopped = True
            for process in self.running:
                end(process)

    def program(self, words=()):
        """The program that the words name, or else the one that ./cnum runs. If there is none, the script ends with a failure."""
        if words:
            return os.path.abspath(words[0])
        try:
            return built()
        except subprocess.CalledProcessError:
            self.failed += 1
            self.end()

    def end(self):
        """Prints what was left out and, as the last line, the sums, and ends with its status."""
        show(*self.omissions, f"{self.passed} passed, {self.failed} failed\n".encode())
        sys.exit(self.failed != 0)


def show(*lines):
    """Prints lines at once."""
    sys.stdout.buffer.writelines(lines)
    sys.stdout.flush()


def end(process):
    """Ends a command, with all that it has started in its group."""
    try:
        os.killpg(process.pid, signal.SIGTERM)
    except ProcessLookupError:
        pass
