"""How the tests count, and how they report a case that is not right."""
import concurrent.futures
import itertools
import sys

import usage

POOL = concurrent.futures.ThreadPoolExecutor(2)
# The parts of what comes of a run.
PARTS = ("what is printed", "what is told", "the status")


def tell_omission(what):
    """Says that this script leaves something out here. The scripts that run others say so once more at their end (parts.py)."""
    print(f"{usage.LINE.split()[0]}: left out: {what}", flush=True)


class Tally:
    """Counts what passes and what fails. With words it counts only the cases whose names have all of them, in capitals or not."""

    def __init__(self, noun, words=()):
        self.noun, self.words, self.passed, self.failed = noun, [word.lower() for word in words], 0, 0

    def wants(self, about):
        """Whether a case with this name counts."""
        return all(word in about.lower() for word in self.words)

    def judge(self, about, right, told=""):
        """Counts a case, and reports it if it is not right."""
        if not self.wants(about):
            return
        self.passed += bool(right)
        self.failed += not right
        if not right:
            print(f"{about}: FAILED" + (f"\n  {told}" if told else ""))

    def judge_all(self, about, faults):
        """Counts a case that is right if it has no faults, and reports each fault."""
        told = list(faults)
        self.judge(about, not told, "\n  ".join(told))

    def compare(self, about, is_now, wanted):
        """Counts a case that has to be as wanted. What is now may be a function, which runs only if the case counts."""
        if self.wants(about):
            is_now = is_now() if callable(is_now) else is_now
            self.judge(about, is_now == wanted, is_now != wanted and difference(is_now, wanted))

    def each(self, cases):
        """Runs cases, (about, run, wanted) each, two at a time, and compares the results."""
        counted = (case for case in cases if self.wants(case[0]))
        for about, is_now, wanted in POOL.map(lambda case: (case[0], case[1](), case[2]), counted):
            self.compare(about, is_now, wanted)

    def end(self):
        """Prints the count as the last line, and ends with its status."""
        if self.words and not self.passed + self.failed:
            self.failed = 1
            print(f"no case has the words {' '.join(self.words)}")
        print(f"{self.passed} {self.noun} passed, {self.failed} failed")
        sys.exit(self.failed != 0)


def difference(is_now, wanted):
    """How two values differ. Of two runs each part that differs, by its first other line; of other values both."""
    if any(not isinstance(it, tuple) or len(it) != 3 or not isinstance(it[0], bytes) or not isinstance(it[1], bytes) for it in (is_now, wanted)):
        return f"is {shown(is_now)}\n  and not {shown(wanted)}"
    return "\n  ".join(other_line(part, one, other) for part, one, other in zip(PARTS, is_now, wanted) if one != other)


def other_line(part, is_now, wanted):
    """The first line of two texts that differs, or both values."""
    if not isinstance(is_now, bytes) or is_now.count(b"\n") < 2 and wanted.count(b"\n") < 2:
        return f"{part}: is {shown(is_now)}\n  and not {shown(wanted)}"
    lines = itertools.zip_longest(is_now.splitlines(True), wanted.splitlines(True))
    number, (one, other) = next((k, both) for k, both in enumerate(lines, 1) if both[0] != both[1])
    return f"{part}, line {number}: is {shown(one)}\n  and not {shown(other)}"


def shown(value):
    """A value, cut if it is long."""
    text = repr(value)
    return text if len(text) < 400 else text[:300] + " .. " + text[-90:]
