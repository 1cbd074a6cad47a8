"""How busy the machine is, for tests of times."""
import time

SAMPLE = 0.1  # seconds of a processor


def slowness():
    """How many times longer than its processor time work takes now; 1 on a machine with no other work."""
    began, used = time.monotonic(), time.thread_time()
    while time.thread_time() - used < SAMPLE:
        pass
    return max(1.0, (time.monotonic() - began) / SAMPLE)


class Patience:
    """A bound on a time, as much longer as the machine was slow when the time was taken. It is looked at before and behind it."""

    def __init__(self, seconds):
        self.seconds, self.before = seconds, slowness()

    def bound(self):
        return self.seconds * max(self.before, slowness())
