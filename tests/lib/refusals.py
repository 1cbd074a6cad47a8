"""Runs under a library that refuses allocations and starts of threads (tests/system/memory/refuse.c)."""
import os

from calls import TOP, called, shim


def refusing(room):
    """The library, made in a folder; None if there is no C compiler."""
    return shim(TOP / "tests/system/memory/refuse.c", room)


def under(library, words, settings, **more):
    """The result of a call under the library, and what the library tells of it."""
    told, tell = os.pipe()
    given = {"LD_PRELOAD": library, "REFUSE_TELL": str(tell)} | {name: str(value) for name, value in settings.items()}
    try:
        ended = called(words, pass_fds=[tell], env=given, **more)
    finally:
        os.close(tell)
        with os.fdopen(told, "rb") as heard:
            met = heard.read()
    return ended, met
