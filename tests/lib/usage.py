"""The words of a script's command line, by the first line of its text: 'ABOUT: tests/NAME WORDS'.

A word in brackets may be left out. Two points stand behind a word that may come again.
"""
import __main__
import sys

ABOUT, _, LINE = __main__.__doc__.split("\n", 1)[0].rpartition(": ")


def words():
    """The words behind the script's name. The script ends here if they ask for help, or are too few or too many."""
    given, named = sys.argv[1:], LINE.split()[1:]
    if given in (["--help"], ["-h"]):
        print(f"usage: {LINE}\n{__main__.__doc__}", end="")
        sys.exit(0)
    least = sum(not word.startswith("[") for word in named)
    if len(given) < least or len(given) > len(named) and ".." not in LINE:
        refuse()
    return given


def cases():
    """The words behind PROGRAM that choose cases: those whose names have all of these words."""
    return [word for word in words()[1:] if not word.startswith("-")]


def refuse():
    """Ends the script, since it does not take these words."""
    print(f"usage: {LINE}", file=sys.stderr)
    sys.exit(3)
