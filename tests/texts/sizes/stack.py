"""The stack: as much as docs/FORMATS.md names suffices for the worked types and their certificates, and for nested texts."""
import re

from calls import PROGRAM, TOP, called, fault, path_of

PAGE = (TOP / "docs/FORMATS.md").read_text()
NAMES = sorted(path.stem for path in (TOP / "types").glob("*.toml"))
# The KiB that the page names, and those for a table with nested keys.
STACK, NESTED = int(re.search(r"ulimit -s (\d+)", PAGE)[1]), 2048
# The deepest texts: a certificate of JSON, and a table with keys of 80 parts in 80 inline tables.
DEEP_CERTIFICATE = "[" * 127 + "]" * 127
DEEP_TABLE = "a = " + f"{{ {'.'.join('a' * 80)} = " * 80 + "1" + " }" * 80
TRIES = 3


def within(stack, words, stdin=""):
    """What the program says with a stack of so many KiB, and with no environment."""
    return called(["-c", 'ulimit -s "$0" && exec "$@"', str(stack), PROGRAM, *words], stdin, env={}, program="/bin/sh")


def cases():
    for name in NAMES:
        table = ["--table", path_of(name)]
        found = called(["find", "--limit", "4", *table])
        for count in range(TRIES):
            yield f"{name} with a small stack, {count}", lambda table=table: within(STACK, ["find", "--limit", "4", *table]), found
            check = ["check", *table, "-"]
            yield f"check of {name} with a small stack, {count}", lambda check=check, text=found[0]: within(STACK, check, text), (b"ok\n", b"", 0)
    nested = ["check", "--table", path_of("test_and_set"), "-"]
    for count in range(TRIES):
        yield f"a nested certificate, {count}", lambda: within(STACK, nested, DEEP_CERTIFICATE), fault("certificate: 2 WrongShape")
        yield f"a nested table, {count}", lambda: within(NESTED, ["draw"], DEEP_TABLE), fault("table: 2 UnknownKey")
