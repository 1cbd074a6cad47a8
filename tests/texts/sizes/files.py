"""More files of `classify` than a process may have open at once. Each is closed before the next is read."""
import pathlib
import tempfile

from calls import PROGRAM, called, path_of

OPEN, NAMES = 16, [f"type_{i}" for i in range(100)]


def classified():
    """What `classify` says of a type under many names, each in a file of its own."""
    text = pathlib.Path(path_of("test_and_set")).read_text()
    with tempfile.TemporaryDirectory() as room:
        files = [pathlib.Path(room, f"{name}.toml") for name in NAMES]
        for name, file in zip(NAMES, files):
            file.write_text(text.replace('"test_and_set"', f'"{name}"', 1))
        return called(["-c", f'ulimit -n {OPEN} && exec "$@"', "sh", PROGRAM, "classify", *map(str, files)], program="/bin/sh")


def cases():
    yield f"{len(NAMES)} files, {OPEN} open at once", classified, ("".join(f"{name}: 2\n" for name in NAMES).encode(), b"", 0)
