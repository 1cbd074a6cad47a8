"""How the tests call the program, the texts that they hand to it, and its faults. When it is imported it does nothing: a value
of MADE, such as PROGRAM, is made when a script imports it by its name."""
import functools
import os
import pathlib
import re
import shutil
import signal
import subprocess
import threading
import time

import usage
from built import TOP, built


@functools.cache
def the_program():
    """The program that the words name first, or else the one that ./cnum runs."""
    named = [word for word in usage.words() if not word.startswith("-")]
    return str(pathlib.Path(named[0]).resolve()) if named else built()


@functools.cache
def all_types():
    """The texts of the types, by their names."""
    return {path.stem: path.read_text() for folder in ("types", "tests/types") for path in (TOP / folder).glob("*.toml")}


@functools.cache
def certificate_files():
    """The files of certificates, that of the examples of the help and those of the tests, by their names."""
    return {path.stem: path for folder in ("types", "tests/certificates") for path in (TOP / folder).glob("*.json")}


@functools.cache
def all_certificates():
    """The texts of these certificates, by their names."""
    return {name: path.read_text().removesuffix("\n") for name, path in certificate_files().items()}


MADE = {
    "WORDS": usage.words,
    "PROGRAM": the_program,
    "TYPES": all_types,
    "CERTIFICATES": all_certificates,
    "CERTIFICATE_FILES": certificate_files,
}


def __getattr__(name):
    """The value of a name of MADE, for a script that imports it."""
    if name not in MADE:
        raise AttributeError(f"{__name__} has no {name}")
    return MADE[name]()


# What a shell does before it runs a program in a folder, and the signals that Python ignores and a shell does not.
IN_ROOM = 'cd "$0" && { [ -z "$1" ] || ulimit -v "$1"; } && shift && exec "$@"'
IGNORED = [signal.SIGPIPE, signal.SIGXFSZ]
# The runs that go on, each with the time at which it began.
RUNNING = {}


def path_of(name):
    """The file of a type."""
    return str(TOP / f"types/{name}.toml")


def called(words, stdin="", stdout=None, pass_fds=(), env=os.environ, program=None, room=None, memory=None):
    """What the program, or another, prints, tells and answers with these words. Standard input is a text, bytes, the
    path of a file, a descriptor, or None if it is closed. Standard output can be a descriptor; then what is printed is
    not seen. With a room the program runs in this folder, as a shell runs it, and with at most `memory` KiB of
    addresses, if that is given."""
    program = program or the_program()
    watch()
    is_path = isinstance(stdin, pathlib.Path)
    given = stdin if stdin is None or isinstance(stdin, int) else os.open(stdin, os.O_RDONLY) if is_path else in_memory(stdin)
    (out, printing), (told, telling) = os.pipe(), os.pipe()
    ends = (given, printing if stdout is None else stdout, telling)
    moves = [(os.POSIX_SPAWN_CLOSE, k) if end is None else (os.POSIX_SPAWN_DUP2, end, k) for k, end in enumerate(ends)]
    moves += [(os.POSIX_SPAWN_DUP2, file, file) for file in pass_fds]
    if room:
        program, words = "/bin/sh", ["-c", IN_ROOM, str(room), str(memory or ""), program, *words]
    process = os.posix_spawn(program, [program, *words], env, file_actions=moves, setsigdef=IGNORED if room else [])
    RUNNING[process] = time.monotonic()
    for file in {given, printing, telling} - {stdin}:
        os.close(file)
    ended = read_all(out), read_all(told)
    del RUNNING[process]
    return *ended, os.waitstatus_to_exitcode(os.waitpid(process, 0)[1])


@functools.cache
def watch():
    """Begins to look at the runs."""
    threading.Thread(target=end_late_runs, daemon=True).start()


def end_late_runs():
    """Ends a run that has not ended in two minutes. It then answers as no case wants."""
    while True:
        time.sleep(5)
        for process, started in list(RUNNING.items()):
            if time.monotonic() - started > 120:
                os.kill(process, signal.SIGKILL)


def in_memory(text):
    """A descriptor of a file in memory with this text or these bytes."""
    file = os.memfd_create("text")
    os.write(file, text.encode() if isinstance(text, str) else text)
    os.lseek(file, 0, os.SEEK_SET)
    return file


def read_all(file):
    """What comes out of a descriptor until its end."""
    with os.fdopen(file, "rb") as source:
        return source.read()


# The status of each kind of fault, by how its text begins.
STATUSES = [
    (r"check:|certificate: no witness", 1),
    (r"(table|certificate|object): (\d+ |too long)", 2),
    (r"argument:|find:|schedule:|replay:", 3),
    (r"cannot ", 4),
    (r"out of memory", 5),
]


def fault(text):
    """What is printed, told and answered if the program ends with this fault."""
    status = next(it for pattern, it in STATUSES if re.match(pattern, text))
    return b"", f"cnum: {text}\n".encode(), status


def answer(text, status=0):
    """What is printed, told and answered if the program ends with this output."""
    return text.encode(), b"", status


def found(name, limit, room):
    """The file in a folder with what `find` prints of a type for this limit."""
    path = pathlib.Path(room) / f"{name}_{limit}.json"
    path.write_bytes(called(["find", "--limit", str(limit)], all_types()[name])[0])
    return str(path)


def shim(source, room):
    """The library of a C source beside the test, or None if there is no compiler."""
    compiler = shutil.which("cc")
    if not compiler:
        return None
    path = str(pathlib.Path(room) / "shim.so")
    subprocess.run([compiler, "-O2", "-shared", "-fPIC", "-o", path, str(source)], check=True)
    return path
