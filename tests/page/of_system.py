"""The program as `web/node.js` runs it, over the files and streams of the system."""
import os
import re
import subprocess
import time

from calls import PROGRAM, TOP, TYPES, path_of, read_all
from jobs import NO_THREAD, names_path
from rows import rows

NODE = str(TOP / "web/node.js")
BIT = path_of("test_and_set")
SLOW = 0.3  # seconds until a writer begins


def rows_in_node():
    """The first row of each table of tests/texts/rows in Node, and the rows that no page can run for the files that they name, or since
    standard input is closed, as (about, run, wanted). The comparison (jobs.py) has the others: a start of Node takes a hundred times as long
    as one of the program. `serve` starts no thread there. Node needs more memory than a row permits."""
    for row in rows():
        wanted = row.wanted()
        reads_closed = row.table.get("closed") and b"cannot read" in wanted[1]
        is_chosen = row.number == 0 or row.table.get("output") or names_path(row) or reads_closed
        if is_chosen and not row.table.get("memory"):
            yield f"Node: {row.about}", lambda row=row: row.found(NODE), NO_THREAD if starts_threads(row) else wanted


def starts_threads(row):
    """Whether the program starts threads in a row: then `serve` comes to its answers, or cannot write them."""
    if row.words()[:1] != [b"serve"]:
        return False
    printed, told, _ = row.wanted()
    return re.search(rb'^events |"events":', printed, re.M) or told == b"cnum: cannot write\n"


def ended(words, stdin=b""):
    ran = subprocess.run([NODE, *words], input=stdin, capture_output=True)
    return ran.stdout, ran.stderr, ran.returncode


def closed():
    """Calls with some of the three streams closed, in Node as in the program."""
    for words, ends in [(words, ends) for words in ("lint", f"lint {BIT}", "lint /dev/stdin", "find --limit 9") for ends in ("<&-", ">&-", "2>&-", "<&- >&- 2>&-")]:
        one, other = (subprocess.run(["sh", "-c", f'exec "$0" {words} {ends}', it], input=b"", capture_output=True) for it in (PROGRAM, NODE))
        same = all(getattr(one, it) == getattr(other, it) for it in ("stdout", "stderr", "returncode"))
        yield f"{words} {ends}", same, (one, other)


def streams():
    """The streams of the system: what is not read, comes late, is long, does not wait, or is closed too early."""
    reader, writer = os.pipe()
    ran = subprocess.run([NODE, "classify", BIT], stdin=reader, capture_output=True, timeout=60)
    yield "standard input is not read if nothing asks for it", ran.stdout == b"test_and_set: 2\n", ran
    os.close(reader)
    os.close(writer)
    for waits in (True, False):
        reader, writer = os.pipe()
        os.set_blocking(reader, waits)
        with subprocess.Popen([NODE, "classify", "-"], stdin=reader, stdout=subprocess.PIPE) as late:
            os.close(reader)
            for part in TYPES["test_and_set"].partition("states"):
                time.sleep(SLOW)
                os.write(writer, part.encode())
            os.close(writer)
            told = late.stdout.read()
        yield f"a table that comes late, in parts, by a pipe that {'waits' if waits else 'does not wait'}", told == b"test_and_set: 2\n", told
    certificate = ended(["find"], TYPES["shots_12_4"].encode())[0]
    yield "what is longer than a pipe", len(certificate) > 1 << 17 and certificate.endswith(b"}\n"), len(certificate)
    reader, writer = os.pipe()
    os.set_blocking(writer, False)
    with subprocess.Popen([NODE, "find", "--table", TOP / "tests/types/shots_12_4.toml"], stdout=writer) as full:
        os.close(writer)
        time.sleep(SLOW)
        told = read_all(reader)
    yield "the same by a pipe that does not wait", (told, full.wait()) == (certificate, 0), len(told)
    reader, writer = os.pipe()
    os.close(reader)
    ran = subprocess.run([NODE, "lint", BIT], stdout=writer, stderr=subprocess.PIPE)
    os.close(writer)
    yield "a pipe whose reader has gone", (ran.stderr, ran.returncode) == (b"", 4), ran
    told = ended(["lint", b"\xe4"])
    yield "a word that is not UTF-8", told == (b"", b"cnum: words refused\n", 3), told
    yield from closed()
