"""`find` near 100,000 choices; with no limit and for each limit, the types that tell from 2 to 8 times which team was first."""
import pathlib
import tempfile

from calls import answer, called, fault
from choices import MOST_CHOICES, count
from tables import idle, shots


def found(states, operations, limit):
    """What `find` prints of a type whose operations change nothing."""
    return f'{{"collisions":[],"limit":{limit},"number":null,"type":"idle_{states}_{operations}","version":2,"witness":null}}\n'


def edges():
    """Types with nearly 100,000 choices, with a few more, and with the most there are."""
    sizes = [(s, o, n) for s in range(1, 17) for o in range(1, 9) for n in range(2, 9)]
    near = [it for it in sizes if 90_000 <= count(*it) <= 110_000 or count(*it) > 3_000_000]
    assert {98_847, 101_472, 3_822_192} <= {count(*it) for it in near}
    for s, o, n in near:
        wanted = answer(found(s, o, n)) if count(s, o, n) <= MOST_CHOICES else fault(f"find: 2 TooManyChoices {count(s, o, n)}")
        yield f"{s} states, {o} operations, limit {n}", lambda s=s, o=o, n=n: called(["find", "--limit", str(n)], idle(s, o)), wanted


def classified(files, words):
    """What `classify` prints and tells for these texts, each in a file of its name. The names are told without their folder."""
    with tempfile.TemporaryDirectory() as room:
        for name, text in files.items():
            (pathlib.Path(room) / name).write_text(text)
        printed, told, status = called(["classify", *(f"{room}/{word}" if word in files else word for word in words)])
    return printed, told.replace(f"{room}/".encode(), b""), status


def numbers():
    """Types of each number from 2 to 8, all of them for each limit and with none; their names have 32 bytes."""
    names = {k: f"{'shots':_<31}{k}" for k in range(2, 9)}
    files = {f"{k}.toml": shots(k, name=name) for k, name in names.items()}
    for limit in range(2, 9):
        wanted = "".join(f"{name}: {k if k < limit else f'at least {limit}'}\n" for k, name in names.items())
        yield f"classify --limit {limit}", lambda limit=limit: classified(files, ["--limit", str(limit), *files]), answer(wanted)
    wanted = "".join(f"{name}: {k}\n" for k, name in names.items())
    yield "classify", lambda: classified(files, list(files)), answer(wanted)
    twice = [*files, *reversed(files)]
    wanted = "".join(f"{names[int(file[0])]}: {file[0]}\n" for file in twice)
    told = "".join(f"cnum: {file}: the same line as {file}\n" for file in reversed(files))
    yield "classify, each file twice", lambda: classified(files, twice), (wanted.encode(), told.encode(), 0)


def cases():
    yield from edges()
    yield from numbers()
