"""Lists in files: which file is read, where it ends, and the numbers that the faults of a schedule carry."""
import pathlib
import tempfile

from calls import CERTIFICATES, TYPES, answer, called, fault, path_of
from plans import accepted
from table import Table

ARGUMENTS = ("INPUTS", "SCHEDULE", "EVENTS", "CALLS")
# Words of right lists for two processes, by their arguments, and what is printed for them.
RIGHT = {"INPUTS": "7,8", "SCHEDULE": "0,0,0,0", "EVENTS": "i0:0,s0,s0,s0,s0", "CALLS": "none/0"}
DECIDED = answer("0: 7\n1: undecided\n")
PRINTED = {
    "INPUTS": DECIDED,
    "SCHEDULE": DECIDED,
    "EVENTS": answer("entry 0 0 inc 0 1\n"),
    "CALLS": answer("answer 1 0 0\nentry 0 1 inc 0 1\nevents i1:0,s1,s1,s1,s1,s1,s1\n"),
}
# A length beyond the ends of the pieces that are read at once.
LENGTHS = [k + d for k in (256, 512, 1024, 4096, 8192, 65_536, 131_072) for d in (-1, 0, 1)]


def ran(words, files, certificate=CERTIFICATES["test_and_set_at_3"], table=TYPES["test_and_set"]):
    """What a command with two lists says in a folder with these files. Their names stand behind an `@`."""
    with tempfile.TemporaryDirectory() as name:
        room = pathlib.Path(name)
        (room / "cert").write_text(certificate)
        for file, text in files.items():
            (room / file).write_text(text)
        at = [f"@{room}/{word[1:]}" if word.startswith("@") else word for word in words[1:]]
        return called([words[0], str(room / "cert"), *at], table)


def with_one(argument, word, files):
    """What the program says if one argument is this word, and the others are right."""
    lists = RIGHT | {argument: word}
    command = {"EVENTS": "replay", "CALLS": "serve"}.get(argument, "agree")
    words = [path_of("counter_3"), "0", "4", lists[argument]] if command != "agree" else [lists["INPUTS"], lists["SCHEDULE"]]
    return ran([command, *words], files)


def files_of(argument):
    """Files that are empty or missing, and files whose names are lists."""
    right, wrong, unread = RIGHT[argument], fault(f"argument: {argument}"), fault(f"cannot read {argument}")
    for name, text, said in (
        ("an empty file", "", wrong),
        ("a line feed", "\n", wrong),
        ("two line feeds", f"{right}\n\n", wrong),
        ("a line feed before", f"\n{right}", wrong),
        ("the name of another file", "@list", wrong),
        ("no line feed", right, PRINTED[argument]),
        ("a line feed at the end", f"{right}\n", PRINTED[argument]),
    ):
        yield f"{argument}: {name}", lambda text=text: with_one(argument, "@list", {"list": text}), said
    for name in ("nosuch", "none", "0", "7,8", "i0:0", "none,0", "list.", "list\n", " list", "@list"):
        yield f"{argument}: no file {name!r}", lambda name=name: with_one(argument, f"@{name}", {"list": right}), unread
    yield f"{argument}: a folder", lambda: with_one(argument, "@", {}), unread
    for name in ("none", "0,0", "@list", "list\n", "a b"):
        files = {"list": "x", name: right}
        yield f"{argument}: a file {name!r}", lambda name=name, files=files: with_one(argument, f"@{name}", files), PRINTED[argument]


def pairs():
    """Two lists of one command: one file for both, one for each, and which is read first."""
    sticky, word = accepted(Table(TYPES["sticky_bit"]), [0, [0], [1] * 7]), "0,0,0,0,1,1,1,1"
    both = answer("0: 0\n" + "".join(f"{p}: undecided\n" for p in range(1, 8)))
    for words in (["@list", "@list"], [word, "@list"], ["@list", word]):
        yield f"one list as {words}", lambda words=words: ran(["agree", *words], {"list": word}, sticky, TYPES["sticky_bit"]), both
    unread = [fault(f"cannot read {it}") for it in ARGUMENTS[:2]]
    too_long = [(b"", f"cnum: {it}: too long\n".encode(), 2) for it in ARGUMENTS[:2]]
    refused, short = fault("argument: INPUTS"), fault("schedule: 1 InputCount")
    files = {"inputs": "7,8", "steps": "0,0,0,0", "wrong": "0,,", "long": "7" * 1_048_577}
    for words, said in (
        (["@inputs", "@steps"], DECIDED),
        (["@steps", "@inputs"], short),
        (["@nosuch", "@nosuch"], unread[0]),
        (["@nosuch", "@steps"], unread[0]),
        (["@inputs", "@nosuch"], unread[1]),
        (["0,,", "@nosuch"], unread[1]),
        (["@wrong", "@nosuch"], unread[1]),
        (["@wrong", "@steps"], refused),
        (["@wrong", "0,,"], refused),
        (["@inputs", "@wrong"], fault("argument: SCHEDULE")),
        (["@long", "@nosuch"], too_long[0]),
        (["@nosuch", "@long"], unread[0]),
        (["@inputs", "@long"], too_long[1]),
    ):
        yield f"{words}", lambda words=words: ran(["agree", *words], files), said


def lengths():
    """A schedule whose last item lets process 0 decide, at the end of this many bytes, with and without a line feed behind it."""
    for length in LENGTHS:
        items = ["0", "0", "0"] + ["1"] * ((length - 7) // 2) + ["0"]
        text = ",".join(items)
        text = text if len(text) == length else text[:-1] + "00"
        assert len(text) == length
        for end in ("", "\n"):
            run = lambda text=text + end: ran(["agree", "7,7", "@steps"], {"steps": text})
            yield f"a schedule of {length} bytes{end!r}", run, answer("0: 7\n1: 7\n")


def numbers():
    """The faults of a schedule: an item that names no process, for the numbers 0, 1,001 and the greatest; lists of another length."""
    for place, more in ((0, 0), (0, 9), (1, 0), (9, 1), (10, 0), (255, 3), (256, 0), (1001, 1), (65_535, 0), (65_536, 1), (303_111, 0)):
        for process in (2, 255):
            text = ",".join(["0"] * place + [str(process)] + ["9"] * more)
            given, files = (text, {}) if len(text) < 131_072 else ("@steps", {"steps": text})
            run = lambda given=given, files=files: ran(["agree", "7,8", given], files)
            yield f"step {place} of {place + more + 1} is of process {process}", run, fault(f"schedule: 2 NoSuchProcess {place}")
    for count in (0, 1, 3, 1001, 303_112):
        text = ",".join(["7"] * count) or "none"
        for schedule in ("none", "2", "0,0,0,0"):
            run = lambda text=text, schedule=schedule: ran(["agree", "@inputs", schedule], {"inputs": text})
            yield f"{count} inputs, steps {schedule}", run, fault("schedule: 1 InputCount")


def cases():
    for argument in ARGUMENTS:
        yield from files_of(argument)
    yield from pairs()
    yield from lengths()
    yield from numbers()
