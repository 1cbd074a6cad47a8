"""`lint`: the place where a text stops to be TOML, the flaws of large tables, and tables of the greatest length."""
import json
import re

from calls import TYPES, answer, called, fault
from judge import MOST_OPERATIONS, MOST_RESPONSES, MOST_STATES
from rows import printed
from table import table_text

NAME = re.compile(r"[a-z0-9_]{1,32}\Z")
LONGEST = 65_536
# Texts that are no TOML. In some a character stands for `*`.
NO_TOML = ["name = !", 'name = "a" "b"', "= 1", "[[operation]", 'name = "a', 'name = "a"\nname = "b"', 'a = "\\q"', "a = [1,\n2,\n3"]
NO_TOML += ["a = 00", "a = { b = 1", "a.b = 1\na = 2", "name ="]
WIDE = ['name = "*" !', '"*" 1', 'a = ["*", "*" 1]', "# *\n'*'*", "a = '*"]
# Lines that may stand before any of them. `*` is the number of the line.
BEFORE = ["", "# 0123456789", "# é€😀", 'k* = "é€"']


def place(text):
    """The line and the column that `lint` names for a text that is no TOML."""
    printed, told, status = called(["lint"], text)
    line = re.fullmatch(rb"line (\d+), column (\d+): not TOML\n", printed)
    return (int(line[1]), int(line[2])) if line and (told, status) == (b"cnum: table: 1 NotToml\n", 2) else (printed, told, status)


def is_in(text, at):
    """Whether the text has this place. Its end counts too."""
    lines = text.split("\n")
    return 1 <= at[0] <= len(lines) and 1 <= at[1] <= len(lines[at[0] - 1]) + 1


def places():
    """The same fault behind lines: the line rises by just these, and the column stays."""
    for text in NO_TOML:
        first = place(text)
        yield f"{text}: at {first}, in the text", lambda text=text, first=first: is_in(text, first), True
        for count in (1, 40, 3000):
            for line in BEFORE:
                for end in ("\n", "\r\n"):
                    whole = "".join(line.replace("*", str(k)) + end for k in range(count)) + text
                    yield f"{text}: behind {count} lines {line!r}{end!r}", lambda whole=whole: place(whole), (first[0] + count, first[1])


def columns():
    """The same fault behind characters of one to four bytes: a column counts characters."""
    for text in WIDE:
        lines = text.split("\n")
        first = place(text.replace("*", "e"))
        yield f"{text}: at {first}, in the text", lambda text=text, first=first: is_in(text, first), True
        before = lines[first[0] - 1][: first[1] - 1].count("*")
        for count in (1, 40, 3000):
            for character in "eé€😀":
                whole = text.replace("*", character * count)
                yield f"{text}: {count} of {character}", lambda whole=whole: place(whole), (first[0], first[1] + before * (count - 1))


# Flaws


def path_of(what, k):
    """The path to the name of a list with this index."""
    return ["operation", k, "name"] if what == "operation" else [f"{what}s", k]


def flaws(name, states, responses, operations):
    """The lines that `lint` has to write for a draft, (number and name of the fault, path, line) each. An operation is (name,
    responses, next states)."""
    names = [it[0] for it in operations]
    called_so = lambda i: f'operation "{names[i]}"' if NAME.match(names[i]) else f"operation[{i}]"
    for what, texts in (("name", [name]), ("state", states), ("response", responses), ("operation", names)):
        for k, it in enumerate(texts):
            if not NAME.match(it):
                yield "5 BadName", ["name"] if what == "name" else path_of(what, k), f'{what} "{it}": 1 to 32 of a-z, 0-9, _'
    groups = (("states", states, MOST_STATES), ("responses", responses, MOST_RESPONSES), ("operations", names, MOST_OPERATIONS))
    for what, texts, most in groups:
        if not texts or len(texts) > most:
            yield "6 Count", ["operation" if what == "operations" else what], f"{len(texts)} {what}; at {f'most {most}' if texts else 'least 1'}"
    for what, texts in (("state", states), ("response", responses), ("operation", names)):
        for it in dict.fromkeys(texts):
            places = [i for i, text in enumerate(texts) if text == it]
            *others, last = (f"{what}[{i}]" for i in places)
            if others:
                yield "7 Repeated", path_of(what, places[-1]), f'{", ".join(others)} and {last} are {"both" if len(others) == 1 else "all"} called "{it}"'
    there = "there is 1 state" if len(states) == 1 else f"there are {len(states)} states"
    for i, (_, *rows) in enumerate(operations):
        for row, entries in zip(("response", "next"), rows):
            if len(entries) != len(states):
                found = "1 entry" if len(entries) == 1 else f"{len(entries)} entries"
                yield "8 RowLength", ["operation", i, row], f"{called_so(i)}: {row} has {found}, {there}"
    for i, (_, *rows) in enumerate(operations):
        for row, entries, what, known in zip(("response", "next"), rows, ("response", "state"), (responses, states)):
            told = f" ({', '.join(known)})" if len(known) <= MOST_STATES and all(map(NAME.match, known)) else ""
            for k, it in enumerate(entries):
                if it not in known:
                    yield "9 UnknownName", ["operation", i, row, k], f'{called_so(i)}, {row}[{k}]: "{it}" is no {what}{told}'


def told(draft):
    """Cases of a refused draft: `lint` writes its flaws, also as JSON, and another command its fault alone."""
    found = list(flaws(*draft))
    refused = fault(f"table: {found[0][0]}")
    text = table_text(*draft)
    yield lambda: called(["lint"], text), ("".join(f"{line}\n" for _, _, line in found).encode(), *refused[1:])
    values = [{"kind": it[2:], "number": int(it[0]), "path": path, "text": line} for it, path, line in found]
    told_as_json = json.dumps({"flaws": values}, sort_keys=True, separators=(",", ":")) + "\n"
    yield lambda: called(["lint", "--as", "json"], text), (told_as_json.encode(), *refused[1:])
    yield lambda: called(["find", "--limit", "2"], text), refused


def row_of(states, unknown=()):
    """A row whose entries are the first name, or no known name at these places."""
    return ["nosuch" if k in unknown else "n0" for k in range(states)]


def drafts():
    """Drafts with the most names, one of which is wrong; and drafts with far more. There may be as many states as responses."""
    states, operations = MOST_STATES, MOST_OPERATIONS
    assert states == MOST_RESPONSES
    names, whole = [f"n{k}" for k in range(states)], row_of(states)
    made = lambda count, *rows: [(f"n{k}", *(rows or (whole, whole))) for k in range(count)]
    changed = lambda texts, k, text: texts[:k] + [text] + texts[k + 1 :]
    last, full = states - 1, made(operations)
    for k in range(last):
        yield f"states {last} and {k}", ("t", changed(names, last, names[k]), names, full)
        yield f"responses {last} and {k}", ("t", names, changed(names, last, names[k]), full)
    for k in range(operations - 1):
        yield f"operations {operations - 1} and {k}", ("t", names, names, changed(full, operations - 1, (f"n{k}", whole, whole)))
    for k in range(states):
        for row in ("response", "next"):
            rows = [row_of(states, [k] if row == it else []) for it in ("response", "next")]
            yield f"{row}[{k}]", ("t", names, names, changed(full, operations - 1, (f"n{operations - 1}", *rows)))
    for count in (1, 63, 64, 65, 128, 129, 2 * states * operations - 1, 2 * states * operations):
        unknown = [[k for k in range(states) if 2 * states * i + states * j + k < count] for i in range(operations) for j in range(2)]
        rows = [(f"n{i}", row_of(states, unknown[2 * i]), row_of(states, unknown[2 * i + 1])) for i in range(operations)]
        yield f"{count} unknown entries", ("t", names, names, rows)
    yield "all names alike", ("t", ["n0"] * states, ["n0"] * states, [("n0", whole, whole)] * operations)
    for count in (0, 1, states - 1, states + 1, 1001):
        yield f"rows of {count}", ("t", names, names, made(2, row_of(count), row_of(count)))
        yield f"states {count}", ("t", [f"n{k}" for k in range(count)], names, made(1))
    for count in (states + 1, 1001):
        many = [f"n{k}" for k in range(count)]
        yield f"{count} responses", ("t", names, many, made(1))
        yield f"{count} bad names", ("T", [f"N{k}" for k in range(count)], names, made(1))
    for count in (operations + 1, 300):
        yield f"{count} operations", ("t", ["n0"], ["n0"], made(count, ["n0"], ["n0"]))
    for length in (32, 33):
        yield f"names of {length} bytes", ("t" * length, ["n0", "s" * length], ["n0", "r" * length], [("o" * length, row_of(2, [1]), row_of(2))])


def lengths():
    """A table, and a refused one, filled to a length by a comment, by line feeds and before its end."""
    text, grid = TYPES["three_shot"], printed("lint", "three shot")
    for length in (511, 512, 513, 1023, 1024, 1025, 4095, 4096, 4097, 8191, 8192, 8193, 32_768, 65_000, LONGEST - 1, LONGEST, LONGEST + 1):
        left = length - len(text)
        comment, feeds, spaces = "#" * (left - 1) + "\n" + text, text + "\n" * left, text[:4] + " " * left + text[4:]
        for about, whole in (("a comment", comment), ("line feeds", feeds), ("spaces", spaces)):
            assert len(whole) == length
            wanted = fault("table: too long") if length > LONGEST else answer(grid)
            yield f"{length} bytes, {about}", lambda whole=whole: called(["lint"], whole), wanted
    more = "color = 1\n"
    whole = more + "#" * (65_000 - len(text) - len(more) - 1) + "\n" + text
    flaw = b'"color": the root has name, states, responses, operation\n'
    yield "65000 bytes and a flaw", lambda: called(["lint"], whole), (flaw, *fault("table: 2 UnknownKey")[1:])


def cases():
    yield from places()
    yield from columns()
    for about, draft in drafts():
        for run, wanted in told(draft):
            yield about, run, wanted
    yield from lengths()
