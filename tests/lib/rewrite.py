"""Writes the expectations of the tables of tests/texts/rows anew, in the places where they stand."""
import difflib
import re
import tomllib

from rows import TEXTS, rows

SKIP = re.compile(r"(?:[\s,]|#[^\n]*)*")
STRING = re.compile(r'"""(?:\\.|[^\\])*?"""|\'\'\'.*?\'\'\'|"(?:\\.|[^"\\\n])*"|\'[^\'\n]*\'', re.S)
OTHER = re.compile(r"[^\s,\]}#]+")
KEY = re.compile(r"""("[^"]*"|[\w-]+)\s*=\s*""")
HEADER = re.compile(r"\[\[table\]\]|\[([\w.]+)\]")


def value_at(text, at):
    """A value of TOML that begins here: its span, and the values of an array. An inline table is a span alone."""
    if text[at] in "[{":
        values, place, closed = [], SKIP.match(text, at + 1).end(), {"[": "]", "{": "}"}[text[at]]
        while text[place] != closed:
            key = KEY.match(text, place) if closed == "}" else None
            values.append(value_at(text, key.end() if key else place))
            place = SKIP.match(text, values[-1][1]).end()
        return at, place + 1, values
    return at, (STRING.match(text, at) or OTHER.match(text, at)).end(), []


def values_of(text):
    """Where the values of a file stand: those of the texts that its rows share, and for each table those of its keys."""
    shared, tables, keys, place = {}, [], {}, SKIP.match(text).end()
    while place < len(text):
        header = HEADER.match(text, place)
        if header:
            keys = shared if header[1] == "texts" else {}
            tables += [] if header[1] else [keys]
            place = header.end()
        else:
            key = KEY.match(text, place)
            keys[key[1]] = value_at(text, key.end())
            place = keys[key[1]][1]
        place = SKIP.match(text, place).end()
    return shared, tables


def misread(path):
    """What this module reads otherwise than `tomllib` in a file."""
    text = path.read_text()
    file, (shared, tables) = tomllib.loads(text), values_of(text)
    read = lambda value: tomllib.loads(f"it = {text[value[0] : value[1]]}")["it"]
    for keys, table in zip([shared, *tables], [file.get("texts", {}), *file["table"]], strict=True):
        yield from (key for key, value in keys.items() if read(value) != table[key])
        rows = keys.get("rows", (0, 0, []))[2]
        yield from (row for row, its in zip(table.get("rows", []), rows, strict=True) if [read(value) for value in its[2]] != row)


def literal(text, before, shared):
    """A text as TOML, in the form of the one that stood there; of a text that rows share only its name stands there."""
    for name, its in shared.items():
        text = text.replace(its, f"${name}\n")
    if before.startswith("'''") and "'''" not in text:
        return f"'''\n{text}'''"
    escaped = text.replace("\\", "\\\\")
    if before.startswith(('"""', "'''")) or len(before) == 2 and "\n" in text.removesuffix("\n"):
        return '"""\n' + escaped.replace('"""', '""\\"') + '"""'
    return '"' + escaped.replace('"', '\\"').replace("\n", "\\n") + '"'


def expectation(ended):
    """The keys of a row that say what comes of a run."""
    printed, told, status = (it.decode() if isinstance(it, bytes) else it for it in ended)
    refusal = re.fullmatch(r"cnum: ([^\n]+)\n", told)
    keys = {"says": "", "prints": "", "tells": "", "status": status}
    if refusal:
        return keys | {"says": refusal[1], "prints": printed}
    return keys | ({"prints": printed, "tells": told} if told else {"says": printed})


class Unwritten(Exception):
    """Why an expectation cannot be written."""


def edits_of(row, text, keys, ended):
    """The new values of a row: (start, end, literal) each."""
    for key, value in expectation(ended).items():
        if row.value(key, 0 if key == "status" else "") == value:
            continue
        column = key.upper()
        columns = row.table.get("columns", [])
        if column in columns:
            start, end, _ = keys["rows"][2][row.number][2][columns.index(column)]
        elif key in keys and not columns:
            start, end, _ = keys[key]
        else:
            raise Unwritten(f"there is no {column} of its own")
        before = text[start:end]
        if before.startswith(("[", "{")) or before.strip("\"'") in TEXTS or before.strip("\"'") in row.cells:
            raise Unwritten(f"{column} is {before}")
        yield start, end, str(value) if key == "status" else literal(value, before, row.texts)


def shared_texts(row, ended):
    """The texts that the row shares with others as they are now, if nothing else of what it prints is new: (name, text) each."""
    for key, value in expectation(ended).items():
        told = row.value(key, "")
        names = re.findall(r"^\$(\w+)$", told, re.M) if isinstance(told, str) else []
        pattern = re.sub(r"^\\\$\w+\\?\n", lambda _: r"((?:.*\n)*)", re.escape(told), flags=re.M) if names else ""
        found = names and re.fullmatch(pattern, value)
        yield from zip(names, found.groups()) if found else ()


def edited(path, edits):
    """Makes edits of a file, (start, end, new text) each, and shows how it differs."""
    before = after = path.read_text()
    for start, end, value in sorted(set(edits), reverse=True):
        after = after[:start] + value + after[end:]
    path.write_text(after)
    print(*difflib.unified_diff(before.splitlines(), after.splitlines(), path.name, path.name, lineterm="", n=1), sep="\n")


def write(wanted):
    """Writes the expectations of the rows that are wanted anew, the texts that rows share first, and shows how the files differ."""
    others = [(row, row.found()) for row in rows() if wanted(row.about) and not row.table.get("judged")]
    others = [(row, ended) for row, ended in others if ended != row.wanted()]
    shared, changed = {}, {}
    for row, ended in others:
        for name, text in shared_texts(row, ended):
            shared.setdefault(row.path, {})[name] = text
    for path, texts in shared.items():
        spans = values_of(path.read_text())[0]
        edited(path, [(*spans[name][:2], literal(text, '"""', {})) for name, text in texts.items()])
    for row, ended in others:
        text = row.path.read_text()
        row.texts.update(shared.get(row.path, {}))
        try:
            changed.setdefault(row.path, []).extend(edits_of(row, text, values_of(text)[1][row.place], ended) if ended != row.wanted() else ())
        except Unwritten as why:
            print(f"{row.about}: not written, {why}")
    for path, edits in changed.items():
        if edits:
            edited(path, edits)
