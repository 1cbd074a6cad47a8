"""The tables of tests/texts/rows: what each row hands to the program, and what has to come of it.

A file holds tables. Each is one command with its rows:
  about     what the rows show
  words     the words after the program's name: a list, or a text with spaces between them
  stdin     standard input; empty if it is left out
  closed    true if standard input is closed
  files     the files that the program finds, by name; or a list of files of the repository, which have their own names
  changed   the text that the columns FROM and TO change: `stdin`, or the name of a file
  output    the file that standard output goes to in place of a pipe, as /dev/full
  memory    the most KiB of addresses that the program may have
  says      what the program prints, which ends in a newline if it is not empty, or the line of its refusal after
            `cnum: `, with no newline
  prints    what the program prints beside a refusal
  tells     what it tells on standard error, if that is more than one refusal, or another text
  status    the exit status; 0 if it is left out
  judged    true if `check` has to say `ok` to what is printed; the column NUMBER has its number, `none` for null. `--stocks` if
            `check --stocks` has to; NUMBER has its bounds, as `2 to none`
  columns   the names of the columns, in capitals; left out, with the rows, if there is one row and the keys say it all
  rows      the rows

The columns SAYS, PRINTS, TELLS and STATUS replace these keys. The column CASE tells what a row shows.

A word is the name of a column, or the word itself. `words` and `files` may be the name of a column with them. Any other
text is one of these:
  the name of a column
  a type of types/ or tests/types, or a certificate of types/ or tests/certificates without the end of its line: `idle`, `idle_at_2`
  a file of these folders, of tests/refused or a picture of docs/ as it stands there: `idle_at_2.json`
  the text itself
  [TEXT, PART, N]: the text, and then N times the part
  { bytes = TEXT }: a byte for each character, by its number

In what is printed or told, a line `$NAME` stands for the text NAME of the table `texts` of the file.
"""
import json
import os
import pathlib
import re
import tempfile
import tomllib

from calls import TOP, called

FOLDERS = ("types", "tests/types", "tests/certificates", "tests/refused")
FILES = [path for folder in FOLDERS for path in (TOP / folder).iterdir()] + [*TOP.glob("docs/*.dot")]
TEXTS = {path.name: path.read_bytes() for path in FILES}
TEXTS |= {path.stem: path.read_bytes() for path in FILES if path.suffix == ".toml" and path.parent.name == "types"}
TEXTS |= {path.stem: path.read_bytes().removesuffix(b"\n") for path in FILES if path.suffix == ".json" and path.parent.name != "refused"}


def meaning(value, row, texts=TEXTS):
    """The bytes that a value of a table stands for, in a row."""
    if isinstance(value, list):
        text, part, times = value
        return meaning(text, row, texts) + part.encode() * times
    if isinstance(value, dict):
        return value["bytes"].encode("latin-1")
    if value in row:
        return meaning(row[value], {}, texts)
    return texts.get(value, value.encode())


class Row:
    """A row of a table of a file: one run of the program."""

    def __init__(self, path, place, number, table, values, texts):
        self.path, self.place, self.number, self.texts = path, place, number, texts
        self.table, self.cells = table, dict(zip(table.get("columns", []), values, strict=True))
        self.about = f"{path.stem}, {table['about']}: {values}"

    def value(self, key, otherwise):
        """What the column of a key says in this row, or else what the key of the table says."""
        return self.cells.get(key.upper(), self.table.get(key, otherwise))

    def words(self):
        """The words after the program's name."""
        words = self.table["words"]
        if isinstance(words, str):
            words = self.cells.get(words, words).split()
        return [meaning(word, self.cells, {}) for word in words]

    def given(self):
        """Standard input, or None if it is closed, and the files, each with its bytes."""
        named = self.table.get("files", {})
        named = self.cells[named] if isinstance(named, str) else named
        named = {name: name for name in named} if isinstance(named, list) else named
        files = {name: meaning(text, self.cells) for name, text in named.items()}
        texts = {**files, "stdin": meaning(self.table.get("stdin", ""), self.cells)}
        if "changed" in self.table:
            at, old, new = self.table["changed"], self.cells["FROM"].encode(), self.cells["TO"].encode()
            assert old in texts[at], f"{self.about}: {at} has no such text"
            texts[at] = texts[at].replace(old, new, 1)
        stdin = texts.pop("stdin")
        return None if self.table.get("closed") else stdin, texts

    def wanted(self):
        """What has to be printed, told and answered; for a judged row its number."""
        if self.table.get("judged"):
            return self.cells["NUMBER"], (b"ok\n", b"", 0)
        says, prints, tells = (self.whole(meaning(self.value(key, ""), self.cells)) for key in ("says", "prints", "tells"))
        if says and not says.endswith(b"\n"):
            says, tells = b"", b"cnum: " + says + b"\n"
        return says or prints, tells, self.value("status", 0)

    def whole(self, text):
        """A text with the texts of its file in the place of their names."""
        return re.sub(rb"^\$(\w+)\n", lambda it: self.texts[it[1].decode()].encode(), text, flags=re.M)

    def found(self, program=None):
        """What the program, or another, prints, tells and answers; for a judged row the number that it finds, and the answer of
        `check`."""
        stdin, files = self.given()
        ended = ran(self.words(), stdin, files, self.table.get("output"), self.table.get("memory"), program)
        if not self.table.get("judged"):
            return ended
        by_stocks = self.table["judged"] == "--stocks"
        try:
            value = json.loads(ended[0])
            number = f"{value['at_least'] or 'none'} to {value['at_most'] or 'none'}" if by_stocks else value["number"] or "none"
        except ValueError:
            return ended
        words = ["check", *(["--stocks"] if by_stocks else []), "certificate"]
        return number, ran(words, stdin, {"certificate": ended[0]}, program=program)


def ran(words, stdin, files, output=None, memory=None, program=None):
    """What the program, or another, prints, tells and answers in a folder with these files, and whether it changed them."""
    with tempfile.TemporaryDirectory() as name:
        room = pathlib.Path(name)
        for file, text in files.items():
            (room / file).write_bytes(text)
        target = os.open(output, os.O_WRONLY) if output else None
        ended = called(words, stdin, target, program=program, room=room, memory=memory)
        if output:
            os.close(target)
        left = {path.name: path.read_bytes() for path in room.iterdir()}
    return ended if left == files else (*ended, f"the folder has {sorted(left)}")


def rows():
    """All rows of the tables of tests/texts/rows, in order."""
    for path in sorted((TOP / "tests/texts/rows").glob("*.toml")):
        file = tomllib.loads(path.read_text())
        for place, table in enumerate(file["table"]):
            for number, values in enumerate(table.get("rows", [[]])):
                yield Row(path, place, number, table, values, file.get("texts", {}))


def printed(file, about):
    """What the program has to print in the one table of a file with this `about`, or in the row with this CASE."""
    shown = [row for row in rows() if row.about.startswith(f"{file}, ") and about in (row.table["about"], row.cells.get("CASE"))]
    assert len(shown) == 1, f"{file} has {len(shown)} rows that show {about}"
    return shown[0].wanted()[0].decode()
