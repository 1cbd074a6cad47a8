"""Runs of the native program, to compare with the page's: every command, on all tables at hand, on hostile tables and
certificates, and on words that are refused; and the rows of tests/texts/rows that a page can run.

A job is [words, number of standard input, {file: number of its content}, status, digest of standard output, digest of
standard error, the beginning of standard error]; the numbers are those of a list of texts.
"""
import contextlib
import hashlib
import json
import pathlib
import re
import subprocess
import tempfile

from calls import PROGRAM, TOP
from rows import rows
from table import Table

LONGEST = 60
MOST_CHANGES = 100  # of one entry of a table whose `changes` are compared: those of the greatest tables take hours
MOST_CERTIFICATE = 2_000_000
PATHS = [path for folder in ("types", "tests/types", "catalogue") for path in sorted((TOP / folder).glob("*.toml"))]
TABLES = {str(path.relative_to(TOP).with_suffix("")): path.read_bytes() for path in PATHS}
BIT, COUNTER = TABLES["types/test_and_set"], TABLES["types/counter_3"]
# What `serve` prints, tells and answers if no thread can be started.
NO_THREAD = b"", b"cnum: cannot start a thread\n", 4
# Steps and crashes of two processes.
CRASHES = "0,1,0,1,c1,0,0,0,0,0,1,1,1,1,1,1,c0,0,0,0,c0,c1,1,1,1"
# Types, each with a number of processes, whose shortest plans have two and more teams at a node, and one node and several.
PLANS = [("types/sticky_bit", 8), ("types/three_shot", 3), ("catalogue/queue_2", 8), ("catalogue/cas_4", 8), ("catalogue/cas_6", 5)]
COMMANDS = ("find", "classify", "lint", "check", "explain", "why", "pairs", "changes", "show", "draw", "agree", "replay", "serve")


def hostile_tables():
    greatest = 65536
    made = [b"", b"\xff\xfe", b"name=", b'name = "x"\n' * 3, b"[" * 5000, b"[" * greatest, b"a=" + b"[" * 65000, b"a=" + b"{b=" * 20000]
    made += [BIT.replace(b'"one"]', b'"two"]'), BIT.replace(b"\n", b"\r\n"), b"\xef\xbb\xbf" + BIT, BIT[:-3], BIT + b"\0", b"a=1\n" * 20000]
    made += [b" " * greatest + b"x", BIT + b"#" * (greatest - len(BIT)), BIT + b"#" * (greatest + 1 - len(BIT)), b'"' * greatest]
    made += [b"a." * 32000 + b"b=1", bytes(range(256))]
    return made + files("tests/refused", "tests/texts/rows")


def hostile_certificates():
    deep = 100000
    made = [b"", b"{", b"[" * deep, b'{"a":' * 60 + b"1" + b"}" * 60, b'{"collisions":' + b"[" * 127, b'{"a":' * deep, b"\xff", b"\xef\xbb\xbf{}"]
    made += [b'"' + b"\\" * (deep - 1), b"1" * deep, b"1e999999999", b" " * 16777217]
    return made + [(TOP / "types/test_and_set_at_3.json").read_bytes()] + files("tests/certificates", "tests/numbers", "tests/refused")


def files(*folders):
    return [path.read_bytes() for folder in folders for path in sorted((TOP / folder).glob("*")) if path.is_file()]


def names_path(row):
    """Whether a row names a file by a path of the system, which a page lacks."""
    return any(re.match(rb"@?\.?/", word) for word in row.words())


class Jobs:
    """The runs, each made natively."""

    def __init__(self, room):
        self.room, self.texts, self.jobs = pathlib.Path(room), {}, []
        for name, table in TABLES.items():
            self.of_table(name, table)
        for table in hostile_tables():
            for words in (["lint"], ["lint", "--as", "json"], ["find", "--limit", "3"], ["draw"], ["classify", "--limit", "3", "-"]):
                self.run(words, table)
        for certificate in hostile_certificates():
            as_forms = (["check", "--as", "json", "C"], ["check", "--stocks", "C"], ["show", "--as", "promela", "C"])
            for words in (["check", "C"], ["explain", "C"], ["show", "C"], *as_forms, ["agree", "C", "1,2", "0,1,0,1"]):
                self.run(words, BIT, C=certificate)
        for name, n in PLANS:
            self.of_plan(TABLES[name], n)
        self.of_words()
        self.of_rows()

    def number(self, text):
        return self.texts.setdefault(text, len(self.texts))

    def run(self, words, stdin, **files):
        for name, content in files.items():
            (self.room / name).write_bytes(content)
        ran = subprocess.run([PROGRAM, *words], input=stdin, capture_output=True, cwd=self.room, timeout=LONGEST)
        for name in files:
            (self.room / name).unlink()
        digests = [hashlib.sha256(it).hexdigest() for it in (ran.stdout, ran.stderr)]
        numbers = {name: self.number(content) for name, content in files.items()}
        self.jobs.append([words, self.number(stdin), numbers, ran.returncode, *digests, ran.stderr[:200].decode("latin1")])
        return ran.stdout

    def of_table(self, name, table):
        self.run(["lint"], table)
        self.run(["draw"], table)
        self.run(["classify", "--limit", "5", "-"], table)
        for form in ("text", "json", "markdown"):
            self.run(["pairs", "--as", form, "-"], table)
        if Table(table.decode()).count_changes() <= MOST_CHANGES:
            for options in (["--as", "text"], ["--as", "json"], ["--as", "markdown"], ["--recoverable", "--as", "json"], ["--without-read", "--as", "json"]):
                self.run(["changes", *options, "-"], table)
        for form in ("text", "json", "markdown"):
            self.run(["classify", "--recoverable", "--as", form, "-"], table)
            self.run(["classify", "--without-read", "--as", form, "-"], table)
            self.run(["why", "--as", form, "-"], table)
            self.run(["why", "--recoverable", "--as", form, "-"], table)
            self.run(["why", "--without-read", "--all", "--as", form, "-"], table)
        for n, inputs in (("2", "1,2"), ("3", "1,2,3")):
            self.run(["agree", "--recoverable", "--processes", n, "--steps", "--as", "json", "-", inputs, CRASHES], table)
            for form in ("text", "json"):
                self.run(["show", "--recoverable", "--processes", n, "--as", form, "-"], table)
            self.run(["show", "--shortest", "--processes", n], table)
            self.run(["show", "--without-read", "--processes", n], table)
            shortest = self.run(["find", "--shortest", "--processes", n], table)
            if shortest:
                self.run(["check", "--shortest", "--as", "json", "C"], table, C=shortest)
            self.run(["agree", "--shortest", "--processes", n, "--steps", "-", inputs, "1,1,0,0,0,1,0,1,0,1"], table)
        self.run(["classify", "--limit", "3", "T", "-", "T"], table, T=table)
        for limit in ([], ["--limit", "3"]):
            self.run(["why", "--stocks", *limit, "-"], table)
            by_stocks = self.run(["find", "--stocks", *limit], table)
            if 0 < len(by_stocks) < MOST_CERTIFICATE:
                self.run(["check", "--stocks", "--as", "json", "C"], table, C=by_stocks)
                self.run(["explain", "--stocks", "--all", "C"], table, C=by_stocks)
                self.run(["check", "--stocks", "C"], table, C=by_stocks.replace(b'"at_most":2', b'"at_most":1'))
        unread = self.run(["find", "--without-read"], table)
        if 0 < len(unread) < MOST_CERTIFICATE:
            self.run(["check", "--without-read", "C"], table, C=unread)
            self.run(["check", "--without-read", "--as", "json", "C"], table, C=unread.replace(b'"at_least":2', b'"at_least":3'))
        certificate = self.run(["find", "--limit", "4"], table)
        if not 0 < len(certificate) < MOST_CERTIFICATE:
            return
        n = json.loads(certificate)["number"] or 1
        listed = lambda numbers: ",".join(map(str, numbers))
        schedule = [(k * 5 + k // 3) % n for k in range(60 * n)]
        events = ",".join([f"i{p}:0" for p in range(n)] + [f"s{p}" for p in schedule])
        as_forms = [["check", "--as", "json"], ["explain", "--as", "json"], ["explain", "--all", "--as", "json"]]
        as_forms += [["show", "--as", form] for form in ("json", "dot", "promela", "rust", "c")]
        as_forms += [["show", "--as", form, "--prefix", "counter_3"] for form in ("c", "h")]
        for words in (["check"], ["explain"], ["explain", "--all"], ["show"], *as_forms):
            self.run([*words, "C"], table, C=certificate)
        self.run(["agree", "C", listed(range(1, 1 + n)), listed(schedule[:60])], table, C=certificate)
        self.run(["agree", "--steps", "--as", "json", "C", listed(range(1, 1 + n)), listed(schedule[:60])], table, C=certificate)
        self.run(["replay", "C", "O", "0", "4", events], table, C=certificate, O=COUNTER)
        self.run(["replay", "--as", "json", "C", "O", "0", "4", "@E"], table, C=certificate, O=COUNTER, E=events.encode() + b"\n")
        for options in (["--as", "rust"], ["--as", "c"], ["--as", "h", "--prefix", "counter_3"]):
            self.run(["show", *options, "--object", "O", "--start", "0", "C"], table, C=certificate, O=COUNTER)
        self.run(["serve", "C", "O", "0", "4", "/".join(["0,0"] + ["none"] * (n - 1))], table, C=certificate, O=COUNTER)

    def of_plan(self, table, n):
        for form in ("text", "json", "dot", "promela", "rust", "c"):
            self.run(["show", "--shortest", "--processes", str(n), "--as", form, "-"], table)
        for options in (["--as", "rust"], ["--as", "c", "--prefix", "counter_3"], ["--as", "h", "--prefix", "counter_3"]):
            self.run(["show", "--shortest", "--processes", str(n), *options, "--object", "O", "--start", "0", "-"], table, O=COUNTER)
        for schedule in ([(k * 5 + k // 3) % n for k in range(12 * n)], [k % n for k in range(12 * n)], [0]):
            words = [",".join(map(str, its)) for its in (range(1, 1 + n), schedule)]
            self.run(["agree", "--shortest", "--processes", str(n), "--steps", "--as", "json", "-", *words], table)
        self.run(["agree", "--shortest", "--steps", "-", "1,2", "0,1,0,1,0,1"], table)

    def of_words(self):
        refused = [["find", "--limit", "9"], ["find", "--limit", "0"], ["find", "--limit", "x"], ["find"], ["nosuch"], [], ["lint", "extra"]]
        refused += [["check", "missing"], ["check", "constructor"], ["show", "--as", "x", "C"], ["lint", "\xe4"], ["why", "--recoverable", "--limit", "3", "-"]]
        refused += [["classify", "--without-read", "--limit", "3", "-"], ["why", "--without-read", "--recoverable", "-"], ["find", "--without-read", "--limit", "3"]]
        refused += [["find", "--stocks", "--without-read"], ["find", "--stocks", "--limit", "9"], ["check", "--stocks", "--shortest", "C"]]
        refused += [["explain", "--stocks", "--as", "json", "C"], ["why", "--stocks", "--recoverable", "-"]]
        refused += [["show"], ["show", "--shortest", "C", "-"], ["show", "--recoverable", "--as", "dot", "-"], ["agree", "--shortest", "--recoverable", "-", "1,2", "0"], ["agree", "--without-read", "--recoverable", "-", "1,2", "0"]]
        for words in [*refused, ["--help"], ["-h"], ["--version"], ["help"], *([it, "--help"] for it in COMMANDS)]:
            self.run(words, BIT)

    def of_rows(self):
        """The rows that a page can run: its memory has no other bound, and its words are in UTF-8. Standard input that a row closes is
        empty here."""
        for row in rows():
            stdin, files = row.given()
            if not row.table.get("memory") and not names_path(row):
                with contextlib.suppress(UnicodeDecodeError):
                    self.run([word.decode() for word in row.words()], stdin or b"", **files)


def made():
    """The texts and the jobs, as a script for the page."""
    with tempfile.TemporaryDirectory() as room:
        it = Jobs(room)
    texts = json.dumps([text.decode("latin1") for text in it.texts])
    return it.jobs, f"var Cnum = globalThis.Cnum || {{}};\nCnum.texts = {texts};\nCnum.jobs = {json.dumps(it.jobs)};\n"
