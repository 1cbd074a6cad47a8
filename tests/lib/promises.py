"""What carries a promise, from the sources. Above each clause that carries the promise KEY, or above a function all of whose
contract does, stands a mark: the line `// promise: KEY`, or with the names that the page tells of it `// promise: KEY (NAME: PART, ..)`.
Lines that begin with `//     ` go on with a mark. In docs/PROMISES.md the cell of the promise begins with the calls that have its
marks, behind which stands `<!--KEY-->`, as tests/repository/pages writes them. What follows there is written by hand."""
import collections
import functools
import re

from built import TOP
from crates import named
from rattle import HEAD, end_of, functions, masked, name_of, tokens_of

MARKS = re.compile(r"((?:^ *// promise: .*\n(?:^ *//     .*\n)*)+) *(?:(?:ensures|requires)\b\*? *(\w*))?", re.M)
NAME = re.compile(r"(?:\w+::)*\w*[^\W\d]\w*")
MARK = re.compile(r"// promise: ([\w-]+)(?: \(([^()]*)\))?")
ROW = re.compile(r"^\| [^|\n]* \| ([^|\n]*)<!--([\w-]+)-->([^|\n]*) \|$", re.M)

# A function with marks of one promise: its name for callers, whether it is public, and its clauses with the names told of each.
Call = collections.namedtuple("Call", "name is_public clauses")


def types_around(text):
    """The impls and the traits of a source: where each begins and ends, and the name of its type or trait."""
    plain = masked(text)
    return [(it.start(), end_of(plain, it.end() - 1), name_of([word for word, _ in tokens_of(it[0])]).split()[1]) for it in HEAD.finditer(plain)]


def path_of(crate, modules, types, function):
    """The name of a function for callers of its crate: with its modules, as far as these are public, and with the type of its impl."""
    source, public = TOP / "crates" / crate / "src", []
    parents = [path.read_text() for path in source.glob("*.rt") if path.stem in ("lib", "main")]
    for it in modules:
        if not any(re.search(rf"^pub mod {it};", parent, re.M) for parent in parents):
            break
        public.append(it)
        path = source.joinpath(*public).with_suffix(".rt")
        parents = [path.read_text()] if path.exists() else []
    owners = [name for start, end, name in types if start < function.start < end]
    return "::".join([crate, *public, *owners[-1:], function.name])


def marks_of(text, function):
    """The marks of a function, (key, clause or nothing, names) each. Those above its head belong to all of its contract."""
    for place in MARKS.finditer(text):
        if place.end(1) == function.start or function.start <= place.start() < function.end:
            for key, names in MARK.findall(re.sub(r"\n *//     ", " ", place[1])):
                yield key, place[2] or "", names


def without_marks(text):
    """A source without its marks."""
    return MARKS.sub(lambda it: it[0][len(it[1]) :], text)


@functools.cache
def carried_by(sources):
    """For each key the calls, in the order of crates.txt."""
    found = collections.defaultdict(dict)
    for crate in named():
        for path in sorted(TOP.glob(f"crates/{crate}/src/**/*.rt")):
            text, modules = path.read_text(), path.relative_to(TOP / "crates" / crate / "src").with_suffix("").parts
            types = types_around(text) if "// promise: " in text else []
            for it in functions(text) if "// promise: " in text else []:
                name = path_of(crate, modules, types, it)
                places = {crate, *modules, *name.split("::")[1:-1]}
                is_public = any(other.is_public for other in sources.functions[it.name] if places <= other.places)
                for key, clause, names in marks_of(text, it):
                    found[key].setdefault(name, Call(name, is_public, [])).clauses.append((clause, names))
    return {key: [*calls.values()] for key, calls in found.items()}


@functools.cache
def strays(text):
    """How many marks of a source stand above no clause and no function."""
    taken = sum(1 for it in functions(text) for _ in marks_of(text, it))
    return text.count("// promise:") - taken


def in_brackets(names, whose=""):
    """The names told of a clause, as the page writes them. A number stands for a part of the promise."""
    return f" ({whose}" * bool(names) + NAME.sub(lambda it: f"`{it[0]}`", names) + ")" * bool(names)


def told_of(call):
    """The clauses of a call with the names told of each, the same names once, and the names told of its contract as a whole."""
    clauses = [(name, names) for name, names in call.clauses if name]
    alike = {names for _, names in clauses} if len(clauses) > 1 else set()
    if len(alike) == 1:
        listed = ", ".join(f"`{name}`" for name, _ in clauses) + in_brackets(alike.pop(), "among them ")
    else:
        listed = ", ".join(f"`{name}`{in_brackets(names)}" for name, names in clauses)
    whole = "".join(in_brackets(names) for name, names in call.clauses if not name)
    return f", clause{'s' * (len(clauses) > 1)} {listed}" * bool(clauses), whole


def cell(calls):
    """The calls of a promise. Those with the same clauses stand together; a name has its path where that is another than before."""
    alike, pieces, path = collections.defaultdict(list), [], None
    for call in calls:
        clauses, _ = told_of(call)
        alike[call.is_public, clauses or call.name.rpartition("::")[0]].append(call)
    for (is_public, _), group in alike.items():
        names = []
        for call in group:
            owners, _, name = call.name.rpartition("::")
            clauses, whole = told_of(call)
            names.append(f"`{name if owners == path and is_public else call.name}`{whole}")
            path = owners
        pieces.append("the private " * (not is_public) + ", ".join(names) + clauses)
    return "; ".join(pieces)


def rows(text, sources):
    """The rows with a key: the place of what the marks tell, and what has to stand there; and each key without a row."""
    known = {**carried_by(sources)}
    for row in ROW.finditer(text):
        yield row, cell(known.pop(row[2], []))
    for key in known:
        yield None, key


def write(sources):
    """Writes anew what the marks tell."""
    page = TOP / "docs/PROMISES.md"
    text, met, pieces = page.read_text(), 0, []
    for row, told in rows(text, sources):
        if row:
            pieces += [text[met : row.start(1)], told]
            met = row.end(1)
    page.write_text("".join(pieces) + text[met:])
