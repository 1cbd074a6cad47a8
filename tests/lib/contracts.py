"""What the sources say: the functions with their contracts, the definitions that these go by, and the proofs that one crate
cites from another. tests/repository/pages compares the pages with it."""
import collections
import re

from built import TOP
from rattle import NAME, functions, heads, imports_of

# A function: its place (crate, modules, and the names in the head of its impl or trait, which are its owners), and its
# clauses, a list of texts for each name.
Function = collections.namedtuple("Function", "crate name places owners is_public clauses imports")
Impl = collections.namedtuple("Impl", "names members")
# A definition of specs: its text, and its fields if it is a record.
Definition = collections.namedtuple("Definition", "module name text fields")


class Sources:
    """All functions, impls and definitions of the repository, but the functions of tests."""

    def __init__(self):
        self.functions, self.impls = collections.defaultdict(list), []
        self.definitions, self.imports = collections.defaultdict(dict), {}
        for path in sorted(TOP.glob("crates/*/src/**/*.rt")):
            if not path.relative_to(TOP / "crates").parts[0].endswith("_tests"):
                self.read_source(path)
        for path in sorted(TOP.glob("crates/*/specs/**/*.antt")):
            self.read_specs(path)

    def read_source(self, path):
        text = path.read_text()
        imports, around = imports_of(text), heads(text)
        crate, _, *modules = path.relative_to(TOP / "crates").with_suffix("").parts
        self.impls += [Impl(it.names, it.members) for it in around]
        for it in functions(text):
            near = [head for head in around if head.start <= it.start < head.end]
            owners = {name for head in near for name in head.names}
            is_public = it.is_pub or any(head.is_of_trait for head in near)
            function = Function(crate, it.name, {crate, *modules, *owners}, owners, is_public, it.clauses, imports)
            self.functions[it.name].append(function)

    def read_specs(self, path):
        module = ".".join(["Rattle", *path.relative_to(TOP / "crates").with_suffix("").parts])
        text = re.sub(r"--.*", "", re.sub(r"^ *--.*\n", "", path.read_text(), flags=re.M))
        self.imports[module], names = imports_of(text), self.definitions[module]
        dedented = lambda inner: re.sub(r"^  ", "", inner[1], flags=re.M)
        text = re.sub(r"^module _ .*\n((?:(?:  .*)?\n)*)", dedented, text, flags=re.M)
        for item in re.finditer(r"^\S.*\n(?:[ \t]+\S.*\n)*", text, re.M):
            head = re.match(r"(?:(?:abbrev|unfoldable|opaque|pub) )*((?:record|data) )?(?!use |mod |syntax )([^\W\d]\w*)", item[0])
            if head:
                fields = re.findall(r"^ +(?:pub )?(\w+) :", item[0], re.M) if head[1] else []
                before = names.get(head[2], Definition(module, head[2], "", []))
                names[head[2]] = Definition(module, head[2], before.text + item[0], before.fields + fields)

    def defined(self, text, imports, module=None):
        """The definitions that a text names."""
        for name in set(NAME.findall(text)):
            where, real = imports.get(name, (module, name))
            if real in self.definitions.get(where, {}):
                yield self.definitions[where][real]

    def within(self, definitions, steps):
        """These definitions, and those that they use within this many steps."""
        reached, met = [], set()
        for _ in range(steps + 1):
            new = [it for it in definitions if (it.module, it.name) not in met]
            met |= {(it.module, it.name) for it in new}
            reached += new
            definitions = [other for it in new for other in self.defined(it.text, self.imports[it.module], it.module)]
        return reached

    def by_clauses(self, function, names, steps):
        """The definitions that these clauses of a function use within this many steps; those of all clauses if none are named."""
        texts = [text for name, texts in function.clauses.items() for text in texts if not names or name in names]
        return self.within(list(self.defined(" ".join(texts), function.imports)), steps)


def proofs_for_others():
    """The files and folders of proofs that another crate cites, as (crate, name)."""
    crates = {path.name for path in TOP.glob("crates/*")}
    cited = set()
    for path in [*TOP.glob("crates/*/proofs/**/*.antt"), *TOP.glob("crates/*/specs/**/*.antt"), *TOP.glob("crates/*/src/**/*.rt")]:
        own = path.relative_to(TOP / "crates").parts[0]
        for line in re.finditer(r"\bRattle\.(\w+)\.proofs\.(\w+)|\b(\w+)::proofs::(\w+)", path.read_text()):
            crate, name = line[1] or line[3], line[2] or line[4]
            if crate in crates - {own}:
                cited.add((crate, name))
    return cited
