"""Reads and walks through the models that `show --as promela` writes, by the part of Promela that they use: arrays
and variables of bytes, one macro, one inline, processes of atomic blocks with if, goto, assert and assignments.
It knows nothing of plans: a model does what its text says. And the runs of `spin` over models.
"""
import pathlib
import re
import shutil
import subprocess
import tempfile

# Whether models can be handed to `spin` here.
SPINS = all(map(shutil.which, ("spin", "cc")))

TOKEN = re.compile(r"\s*(->|::|\+\+|==|!=|<=|&&|\|\||[-+*<>=;:,(){}\[\]]|\w+)")
PYTHON = {"&&": " and ", "||": " or "}


class Violation(Exception):
    """An assertion that does not hold."""


def tokens_of(text):
    tokens, at = [], 0
    while text[at:].strip():
        found = TOKEN.match(text, at)
        assert found, f"no token at {text[at:at + 20]!r}"
        tokens.append(found[1])
        at = found.end()
    return tokens


class Model:
    """A model by its text. A world is a tuple of numbers: the variables, those of each process, and the place of each process."""

    def __init__(self, text):
        text = re.sub(r"/\*.*?\*/", "", text, flags=re.S)
        self.called, self.places, self.first = {}, {}, []
        text = re.sub(r"^#define (\w+)\((.*?)\) (.*)\n", self.define, text, flags=re.M)
        text = re.sub(r"^inline (\w+)\((.*?)\) \{\n(.*?)\n\}\n", self.define, text, flags=re.M | re.S)
        text = re.sub(r"^active proctype (\w+)\(\) \{\n(.*?)\n\}\n", self.keep, text, flags=re.M | re.S)
        for line in text.split("\n"):
            self.declare(line) if line else None
        self.processes = len(self.kept)
        self.bodies, self.starts = [], []
        for name, body in self.kept:
            self.body(name, body)
        self.pcs = len(self.first)
        self.first += self.starts

    kept = ()

    def define(self, found):
        self.called[found[1]] = ([it.strip() for it in found[2].split(",")], tokens_of(found[3]))
        return ""

    def keep(self, found):
        self.kept += ((found[1], found[2]),)
        return ""

    def declare(self, line, owner=""):
        """`byte NAME[N] = V, NAME = V;`"""
        found = re.fullmatch(r"\s*byte (.*);", line)
        assert found, f"no declaration: {line!r}"
        for item in found[1].split(", "):
            name, many, value = re.fullmatch(r"(\w+)(?:\[(\d+)\])?(?: = (\d+))?", item).groups()
            assert owner + name not in self.places, f"{name} is declared twice"
            self.places[owner + name] = (len(self.first), int(many or 1))
            self.first += [int(value or 0)] * int(many or 1)

    def body(self, name, text):
        """The atomic blocks of a process. It may stop before each."""
        line, _, text = text.partition("\n")
        self.declare(line, f"{name}.")
        reader = Reader(self, name, self.expanded(tokens_of(text)))
        blocks = []
        while not reader.takes("stopped"):
            reader.want("atomic", "{", "if", "::", "goto", "stopped", "::")
            blocks.append([reader.statement(), reader.want("fi", ";"), *reader.sequence("}")])
            reader.want("}", ";")
            del blocks[-1][1]
        reader.want(":", "skip")
        assert not reader.tokens, "something stands behind the end of a process"
        self.bodies.append(blocks)
        self.starts.append(0)

    def expanded(self, tokens):
        """The tokens, with the text of each call in its place."""
        made = []
        while tokens:
            word, tokens = tokens[0], tokens[1:]
            if word not in self.called:
                made.append(word)
                continue
            names, body = self.called[word]
            end = tokens.index(")")
            given = dict(zip(names, split(tokens[1:end])))
            assert len(given) == len(names)
            tokens = [part for it in body for part in given.get(it, [it])] + tokens[end + 1 :]
        return made

    def after(self, world, p):
        """The worlds after the next atomic block of a process that goes on, or none if it is at its end."""
        at = world[self.pcs + p]
        if at == len(self.bodies[p]):
            return []
        worlds = [list(world)]
        worlds[0][self.pcs + p] += 1
        for statement in self.bodies[p][at]:
            worlds = [it for here in worlds for it in statement(here)]
        return [tuple(it) for it in worlds]

    def worlds(self):
        """All worlds. A process that stops changes nothing, so in each world any processes may have stopped."""
        queue = [tuple(self.first)]
        seen = set(queue)
        for world in queue:
            yield world
            for p in range(self.processes):
                for there in self.after(world, p):
                    if there not in seen:
                        seen.add(there)
                        queue.append(there)

    def value(self, world, name):
        place, many = self.places[name]
        return world[place : place + many]


def split(tokens):
    """The arguments of a call."""
    parts = [[]]
    for it in tokens:
        parts.append([]) if it == "," else parts[-1].append(it)
    return parts


class Reader:
    """Turns the statements of a process into functions from a world, a list, to the worlds after it."""

    def __init__(self, model, owner, tokens):
        self.model, self.owner, self.tokens = model, owner, tokens

    def want(self, *words):
        for word in words:
            found = self.tokens.pop(0)
            assert found == word, f"{found!r} where {word!r} should stand"

    def takes(self, word):
        if self.tokens[0] != word:
            return False
        self.tokens.pop(0)
        return True

    def sequence(self, *ends):
        statements = [self.statement()]
        while self.tokens[0] not in ends:
            self.tokens.pop(0) if self.tokens[0] in (";", "->") else self.want(";")
            statements.append(self.statement())
        return statements

    def statement(self):
        if self.takes("if"):
            return self.choice()
        if self.takes("assert"):
            return self.assertion()
        name, index = self.target()
        if self.takes("++"):
            return lambda world: [increased(world, index(world))]
        self.want("=")
        value = self.expression(";", "::", "fi", "}")
        return lambda world: [changed(world, index(world), value(world))]

    def choice(self):
        """An if: one of the options that can be taken, or the one behind else."""
        options, other = [], None
        while not self.takes("fi"):
            self.want("::")
            if self.takes("else"):
                self.want("->")
                other = self.sequence("::", "fi")
            else:
                guard = self.expression("->")
                self.want("->")
                options.append((guard, self.sequence("::", "fi")))

        def taken(world):
            chosen = [body for guard, body in options if guard(world)] or [other]
            assert chosen != [None], "no option can be taken"
            return [it for body in chosen for it in run(body, world)]

        return taken

    def assertion(self):
        self.want("(")
        holds = self.expression(")")
        self.want(")")

        def asserted(world):
            if not holds(world):
                raise Violation
            return [world]

        return asserted

    def place(self, name):
        places = self.model.places
        return places.get(f"{self.owner}.{name}") or places[name]

    def target(self):
        """The place of an assignment."""
        name = self.tokens.pop(0)
        start, many = self.place(name)
        if not self.takes("["):
            return name, lambda world: start
        index = self.expression("]")
        self.want("]")
        return name, lambda world: start + within(index(world), many)

    def expression(self, *ends):
        """A value, with the operators as in C; brackets are those of arrays and of the expression itself."""
        made, depth = [], 0
        while depth or self.tokens[0] not in ends:
            word = self.tokens.pop(0)
            depth += (word in "([") - (word in ")]")
            if word == "false":
                made.append("False")
            elif re.fullmatch(r"[A-Za-z_]\w*", word):
                start, many = self.place(word)
                made.append(f"world[{start} + within(" if self.tokens[0] == "[" else f"world[{start}]")
                made.append(("many", many)) if self.tokens[0] == "[" else None
            else:
                made.append(PYTHON.get(word, word))
        return compiled(made)


def compiled(parts):
    """The function of an expression; `[i]` of an array of so many is `within(i, many)]`."""
    source, open_arrays = "", []
    for part in parts:
        if isinstance(part, tuple):
            open_arrays.append(part[1])
        elif part == "[":
            pass
        elif part == "]":
            source += f", {open_arrays.pop()})]"
        else:
            source += part
    return eval(f"lambda world: {source}", {"within": within})


def within(index, many):
    if index >= many:
        raise Violation
    return index


def run(statements, world):
    worlds = [world]
    for statement in statements:
        worlds = [it for here in worlds for it in statement(here)]
    return worlds


def changed(world, place, value):
    world = list(world)
    world[place] = value
    return world


def increased(world, place):
    return changed(world, place, world[place] + 1)


def spun(text):
    """How many errors `spin` finds in a model. None if it does not come to an end."""
    with tempfile.TemporaryDirectory() as room:
        (pathlib.Path(room) / "model.pml").write_text(text)
        run = lambda *words: subprocess.run(words, cwd=room, capture_output=True, text=True, check=True).stdout
        run("spin", "-a", "model.pml")
        run("cc", "-O0", "-DSAFETY", "-DMEMLIM=2048", "-o", "pan", "pan.c")
        said = run("./pan", "-m100000")
        errors = re.search(r"errors: (\d+)", said)
        whole = "Search not completed" not in said or errors[1] != "0"
        return int(errors[1]) if whole and errors else None
