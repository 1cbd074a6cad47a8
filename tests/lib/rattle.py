"""The one reader of Rattle's sources: their tokens, the items around each, and their functions with the contracts. tests/repository/pages,
tests/repository/sources and tests/attack read by it."""
import collections
import re

from built import TOP

TOKEN = re.compile(
    r"""(?P<skip>//[^\n]*|/\*.*?\*/|\s+)|(?P<text>b?r(?P<hashes>\#*)".*?"(?P=hashes)|b?"(?:\\.|[^"\\])*"|b?'(?:\\[^']+|[^\\'])')"""
    r"""|'\w+|\w+|::|=>|->|==|!=|<=|>=|\S""",
    re.S,
)
OPEN, CLOSED = "([{", ")]}"
NAME = re.compile(r"[^\W\d]\w*")
IMPORT = re.compile(r"\buse (Rattle[\w.]*)\.\{([^}]*)\}")
HEAD = re.compile(r"^[ \t]*(?:pub(?:\(\w+\))? )?(impl|trait)\b([^{;]*)\{", re.M)
FUNCTION = re.compile(r"^([ \t]*(?:pub(?:\(\w+\))? )?)(?:unsafe |const )*fn (\w+)", re.M)

# A function of a text: its name, where it begins and the place behind it, whether it is `pub`, and the clauses of its contract, a
# list of texts for each name.
Function = collections.namedtuple("Function", "name start end is_pub clauses")
# An impl or a trait: where its body begins, the place behind it, the names in its head, its ghost members, and whether it is a
# trait or the impl of one.
Head = collections.namedtuple("Head", "start end names members is_of_trait")


# Tokens


def tokens_of(text):
    """The tokens of a source, (token, line) each, without comments. A text is one token."""
    return [('""' if it["text"] else it[0], text.count("\n", 0, it.start()) + 1) for it in TOKEN.finditer(text) if not it["skip"]]


def behind(tokens, at):
    """The place behind the group that opens here."""
    depth = 0
    while at < len(tokens):
        depth += (tokens[at][0] in OPEN) - (tokens[at][0] in CLOSED)
        at += 1
        if depth == 0:
            break
    return at


def code_of(tokens):
    """The tokens without attributes, contracts and ghost code."""
    code, at = [], 0
    while at < len(tokens):
        word, following = tokens[at][0], [it[0] for it in tokens[at + 1 : at + 3]]
        if word == "#" and following[:1] == ["["] or word == "#" and following == ["!", "["]:
            at = behind(tokens, at + 1 + (following[0] == "!"))
        elif word in ("ensures", "requires"):
            at = behind(tokens, at + 1 + (following[0] != "{"))
        elif word == "ghost":
            # A ghost field of a struct ends with a comma.
            while tokens[at][0] not in (";", ","):
                at = behind(tokens, at) if tokens[at][0] in OPEN else at + 1
            at += 1
        else:
            code.append(tokens[at])
            at += 1
    return code


def name_of(head):
    """The name of the item with this head, or nothing: 'fn NAME', 'impl TYPE' and so on."""
    words = [it for it in head if it not in ("pub", "unsafe", "const", "async", "crate")]
    for kind in ("fn", "enum", "mod", "trait", "macro_rules"):
        if kind in words:
            at = words.index(kind)
            return f"{kind} {next(it for it in words[at + 1 :] if it.isidentifier())}"
    if "impl" in words:
        target = words[words.index("for") + 1 :] if "for" in words else words[words.index("impl") + 1 :]
        depth, names = 0, []
        for it in target:
            depth += (it == "<") - (it == ">")
            names += [it] if it.isidentifier() and depth == 0 else []
        return f"impl {names[-1] if names else '?'}"
    return ""


def places_of(code):
    """For each token the items around it, from the outermost on."""
    around, stack, head, places = [], [], [], []
    depth = 0
    for word, _ in code:
        if word == "}":
            stack and stack.pop()
            head = []
        places.append([it for it in stack if it])
        if word == "{":
            stack.append(name_of(head) if depth == 0 else "")
            around.append(depth)
            depth, head = 0, []
        elif word == "}":
            depth = around.pop() if around else 0
        elif word == ";" and depth == 0:
            head = []
        else:
            depth += (word in "([") - (word in ")]")
            head.append(word)
    return places


def function_of(items):
    """The name of the function around a token, with its type in front."""
    functions = [it for it in items if it.startswith("fn ")]
    types = [it for it in items if it.startswith("impl ")]
    return "::".join([it.split(" ")[1] for it in types[-1:] + functions[-1:]]) if functions else "no function"


def tree(words):
    """The names in a tree of `use`: (path, other name or nothing) each."""
    found, path, at = [], [], 0
    while at < len(words):
        if words[at] == "{":
            end = behind([(it, 0) for it in words], at)
            inner, start, depth = words[at + 1 : end - 1], 0, 0
            for k, it in enumerate([*inner, ","]):
                depth += (it in OPEN) - (it in CLOSED)
                if it == "," and depth == 0:
                    found += [(tuple(path) + rest, name) for rest, name in tree(inner[start:k])]
                    start = k + 1
            return found
        if words[at] == "as":
            return [(tuple(path), words[at + 1])]
        if words[at] != "::":
            path.append(words[at])
        at += 1
    path = [it for it in path if it != "self" or len(path) == 1]
    return [(tuple(path), None)] if path else []


class Source:
    """The code of a file, with where it stands."""

    def __init__(self, path, text):
        parts = path.relative_to(TOP / "crates").with_suffix("").parts
        self.crate, self.name = parts[0], "/".join((parts[0], *parts[2:]))
        self.code = code_of(tokens_of(text))
        self.words = [it[0] for it in self.code]
        self.places = places_of(self.code)
        self.used = self.in_use()

    def in_use(self):
        """The places of the tokens of `use`, and the names that are used: (path, other name or nothing, place) each."""
        self.uses, used, at = [], set(), 0
        while at < len(self.words):
            if self.words[at] == "use":
                end = self.words.index(";", at)
                self.uses += [(*it, at) for it in tree(self.words[at + 1 : end])]
                used |= set(range(at, end))
                at = end
            at += 1
        return used

    def at(self, place):
        return f"crates/{self.name}.rt".replace(f"{self.crate}/", f"{self.crate}/src/", 1) + f":{self.code[place][1]}"

    def function(self, place):
        return f"{self.name}: {function_of(self.places[place])}"


# Functions by their places in the text


def masked(text):
    """A text of the same length, without comments and without what stands between quotes."""
    hidden = lambda it: re.sub(r"[^\n]", " ", it[0]) if it["text"] or it["skip"] and not it[0].isspace() else it[0]
    return TOKEN.sub(hidden, text)


def end_of(text, start):
    """The place behind the bracket that closes the one here."""
    depth = 0
    for place in range(start, len(text)):
        depth += (text[place] in OPEN) - (text[place] in CLOSED)
        if depth == 0:
            return place + 1
    return len(text)


def imports_of(text):
    """The names that a file imports, each with its module and its name there."""
    given = {}
    for line in IMPORT.finditer(text):
        for item in line[2].split(","):
            name, _, other = item.strip().partition(" as ")
            given[other or name] = line[1], name
    return given


def contract(text, plain, place):
    """The clauses of the function whose name ends here, and the place behind it."""
    clauses, start = collections.defaultdict(list), place
    while place < len(plain) and plain[place] != ";":
        end = end_of(plain, place) if plain[place] in OPEN else place + 1
        if plain[place] == "{":
            clause = re.search(r"\b(?:requires|ensures)\b\*?\s*(\w*)\s*$", plain[start:place])
            if not clause:
                return clauses, end
            clauses[clause[1]].append(text[place + 1 : end - 1])
            start = end
        place = end
    return clauses, place


def functions(text):
    """The functions of a source, in order, without those inside others."""
    plain, place, found = masked(text), 0, []
    while item := FUNCTION.search(plain, place):
        clauses, place = contract(text, plain, item.end())
        found.append(Function(item[2], item.start(), place, item[1].strip() == "pub", clauses))
    return found


def heads(text):
    """The impls and the traits of a source."""
    plain, found = masked(text), []
    for head in HEAD.finditer(plain):
        names, end = set(NAME.findall(re.sub(r"\bwhere\b.*", "", head[2], flags=re.S))), end_of(plain, head.end() - 1)
        members = set(re.findall(r"\bghost (\w+)\s*[:=]", plain[head.end() : end]))
        found.append(Head(head.end(), end, names, members, head[1] == "trait" or "for" in names))
    return found
