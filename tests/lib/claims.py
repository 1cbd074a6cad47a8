"""What the pages say of calls and their clauses, held against the sources."""
import re

from contracts import NAME
from crates import named

# A heading or a row of the promises, a row of the table of calls, and the key of a row.
ROW = re.compile(r"^(?:## (.*)|\| (?!Promise |`cn_)(?:[^|\n]*) \| (.*) \|)$", re.M)
CALLS = re.compile(r"^\| (`cn_[^|\n]*) \| ([^|\n]*) \| ([^|\n]*) \|$", re.M)
KEY = re.compile(r"<!--([\w-]*)-->")


class Claims:
    """What a text says of calls: which calls, which clauses, and in brackets which definitions the clauses use. It hands whether each is
    so to `judge`, with what is wrong, and keeps the pairs of a call and a clause."""

    TOKEN = re.compile(r"`[^`]+`|[();:,]|\.(?= |$)|[^\s`();:,]+")
    # How many steps a definition may lie behind a clause, or a part behind a definition.
    STEPS = 3

    def __init__(self, text, sources, judge, crates=(), above=None):
        self.sources, self.judge, self.crates, self.pairs = sources, judge, crates, []
        self.calls, self.clauses, self.owners, self.lists_calls, self.lists_clauses = [], [], [], True, False
        self.tells_private = "private" in text or "read off" in text
        if above and text.startswith("the same"):
            self.calls, self.clauses = above.calls, above.clauses if text.startswith("the same (") else []
        self.read(self.TOKEN.findall(self.with_groups(text)))
        self.ghosts(text)

    def with_groups(self, text):
        """The text with the functions of a module in place of 'each function of MODULE', but for one."""

        def group(found):
            places, but = set(found[1].split("::")), found[2]
            functions = [it for its in self.sources.functions.values() for it in its if places <= it.places and it.is_public and not it.owners]
            return ", ".join(f"`{found[1]}::{it.name}`" for it in functions if it.name != but)

        return re.sub(r"each function of `([\w:]+)`(?: but `(\w+)`)?", group, text)

    def read(self, tokens):
        while tokens:
            token, tokens = tokens[0], tokens[1:]
            if token == "(":
                end = tokens.index(")") if ")" in tokens else len(tokens)
                self.definitions(tokens[:end])
                tokens = tokens[end + 1 :]
            elif token in (";", "."):
                self.end()
                self.clauses, self.calls, self.lists_calls, self.lists_clauses = [], [], True, False
            elif token[0] == "`":
                self.span(token[1:-1])
            elif token not in (",", "and"):
                self.lists_calls, self.lists_clauses = False, token in ("clause", "clauses")
        self.end()

    def span(self, span):
        if self.lists_clauses and re.fullmatch(r"\w+", span):
            self.clauses.append(span)
            return
        functions = self.named(span) if re.fullmatch(r"\w+(::\w+)*", span) else []
        if functions:
            if self.lists_clauses:
                self.end()
                self.calls, self.clauses, self.lists_clauses = [], [], False
            self.judge(len(functions) == 1, f"{span} is several: {'; '.join(' '.join(sorted(it.places)) for it in functions)}")
            self.judge(functions[0].is_public or self.tells_private, f"{span} is private")
            self.calls.append(functions[0])
            self.owners, self.lists_calls = span.split("::")[:-1] or self.owners, True
        elif re.search(r"::[a-z]\w*$", span) or self.lists_calls and re.fullmatch(r"[a-z]\w*", span):
            self.judge(False, f"there is no call {span}")

    def named(self, span):
        """The functions that this may be. A name alone is one of the same owners, or else a public one of the crates."""
        *owners, name = span.split("::")
        if owners:
            return self.candidates(owners, name)
        near = [it for it in self.candidates(self.owners, name) if it.is_public] if self.owners else []
        return near or [it for it in self.candidates([], name) if it.is_public and (not self.crates or it.crate in self.crates)]

    def candidates(self, owners, name):
        functions = [it for it in self.sources.functions.get(name, []) if set(owners) <= it.places]
        has_type = any(owner[0].isupper() for owner in owners)
        for is_better in (
            lambda it: not self.crates or it.crate in self.crates,
            lambda it: it.is_public,
            lambda it: has_type or not it.owners,
            lambda it: all(it.places <= other.places for other in functions),
        ):
            functions = [it for it in functions if is_better(it)] or functions
        return functions

    def end(self):
        """Each of the clauses has to be one of each call. Calls without a clause are carried by their whole contracts."""
        self.pairs += [(call, name) for call in self.calls for name in self.clauses or [""]]
        for name in self.clauses:
            self.judge(self.calls, f"there is no call with the clause {name}")
            for call in self.calls:
                self.judge(name in call.clauses, f"no clause {name} has {call.name}")

    def definitions(self, tokens):
        """A name belongs to the clauses; names behind a colon are definitions or fields of the name before the colon."""
        clauses = set(self.clauses)
        near = [it for call in self.calls for it in self.sources.by_clauses(call, clauses, self.STEPS)]
        words = {word for call in self.calls for name, texts in call.clauses.items() if not clauses or name in clauses for word in NAME.findall(" ".join(texts))}
        whole, named, has_parts = [], [], False
        for token in tokens if self.calls else []:
            name = token.strip("`")
            if re.search(r"`\w.*::[a-z]\w*`$", token):
                self.judge(self.named(name), f"there is no call {name}")
            if token == ":":
                whole, has_parts = named, True
            elif token == ";":
                has_parts = False
            elif token[0] == "`" and re.fullmatch(r"\w+", name):
                around = self.sources.within(whole, self.STEPS) if has_parts else near
                named = [it for it in around if it.name == name]
                is_field = any(name in it.fields for it in self.sources.within(whole, 1)) if has_parts else name in words
                of = [it.name for it in (whole[:1] if has_parts else self.calls)]
                self.judge(named or is_field, f"{' or '.join(of)} does not go by {name}")

    def ghosts(self, text):
        for found in re.finditer(r"ghost members? ((?:`\w+`(?:, | and )?)+)", text):
            before = text[: found.start()]
            trait = re.findall(r"`([A-Z]\w*)`", before)[-1:]
            types = re.findall(r"`(\w+)`'s", before)[-1:] or re.findall(r"\b([A-Z]\w*)::", before) or [None]
            for one, member in ((one, member) for one in types for member in re.findall(r"`(\w+)`", found[1])):
                names = {*trait, *([one] if one else [])}
                self.judge(any(names <= it.names and member in it.members for it in self.sources.impls), f"no impl of {' '.join(names)} has {member}")


def of_promises(text, sources, judge):
    """What each row of the promises says, (key or nothing, claims) each; `judge` gets the place of the row first."""
    crates, above = [], None
    for line in ROW.finditer(text):
        if line[1]:
            section = re.split("^## ", text[line.end() :], maxsplit=1, flags=re.M)[0]
            crates, above = sorted(set(re.findall(r"`(\w+)::", section)) & named().keys()), None
            continue
        key = KEY.search(line[2])
        above = Claims(KEY.sub("", line[2]), sources, lambda *told, place=line.start(2): judge(place, *told), crates, above)
        yield key[1] if key else "", above


def of_calls(text, sources, judge):
    """What each row of the table of calls says."""
    for row in CALLS.finditer(text):
        told = row[2] if row[2].startswith("`") else f"{row[1]}, {row[2]}"
        yield Claims(told, sources, lambda *told, place=row.start(2): judge(place, *told))
