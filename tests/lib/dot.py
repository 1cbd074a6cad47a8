"""Reads the pictures that `show --as dot` and `draw` write, by the part of DOT's grammar that they use.

    graph : 'digraph' ID '{' (stmt ';')* '}'
    stmt  : ID '=' ID | ID ['->' ID] ['[' ID '=' ID (',' ID '=' ID)* ']']

An ID is a word of letters, digits and underscores that begins with no digit and is no keyword, or a text in quotes.
"""
import re

TOKEN = re.compile(r'\s*(?:("(?:[^"\\]|\\.)*")|(->|[{}\[\]=;,])|([A-Za-z_]\w*))')
KEYWORDS = {"node", "edge", "graph", "digraph", "subgraph", "strict"}


class Picture:
    """The name, the attributes, the nodes with their attributes, and the arrows (from, to, attributes), in order."""

    def __init__(self, text):
        self.tokens, at = [], 0
        while text[at:].strip():
            found = TOKEN.match(text, at)
            assert found, f"no token at {text[at:at + 20]!r}"
            quoted, mark, word = found.groups()
            self.tokens.append(("id", quoted[1:-1]) if quoted else ("mark", mark) if mark else self.word(word))
            at = found.end()
        self.attributes, self.nodes, self.arrows = {}, {}, []
        self.take("keyword", "digraph")
        self.name = self.take("id")
        self.take("mark", "{")
        while not self.comes("}"):
            self.statement()
            self.take("mark", ";")
        self.take("mark", "}")
        assert not self.tokens, "something stands behind the end"

    def word(self, word):
        return ("keyword" if word.lower() in KEYWORDS else "id"), word

    def take(self, kind, wanted=None):
        found, value = self.tokens.pop(0)
        assert found == kind and wanted in (None, value), f"{value!r} where {wanted or kind} should stand"
        return value

    def comes(self, mark):
        return self.tokens[0] == ("mark", mark)

    def statement(self):
        first = self.take("id")
        if self.comes("="):
            self.take("mark", "=")
            self.attributes[first] = self.take("id")
        elif self.comes("->"):
            self.take("mark", "->")
            second = self.take("id")
            self.arrows.append((first, second, self.list()))
        else:
            assert first not in self.nodes, f"{first} stands twice"
            self.nodes[first] = self.list()

    def list(self):
        attributes = {}
        while self.tokens[0] in (("mark", "["), ("mark", ",")):
            self.tokens.pop(0)
            key = self.take("id")
            self.take("mark", "=")
            attributes[key] = self.take("id")
            if self.comes("]"):
                self.take("mark", "]")
                break
        return attributes
