"""A schema from a few words of GraphQL's own notation: what the smallest tables and the differences are written in.

    schema{query:Q}  type Q implements I & J {f(a:ID!=1 b:[Q]):[Q!]!}  interface I{..}  input A{a:A!=1}
    union U = A | B  enum E{A B}  scalar S

`builtin` before a type gives it flag 1. A default is any one word. Braces and members may be left out where there are
none. A `#` starts a comment. A line `for N: ..` stands for N copies of its rest, `$i` in them 0 to N-1 and `$j` the next
number, 0 after the last.
"""
import re

from tables import ENUM, INPUT, INTERFACE, OBJECT, SCALAR, UNION, Schema, Type

TOKEN = re.compile(r"[A-Za-z0-9_]+|[{}()\[\]!:=|&]")
KINDS = {"scalar": SCALAR, "type": OBJECT, "interface": INTERFACE, "union": UNION, "enum": ENUM, "input": INPUT}


def copies(line):
    found = re.match(r"for (\d+):(.*)", line)
    if not found:
        return line
    n = int(found[1])
    return " ".join(found[2].replace("$i", str(i)).replace("$j", str((i + 1) % n)) for i in range(n))


class Reader:
    def __init__(self, source):
        lines = [copies(line.split("#")[0]) for line in source.splitlines()]
        self.tokens = TOKEN.findall("\n".join(lines)) + [""]
        self.at = 0

    def look(self):
        return self.tokens[self.at]

    def take(self):
        self.at += 1
        return self.tokens[self.at - 1]

    def taken(self, token):
        """Whether the next token is this one; then it is behind us."""
        if self.look() == token:
            self.at += 1
            return True
        return False

    def expect(self, token):
        assert self.taken(token), "expected %s before %s" % (token, self.tokens[self.at:self.at + 5])

    def until(self, close, row):
        rows = []
        while not self.taken(close):
            rows.append(row())
        return rows

    def block(self, row):
        return self.until("}", row) if self.taken("{") else []

    def list_behind(self, start, between):
        """The names behind a token, if it is there."""
        names = [self.take()] if self.taken(start) else []
        while names and self.taken(between):
            names.append(self.take())
        return names

    def type(self):
        """A type: its name and its wrap."""
        layers = 0
        while self.taken("["):
            layers += 1
        name = self.take()
        bits = 0
        for layer in range(layers, -1, -1):
            bits |= self.taken("!") << layer
            if layer:
                self.expect("]")
        return name, layers + 16 * bits

    def default(self):
        return int(self.taken("=") and self.take() != "")

    def argument(self):
        name = self.take()
        self.expect(":")
        type_name, wrap = self.type()
        return [name, type_name, wrap, self.default()]

    def field(self):
        name = self.take()
        args = self.until(")", self.argument) if self.taken("(") else []
        self.expect(":")
        type_name, wrap = self.type()
        return [name, type_name, wrap, self.default(), args]

    def root(self):
        operation = self.take()
        self.expect(":")
        return operation, self.take()

    def definition(self, schema):
        flag = int(self.taken("builtin"))
        word = self.take()
        if word == "schema":
            roots = dict(self.block(self.root))
            schema.roots = [roots.get(op) for op in ("query", "mutation", "subscription")]
            return
        t = Type(self.take(), KINDS[word], flag)
        t.edges = self.list_behind("implements", "&")
        if t.kind == UNION:
            t.members = self.list_behind("=", "|")
        elif t.kind == ENUM:
            t.values = self.block(self.take)
        else:
            t.fields = self.block(self.field)
        schema.types.append(t)


def read(source):
    reader, schema = Reader(source), Schema()
    while reader.look():
        reader.definition(schema)
    return schema
