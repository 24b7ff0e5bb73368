"""Schemas in Python, and document 01's schema tables made of them. Written from document 01 alone.

A table is (text, words): the bytes of the names, and the words as an array('I').

A file of tables holds little-endian u32 words: for each table the text's length in bytes, the number of words, the text
padded with zeros to whole words, the words. Both programs read this, so neither depends on the other's reading.
"""
import sys
from array import array
from struct import pack as pack_words

NONE = 4294967295
SCALAR, OBJECT, INTERFACE, UNION, ENUM, INPUT = range(6)
ROW_WIDTHS = (2, 7, 1, 5, 4, 1, 1)  # names, types, edges, fields, arguments, members, values
LIMITS = (4096, 1024, 4096, 8192, 16384, 4096, 4096)
MOST_TEXT = 65536
BUILT_IN_SCALARS = ("Int", "Float", "String", "Boolean", "ID")

assert array("I").itemsize == 4


class Type:
    """One type. Fields are [name, type name, wrap, default, arguments], arguments [name, type name, wrap, default]."""

    __slots__ = ("name", "kind", "flag", "edges", "fields", "members", "values")

    def __init__(self, name, kind, flag=0):
        self.name, self.kind, self.flag = name, kind, flag
        self.edges, self.fields, self.members, self.values = [], [], [], []


class Schema:
    """Types in row order, the three roots (a name or None), and names that nothing uses."""

    __slots__ = ("types", "roots", "unused")

    def __init__(self, types=(), roots=(None, None, None), unused=()):
        self.types, self.roots, self.unused = list(types), list(roots), list(unused)


def names_of(schema):
    """Every name of a schema, once."""
    names = set(schema.unused)
    names.update(r for r in schema.roots if r is not None)
    for t in schema.types:
        names.add(t.name)
        names.update(t.edges, t.members, t.values)
        for name, type_name, _, _, args in t.fields:
            names.add(name)
            names.add(type_name)
            for a in args:
                names.add(a[0])
                names.add(a[1])
    return names


def plain_text(names):
    """The names one behind the other, and where each starts."""
    starts, at = [], 0
    for n in names:
        starts.append(at)
        at += len(n)
    return "".join(names), starts


def pack(schema, lay=plain_text):
    """The table of a schema. `lay` puts the sorted names into a text and says where each starts."""
    names = sorted(names_of(schema))  # all ASCII, so this is byte order with a prefix first
    text, starts = lay(names)
    number = {n: i for i, n in enumerate(names)}
    types, edges, fields, args, members, values = [], [], [], [], [], []
    arg_end = 0
    for t in schema.types:
        edges += [number[n] for n in t.edges]
        members += [number[n] for n in t.members]
        values += [number[n] for n in t.values]
        for name, type_name, wrap, default, own in t.fields:
            for a in own:
                args += (number[a[0]], number[a[1]], a[2], a[3])
            arg_end += len(own)
            fields += (number[name], number[type_name], wrap, arg_end, default)
        types += (number[t.name], t.kind, t.flag, len(edges), len(fields) // 5, len(members), len(values))
    words = array("I", (len(names), len(types) // 7, len(edges), len(fields) // 5, arg_end, len(members), len(values)))
    for start, n in zip(starts, names):
        words.append(start)
        words.append(len(n))
    for section in (types, edges, fields, args, members, values):
        words.extend(section)
    words.extend(NONE if r is None else number[r] for r in schema.roots)
    return text.encode("ascii"), words


def cut(words):
    """The rows of a table: names, types, edges, fields, arguments, members, values, and the roots."""
    at, sections = 7, []
    for count, width in zip(words[:7], ROW_WIDTHS):
        end = at + count * width
        sections.append([words[i:i + width] for i in range(at, end, width)])
        at = end
    return sections, words[at:]


def little(words):
    """The bytes of an array of words, little-endian."""
    if sys.byteorder == "big":
        words = array("I", words)
        words.byteswap()
    return words.tobytes()


def padded(text):
    return text + bytes(-len(text) % 4)


def table_bytes(table):
    text, words = table
    return pack_words("<2I", len(text), len(words)) + padded(text) + little(words)


def write_tables(path, tables):
    with open(path, "wb") as f:
        for t in tables:
            f.write(table_bytes(t))
