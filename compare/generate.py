#!/usr/bin/env python3
"""Random well-formed schema tables in document 01's domain of comparison, written from document 01 alone.

    generate.py --seed 1 --tables 1000 --out tables.bin      a file of tables (tables.py has the format)
    generate.py --seed 1 --show 17                           one table of that seed, for reading

Table i of a seed depends on the two numbers alone, so one table can be made again without those before it.
"""
import argparse
import os
import random

import notation
from tables import (BUILT_IN_SCALARS, ENUM, INPUT, INTERFACE, LIMITS, MOST_TEXT, NONE, OBJECT, SCALAR, UNION, Schema,
                    Type, cut, names_of, pack, plain_text, write_tables)

HERE = os.path.dirname(os.path.abspath(__file__))

# How many tables in a thousand each family gets.
FAMILIES = {
    "nothing": 20, "roots": 110, "unions": 120, "enums": 80, "interfaces": 220, "wraps": 90, "inputs": 170,
    "reserved": 80, "mixed": 92, "medium": 14, "large": 4,
}

# How likely one choice goes against a rule. 0 makes schemas that are nearly right, as real ones are.
FAULTS = (0.0, 0.02, 0.08, 0.2, 0.45)

TYPE_NAMES = ("A B C D E F G H I J K L M N O P R S T U V W X Y Z Board Node Stroke Layer Point Shape Page User _ _T A0 A_ "
              "AA a_b aB").split()
FIELD_NAMES = "a b c d e f g id name next _ _x x1 A Node aa".split()
ARGUMENT_NAMES = "a b c id first _ x".split()
VALUE_NAMES = "RED BLUE GREEN A B true_ null_ _ a Z9".split()
RESERVED_NAMES = "__ __a __A ___ __type __Node __0 __typename".split()
UNDEFINED_NAMES = "Missing Q QQ Ints int String_".split()
# Built-in scalars' names for rows of any kind. Few of the two that the Rust's own directives use: if one of these is no
# input type, the Rust says so of the directives, and document 01 has no record for that.
SCALAR_ROWS = "ID ID ID Int Int Int Float Float Float Boolean String".split()
# No input object has one of those two names: the Rust walks its directives' argument types with no guard on types of the
# built-in file, so such a row with flag 1 that leads back to itself overflows its stack.
NO_INPUT_ROWS = ("Boolean", "String")

# The Rust walks an input object anew from each field that leads to it, so its steps can grow beyond measure; a table
# takes no more than this.
MOST_STEPS = 60000
# It gives up where more than 32 types are on the walk. Groups of chained types are no larger, but for a few.
DEPTH = 32

with open(os.path.join(HERE, "builtin_rows.graphql")) as f:
    BUILT_IN = notation.read(f.read()).types


def split(rng, total, parts, most):
    """`total` cut at random into `parts` numbers of at most `most`."""
    sizes = [0] * parts
    for i in range(parts):
        left = parts - i - 1
        low = max(0, total - most * left)
        high = min(most, total)
        even = 2 * total // (left + 1)
        sizes[i] = total if left == 0 else rng.randint(low, max(low, min(high, even)))
        total -= sizes[i]
    return sizes


class Maker:
    """A schema in the making. Types are made first, so that what refers to them can choose among all."""

    def __init__(self, rng, fault, reserved=0.02):
        self.rng, self.fault, self.reserved = rng, fault, reserved
        self.types = []
        self.defined = {}
        self.by_kind = [[] for _ in range(6)]
        self.scalar_rows = rng.random() < 0.06  # a row of a built-in scalar's name counts for what it is
        self.names = list(TYPE_NAMES)
        rng.shuffle(self.names)

    # ---- choices

    def chance(self, p):
        return self.rng.random() < p

    def faulty(self):
        return self.rng.random() < self.fault

    def some(self, low, high):
        return self.rng.randint(low, high)

    def fresh(self, pool, used):
        """A name of the pool that is not in use, a reserved one now and then; None if there is none left."""
        if self.chance(self.reserved):
            pool = RESERVED_NAMES
        for _ in range(4):
            name = self.rng.choice(pool)
            if name not in used:
                used.add(name)
                return name
        return None

    # ---- types

    def add(self, kind):
        name = None
        if self.chance(self.reserved):
            name = self.rng.choice(RESERVED_NAMES)
        elif self.scalar_rows and self.chance(0.3):
            name = self.rng.choice(SCALAR_ROWS)
            if kind == INPUT and name in NO_INPUT_ROWS:
                name = "ID"
        if name is None or name in self.defined:
            name = self.names.pop() if self.names else "T%d" % len(self.types)
        t = Type(name, kind)
        self.put(t)
        return t

    def put(self, t):
        self.types.append(t)
        self.defined[t.name] = t
        self.by_kind[t.kind].append(t.name)

    def add_all(self, kinds):
        return [self.add(k) for k in kinds]

    def built_in(self):
        """The built-in rows, in front of all others as the Rust holds them."""
        for t in BUILT_IN:
            self.put(t)

    def own(self, *kinds):
        """The types of these kinds but for the built-in rows."""
        return [t for t in self.types if t.kind in kinds and t not in BUILT_IN]

    def of_kind(self, *kinds):
        return [name for k in kinds for name in self.by_kind[k]]

    # ---- references

    def undefined(self):
        name = self.rng.choice(UNDEFINED_NAMES)
        return name if name not in self.defined else "Nowhere"

    def anything(self):
        """Any type at all, a scalar with or without a row, or no type."""
        r = self.rng.random()
        if r < 0.2 or not self.types:
            return self.undefined()
        return self.rng.choice(BUILT_IN_SCALARS) if r < 0.3 else self.rng.choice(self.types).name

    def reference(self, *kinds):
        """A type of these kinds or a built-in scalar; anything where a rule is broken."""
        if self.faulty():
            return self.anything()
        names = self.of_kind(*kinds)
        if names and self.chance(0.7):
            return self.rng.choice(names)
        return self.rng.choice(BUILT_IN_SCALARS)

    def output(self):
        return self.reference(SCALAR, OBJECT, INTERFACE, UNION, ENUM)

    def input(self):
        return self.reference(SCALAR, ENUM, INPUT)

    def wrap(self):
        r = self.rng.random()
        if r < 0.45:
            return 0
        if r < 0.7:
            return 16
        k = 1 if r < 0.9 else self.rng.randint(0, 15)
        return k + 16 * self.rng.getrandbits(k + 1)

    # ---- fields and arguments

    def argument(self, name):
        return [name, self.input(), self.wrap(), int(self.chance(0.3))]

    def arguments(self, most):
        used, args = set(), []
        for _ in range(self.some(0, most)):
            name = self.fresh(ARGUMENT_NAMES, used)
            if name:
                args.append(self.argument(name))
        if args and self.faulty():
            for _ in range(self.some(1, 3)):  # arguments may repeat
                args.append(self.argument(self.rng.choice(args)[0]))
        return args

    def output_fields(self, t, low, high, most_arguments=2):
        used = {f[0] for f in t.fields}
        for _ in range(self.some(low, high)):
            name = self.fresh(FIELD_NAMES, used)
            if name:
                args = self.arguments(most_arguments) if self.chance(0.35) else []
                t.fields.append([name, self.output(), self.wrap(), 0, args])
        if self.faulty() and self.chance(0.3):
            t.fields = []

    def input_fields(self, t, low, high):
        used = {f[0] for f in t.fields}
        for _ in range(self.some(low, high)):
            name = self.fresh(FIELD_NAMES, used)
            if name:
                t.fields.append([name, self.input(), self.wrap(), int(self.chance(0.2)), []])
        if self.faulty() and self.chance(0.3):
            t.fields = []

    def members(self, t, low, high):
        objects = self.of_kind(OBJECT)
        for _ in range(self.some(low, high)):
            name = self.anything() if self.faulty() or not objects else self.rng.choice(objects)
            if name not in t.members:
                t.members.append(name)
        if self.faulty() and self.chance(0.3):
            t.members = []

    def values(self, t, low, high):
        used = set()
        for _ in range(self.some(low, high)):
            name = self.fresh(VALUE_NAMES, used)
            if name:
                t.values.append(name)
        if self.faulty() and self.chance(0.3):
            t.values = []

    def fill(self, types):
        """What each kind of type has, without edges."""
        for t in types:
            if t.kind in (OBJECT, INTERFACE):
                self.output_fields(t, 1, 4)
            elif t.kind == UNION:
                self.members(t, 1, 4)
            elif t.kind == ENUM:
                self.values(t, 1, 5)
            elif t.kind == INPUT:
                self.input_fields(t, 1, 4)

    # ---- implementing

    def edges(self, t, before):
        """Edges to some of the interfaces `before`, and to all that these have; then what breaks the rules."""
        for parent in self.rng.sample(before, min(len(before), self.some(0, 2))):
            for name in [parent.name] + parent.edges:
                if name not in t.edges and name != t.name:
                    t.edges.append(name)
        if self.faulty() and t.edges:
            t.edges.remove(self.rng.choice(t.edges))
        if self.faulty():
            wrong = self.rng.choice((t.name, self.anything(), self.rng.choice(self.of_kind(INTERFACE) or [t.name])))
            if wrong not in t.edges:
                t.edges.append(wrong)
        if self.chance(0.3):
            self.rng.shuffle(t.edges)

    def subtype(self, name):
        """A type that may stand where the interface field has this one."""
        t = self.defined.get(name)
        if t is not None and t.kind == INTERFACE:
            names = [u.name for u in self.types if u.kind in (OBJECT, INTERFACE) and name in u.edges]
        elif t is not None and t.kind == UNION:
            names = t.members
        else:
            names = ()
        return self.rng.choice(names) if names else name

    def own_wrap(self, wrap):
        """A wrap that fits under an interface's: some more layers non-null."""
        k, bits = wrap & 15, wrap >> 4
        if not self.faulty():
            return k + 16 * (bits | self.rng.getrandbits(k + 1) & self.rng.getrandbits(k + 1))
        if self.chance(0.5):
            return k + 16 * (bits ^ 1 << self.rng.randint(0, k))
        return self.wrap()

    def own_arguments(self, theirs):
        args = []
        for name, type_name, wrap, default in theirs:
            if self.faulty():
                change = self.some(0, 3)
                if change == 0:
                    continue
                if change == 1:
                    type_name = self.input()
                elif change == 2:
                    wrap = self.own_wrap(wrap)
                else:
                    args.append(self.argument(name))  # the first of the name counts
            args.append([name, type_name, wrap, default if self.chance(0.8) else 1 - default])
        if self.chance(0.15) or self.faulty():
            extra = self.argument(self.rng.choice(ARGUMENT_NAMES))
            if not self.faulty() and not extra[3]:
                extra[2] &= ~16  # not required
            args.append(extra)
        if self.chance(0.2):
            self.rng.shuffle(args)
        return args

    def own_field(self, theirs):
        name, type_name, wrap, _, args = theirs
        if self.chance(0.35):
            type_name = self.subtype(type_name)
        if self.faulty():
            type_name = self.output()
        return [name, type_name, self.own_wrap(wrap), 0, self.own_arguments(args)]

    def implement(self, t):
        """The fields that the edges of a type ask for."""
        used = {f[0] for f in t.fields}
        for edge in t.edges:
            interface = self.defined.get(edge)
            if interface is None or interface is t or interface.kind != INTERFACE:
                continue
            for f in interface.fields:
                if f[0] not in used and not (self.faulty() and self.chance(0.5)):
                    used.add(f[0])
                    t.fields.append(self.own_field(f))

    def implementing(self, interfaces, objects):
        """Edges, then fields, interfaces first so that what they ask for is there."""
        for i, t in enumerate(interfaces):
            self.edges(t, interfaces[:i])
        for t in objects:
            self.edges(t, interfaces)
        for t in interfaces + objects:
            if self.chance(0.5):
                self.implement(t)
                self.output_fields(t, 0, 2)
            else:
                self.output_fields(t, 0, 3)
                self.implement(t)
            if not t.fields and not self.faulty():
                t.fields.append(["a", self.output(), 0, 0, []])

    # ---- chains

    def chain(self, a, b):
        """A chain field from one input object to another, among its other fields."""
        used = {f[0] for f in a.fields}
        name = self.fresh(FIELD_NAMES, used) or "c%d" % len(a.fields)
        at = self.some(0, len(a.fields))
        a.fields.insert(at, [name, b.name, 16, int(self.chance(0.1)), []])

    def shape(self, group):
        """Chains among the input objects of one group."""
        n = len(group)
        kind = self.rng.choice(("ring", "ring", "tail", "dag", "sparse", "dense", "none"))
        if kind in ("ring", "tail"):
            back = 0 if kind == "ring" else self.some(0, n - 1)
            for i in range(n):
                self.chain(group[i], group[i + 1 if i + 1 < n else back])
            for _ in range(self.some(0, 2)):
                self.chain(self.rng.choice(group), self.rng.choice(group))
        elif kind == "dag":
            for i in range(n):
                for _ in range(self.some(0, 2)):
                    self.chain(group[i], group[self.some(i, n - 1)] if self.faulty() else group[min(n - 1, i + 1)])
        elif kind in ("sparse", "dense"):
            for _ in range(n if kind == "sparse" else 2 * n):
                self.chain(self.rng.choice(group), self.rng.choice(group))
        for t in group:
            if self.chance(0.3):  # no chain: a list, or null is allowed
                t.fields.append(["o%d" % len(t.fields), self.rng.choice(group).name, self.rng.choice((0, 1, 17, 33, 49)),
                                 0, []])

    def groups(self, inputs, most):
        while inputs:
            n = min(len(inputs), self.some(1, most))
            self.shape(inputs[:n])
            inputs = inputs[n:]

    def thin(self):
        """Turns chain fields nullable until the Rust's walk is short enough."""
        while True:
            chains = self.chain_fields()
            if steps(chains) <= MOST_STEPS:
                return
            fields = [f for own in chains.values() for f in own]
            for f in self.rng.sample(fields, (len(fields) + 3) // 4):
                f[2] = 0

    def chain_fields(self):
        inputs = {t.name for t in self.types if t.kind == INPUT}
        return {t.name: [f for f in t.fields if f[2] == 16 and f[1] in inputs] for t in self.types if t.kind == INPUT}

    # ---- roots

    def roots(self):
        objects = self.of_kind(OBJECT)
        self.rng.shuffle(objects)
        roots = []
        for present in (0.95, 0.3, 0.15):
            if self.faulty():
                roots.append(self.rng.choice((None, self.anything(), roots[-1] if roots else None)))
            else:
                roots.append(objects.pop() if objects and self.chance(present) else None)
        return roots

    def schema(self):
        if self.chance(0.5):
            own = self.types
            if own and own[0] is BUILT_IN[0]:
                own = own[len(BUILT_IN):]
            self.rng.shuffle(own)
            self.types = self.types[:len(self.types) - len(own)] + own
        self.thin()
        return Schema(self.types, self.roots(), self.rng.sample(TYPE_NAMES, self.some(0, 3)) if self.chance(0.2) else ())


def steps(chains):
    """The fields that the Rust looks at in its walks, or some number above the most."""
    taken = 0

    def walk(name, path):
        """Whether the walk is over: it is back at its start, too deep, or too long for us."""
        nonlocal taken
        for f in chains[name]:
            taken += 1
            if f[1] == path[0] or len(path) > DEPTH or taken > MOST_STEPS:
                return True
            if f[1] not in path and walk(f[1], path + [f[1]]):
                return True
        return False

    for name in chains:
        walk(name, [name])
    return taken


# ---- families: each makes the types and what they hold

def nothing(m):
    for t in m.add_all(m.rng.choice(range(6)) for _ in range(m.some(0, 2))):
        if m.chance(0.3):
            m.fill([t])


def roots(m):
    m.fill(m.add_all(m.rng.choice(range(6)) for _ in range(m.some(0, 5))))
    m.fault = max(m.fault, m.rng.choice((0.1, 0.9)))  # what comes after this are the roots


def unions(m):
    m.add_all([OBJECT] * m.some(1, 4) + [SCALAR] * m.some(0, 1) + [ENUM] * m.some(0, 1) + [INPUT] * m.some(0, 1))
    made = m.add_all([UNION] * m.some(1, 4))
    m.fill(m.own(OBJECT, ENUM, INPUT, UNION))
    if m.chance(0.6):  # where a union stands in an interface, its members may stand in what implements it
        interface, holder = m.add(INTERFACE), m.add(OBJECT)
        holder.edges.append(interface.name)
        for name in m.rng.sample(FIELD_NAMES, m.some(1, 3)):
            interface.fields.append([name, m.rng.choice(made).name, m.wrap(), 0, []])
        m.implement(holder)
        m.output_fields(holder, 0, 1)


def enums(m):
    m.add_all([OBJECT] * m.some(0, 2))
    m.add_all([ENUM] * m.some(1, 6))
    m.fill(m.own(OBJECT, ENUM))


def interfaces(m):
    made = m.add_all([INTERFACE] * m.some(1, 5))
    objects = m.add_all([OBJECT] * m.some(1, 4))
    m.add_all([SCALAR] * m.some(0, 1) + [UNION] * m.some(0, 2) + [INPUT] * m.some(0, 1) + [ENUM] * m.some(0, 1))
    m.fill(m.own(SCALAR, UNION, INPUT, ENUM))
    m.implementing(made, objects)


def wraps(m):
    """Field and argument types that differ by few layers or bits."""
    interface, other = m.add(INTERFACE), m.add(INTERFACE)
    other.edges.append(interface.name)
    objects = m.add_all([OBJECT] * m.some(1, 3))
    for name in m.rng.sample(FIELD_NAMES, m.some(1, 4)):
        k = m.rng.choice((0, 1, 2, 3, 15, m.some(0, 15)))
        args = [["a", "ID", m.wrap(), 0]] if m.chance(0.4) else []
        interface.fields.append([name, m.rng.choice((interface.name, other.name, "ID", m.output())),
                                 k + 16 * m.rng.getrandbits(k + 1), 0, args])
    for t in [other] + objects:
        t.edges = [interface.name] + ([other.name] if t is not other and m.chance(0.5) else [])
        m.implement(t)


def inputs(m):
    m.add_all([OBJECT] * m.some(0, 1) + [ENUM] * m.some(0, 1) + [SCALAR] * m.some(0, 1))
    made = m.add_all([INPUT] * (m.some(1, 8) if m.chance(0.9) else m.some(20, 45)))
    for t in made:
        m.input_fields(t, 0, 3)
    m.groups(made, m.rng.choice((1, 3, 6, DEPTH)) if m.chance(0.85) else 45)
    for t in made:
        if not t.fields and not m.faulty():
            t.fields.append(["a", m.input(), 0, 0, []])
    m.fill(m.own(OBJECT, ENUM))


def reserved(m):
    m.reserved = m.rng.choice((0.3, 0.7))
    m.fill(m.add_all(m.rng.choice(range(6)) for _ in range(m.some(1, 6))))
    if m.chance(0.3):  # flag 1 on types of any name
        for t in m.types:
            if t not in BUILT_IN:
                t.flag = int(m.chance(0.5))


def mixed(m, factor=1):
    made = m.add_all([INTERFACE] * m.some(0, 4 * factor))
    objects = m.add_all([OBJECT] * m.some(1, 4 * factor))
    m.add_all([SCALAR] * m.some(0, 2 * factor) + [UNION] * m.some(0, 3 * factor) + [ENUM] * m.some(0, 2 * factor))
    chained = m.add_all([INPUT] * m.some(0, 4 * factor))
    m.fill(m.own(UNION, ENUM, INPUT))
    m.groups(chained, 6)
    m.implementing(made, objects)


def medium(m):
    mixed(m, m.rng.choice((4, 10, 25)))


# ---- tables near the limits

MANY = ["n%x" % i for i in range(2800)]  # names that fields, arguments, values and members share


def many_names(m, count):
    at = m.some(0, len(MANY) - count)
    return MANY[at:at + count]


def many_output_fields(m, types, total):
    for t, n in zip(types, split(m.rng, total, len(types), len(MANY))):
        t.fields = [[name, m.output(), m.wrap(), 0, []] for name in many_names(m, n)]


def many_arguments(m, types, total):
    fields = [f for t in types for f in t.fields]
    for f, n in zip(fields, split(m.rng, total, len(fields), total)):
        names = [m.rng.choice(MANY) for _ in range(n)]  # some repeat
        f[4] = [[name, m.input(), m.wrap(), int(m.chance(0.5))] for name in names]


def many_edges(m, types, interfaces_made, total):
    for t, n in zip(types, split(m.rng, total, len(types), len(interfaces_made))):
        t.edges = [i.name for i in m.rng.sample(interfaces_made, n)]


def large_types(m):
    m.fill(m.add_all(m.rng.choice(range(6)) for _ in range(LIMITS[1] - len(m.types))))


def large_edges(m):
    made = m.add_all([INTERFACE] * m.rng.choice((70, 200)))
    objects = m.add_all([OBJECT] * 60)
    for t in made + objects:
        m.output_fields(t, 1, 2)
    many_edges(m, made + objects, made, LIMITS[2])


def large_fields(m):
    types = m.add_all(m.rng.choice((OBJECT, INTERFACE)) for _ in range(m.rng.choice((4, 60, 900))))
    many_output_fields(m, types, LIMITS[3] - sum(len(t.fields) for t in m.types))


def large_arguments(m):
    types = m.add_all([OBJECT] * m.rng.choice((1, 20, 400)))
    many_output_fields(m, types, 2000)
    many_arguments(m, types, LIMITS[4] - sum(len(f[4]) for t in m.types for f in t.fields))


def large_implementing(m):
    made = m.add_all([INTERFACE] * 12)
    objects = m.add_all([OBJECT] * 200)
    many_output_fields(m, made, 120)
    many_arguments(m, made, 1500)
    many_edges(m, objects, made, 1200)
    for t in objects:
        m.implement(t)
        while sum(len(f[4]) for f in t.fields) > 70:
            t.fields.pop()
        t.fields = t.fields[:35]


def large_members(m):
    m.add_all([OBJECT] * 900)
    made = m.add_all([UNION] * m.rng.choice((10, 100)))
    for t in m.own(OBJECT):
        m.output_fields(t, 1, 1, 0)
    names = m.of_kind(OBJECT) + MANY[:50]
    for t, n in zip(made, split(m.rng, LIMITS[5], len(made), 940)):
        t.members = m.rng.sample(names, n)


def large_values(m):
    made = m.add_all([ENUM] * m.rng.choice((2, 30, 900)))
    left = LIMITS[6] - sum(len(t.values) for t in m.types)
    for t, n in zip(made, split(m.rng, left, len(made), len(MANY))):
        t.values = many_names(m, n)


def large_inputs(m):
    made = m.add_all([INPUT] * (LIMITS[1] - len(m.types)))
    m.groups(made, m.rng.choice((2, 8, DEPTH)))
    left = LIMITS[3] - sum(len(t.fields) for t in m.types)
    for t, n in zip(made, split(m.rng, left, len(made), 1000)):
        t.fields += [[name, m.input(), m.rng.choice((0, 1, 17)), 0, []] for name in many_names(m, n)]


def large_all(m):
    """Every count at its limit."""
    made = m.add_all([INTERFACE] * 60)
    objects = m.add_all([OBJECT] * 400)
    unions_made = m.add_all([UNION] * 100)
    enums_made = m.add_all([ENUM] * 100)
    chained = m.add_all([INPUT] * (LIMITS[1] - len(m.types)))
    many_output_fields(m, made, 300)
    many_output_fields(m, objects, 4000)
    m.groups(chained, 8)
    left = LIMITS[3] - sum(len(t.fields) for t in m.types)
    for t, n in zip(chained, split(m.rng, left, len(chained), 1000)):
        t.fields += [[name, m.input(), m.rng.choice((0, 1, 17)), 0, []] for name in many_names(m, n)]
    many_arguments(m, made + objects, LIMITS[4] - sum(len(f[4]) for t in m.types for f in t.fields))
    many_edges(m, made + objects, made, LIMITS[2])
    names = m.of_kind(OBJECT)
    for t, n in zip(unions_made, split(m.rng, LIMITS[5], len(unions_made), 300)):
        t.members = m.rng.sample(names, n)
    left = LIMITS[6] - sum(len(t.values) for t in m.types)
    for t, n in zip(enums_made, split(m.rng, left, len(enums_made), 1000)):
        t.values = many_names(m, n)


LARGE = (large_types, large_edges, large_fields, large_arguments, large_implementing, large_members, large_values,
         large_inputs, large_all)


def large(m):
    m.fault = m.rng.choice((0.0, 0.02, 0.1))
    m.rng.choice(LARGE)(m)


# ---- texts: names may have anything between them, and may overlap

def with_gaps(rng):
    def lay(names):
        pieces, starts, at = [], [], 0
        for n in names:
            gap = rng.choice(("", "", " ", "..", "0", "\x7f"))
            pieces += (gap, n)
            starts.append(at + len(gap))
            at += len(gap) + len(n)
        return "".join(pieces), starts
    return lay


def overlapping(names):
    text, starts = "", [0] * len(names)
    for i in sorted(range(len(names)), key=lambda i: -len(names[i])):
        at = text.find(names[i])
        if at < 0:
            at = len(text)
            text += names[i]
        starts[i] = at
    return text, starts


def full(names):
    text, starts = plain_text(names)
    return text + "." * (MOST_TEXT - len(text)), starts


def fill_names(schema):
    """Unused names up to the limit."""
    schema.unused = ["u%x" % i for i in range(LIMITS[0] - len(names_of(schema)))]


def layout(rng, family):
    r = rng.random()
    if family == "large":
        return full if r < 0.5 else plain_text
    if r < 0.7:
        return plain_text
    return overlapping if r < 0.85 else with_gaps(rng)


# ---- one table

BODIES = {"nothing": nothing, "roots": roots, "unions": unions, "enums": enums, "interfaces": interfaces, "wraps": wraps,
          "inputs": inputs, "reserved": reserved, "mixed": mixed, "medium": medium, "large": large}


def generate(seed, number, family=None):
    """Table `number` of a seed: its family, whether it has the built-in rows, and the table."""
    rng = random.Random("%s:%s" % (seed, number))
    drawn = rng.choices(list(FAMILIES), list(FAMILIES.values()))[0]
    family = family or drawn
    m = Maker(rng, rng.choice(FAULTS))
    with_built_in = rng.random() < 0.5
    if with_built_in:
        m.built_in()
    BODIES[family](m)
    schema = m.schema()
    if family == "large" and rng.random() < 0.5:
        fill_names(schema)
    table = pack(schema, layout(rng, family))
    assert all(count <= most for count, most in zip(table[1], LIMITS)) and len(table[0]) <= MOST_TEXT
    return family, with_built_in, table


def show(schema_table):
    """A table row by row, with names instead of their numbers."""
    text, words = schema_table
    (names, types, edges, fields, args, members, values), root_words = cut(words)
    word = [text[s:s + n].decode() for s, n in names]
    at = [0] * 5
    for row, (name, kind, flag, *ends) in enumerate(types):
        print("type %d: %s kind %d flag %d" % (row, word[name], kind, flag))
        for i in range(at[0], ends[0]):
            print("  edge %d: %s" % (i, word[edges[i][0]]))
        for i in range(at[1], ends[1]):
            n, t, wrap, args_end, default = fields[i]
            print("  field %d: %s type %s wrap %d default %d" % (i, word[n], word[t], wrap, default))
            for j in range(at[4], args_end):
                n, t, wrap, default = args[j]
                print("    argument %d: %s type %s wrap %d default %d" % (j, word[n], word[t], wrap, default))
            at[4] = args_end
        for i in range(at[2], ends[2]):
            print("  member %d: %s" % (i, word[members[i][0]]))
        for i in range(at[3], ends[3]):
            print("  value %d: %s" % (i, word[values[i][0]]))
        at[:4] = ends
    print("roots:", *("-" if r == NONE else word[r] for r in root_words))


def main():
    p = argparse.ArgumentParser(description=__doc__.split("\n\n")[0])
    p.add_argument("--seed", default="1")
    p.add_argument("--tables", type=int, default=1000)
    p.add_argument("--family", choices=list(FAMILIES))
    p.add_argument("--out")
    p.add_argument("--show", type=int)
    o = p.parse_args()
    if o.show is not None:
        family, _, table = generate(o.seed, o.show, o.family)
        print("family", family)
        show(table)
    else:
        write_tables(o.out, (generate(o.seed, i, o.family)[2] for i in range(o.tables)))


if __name__ == "__main__":
    main()
