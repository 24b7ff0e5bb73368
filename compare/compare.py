#!/usr/bin/env python3
"""Compares the library with the Rust's own text on random tables.

    compare.py --tables 100000 --seed 1

Records are compared as counted sets, first cycles row by row. Every difference must be one that docs/DIFFERENCES.md lists
and lie exactly where this program, by itself, expects it; any other fails the run. So does a list that is not in the order
in which the Rust pushes, which is document 01's. A table for which the Rust gives DeeplyNestedType, or a diagnostic that
document 01 has no record for, lies outside the domain of comparison and is counted apart. Then the tables of differences/
are shown on both sides.
"""
import argparse
import os
import sys
import time
from collections import Counter

import listed
import sides
from generate import FAMILIES, generate
from tables import INTERFACE, OBJECT, UNION, cut, write_tables

BATCH = 2000  # tables in one file
SHOWN = 10  # failures printed in full

CODES = {
    1: "QueryRootOperationType", 2: "RootOperationObjectType", 3: "UndefinedDefinition", 4: "DuplicateRootOperationType",
    5: "ReservedName", 6: "RecursiveInterfaceDefinition", 7: "EmptyFieldSet", 8: "TransitiveImplementedInterfaces",
    9: "MissingInterfaceField", 10: "InvalidImplementationFieldType", 11: "MissingInterfaceFieldArgument",
    12: "InvalidImplementationFieldArgumentType", 13: "ExtraRequiredImplementationFieldArgument",
    14: "UnionMemberObjectType", 15: "EmptyMemberSet", 16: "EmptyValueSet", 17: "RecursiveInputObjectDefinition",
    18: "InputType", 19: "OutputType", 20: "UniqueInputValue", 21: "EmptyInputValueSet",
}


# ---- the listed difference inside the domain: union members

def layers_fit(interface, own):
    """Whether the layers of two wraps fit, whatever the names."""
    if interface & 15 != own & 15:
        return False
    return all(own >> 4 + i & 1 or not interface >> 4 + i & 1 for i in range((own & 15) + 1))


def union_members(words):
    """Where the Rust takes a listed member of a union that is no object: the records 10 that document 01 gives there."""
    edge_count, member_count = words[2], words[5]
    if not edge_count or not member_count:
        return []
    (_, types, edges, fields, _, members, _), _ = cut(words)
    row_of = {t[0]: row for row, t in enumerate(types)}

    def own_rows(row, column):
        return range(types[row - 1][column] if row else 0, types[row][column])

    def no_object_member(union_name, name):
        row = row_of.get(union_name)
        if row is None or types[row][1] != UNION or union_name == name:
            return False
        listed = any(members[m][0] == name for m in own_rows(row, 5))
        return listed and (name not in row_of or types[row_of[name]][1] != OBJECT)

    found = []
    for row, t in enumerate(types):
        if t[1] not in (OBJECT, INTERFACE):
            continue
        own = {fields[f][0]: f for f in own_rows(row, 4)}
        for e in own_rows(row, 3):
            interface = row_of.get(edges[e][0])
            if interface is None or types[interface][1] != INTERFACE:
                continue
            for f in own_rows(interface, 4):
                g = own.get(fields[f][0])
                if g is not None and layers_fit(fields[f][2], fields[g][2]) and no_object_member(fields[f][1], fields[g][1]):
                    found.append("10 %d %d %d %d" % (row, e, f, g))
    return found


# ---- one table

def lengths_agree(answer):
    """Whether each record 17 has the length of that type's first cycle, and no other type has one."""
    told = sorted(tuple(r.split()[1:3]) for r in answer.records if r.startswith("17 "))
    return told == sorted((c.split()[0], str(len(c.split()) - 1)) for c in answer.cycles)


def without(records, extra):
    """The records without the extra ones, each taken away once, in their order."""
    if not extra:
        return records
    left = Counter(extra)
    kept = []
    for r in records:
        if left[r]:
            left[r] -= 1
        else:
            kept.append(r)
    return kept


def judge(words, rust, here):
    """What a table shows: a verdict, the records that only document 01 gives, and why it failed."""
    if here.refusal is not None or here.other:
        return "failed", [], "refusal %s, %s" % (here.refusal, here.other)
    if rust.deep or rust.other:
        return "deep" if rust.deep else "no record", [], ""
    listed = union_members(words)
    here_only = Counter(here.records) - Counter(rust.records)
    rust_only = Counter(rust.records) - Counter(here.records)
    if rust_only or here_only != Counter(listed):
        return "failed", [], "only the Rust: %s; only here: %s; listed difference: %s" % (
            sorted(rust_only.elements()), sorted(here_only.elements()), listed)
    if sorted(rust.cycles) != sorted(here.cycles):
        return "failed", [], "first cycles: the Rust %s, here %s" % (rust.cycles, here.cycles)
    if not lengths_agree(here):
        return "failed", [], "record 17 and the first cycles differ"
    if without(here.records, listed) != rust.records:
        return "order", listed, "the same records, not in the order in which the Rust pushes"
    return "explained" if listed else "agreed", listed, ""


# ---- a run

class Figures:
    def __init__(self):
        self.verdicts = Counter()
        self.families = Counter()
        self.built_in = Counter()
        self.rust_codes = Counter()
        self.here_codes = Counter()
        self.tables_with = Counter()
        self.extra = self.cycles = self.empty_lists = 0
        self.most = [0] * 7
        self.most_records = self.most_words = 0
        self.failures = []
        self.seconds = Counter()

    def add(self, number, family, built_in, table, rust, here):
        text, words = table
        verdict, listed, why = judge(words, rust, here)
        self.verdicts[verdict] += 1
        self.families[family] += 1
        self.built_in[built_in] += 1
        self.most = [max(a, b) for a, b in zip(self.most, words)]
        self.most_words = max(self.most_words, len(words))
        if why:
            self.failures.append((number, family, why))
        if verdict not in ("agreed", "explained"):
            return
        codes = Counter(int(r[:r.index(" ")]) for r in rust.records)
        self.rust_codes += codes
        self.tables_with.update(codes.keys())
        self.here_codes += codes
        self.here_codes[10] += len(listed)
        self.extra += len(listed)
        self.cycles += len(here.cycles)
        self.empty_lists += not here.records
        self.most_records = max(self.most_records, len(here.records))


def batch(figures, programs, seed, first, count, family):
    """Makes a batch of tables, runs both sides on it and looks at the answers."""
    rust, drive = programs
    paths = [os.path.join(sides.BUILT, "batch." + end) for end in ("tables", "rust", "here")]
    start = time.time()
    made = [generate(seed, number, family) for number in range(first, first + count)]
    write_tables(paths[0], (table for _, _, table in made))
    marks = [time.time()]
    sides.run(rust, paths[0], paths[1])
    marks.append(time.time())
    sides.run(drive, paths[0], paths[2])
    marks.append(time.time())
    answered = 0
    for (name, built_in, table), r, h in zip(made, sides.answers(paths[1]), sides.answers(paths[2])):
        figures.add(first + answered, name, built_in, table, r, h)
        answered += 1
    if answered != count:
        raise SystemExit("%d of %d tables were answered" % (answered, count))
    marks.append(time.time())
    for what, begin, end in zip(("generating", "the Rust", "the library", "comparing"), [start] + marks, marks):
        figures.seconds[what] += end - begin


def report(figures, seed, first, tables):
    v = figures.verdicts
    print("tables                       %8d   seed %s, numbers %d to %d" % (tables, seed, first, first + tables - 1))
    print("  with built-in rows         %8d" % figures.built_in[True])
    print("  without                    %8d" % figures.built_in[False])
    print("agreed                       %8d" % v["agreed"])
    print("explained: union members     %8d   tables, %d records 10" % (v["explained"], figures.extra))
    print("outside: DeeplyNestedType    %8d" % v["deep"])
    print("outside: no record           %8d" % v["no record"])
    print("failed                       %8d" % v["failed"])
    print("failed in order alone        %8d" % v["order"])
    print("first cycles compared        %8d" % figures.cycles)
    print("tables with an empty list    %8d" % figures.empty_lists)
    print("longest list                 %8d   records" % figures.most_records)
    print("largest table                %8d   words; most rows N %d T %d I %d F %d A %d M %d V %d"
          % ((figures.most_words,) + tuple(figures.most)))
    print()
    print("code  the Rust      here    tables  ")
    for code, name in CODES.items():
        print("%4d %9d %9d %9d  %s" % (code, figures.rust_codes[code], figures.here_codes[code], figures.tables_with[code],
                                       name))
    print()
    print("families: " + ", ".join("%s %d" % (f, figures.families[f]) for f in FAMILIES))
    print("seconds:  " + ", ".join("%s %.0f" % item for item in figures.seconds.items()))
    for number, family, why in figures.failures[:SHOWN]:
        print("\nFAILED table %d (%s): %s\n  see it: compare/generate.py --seed %s --show %d" % (number, family, why[:2000],
                                                                                               seed, number))


def main():
    p = argparse.ArgumentParser(description=__doc__.split("\n\n")[0])
    p.add_argument("--tables", type=int, default=100000)
    p.add_argument("--seed", default="1")
    p.add_argument("--first", type=int, default=0, help="number of the first table of the seed")
    p.add_argument("--family", choices=list(FAMILIES), help="tables of one family only")
    p.add_argument("--archive", default=sides.ARCHIVE)
    p.add_argument("--include", default=sides.INCLUDE)
    o = p.parse_args()
    programs = sides.build_rust(), sides.build_drive(o.archive, o.include)
    figures = Figures()
    for first in range(o.first, o.first + o.tables, BATCH):
        batch(figures, programs, o.seed, first, min(BATCH, o.first + o.tables - first), o.family)
    report(figures, o.seed, o.first, o.tables)
    print()
    shown = listed.show_all(*programs)
    sys.exit(1 if figures.failures or not shown else 0)


if __name__ == "__main__":
    main()
