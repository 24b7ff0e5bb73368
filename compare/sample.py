#!/usr/bin/env python3
"""Makes the input of the programs crates/sample and crates/codes: tables with the answers of the Rust alone.

A case file holds little-endian u32 words. A case is ten words

    call text_len words_len arg evidence_len work_len out_len number value rule

then the text's bytes padded with zeros to whole words, the table's words, the evidence (none here), the work table and the
output as they are lent, and the work table and the output as they must be afterwards. A case whose call is 0 ends the file.
Call 2 asks for the records, call 3 for the first cycle of type row `arg`; number is 0 and value the rows in every case.

`sample` has some two hundred small random tables on which document 01 and the Rust do not differ. `codes` has, in code
order, the smallest table we know whose list is one record of that code.
"""
import os
from array import array
from collections import Counter
from struct import pack as pack_words

import notation
import sides
from compare import CODES, union_members
from generate import generate
from tables import INPUT, NONE, little, pack, padded

SEED = "sample 2026-11-15"
# How many tables of each family, in the order in which the seed gives them.
WANTED = {"nothing": 8, "roots": 24, "unions": 26, "enums": 16, "interfaces": 44, "wraps": 20, "inputs": 34,
          "reserved": 18, "mixed": 14}
WITH_BUILT_IN = 5  # of all; the built-in rows are long
MOST_WORDS = 190
MOST_RECORDS = 30
MOST_CYCLES_ASKED = 3  # of one table
LEAST = 3  # tables for each code
LOOKED_AT = 6000

RECORDS, FIRST_CYCLE = 2, 3

SMALLEST = {
    1: "",
    2: "scalar S schema{query:S}",
    3: "schema{query:Q}",
    4: "type Q{Q:Q} schema{query:Q mutation:Q}",
    5: "type Q{__:Q} schema{query:Q}",
    6: "type Q{Q:Q} interface I implements I{Q:Q} schema{query:Q}",
    7: "type Q schema{query:Q}",
    8: "interface I{Q:Q} interface J implements I{Q:Q} type Q implements J{Q:Q} schema{query:Q}",
    9: "interface I{I:Q} type Q implements I{Q:Q} schema{query:Q}",
    10: "interface I{Q:Q!} type Q implements I{Q:Q} schema{query:Q}",
    11: "interface I{Q(Q:ID):Q} type Q implements I{Q:Q} schema{query:Q}",
    12: "interface I{Q(Q:ID):Q} type Q implements I{Q(Q:ID!):Q} schema{query:Q}",
    13: "interface I{Q:Q} type Q implements I{Q(Q:ID!):Q} schema{query:Q}",
    14: "type Q{Q:Q} union U = U schema{query:Q}",
    15: "type Q{Q:Q} union U schema{query:Q}",
    16: "type Q{Q:Q} enum E schema{query:Q}",
    17: "type Q{Q:Q} input A{Q:A!} schema{query:Q}",
    18: "type Q{Q(Q:Q):Q} schema{query:Q}",
    19: "type Q{Q:A} input A{Q:A} schema{query:Q}",
    20: "type Q{Q(Q:ID Q:ID):Q} schema{query:Q}",
    21: "type Q{Q:Q} input A schema{query:Q}",
}


def other_numbers(count, start):
    """Words that are neither 0 nor what an answer would hold, so that what is not written can be told."""
    return array("I", ((2654435769 * (start + i + 1)) % 4294967296 | 0x40000000 for i in range(count)))


def case(call, table, arg, rows, row_words, number):
    """One case that succeeds: `rows` are the words that must be written."""
    text, words = table
    work_words = 3 * words[1]
    work = other_numbers(work_words + number % 4, 1000 * number)
    out = other_numbers(len(rows) + number % 7, 1000 * number + 500)
    work_after = array("I", [0] * work_words) + work[work_words:]
    out_after = array("I", rows) + out[len(rows):]
    head = (call, len(text), len(words), arg, 0, len(work), len(out), 0, len(rows) // row_words, 0)
    return pack_words("<10I", *head) + padded(text) + b"".join(map(little, (words, work, out, work_after, out_after)))


def record_words(answer):
    return [NONE if w == "-" else int(w) for r in answer.records for w in r.split()]


def input_objects(words):
    first = 7 + 2 * words[0]
    return [row for row in range(words[1]) if words[first + 7 * row + 1] == INPUT]


def cycle_of(answer, row):
    """The first cycle of a type, from the Rust's trace; nothing if it gave none."""
    for c in answer.cycles:
        words = [int(w) for w in c.split()]
        if words[0] == row:
            return words[1:]
    return []


def codes_of(answer):
    return {int(r.split()[0]) for r in answer.records}


def candidates(rust):
    """Small tables of the seed, with the Rust's answers, on which the two do not differ."""
    made = []
    for number in range(LOOKED_AT):
        family, built_in, table = generate(SEED, number)
        if family in WANTED and (built_in or len(table[1]) <= MOST_WORDS):
            made.append((family, built_in, table))
    for (family, built_in, table), answer in zip(made, sides.ask(rust, [m[2] for m in made])):
        if not (answer.deep or answer.other or union_members(table[1]) or len(answer.records) > MOST_RECORDS):
            yield family, built_in, table, answer


def chosen(rust):
    """The sample: so many of each family, then more until each code is there often enough."""
    taken, built_in_taken, families, codes, rest = [], 0, Counter(), Counter(), []
    for family, built_in, table, answer in candidates(rust):
        if built_in and (built_in_taken == WITH_BUILT_IN or len(table[1]) > 4 * MOST_WORDS):
            continue
        if families[family] == WANTED[family]:
            rest.append((table, answer))
            continue
        built_in_taken += built_in
        families[family] += 1
        codes.update(codes_of(answer))
        taken.append((table, answer))
    for table, answer in rest:
        if any(codes[c] < LEAST for c in codes_of(answer)):
            codes.update(codes_of(answer))
            taken.append((table, answer))
    assert all(codes[c] >= LEAST for c in CODES), codes
    return taken


def sample_cases(rust):
    cases = []
    codes, tables, cycles = Counter(), 0, 0
    for table, answer in chosen(rust):
        tables += 1
        codes.update(int(r.split()[0]) for r in answer.records)
        cases.append(case(RECORDS, table, 0, record_words(answer), 5, len(cases)))
        for row in input_objects(table[1])[:MOST_CYCLES_ASKED]:
            cycles += 1
            cases.append(case(FIRST_CYCLE, table, row, cycle_of(answer, row), 1, len(cases)))
    print("sample: %d tables, %d cases of records, %d of first cycles" % (tables, tables, cycles))
    print("records by code: " + ", ".join("%d: %d" % (c, codes[c]) for c in CODES))
    return cases


def code_cases(rust):
    cases = []
    tables = [pack(notation.read(SMALLEST[c])) for c in CODES]
    for code, table, answer in zip(CODES, tables, sides.ask(rust, tables)):
        assert not (answer.deep or answer.other) and codes_of(answer) == {code} and len(answer.records) == 1, (code, answer)
        cases.append(case(RECORDS, table, 0, record_words(answer), 5, len(cases)))
    print("codes: %d tables, %d to %d words" % (len(tables), min(len(w) for _, w in tables), max(len(w) for _, w in tables)))
    return cases


def write(name, cases):
    path = os.path.join(sides.HERE, "..", "crates", name, "stdin")
    with open(path, "wb") as f:
        f.write(b"".join(cases) + bytes(40))
    print("%s: %d bytes" % (name, os.path.getsize(path)))


def main():
    rust = sides.build_rust()
    write("sample", sample_cases(rust))
    write("codes", code_cases(rust))


if __name__ == "__main__":
    main()
