#!/usr/bin/env python3
"""Shows the differences that docs/DIFFERENCES.md lists: the tables of differences/, the Rust's answer beside ours.

A file there is a schema (notation.py) whose comments say what it shows and what each side gives, in order: codes of records,
`refusal n`, `DeeplyNestedType`, and with `# cycles` the Rust's traces and our first cycles. `# Rust options:` are given
to the Rust's side; `# Rust rows: scalars` puts the five built-in scalars before the table's types there.
"""
import glob
import os
import sys

import notation
import sides
from generate import BUILT_IN
from tables import SCALAR, Schema, pack

FOLDER = os.path.join(sides.HERE, "differences")


class Entry:
    def __init__(self, path):
        self.name = os.path.basename(path).rsplit(".", 1)[0]
        with open(path) as f:
            source = f.read()
        self.schema = notation.read(source)
        comments = [line[1:].strip() for line in source.splitlines() if line.startswith("#")]
        self.told = {}
        self.says = []
        for c in comments:
            key, colon, rest = c.partition(": ")
            if key in ("Rust options", "Rust rows", "the Rust", "here") and colon:
                self.told[key] = rest
            elif c == "cycles":
                self.told["cycles"] = ""
            else:
                self.says.append(c)

    def rust_schema(self):
        if "Rust rows" not in self.told:
            return self.schema
        return Schema([t for t in BUILT_IN if t.kind == SCALAR] + self.schema.types, self.schema.roots)


def lines(program, schema, options):
    """The lines of a side's answer to one table."""
    sides.ask(program, [pack(schema)], options)
    with open(os.path.join(sides.BUILT, "asked.answers")) as f:
        return f.read().splitlines()[1:-1]


def word(line, cycles):
    """A line of an answer in short, or nothing."""
    mark, rest = line[0], line[2:]
    if mark == "r":
        return rest.split()[0]
    if mark == "n":
        return "refusal " + rest
    if mark == "D":
        return "DeeplyNestedType"
    if mark in "tc":
        row, fields = rest.split(" ", 1)
        return "%s %s: %s" % ("trace" if mark == "t" else "cycle", row, fields) if cycles else ""
    return line


def short(answer, cycles):
    words = [w for w in (word(line, cycles) for line in answer) if w]
    runs = []
    for w in words:
        if runs and runs[-1][0] == w:
            runs[-1][1] += 1
        else:
            runs.append([w, 1])
    # two records 3 are easier to read as such
    return ", ".join(", ".join([w] * n) if n < 4 else "%s x%d" % (w, n) for w, n in runs)


def show(entry, rust, drive):
    """Prints an entry; says whether both sides gave what it tells."""
    cycles = "cycles" in entry.told
    options = entry.told.get("Rust options", "").split()
    got = {
        "the Rust": short(lines(rust, entry.rust_schema(), options), cycles),
        "here": short(lines(drive, entry.schema, ()), cycles),
    }
    right = all(got[side] == entry.told[side] for side in got)
    print("%s\n  %s" % (entry.name, "\n  ".join(entry.says)))
    for side, answer in got.items():
        print("  %-9s %s%s" % (side, answer, "" if answer == entry.told[side] else "   NOT " + entry.told[side]))
    return right


def show_all(rust, drive):
    entries = [Entry(p) for p in sorted(glob.glob(os.path.join(FOLDER, "*.graphql")))]
    right = sum(show(e, rust, drive) for e in entries)
    print("differences shown as told: %d of %d" % (right, len(entries)))
    return right == len(entries)


if __name__ == "__main__":
    sys.exit(0 if show_all(sides.build_rust(), sides.build_drive(*sys.argv[1:])) else 1)
