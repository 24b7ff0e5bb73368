"""The two sides: the Rust's own text (rust/) and this library's archive behind drive.c. Built into build/."""
import os
import subprocess
from collections import namedtuple

from tables import write_tables

HERE = os.path.dirname(os.path.abspath(__file__))
ROOT = os.path.dirname(HERE)
BUILT = os.path.join(HERE, "build")
ARCHIVE = os.path.join(ROOT, "target", "staticlib", "liblhakvuni.a")
INCLUDE = os.path.join(ROOT, "include")

# What a side says of a table. Records are lines of five words in the order given, `-` for NONE; cycles are lines of a type
# row and the field rows of its first cycle; refusal is a number or None; deep are the types for which the Rust gives
# DeeplyNestedType; other is what has no record in document 01, or a promise that drive.c finds broken.
Answer = namedtuple("Answer", "records cycles refusal deep other")


def build_rust():
    env = dict(os.environ, CARGO_TARGET_DIR=os.path.join(BUILT, "rust"))
    subprocess.run(["cargo", "build", "--release", "--offline", "--quiet"], cwd=os.path.join(HERE, "rust"), env=env,
                   check=True)
    return os.path.join(BUILT, "rust", "release", "rust_oracle")


def build_drive(archive=ARCHIVE, include=INCLUDE):
    if not os.path.exists(archive):
        raise SystemExit("%s is not there: make it with `sh tools/archive.sh`" % os.path.relpath(archive, ROOT))
    os.makedirs(BUILT, exist_ok=True)
    program = os.path.join(BUILT, "drive")
    subprocess.run(["cc", "-O2", "-Wall", "-Wextra", "-I", include, os.path.join(HERE, "drive.c"), archive, "-o", program],
                   check=True)
    return program


def turned(trace):
    """A trace of the Rust, which is last field first, as a first cycle."""
    row, *fields = trace.split()
    return " ".join([row] + fields[::-1])


def answers(path):
    """The answers in a file that a side has written."""
    with open(path) as f:
        for line in f:
            mark, rest = line[0], line[2:-1]
            if mark == "r":
                records.append(rest)
            elif mark == "S":
                records, cycles, refusal, deep, other = [], [], None, [], []
            elif mark == "E":
                yield Answer(records, cycles, refusal, deep, other)
            elif mark == "c":
                cycles.append(rest)
            elif mark == "t":
                cycles.append(turned(rest))
            elif mark == "n":
                refusal = int(rest)
            elif mark == "D":
                deep.append(rest)
            else:
                other.append(rest)


def run(program, tables_path, answers_path, options=()):
    """Runs a side on a file of tables."""
    with open(answers_path, "wb") as out, open(tables_path, "rb") as tables:
        subprocess.run([program, *options], stdin=tables, stdout=out, check=True)


def ask(program, tables, options=()):
    """What a side says of a few tables."""
    os.makedirs(BUILT, exist_ok=True)
    asked, said = os.path.join(BUILT, "asked.tables"), os.path.join(BUILT, "asked.answers")
    write_tables(asked, tables)
    run(program, asked, said, options)
    return list(answers(said))
