#!/usr/bin/env python3
"""Brings this repository's own definitions and lemmas to the spelling of today's Rattle: words in snake case, types and modules in camel case.

usage: python3 tools/respell.py [FOLDER]    once, at the top of a checkout in which /opt/rattle/port/port.py has just run

Every name that a file of specs/ or proofs/ declares is spelt anew: startsName and starts-name are both starts_name. Names of Rust code, exported
names, strings, inputs and outputs stay. Where two names would fall together, the one named below gets another ending.
"""
import os
import re
import sys

# A lemma that would have its definition's name, a field that would hide the definition that it speaks of, and an example named after a record.
LEMMAS = """arguments-ends bit-or chain-field cycle-rows edge-names edges-ends field-arguments fields-ends found-at found-cell found-row judge-number kind-named
make-number member-names members-ends name-start names-rise or-next records-number root-good roots-good table-length type-count values-ends wraps-fit"""
FITTING = """argument-default argument-name argument-type argument-wrap edge-name field-default field-name field-type field-wrap member-name root-name
type-flag type-kind type-name value-name"""
PLACES = "arguments-at edges-at fields-at members-at roots-at types-at values-at"
EXAMPLES = "missing-field reserved-name self-edge transitive-edge two-types"

DECLARED = re.compile(r"^\s*(?:(?:abbrev|unfoldable|pub) )*([^\s:(){}=;,.|λ]+)(?: \{[^}]*\}| \([^)]*\))* :(?: |$)")
TOKEN = re.compile(r"[^\s:(){}\[\];,.|=«»\"`λ]+")
COMMENT = {".antt": "--", ".rt": "//"}


def snake(name):
    if name[0].isupper() and "-" not in name:
        return name
    parts = [p if p[:1].isupper() else re.sub(r"([a-z0-9])([A-Z])", lambda m: m[1] + "_" + m[2].lower(), p) for p in name.split("-")]
    return "_".join(parts)


def ended(names, ending):
    return {n: snake(n) + ending for n in names.split()}


def files(root, endings):
    for folder, dirs, names in os.walk(root):
        dirs[:] = sorted(d for d in dirs if d not in ("out", ".git"))
        for f in sorted(names):
            if f.endswith(endings):
                yield os.path.join(folder, f)


def declared(root):
    found = set()
    for path in files(os.path.join(root, "crates"), ".antt"):
        for line in open(path, encoding="utf-8"):
            m = DECLARED.match(line)
            if m and "tie." not in line and not line.lstrip().startswith("--") and m[1] not in ("let", "in"):
                found.add(m[1])
    return found


class Names(dict):
    """Old names and new; in prose also names that the kit's scripts brought over already, whose new spelling is declared."""

    def __init__(self, found):
        super().__init__((n, snake(n)) for n in found if snake(n) != n)
        self.found = found

    def in_prose(self, name):
        return self[name] if name in self else snake(name) if snake(name) in self.found else name


def renamed(root):
    names = Names(declared(root))
    for more in (ended(LEMMAS, "_lem"), ended(FITTING, "_fits"), ended(PLACES, "_is"), ended(EXAMPLES, "_example")):
        names.update(more)
    return names


def camel(name):
    return "-" not in name


def respell(text, names, only=lambda n: True):
    return TOKEN.sub(lambda m: names[m[0]] if m[0] in names and only(m[0]) else m[0], text)


def in_ticks(text, names):
    return re.sub(r"`[^`\n]*`", lambda m: TOKEN.sub(lambda t: names.in_prose(t[0]), m[0]), text)


def in_comment(text, names):
    return in_ticks(respell(text, names, camel), names)


def code(line, names, ending):
    """A line of code: its comment as prose, and a string of Rust code as it is."""
    mark = COMMENT[ending]
    at = line.find(mark)
    if at > 0 and line[at - 1] not in " \t":
        at = -1
    head, tail = (line, "") if at < 0 else (line[:at], line[at:])
    if ending == ".rt":
        parts = re.split(r"(\"[^\"]*\")", head)
        head = "".join(p if p.startswith('"') else respell(p, names, camel) for p in parts)
    else:
        head = respell(head, names)
    return head + in_comment(tail, names)


def edit(line, names, antt):
    """A line of a must-fail edit: a name with a dash is a name only in a file of specs/ or proofs/."""
    return respell(line, names) if antt and line.startswith(("old:", "new:")) else respell(line, names, camel)


def main(root):
    names = renamed(root)
    for path in files(os.path.join(root, "crates"), (".antt", ".rt", ".edit")):
        before = open(path, encoding="utf-8").read()
        ending = os.path.splitext(path)[1]
        lines = before.split("\n")
        if ending == ".edit":
            antt = ".antt" in before
            after = "\n".join(edit(l, names, antt) for l in lines)
        else:
            after = "\n".join(code(l, names, ending) for l in lines)
        if after != before:
            open(path, "w", encoding="utf-8").write(after)
    for path in [os.path.join(root, "README.md")] + list(files(os.path.join(root, "docs"), ".md")):
        if os.path.basename(path) in ("MOVED.md", "PORT.md"):
            continue
        before = open(path, encoding="utf-8").read()
        after = in_ticks(before, names)
        if after != before:
            open(path, "w", encoding="utf-8").write(after)
    print(f"respell: {len(names)} names")


if __name__ == "__main__":
    main(sys.argv[1] if len(sys.argv) > 1 else ".")
