#!/usr/bin/env python3
"""Count in src/ the places that docs/DESIGN-PASS.md is about.

usage: places.py [REPOSITORY] [--list]

A row a point, with the number of places; --list prints each place. It reads the files as text. A
place is one to look at: the page says which were changed and why the others stay.
"""
import argparse
import collections
import pathlib
import re

ENUM = re.compile(r"^(?:pub )?enum (\w+)")
NUMBER_CONSTANT = re.compile(r"^pub const \w+: u(?:8|32) = \d+;")
CODE = re.compile(r"\b0x(?:01|10|11|12|20|30|31|40|41|42)\b")
LOOP = re.compile(r"^\s*(?:while|loop)\b")
FUNCTION = re.compile(r"^\s*(?:pub(?:\(crate\))? )?(?:extern \"C\" )?fn (\w+)")
CLAUSE = re.compile(r"^\s*(?:requires|ensures)\b[^{]*\{(.*)\}\s*$")
CONVERSION = re.compile(
    r"fn (?:\w+_of|flatten|row|keep|wide|number|(?:with|slots|answer)_\w+)\(")
BUFFER = re.compile(r"let mut \w+ = \[0(?:u8|u32)?; ?\w+\]")
FIELD = re.compile(r"^    (?:pub )?\w+: \[\w+; ?\w+\],")
SWITCH = re.compile(r"^\s*match call\b")
STAYS = re.compile(r"//.*\bStays: ")


def sources(root):
    for path in sorted(root.glob("crates/*/src/*.rt")):
        yield path, path.read_text(encoding="utf-8").splitlines()


def matching(root, pattern):
    """Lines that a pattern is found in, comments left out."""
    for path, lines in sources(root):
        for number, line in enumerate(lines, 1):
            if pattern.search(line.split("//")[0]):
                yield f"{path.relative_to(root)}:{number}: {line.strip()}"


def codes(root):
    """Codes as literals, but for the bytes of the sessions."""
    return [place for place in matching(root, CODE) if "crates/sessions/" not in place]


def array_fields(root):
    for path, lines in sources(root):
        inside = False
        for number, line in enumerate(lines, 1):
            inside = (inside or "struct " in line) and line != "}"
            if inside and FIELD.match(line):
                yield f"{path.relative_to(root)}:{number}: {line.strip()}"


def bodies(root):
    """Each function: its place, its name, and its body's text."""
    for path, lines in sources(root):
        at = 0
        while at < len(lines):
            found = FUNCTION.match(lines[at])
            if not found:
                at += 1
                continue
            indent = len(lines[at]) - len(lines[at].lstrip())
            end = at
            while end < len(lines) and lines[end].rstrip() != " " * indent + "}":
                end += 1
            text = " ".join(line.split("//")[0] for line in lines[at + 1:end]
                            if not CLAUSE.match(line))
            place = f"{path.relative_to(root)}:{at + 1}"
            yield place, found.group(1), " ".join(text.split())
            at = end + 1


def shape(body):
    """A body without names of kinds, functions and constants, and without numbers."""
    body = re.sub(r"\b\d[\w]*\b|\b[A-Z]\w*\b|\b\w+(?=\()|\b[a-z_]+::", "x", body)
    return re.sub(r"\s+", "", body)


def twins(root):
    """Functions of the same shape, with more to them than one call."""
    groups = collections.defaultdict(list)
    for place, name, body in bodies(root):
        if "kettlefrost_c" not in place and len(body) > 60:
            groups[shape(body)].append(f"{place}: {name}")
    for group in groups.values():
        if len(group) > 1:
            yield "; ".join(group)


def facts(root):
    """A fact of a `requires` that stands in three functions of a crate or more."""
    seen = collections.defaultdict(set)
    for path, lines in sources(root):
        name = ""
        for line in lines:
            found = FUNCTION.match(line)
            if found:
                name = found.group(1)
            clause = CLAUSE.match(line)
            if clause and line.strip().startswith("requires"):
                for fact in clause.group(1).split(" × "):
                    seen[(path.parts[-3], fact.strip().strip("()").strip())].add(name)
    for (crate, fact), names in sorted(seen.items()):
        if len(names) > 2:
            yield f"{crate}: {fact}: {len(names)} functions"


def main():
    parser = argparse.ArgumentParser(
        description=__doc__, formatter_class=argparse.RawDescriptionHelpFormatter)
    parser.add_argument("repository", nargs="?", default=".", type=pathlib.Path)
    parser.add_argument("--list", action="store_true")
    args = parser.parse_args()
    root = args.repository
    rows = [
        ("1 enums of the repository", matching(root, ENUM)),
        ("1 constants for kinds and numbers", matching(root, NUMBER_CONSTANT)),
        ("1 lines with a code as a literal", codes(root)),
        ("2 groups of functions of one shape", twins(root)),
        ("3 loops by while or loop", matching(root, LOOP)),
        ("4 conversions by a function of its own", matching(root, CONVERSION)),
        ("5 facts required in three functions of a crate", facts(root)),
        ("6 local arrays to be filled", matching(root, BUFFER)),
        ("6 arrays in a struct", array_fields(root)),
        ("7 switches on a step to run", matching(root, SWITCH)),
    ]
    for name, places in rows:
        found = list(places)
        print(f"{len(found):4} {name}")
        if args.list:
            for place in found:
                print(f"       {place}")
    stays = 0
    for _path, lines in sources(root):
        stays += sum(bool(STAYS.search(line)) for line in lines)
    print(f"{stays:4} lines that say why a place stays")


if __name__ == "__main__":
    main()
