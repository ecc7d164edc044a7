#!/usr/bin/env python3
"""Fails where a document names a file or a definition that does not exist.

In all documents: paths from the root (crates/..), files of a crate (decoder/proofs/Forward, of its
specs decoder/Front, of its edits decoder/kind_five), links. In SPECIFICATION.md and READING.md: a
name in backticks is defined in some crate, and in a table with a column "File" in a file that its
row has there. The name `A.b` is the field or the case b of A.
Ends with the line 'citations: N checks'.
"""
import functools
import pathlib
import re
import sys

from sources import DECLARED, bare, signed

ROOT = pathlib.Path(__file__).resolve().parent.parent
CRATES = sorted(path.name for path in (ROOT / "crates").iterdir())
DOCUMENTS = sorted([*ROOT.glob("*.md"), *(ROOT / "docs").rglob("*.md")])
NAMING = ["SPECIFICATION.md", "READING.md"]
ROOTED = re.compile(r"(?<![\w/.-])(?:crates|docs|tests|include)/[\w./*-]*\w")
OF_CRATE = re.compile(rf"(?<![\w/.-])(?:{'|'.join(CRATES)})/[\w/-]*\w")
LINK = re.compile(r"\]\(([^)#:]+)(?:#[^)]*)?\)")
CODE = re.compile(r"`([^`]+)`")
NAME = re.compile(r"[^\W\d][\w'-]*(?:(?:\.|::)[\w'-]+)*")
WORDS = {"ensures", "requires", "specs", "proofs", "src", "Meets", "os", "close"}  # of Rattle
MEMBER = re.compile(r"^\s+(?:pub )?(\w+)(?=:|[,({ ]|$)", re.M)
BLOCK = re.compile(r"^(?:pub )?(?:record|data|struct|enum) ([^\s({]+).*\n((?:[ \t]+.*\n)+)", re.M)


def files_of(cited):
    """The files that a path from the root, or one of a crate, stands for."""
    crate, _, rest = cited.partition("/")
    if crate not in CRATES:
        return sorted(ROOT.glob(cited))
    bases = (f"{crate}/specs/{rest}", cited, f"{crate}/must-fail/{rest}")
    paths = [ROOT / "crates" / (base + end) for base in bases
             for end in (".antt", ".rt", ".edit", "")]
    return [path for path in paths if path.exists()]


@functools.lru_cache(maxsize=None)
def defined(path):
    """The names that a file defines."""
    text = bare(path.read_text(encoding="utf-8"), path.suffix)
    names = signed(text).union(DECLARED.findall(text))
    for block in BLOCK.finditer(text):
        members = signed(block[2]) if path.suffix == ".antt" else MEMBER.findall(block[2])
        names.update(members, (f"{block[1]}.{member}" for member in members))
    return names


@functools.lru_cache(maxsize=None)
def defined_anywhere():
    paths = [path for part in ("src", "specs", "proofs") for folder in ROOT.glob(f"crates/*/{part}")
             for path in folder.rglob("*") if path.suffix in (".antt", ".rt")]
    names = {path.name for path in paths}.union(CRATES)
    return names.union(*(defined(path) for path in paths))


def cited_paths(page, line):
    """Each path in a line, and whether it is there."""
    for cited in ROOTED.findall(line) + OF_CRATE.findall(line):
        yield cited, bool(files_of(cited))
    for link in LINK.findall(line):
        yield link, (page.parent / link).exists()


def cited_names(lines):
    """Each name, with its line and whether it is defined."""
    column = None
    for number, line in enumerate(lines, 1):
        cells = [cell.strip() for cell in line.strip("|").split("|")]
        known, text = defined_anywhere(), line
        if not line.startswith("|"):
            column = None
        elif column is None:
            column = cells.index("File") if "File" in cells else len(cells)
        elif column < len(cells):
            files = [path for cited in CODE.findall(cells[column]) for path in files_of(cited)]
            known = set().union(*(defined(path) for path in files if path.is_file()))
            text = " ".join(cells[column + 1:])
        for name in CODE.findall(text):
            if NAME.fullmatch(name) and name not in WORDS:
                yield number, name, name in known or set(name.split("::")) <= known


def main():
    checks, wrong = 0, []
    for page in DOCUMENTS:
        lines = page.read_text(encoding="utf-8").splitlines()
        found = [(number, *path) for number, line in enumerate(lines, 1)
                 for path in cited_paths(page, line)]
        if page.name in NAMING:
            found += cited_names(lines)
        checks += len(found)
        wrong += [f"{page.relative_to(ROOT)}:{number}: {name}"
                  for number, name, is_good in found if not is_good]
    for line in wrong:
        print(f"WRONG: {line}")
    if wrong:
        sys.exit(f"citations: {len(wrong)} of {checks} name what does not exist")
    print(f"citations: {checks} checks")


main()
