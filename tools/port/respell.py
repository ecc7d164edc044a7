#!/usr/bin/env python3
"""Brings the repository's own definitions and lemmas to today's spelling, after port.py.

usage: tools/port/respell.py           at the top of a checkout: rewrites crates/ and the must-fail edits in place
       tools/port/respell.py --list    prints 'OLD NEW' for each name that changes, and writes nothing

Functions and fields of specs/ and lemmas of proofs/ become snake case. In a lemma's name a dash stays between two names of functions or
operators and is '_' before a plain word. A lemma that would have its function's name gets '_lem'. Types and modules keep their names, and
so does everything of src/. A file's names from outside the repository are left alone.
"""

import glob
import os
import re
import sys

NAME = re.compile(r"[^\W\d][\w'′-]*")
HEAD = re.compile(r"^(?:(abbrev|unfoldable)\s+)?(?:pub\s+)?(?:(data|record)\s+)?([^\s(){}:;,=λ.]+)\s*(?:[({].*)?:\s(.*)")
INNER = re.compile(r"^\s+(?:pub\s+)?([^\s(){}:;,=λ.]+)\s*(?:[({].*?)?:\s(.*)")
SEVERAL = re.compile(r"^\s+(?:pub\s+)?((?:[^\s(){}:;,=λ.]+ )+): ")
USE = re.compile(r"^\s*(?:ghost )?(?:pub )?use ([\w.+-]+?)\.\{(.*)\}", re.M)
CAMEL = re.compile(r"(?<=[a-z0-9])(?=[A-Z])")
# What lemma names call the operators and the functions of std.
WORDS = set("append nil cons add sub mul zero suc length take drop map replicate set get_or reverse paste sets and or not cond le lt eq".split())


def repo_crates():
    return sorted(os.path.basename(d) for d in glob.glob("crates/*"))


def antt_files():
    return sorted(p for d in ("specs", "proofs") for p in glob.glob(f"crates/*/{d}/**/*.antt", recursive=True))


def read(path):
    with open(path, encoding="utf-8") as f:
        return f.read()


def snake(name):
    return CAMEL.sub("_", name).lower() if CAMEL.search(name) and name[0].islower() else name


def declared():
    """The names that the files declare: definitions, fields and lemmas."""
    definitions, lemmas, fields, types = set(), set(), set(), set()
    for path in antt_files():
        by_hand = path.endswith("/Proof.antt")
        # inside a record or data block, indented lines are fields or constructors; inside 'module _', lemmas
        block = None
        for line in read(path).split("\n"):
            if not line.strip() or line.startswith(("--", "use ")):
                continue
            if line.startswith("module "):
                block = "module"
                continue
            m = HEAD.match(line)
            if m and not line.startswith(" "):
                kind, group, name, rest = m.groups()
                block = group
                if by_hand and (rest.startswith("tie.") or name.endswith(("-spec", "_spec"))):
                    continue
                if group or name[0].isupper():
                    types.add(name)
                elif kind:
                    definitions.add(name)
                else:
                    lemmas.add(name)
                continue
            if not line.startswith(" "):
                if not re.match(r"^(unfolding|abbrev|unfoldable|pub)\b", line):
                    block = None
                continue
            several = SEVERAL.match(line)
            if several and block in ("record", "data"):
                fields |= set(several.group(1).split())
                continue
            m = INNER.match(line)
            if m and block in ("record", "data"):
                fields.add(m.group(1))
            elif m and re.match(r"^  (pub )?[^\s]", line) and block == "module":
                lemmas.add(m.group(1))
    return definitions, lemmas, fields, types


def new_names():
    definitions, lemmas, fields, types = declared()
    new = {d: snake(d) for d in definitions | fields if "-" not in d}
    known = {n for n in new.values()} | types | WORDS
    taken = set(new.values())
    turned = {n for d, n in new.items() if n != d}
    for lemma in sorted(lemmas):
        if "-" not in lemma:
            if lemma in turned and lemma not in definitions:
                new[lemma] = lemma + "_lem"
            continue
        parts = [snake(p) for p in lemma.split("-")]
        tokens, i = [], 0
        while i < len(parts):
            for j in range(len(parts), i, -1):
                word = "_".join(parts[i:j])
                if word in known or j == i + 1:
                    tokens.append((word, word in known))
                    i = j
                    break
        name = tokens[0][0]
        for (_, before), (word, is_known) in zip(tokens, tokens[1:]):
            name += ("-" if before and is_known else "_") + word
        if name.replace("-", "_") in taken and lemma not in definitions:
            name += "_lem"
        if name != lemma:
            new[lemma] = name
    return {a: b for a, b in new.items() if a != b}, definitions, fields


def outside(text, crates):
    """The names that a file brings in from outside the repository."""
    found = set()
    for module, names in USE.findall(text):
        head = module.split(".")
        if head[0] == "Rattle" and len(head) > 1 and head[1] in crates:
            continue
        found |= {n.strip().split(" as ")[-1].strip() for n in names.split(",")}
    return found


def respell(text, new, dashed, crates):
    foreign = outside(text, crates)

    lines, at = [], 0
    for line in text.split("\n"):
        comment = line.lstrip().startswith(("--", "//", "#"))

        def one(m, at=at, comment=comment):
            word = m.group(0)
            if word not in new or word in foreign or ("-" in word and comment):
                return word
            # of src/ only the clauses name definitions, and those were in camel case
            if not dashed and not CAMEL.search(word):
                return word
            # behind a dot a name that has dashes, or is snake case, is a step's
            if text[at + m.start() - 1] == "." and not CAMEL.search(word):
                return word
            return new[word]

        lines.append(NAME.sub(one, line))
        at += len(line) + 1
    return "\n".join(lines)


def main():
    new, _, _ = new_names()
    if sys.argv[1:] == ["--list"]:
        for a, b in sorted(new.items()):
            print(a, b)
        return
    crates = set(repo_crates())
    specs = re.compile(r"\b(\w+(?:-\w+)+)-spec\b")
    for path in antt_files() + sorted(glob.glob("crates/*/src/**/*.rt", recursive=True)) + sorted(glob.glob("crates/*/must-fail/*.edit")):
        old = read(path)
        text = respell(old, new, not path.endswith(".rt"), crates)
        if path.endswith("/Proof.antt"):
            text = specs.sub(lambda m: m.group(1).replace("-", "_") + "_spec", text)
            text = re.sub(r"\b(\w+)-spec\b", r"\1_spec", text)
        if text != old:
            with open(path, "w", encoding="utf-8") as f:
                f.write(text)


if __name__ == "__main__":
    main()
