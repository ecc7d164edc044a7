#!/usr/bin/env python3
"""Weakens the contract of every exported call, a clause at a time, and sees the claims refuse it.

A must-fail edit proves its own crate again and no other, so that the claims lean on the contracts
of kettlefrost is tried here, in a copy. There a clause of each exported call promises nothing:
'P' becomes 'result is result', which the checker finds by itself, so its proof goes. Then
kettlefrost is still proved, and claims is refused at every call.
Ends with the line 'weakened: N checks'.
"""
import os
import pathlib
import re
import shutil
import subprocess
import sys
import tempfile

ROOT = pathlib.Path(__file__).resolve().parent.parent
LAWS = "crates/claims/proofs/Exported.antt"
EXPORTED = re.compile(r'extern "C" fn (\w+)\(')
CLAUSE = re.compile(r"ensures (?:(\w+) )?\{ (.*) \}$", re.M)
NOTHING = "result ≡ result"
IS_REFL = "use mathlib.Core.Path.{refl}\n"


def exported():
    text = (ROOT / "crates/kettlefrost_c/src/lib.rt").read_text(encoding="utf-8")
    return EXPORTED.findall(text)


def copied(source, target):
    """A check replaces what it keeps, and changes none: such a file gets a second name."""
    if source.endswith(".oantt"):
        try:
            return os.link(source, target)
        except OSError:
            pass
    return shutil.copy2(source, target)


def weaken_proof(path, clause, is_only):
    """What is answered at a return goes, or of an answer with a field a clause this field."""
    blocks = []
    for block in path.read_text(encoding="utf-8").split("\n\n"):
        returns = re.match(r"(?:--.*\n)*(?:pub )?(returns[^\s:]*) :", block)
        if returns and (is_only or returns[1].endswith(f"-clause-{clause}")):
            continue
        if returns:
            block = re.sub(rf"\b{clause} = .*?(?=;\s+\w+ = |;?\s*\}}\s*\Z)", f"{clause} = refl",
                           block, flags=re.S)
        blocks.append(block)
    text = "\n\n".join(blocks)
    at = re.search(r"^use ", text, re.M).start()
    path.write_text(text[:at] + IS_REFL + text[at:], encoding="utf-8")


def weaken(crate, number, names):
    """Weakens this clause of every exported call that has it; gives the names of these calls."""
    weakened = []
    for source in sorted((crate / "src").glob("*.rt")):
        module = "" if source.stem == "lib" else source.stem
        text = source.read_text(encoding="utf-8")
        for name in names:
            at = text.find(f"pub fn {name}(")
            if at < 0:
                continue
            end = text.index("\n{", at)
            clauses = list(CLAUSE.finditer(text, at, end))
            if number >= len(clauses):
                continue
            here = clauses[number]
            text = text[:here.start(2)] + NOTHING + text[here.end(2):]
            proof = crate / "proofs" / module / name / "Answers.antt"
            if proof.is_file():
                weaken_proof(proof, here[1], len(clauses) == 1)
            weakened.append(name)
        source.write_text(text, encoding="utf-8")
    return weakened


def check(copy, crate):
    run = subprocess.run(["rt", "check"], cwd=copy / "crates" / crate, text=True, check=False,
                         stdout=subprocess.PIPE, stderr=subprocess.STDOUT)
    return run.returncode == 0, run.stdout


def law_of(name):
    """The law that says what is claimed of a call, and the lines that it has."""
    text = (ROOT / LAWS).read_text(encoding="utf-8")
    law = re.search(rf"^  ({name.removeprefix('kf_')}[-_]holds) :", text, re.M)
    if not law:
        sys.exit(f"weakened: {LAWS} has no law of {name}")
    first = text.count("\n", 0, law.start()) + 1
    last = first + text[law.start():].split("\n\n")[0].count("\n")
    return law[1], range(first, last + 1)


def try_clause(number):
    with tempfile.TemporaryDirectory() as folder:
        copy = pathlib.Path(folder)
        shutil.copy(ROOT / "crates.txt", copy)
        shutil.copytree(ROOT / "crates", copy / "crates", copy_function=copied)
        names = weaken(copy / "crates/kettlefrost", number, exported())
        proved, out = check(copy, "kettlefrost")
        if not proved:
            print(out[-4000:])
            sys.exit("weakened: kettlefrost is not proved with the weaker contracts")
        proved, out = check(copy, "claims")
        errors = re.findall(r"^(?:\./)?proofs/Exported\.antt:(\d+):\d+: error", out, re.M)
        for name in names:
            law, lines = law_of(name)
            if proved or not any(int(line) in lines for line in errors):
                print(out[-4000:])
                sys.exit(f"weakened: claims holds with clause {number + 1} of {name} weakened")
            print(f"clause {number + 1} of {name}: refused at {law}", flush=True)
        return names


first, second = try_clause(0), try_clause(1)
if sorted(first) != sorted(exported()):
    sys.exit("weakened: not the calls that are exported")
print(f"weakened: {len(first + second)} checks")
