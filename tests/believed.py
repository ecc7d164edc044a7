#!/usr/bin/env python3
"""Prints what a reader has to believe: the definitions that the claims name, and those behind them.

The first word of a file in crates/*/specs says what it is:
  Believed   the claims (crates/claims/specs) name it, or a believed file does
  Contract   a contract of an exported call names it, and no claim does
  Examples   tables that are computed
  Internal   contracts of internal functions and proofs name it
Fails where a file is not what its first word says. The claims are about the functions of
kettlefrost, and what C calls are those of kettlefrost_c: so it also fails where one of these does
more than call the function of its name, or states its contract in other words.
Ends with the line 'believed: N checks'.
"""
import pathlib
import re
import sys

from sources import bare, source

ROOT = pathlib.Path(__file__).resolve().parent.parent
CLAIMS = ["crates/claims/specs/Exported.antt", "crates/claims/specs/Demands.antt"]
LIBRARY, EXPORTS = "kettlefrost", "kettlefrost_c"
EXPORTED = '# [ unsafe ( no_mangle ) ] pub extern "C" fn '
WORDS = ["Believed", "Contract", "Examples", "Internal"]
USE = re.compile(
    r"^\s*(?:ghost )?use Rattle\.(\w+)\.specs\.([\w.]+?)(?:\.\{.*\}| as [\w-]+)?;?$", re.M)
BROUGHT = re.compile(r"^ghost use (\S+?)\.\{(.*)\};$", re.M)
NAME = re.compile(r"[^\W\d][\w'-]*")


def specs(crate, module):
    return ROOT / "crates" / crate / "specs" / f"{module.split('.')[0]}.antt"


def cited(path):
    """The specs files and the declarations of src that a file brings in."""
    files, types = set(), set()
    for crate, module in USE.findall(bare(path.read_text(encoding="utf-8"), path.suffix)):
        parts = module.split(".")
        if not (ROOT / "crates" / crate).is_dir() or parts[0] == "contracts":
            continue  # the toolchain's, and the signature of a function
        if parts[0] == "declared":
            types.add((crate, parts[1]))
        else:
            files.add(specs(crate, module))
    return files, types


def closure(start):
    files, types, left = set(), set(), list(start)
    while left:
        path = left.pop()
        if path in files:
            continue
        files.add(path)
        more, declared = cited(path)
        left += more
        types |= declared
    return files, types


def functions(crate):
    """The functions of a crate, each with its module and what the names in its clauses mean."""
    for path in sorted((ROOT / "crates" / crate / "src").rglob("*.rt")):
        text = path.read_text(encoding="utf-8")
        meaning = {name: module for module, names in BROUGHT.findall(bare(text, ".rt"))
                   for name in names.split(", ")}
        for function in source(text).functions:
            used = {name: meaning[name] for name in NAME.findall(function.contract)
                    if name in meaning}
            yield "" if path.stem == "lib" else path.stem, function, used


def named_by(exports):
    """The files that the contracts of the exports name."""
    uses = "\n".join(f"use {module}" for _, _, used in exports for module in used.values())
    return {specs(crate, module) for crate, module in USE.findall(uses)
            if (ROOT / "crates" / crate).is_dir()}


def thin(exports):
    """What of the exports is more than a call of the library's function with the same clauses."""
    library = {function.name: (module, function, used)
               for module, function, used in functions(LIBRARY) if function.is_public}
    for _, function, used in exports:
        if function.name not in library:
            yield f"{function.name}: {LIBRARY} has no such function"
            continue
        module, called, meant = library[function.name]
        head = f"pub fn {function.name} ("
        if not (called.contract.startswith(head)
                and function.contract == called.contract.replace("pub fn ", EXPORTED, 1)):
            yield f"{function.name}: not the signature and the clauses of {LIBRARY}"
        if used != meant:
            yield f"{function.name}: a name in its clauses is not that of {LIBRARY}"
        path = " :: ".join(step for step in (LIBRARY, module, function.name) if step)
        passed = " , ".join(re.findall(r"(\w+) : ", called.contract.split(" ) ")[0]))
        if function.body != " ".join(f"{{ {path} ( {passed} ) }}".split()):
            yield f"{function.name}: more than a call of {path}"
    names = {function.name for _, function, _ in exports}
    for name in sorted(name for name in library if name.startswith("kf_") and name not in names):
        yield f"{name}: not exported"


def lines(path):
    return len(path.read_text(encoding="utf-8").splitlines())


def declaration(crate, name):
    """The lines of a struct or an enum in src."""
    for path in sorted((ROOT / "crates" / crate / "src").rglob("*.rt")):
        text = path.read_text(encoding="utf-8")
        found = re.search(rf"^pub (?:struct|enum) {name} \{{.*?^\}}", text, re.M | re.S)
        if found:
            return len(found[0].splitlines())
    return 0


def main():
    believed, types = closure(ROOT / name for name in CLAIMS)
    exports = list(functions(EXPORTS))
    pinned = closure(named_by(exports))[0] - believed
    size = sum(lines(path) for path in believed)
    declared = sum(declaration(*one) for one in types)
    print(f"believed: {len(believed)} files, {size} lines, "
          f"and {len(types)} declarations of src, {declared} lines")
    for path in sorted(believed):
        print(f"  {lines(path):4} {path.relative_to(ROOT)}")
    size = sum(lines(path) for path in pinned)
    print(f"named by exported contracts besides: {len(pinned)} files, {size} lines")
    for path in sorted(pinned):
        print(f"  {lines(path):4} {path.relative_to(ROOT)}")
    checks = len(exports)
    wrong = list(thin(exports))
    for path in sorted(ROOT.glob("crates/*/specs/*.antt")):
        if path.name == "Lib.antt":
            continue
        word = re.match(r"-- (\w+)\.", path.read_text(encoding="utf-8"))
        word = word[1] if word else "nothing"
        right = ["Examples", "Internal"]
        if path in believed:
            right = ["Believed"]
        elif path in pinned:
            right = ["Contract"]
        checks += 1
        if word not in right:
            wrong.append(f"{path.relative_to(ROOT)} says {word}, and is {' or '.join(right)}")
    for line in wrong:
        print(f"WRONG: {line}")
    if wrong or not exports:
        sys.exit(1)
    print(f"believed: {checks} checks")


main()
