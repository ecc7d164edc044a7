#!/usr/bin/env python3
"""Turns a crate's proofs/F/Proof.antt of the older form into Invariants.antt and Answers.antt.

usage: tools/port/answers.py CRATE [FUNCTION..]

It asks 'rt check --generated .. --old-names' for the old and new names of each goal and step, so the crates below have to be proved.
What the check finds by itself is left out; what the script cannot turn it leaves as it was, and says so. Walks by hand are not touched.
"""

import glob
import json
import os
import re
import subprocess
import sys
import tempfile

NAME = r"[^\W\d][\w'-]*"
TOKEN = re.compile(NAME)


def norm(s):
    s = s.replace("_", "-")
    for old in ("overflow-", "bounds-", "slice-bounds-"):
        if s.startswith(old):
            s = s[len(old):]
    return s.replace("loop-holds", "loop-init").replace("loop-again", "loop-preserved").replace("loop-less", "loop-smaller")


def blocks(text):
    """The header, the imports and the declarations of a file, each a list of lines."""
    head, uses, decls = [], [], []
    for line in text.split("\n"):
        if line.startswith("use "):
            uses.append(line)
        elif not uses and not decls and line.startswith("--"):
            head.append(line)
        elif not line.strip():
            if decls and decls[-1]:
                decls.append([])
        else:
            if not decls:
                decls.append([])
            if decls[-1] and not line.startswith((" ", "unfolding")) and re.match(rf"(abbrev |pub |unfoldable )*{NAME} : ", line) and not decls[-1][0].startswith("--"):
                decls.append([])
            decls[-1].append(line)
    return head, uses, [d for d in decls if d]


def contracts():
    """The names of the clauses of each function, {function: (requires, ensures)}; a lone clause has none."""
    found = {}
    for path in glob.glob("crates/*/src/**/*.rt", recursive=True):
        crate = path.split("/")[1]
        fn, holder = None, ""
        for line in open(path, encoding="utf-8"):
            m = re.match(r"impl(?:<[^>]*>)? (\w+)", line)
            if m:
                holder = m.group(1) + "::"
            if line.startswith("}"):
                holder = ""
            m = re.match(r"\s*(?:#\[.*\] )?(?:pub(?:\(crate\))? )?(?:extern \"C\" )?fn (\w+)", line)
            if m:
                stem = os.path.relpath(path, f"crates/{crate}/src")[:-3].replace("/", "::")
                stem = "" if stem in ("lib", "main") else stem + "::"
                fn = f"{crate}::{stem}{holder}{m.group(1)}"
                found[fn] = ([], [])
            m = re.match(r"\s*(requires|ensures)(\*?)(?: (\w+))? \{", line)
            if m and fn:
                found[fn][m.group(1) == "ensures"].append(m.group(3))
    return found


CONTRACTS = contracts()


def arrays():
    """The parameters of each function that are arrays."""
    found = {}
    for path in glob.glob("crates/*/src/**/*.rt", recursive=True):
        crate = path.split("/")[1]
        stem = os.path.relpath(path, f"crates/{crate}/src")[:-3].replace("/", "::")
        stem = "" if stem in ("lib", "main") else stem + "::"
        with open(path, encoding="utf-8") as f:
            for m in re.finditer(r"\bfn (\w+)\(([^)]*)\)", f.read()):
                found[f"{crate}::{stem}{m.group(1)}"] = re.findall(r"(\w+): \[", m.group(2))
    return found


ARRAYS = arrays()


def clause(names, rest):
    """A path into clauses that nest to the right, by the clause's name: (name, fields used)."""
    n = len(names)
    if n < 2 or not rest:
        return None
    i, k = 0, 0
    while i < n - 1 and k < len(rest):
        if rest[k] == "0":
            return names[i], k + 1
        if rest[k] != "1":
            return None
        i, k = i + 1, k + 1
    return (names[i], k) if i == n - 1 else None


def tuple_parts(text):
    """The parts of a tuple that is the whole of the text, or None."""
    s = text.strip()
    if not s.startswith("(") or not s.endswith(")"):
        return None
    parts, depth, at = [], 0, 1
    for i, ch in enumerate(s):
        depth += ch in "(["
        depth -= ch in ")]"
        if depth == 0 and i < len(s) - 1:
            return None
        if depth == 1 and ch == ",":
            parts.append(s[at:i].strip())
            at = i + 1
    parts.append(s[at:-1].strip())
    return parts if len(parts) > 1 else None


def as_record(body, names):
    """A tuple at the end of a body, as the record of the clauses."""
    if len(names) < 2:
        return body
    cut = body.rfind(" in\n")
    cut = cut + 4 if cut >= 0 else 0
    head, tail = body[:cut], body[cut:]
    values, rest = [], tail
    for _ in range(len(names) - 1):
        parts = tuple_parts(rest)
        if parts is None:
            return body
        if len(parts) == len(names) - len(values):
            values += parts
            rest = None
            break
        if len(parts) != 2:
            return body
        values.append(parts[0])
        rest = parts[1]
    if rest is not None:
        values.append(rest)
    if len(values) != len(names):
        return body
    indent = re.match(r"\s*", tail).group(0) or " "
    return head + indent + "record { " + "; ".join(f"{n} = {v}" for n, v in zip(names, values)) + " }"


class Function:
    def __init__(self, crate, path, names):
        self.crate, self.path, self.v = crate, path, names
        self.own = CONTRACTS.get(crate + "::" + os.path.relpath(path, f"crates/{crate}/proofs").replace("/", "::"), ([], []))
        self.places = {}
        for p, n, arm in zip(names["places"], names["places_by_name"], names["arms"]):
            self.places[p[0]] = dict(before=p[1], old=p[2][0], new=p[2][1], arm=arm, name=n, callee=p[3])
        self.left = []

    def before(self, place):
        return self.places[place]["before"]

    def step(self, place, field, rest):
        """The new path of field (with the fields behind it) of a record at a place: (text, number of fields used of rest) or None."""
        p = self.places[place]
        if field == "requires":
            got = clause(self.own[0], rest)
            return ("c.requires." + got[0], got[1]) if got else ("c.requires", 0)
        if field in ("args", "ranges", "well-formed", "well_formed"):
            return "c." + field.replace("well-formed", "well_formed"), 0
        if p["arm"] and rest is not None:
            for new, old, path in p["arm"][2]:
                if path and rest[: len(path)] == path and norm(old).rstrip("0123456789") in (norm(p["old"]).rstrip("0123456789"), norm(field).rstrip("0123456789")):
                    return f"c.{p['arm'][0]}.{new}", len(path)
            if rest and norm(p["old"]) == norm(field):
                for new, old, path in p["arm"][2]:
                    if not path and norm(old) == norm(field):
                        return f"c.{p['arm'][0]}.{new}", 0
        # an old step's name stands once in a function: it is looked for from the goal's place back
        if field.endswith("_lem"):
            field = field[: -len("_lem")]
        q = self.goal
        while q is not None:
            it = self.places[q]
            if norm(it["old"]) == norm(field):
                if rest and rest[0] == "ensures":
                    got = clause(CONTRACTS.get(it["callee"], ([], []))[1], rest[1:])
                    if got:
                        return f"c.{it['new']}.ensures.{got[0]}", 1 + got[1]
                return "c." + it["new"], 0
            q = it["before"]
        if p["old"]:
            self.left.append(f"{place}: `{field}` taken for `{p['old']}`")
            return "c." + p["new"], 0
        return None

    def turn(self, body, place):
        """An answer's body with its paths in today's form."""
        self.goal = place
        alias = {"c": place}
        for m in list(re.finditer(rf"\n? *let ({NAME}) = ({NAME}(?:\.[\w'-]+)*\.given) in", body)):
            rest = body.replace(m.group(0), "")
            rest = re.sub(rf"(?<![\w'.-]){re.escape(m.group(1))}\.", m.group(2) + ".", rest)
            if not re.search(rf"(?<![\w'.-]){re.escape(m.group(1))}(?![\w'.-])", rest):
                body = rest
        out, i = [], 0
        path = re.compile(rf"(?<![\w'.-])({NAME})((?:\.[\w'-]+)+)")
        # aliases first, in order: let s = c.before.before in
        for m in re.finditer(rf"let ({NAME}) = ({NAME})((?:\.before)+) in", body):
            if m.group(2) in alias:
                p = alias[m.group(2)]
                for _ in range(m.group(3).count(".before")):
                    p = self.before(p) or "Start"
                alias[m.group(1)] = p
        while True:
            m = path.search(body, i)
            if not m:
                out.append(body[i:])
                break
            out.append(body[i : m.start()])
            i = m.end()
            base, fields = m.group(1), m.group(2)[1:].split(".")
            if base not in alias or alias[base] is None:
                out.append(m.group(0))
                continue
            p = alias[base]
            k = 0
            while k < len(fields) and fields[k] == "before":
                p = self.before(p) or "Start"
                k += 1
            if p is None:
                p = "Start"
            if k == len(fields):
                out.append("c")
                continue
            got = self.step(p, fields[k], fields[k + 1 :])
            if got is None:
                self.left.append("no step for " + m.group(0))
                out.append(m.group(0))
                continue
            text, used = got
            rest = fields[k + 1 + used :]
            rest = [{"taken": "true", "left": "false"}.get(rest[0], rest[0])] + rest[1:] if rest else rest
            out.append(".".join([text] + rest))
        body = "".join(out)
        # a test of !b says what b is, a field that is an array has its length, and an array parameter goes by its name
        body = re.sub(r"not-(?:true|false) _ (c\.if-not-[\w'-]+(?:\.in_[\w-]+)?\.(?:true|false))", r"\1", body)
        body = re.sub(r"sym \(length-map [^()]+ _\) ∙ ", "", body)
        arrays = ARRAYS.get(self.crate + "::" + os.path.relpath(self.path, f"crates/{self.crate}/proofs").replace("/", "::"), [])
        seen = sorted(set(re.findall(r"\b(?:c\.args|a|b)\.(t\d+)\b", body)), key=lambda w: int(w[1:]))
        for t in seen:
            if len(arrays) == 1:
                body = re.sub(rf"\.{t}\b", "." + arrays[0], body)
            else:
                self.left.append(f"{t} is one of the arrays {arrays}")
        # aliases that are only places go
        body = re.sub(rf"\n? *let ({NAME}) = c in", lambda m: "" if m.group(1) in alias else m.group(0), body)
        return body


def convert(crate, folder, names):
    path = os.path.join(folder, "Proof.antt")
    with open(path, encoding="utf-8") as f:
        text = f.read()
    if "tie.close" not in text:
        return ["a walk by hand"]
    fn = Function(crate, folder, names)
    head, uses, decls = blocks(text)
    module = "Rattle." + crate + ".proofs." + os.path.relpath(folder, f"crates/{crate}/proofs").replace("/", ".")
    uses = [u for u in uses if not re.search(r"\.(Statement\.\{statement\}|Tie as tie)$", u)]
    uses = [u for u in uses if not u.startswith("use borrow.Author.Rules.{rules}")]
    close = next(d for d in decls if any("tie.close" in x for x in d))
    decls.remove(close)
    spec = re.search(r"tie\.spec(.*)\)\s*$", "\n".join(close), re.S)
    arguments = split_arguments(spec.group(1)) if spec else []
    loops = [d for d in decls if re.match(r"abbrev (pub )?(invariant|decreases)-", d[0])]
    n_loops = len(loops)
    needs = names["needs"]
    by_position = {}
    if len(arguments) - n_loops == len(needs):
        for a, (old, new), at in zip(arguments[n_loops:], needs, names["asked_at"]):
            by_position.setdefault(a, (new, at[0]))
    by_name = {norm(old): (new, at[0]) for (old, new), at in zip(needs, names["asked_at"])}
    keep, answers, invariants = [], [], []
    settled = {norm(s) for s in names["settled"]}
    loop_names = names["loops"]
    for d in decls:
        m = re.match(rf"(?:pub )?({NAME}) : tie\.Need-(\S+)", d[0])
        if d in loops:
            invariants.append(d)
            continue
        if not m:
            keep.append(d)
            continue
        mine, goal = m.groups()
        got = by_position.get(mine) or by_name.get(norm(goal)) or by_name.get(norm(mine))
        if got is None:
            if norm(goal) in settled:
                continue
            fn.left.append(f"no goal for {goal}")
            keep.append(["-- LEFT " + x for x in d])
            continue
        new, place = got
        lines = d[1:]
        unfolding = [x for x in lines if x.startswith("unfolding")]
        lines = [x for x in lines if not x.startswith("unfolding")]
        body = "\n".join(lines)
        m2 = re.match(rf"{re.escape(mine)}((?: {NAME}| _)*) =", body)
        if not m2:
            fn.left.append(f"{mine} has another form")
            keep.append(["-- LEFT " + x for x in d])
            continue
        rest = body[m2.end() :]
        if rest.strip() == "search rules" and not unfolding:
            continue
        rest = fn.turn(rest, place)
        if new.startswith("returns"):
            rest = as_record(rest, fn.own[1])
        elif "-requires" in new:
            callee = next((p[3] for p in names["places"] if p[3] and p[3].split("::")[-1] == new.split("-requires")[0]), None)
            rest = as_record(rest, CONTRACTS.get(callee, ([], []))[0])
        answers.append([f"pub {new} : goal.{new}"] + unfolding + [f"{new} c ={rest}"])
    # inline terms that are no search
    for a, got in by_position.items():
        m = re.match(r"\(λ c(?: κs)?\. (.*)\)$", a, re.S)
        if m and m.group(1) != "search rules":
            new, place = got
            answers.append([f"pub {new} : goal.{new}", f"{new} c = {fn.turn(m.group(1), place)}"])
    text = "\n".join("\n".join(d) for d in answers + keep)
    if invariants:
        write_invariants(fn, folder, module, head, uses, invariants, loop_names)
        head = []
    if answers or keep:
        body = "\n".join("\n".join(d) + "\n" for d in keep + answers)
        if re.search(r"search rules|\(rules", body) and not any("rules" in u for u in uses):
            uses.append("use borrow.Author.Rules.{rules}")
        uses.append(f"use {module}.Goals as goal")
        with open(os.path.join(folder, "Answers.antt"), "w", encoding="utf-8") as f:
            f.write("\n".join(head + needed(uses, body)) + "\n\n" + body)
    os.remove(path)
    return fn.left


def split_arguments(text):
    out, depth, word = [], 0, ""
    for ch in text:
        if ch.isspace() and depth == 0:
            if word:
                out.append(word)
            word = ""
            continue
        depth += ch == "("
        depth -= ch == ")"
        word += " " if ch.isspace() and (word.endswith(" ") is False) else ("" if ch.isspace() else ch)
    if word:
        out.append(word)
    return out


def needed(uses, body):
    """The imports whose names stand in the body."""
    words = set(re.findall(r"[^\s(){}.;,\"\[\]]+", body))
    out = []
    for u in uses:
        m = re.match(r"(use \S+?)\.\{(.*)\}$", u)
        if not m:
            out.append(u)
            continue
        names = [n.strip() for n in m.group(2).split(",")]
        kept = [n for n in names if n in words or (n.startswith("◌") and n.strip("◌") in words) or (n == "[]" and "[]" in body) or " as " in n]
        if kept:
            out.append(f"{m.group(1)}.{{{', '.join(kept)}}}")
    return out


def write_invariants(fn, folder, module, head, uses, invariants, loops):
    """loops: the new name of each loop, by names.json."""
    out = []
    names, variables = {}, {}
    for ((old, new), words), changed in zip(loops, fn.v["changed"]):
        names[norm(old)] = new
        variables[new] = [("l.initial." if c else "l.") + w for w, c in zip(words, changed)] + ["l." + w for w, c in zip(words, changed) if c]
    for d in invariants:
        m = re.match(rf"abbrev (?:pub )?(invariant|decreases)-({NAME}) : ", d[0])
        kind, loop = m.groups()
        new = names.get(norm(loop)) or names.get(norm("loop")) or loop
        body = "\n".join(d[1:])
        m2 = re.match(rf"({kind}-{re.escape(loop)})((?: \S+)*?) =", body)
        params = m2.group(2).split()
        rest = body[m2.end() :]
        meant = dict(zip(params, variables[new])) if new in variables else {}
        if len(params) != len(variables.get(new, [])):
            fn.left.append(f"the loop {loop} has {len(params)} names for {len(variables.get(new, []))}")

        def one(t):
            w = t.group(0)
            if rest_before(t) == ".":
                return w
            return meant.get(w, w) if w != "_" else w

        def rest_before(t):
            return t.string[t.start() - 1] if t.start() else ""

        rest = TOKEN.sub(one, rest)
        out.append(f"abbrev pub {kind}-{new} : goal.{kind}-{new}\n{kind}-{new} l ={rest}\n")
    body = "\n".join(out)
    uses = [u for u in uses if not u.endswith("Goals as goal")]
    with open(os.path.join(folder, "Invariants.antt"), "w", encoding="utf-8") as f:
        f.write("\n".join(head + needed(uses, body) + [f"use {module}.Given as goal"]) + "\n\n" + body)


def main():
    crate, only = sys.argv[1], sys.argv[2:]
    here = f"crates/{crate}"
    folders = sorted(os.path.dirname(p) for p in glob.glob(f"{here}/proofs/**/Proof.antt", recursive=True))
    with tempfile.TemporaryDirectory() as d:
        subprocess.run(["rt", "check", "--generated", d, "--old-names"], cwd=here, stdout=subprocess.DEVNULL, stderr=subprocess.DEVNULL)
        names = json.load(open(os.path.join(d, "names.json")))
    for folder in folders:
        f = os.path.relpath(folder, f"{here}/proofs").replace("/", ".")
        if only and f not in only:
            continue
        key = f"Rattle-{crate}-proofs.{f}.Lts"
        if key not in names:
            print(f"{f}: no names")
            continue
        for left in convert(crate, folder, names[key]):
            print(f"{f}: {left}")


if __name__ == "__main__":
    main()
