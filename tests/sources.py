"""Reads the files of the crates as text, for the scripts: what an .antt file declares, what an .rt
file has.

It goes by the layout that 'rt fmt' gives a file: an item begins where the first one of its block
begins, and what belongs to it is indented more. A text that it hands out has no comments and its
words one blank apart, so that two texts that differ in layout alone are the same.
"""
import re
from typing import Dict, Iterator, List, NamedTuple, Set, Tuple

# A text or a character, which is kept, or a comment. In antt '--x' is a name.
ANTT_COMMENT = re.compile(
    r'("(?:\\.|[^"\\])*")|(?<![^\s(){}.;,@])--+(?=\s)[^\n]*|\{-[\s\S]*?-\}')
RT_COMMENT = re.compile(
    r"""(b?"(?:\\.|[^"\\])*"|b?'(?:\\x..|\\.|[^'\\\n])')|//[^\n]*|/\*[\s\S]*?\*/""")
ANTT_WORD = re.compile(r'"(?:\\.|[^"\\])*"|[(){};,@]|[^\s(){};,@"]+')
RT_WORD = re.compile(
    r"""b?"(?:\\.|[^"\\])*"|b?'(?:\\x..|\\.|[^'\\\n])'|\w+|::|->|=>|&&|\|\||\.\.=?|<<=?|>>=?"""
    r"|[-+*/%&|^=!<>]=|\S")
# A comma or semicolon that ends a line before a closing bracket is layout.
ENDS_LINE = {".antt": re.compile(r"[,;](?=[^\S\n]*\n\s*[)\]}])"),
             ".rt": re.compile(r",(?=[^\S\n]*\n\s*[)\]}])")}

MARKS = r"(?:(?:pub|abbrev|unfoldable|axiom) )*"
SIGNED = re.compile(
    rf"^\s*({MARKS})((?:(?![:=→λ]\s)[^\s(){{}}.;,@\"]+ )+)((?:\{{[^{{}}]*\}} )?):(?=\s)", re.M)
DECLARED = re.compile(r"\b(?:record|data|fn|struct|enum|const|mod) ([^\s(:;{<]+)")
BRINGS_IN = re.compile(r"(?:unfoldable )?(?:pub )?(?:ghost )?(?:use|mod|open)\s")
ALIAS = re.compile(r"^use (\S+?)(?: as (\S+))?$", re.M)
GROUP = re.compile(r"((?:(?:unfoldable|abbrev) )*)(module|mutual)(?=\s|$)")
UNFOLDS = re.compile(r"\b(?:unfoldable|abbrev)\b")
NAMED = re.compile(r"(?:pub )?(?:record|data|ruleset) ([^\s({:]+)")
FIXITY = re.compile(r"infix[lr]? \S+ (.*)")
GOES_ON = re.compile(r"\s*(?:[)\]}{]|deriving\b)")
ATTRIBUTE = re.compile(r"\s*#\[.*\]$")
TACTIC = re.compile(r"\s*#!?\[tactic\b.*\]$")  # how the search goes about a proof
MEMBER = re.compile(r"ghost (\w+)\s*[:=]")
FUNCTION = re.compile(r"\bfn (\w+)")
OF_SRC = re.compile(r"\b(?:struct|enum|const|static|type) (\w+)")
CLAUSE = re.compile(r"\s(?:requires|ensures)\s")


class Declaration(NamedTuple):
    """A name of an .antt file. What a record or a data type says is all statement."""
    name: str
    marks: str
    statement: str
    clauses: str


class Function(NamedTuple):
    """A function of an .rt file: its contract, with the signature, and its body."""
    name: str
    is_public: bool
    contract: str
    body: str


def bare(text: str, suffix: str) -> str:
    """Without comments."""
    comment = ANTT_COMMENT if suffix == ".antt" else RT_COMMENT
    return comment.sub(lambda found: found[1] or "", text)


def words(text: str, suffix: str) -> str:
    """A bare text, its words one blank apart."""
    word = ANTT_WORD if suffix == ".antt" else RT_WORD
    return " ".join(word.findall(ENDS_LINE[suffix].sub("", text)))


def signed(text: str) -> Set[str]:
    """The names that stand before a colon: declarations, fields, cases, helpers."""
    return {name for found in SIGNED.finditer(text) for name in found[2].split()}


def aliases(text: str) -> Dict[str, str]:
    """The modules that an .antt file brings in, by the names that it gives them."""
    found = {}
    for path, name in ALIAS.findall(bare(text, ".antt")):
        if "{" not in path:
            found[name or path.split(".")[-1]] = path
    return found


def items(lines: List[str]) -> Iterator[List[str]]:
    """The items of a block, as lines. Attributes belong to what follows."""
    item: List[str] = []
    for line in lines:
        begins = len(line) - len(line.lstrip()) <= len(lines[0]) - len(lines[0].lstrip())
        if begins and not GOES_ON.match(line) and not all(map(ATTRIBUTE.match, item)):
            yield item
            item = []
        item.append(line)
    if item:
        yield item


def lines_of(text: str, suffix: str) -> List[str]:
    return [line for line in bare(text, suffix).splitlines()
            if line.strip() and not (suffix == ".rt" and TACTIC.match(line))]


class Declarations:
    """What an .antt file declares, in its order."""

    def __init__(self, text: str) -> None:
        self.found: Dict[str, Declaration] = {}
        self.fixities: List[Tuple[str, str]] = []
        self.block(lines_of(text, ".antt"), "", "")
        for names, text in self.fixities:
            for name in names.split():
                if name in self.found:
                    self.add_clause(name, text)

    def add(self, name: str, marks: str, statement: str) -> None:
        if name in self.found:
            raise ValueError(f"declared twice: {name}")
        self.found[name] = Declaration(name, words(marks, ".antt"), words(statement, ".antt"), "")

    def add_clause(self, name: str, text: str) -> None:
        old = self.found[name]
        self.found[name] = old._replace(clauses=f"{old.clauses} {words(text, '.antt')}".strip())

    def block(self, lines: List[str], around: str, marks: str) -> None:
        """The items of a file or of a group in it, with the parameters around them."""
        last: List[str] = []
        for item in items(lines):
            text = "\n".join(item).strip()
            sign, group = SIGNED.match(text), GROUP.match(text)
            if BRINGS_IN.match(text):
                continue
            if group:
                last = []
                ends = [number for number, line in enumerate(item, 1)
                        if group[2] == "mutual" or line.split()[-1] == "where"]
                if not ends:
                    raise ValueError(f"not understood: {item[0]}")
                head = "\n".join(item[:ends[0]])
                self.block(item[ends[0]:], f"{around}{head}\n", marks + group[1])
            elif NAMED.match(text):
                last = NAMED.findall(text)[:1]
                self.add(last[0], "", around + text)
            elif FIXITY.match(text):
                self.fixities.append((FIXITY.findall(text)[0], text))
            elif sign:
                last = sign[2].split()
                for name in last:
                    self.add(name, marks + sign[1], f"{around}{sign[3]}: {text[sign.end():]}")
            else:
                around = self.clause(text, last, around)

    def clause(self, text: str, last: List[str], around: str) -> str:
        """A clause belongs to the name that it begins with, or to the operator that was signed
        last; an unfolding line to what was signed last, or to the whole group. Gives what is around
        the items that follow."""
        split = words(text, ".antt").split()
        if split[0] == "unfolding" and not last:
            return f"{around}{text}\n"
        owners = last
        if split[0] != "unfolding":
            owners = [name for name in last if name == split[0] or is_defined_by(name, split)]
            owners = owners or [name for name in split[:1] if name in self.found]
            if not owners or "=" not in split:
                raise ValueError(f"not understood: {text.splitlines()[0]}")
        for name in owners:
            self.add_clause(name, text)
        return around


def is_defined_by(name: str, clause: List[str]) -> bool:
    """Whether the left side of a clause is an application of an operator."""
    left = " ".join(clause).split(" = ")[0].split()
    hole = "◌" if "◌" in name else "_"  # as it was written before the port
    return hole in name and all(part in left for part in name.split(hole) if part)


def declarations(text: str) -> List[Declaration]:
    return list(Declarations(text).found.values())


def body_of(text: str) -> int:
    """Where the body of a function begins: at the last brace that none is around."""
    depth, begins = 0, len(text)
    for found in RT_WORD.finditer(text):
        if found[0] == "{":
            if depth == 0:
                begins = found.start()
            depth += 1
        elif found[0] == "}":
            depth -= 1
    return begins


class Source(NamedTuple):
    """What an .rt file has: its functions, and its types and constants by their names."""
    functions: List[Function]
    declared: Dict[str, str]


def source(text: str) -> Source:
    found = Source([], {})
    read_source(lines_of(text, ".rt"), "", found)
    return found


def read_source(lines: List[str], path: str, found: Source) -> None:
    for item in items(lines):
        text = "\n".join(item).strip()
        head = next(line.strip() for line in item if not ATTRIBUTE.match(line))
        if BRINGS_IN.match(head) and text.endswith(";"):
            continue
        is_public = head.startswith("pub ")
        if re.match(r"(?:pub )?(?:impl|mod|trait)\b", head):
            read_source(item[1:-1], f"{path}{head.rstrip(' {').split()[-1]}::", found)
        elif OF_SRC.search(head.split("=")[0]) and not FUNCTION.search(head):
            found.declared[path + OF_SRC.findall(head)[0]] = words(text, ".rt")
        elif path and MEMBER.match(head):
            found.declared[path + MEMBER.findall(head)[0]] = words(text, ".rt")
        elif FUNCTION.search(head):
            begins = body_of(text)
            clause = CLAUSE.search(text, 0, begins)
            end = clause.start() if clause else begins
            contract = f"{words(text[:end], '.rt')} {words(text[end:begins], '.antt')}".strip()
            found.functions.append(Function(path + FUNCTION.findall(head)[0], is_public, contract,
                                            words(text[begins:], ".rt")))
        else:
            raise ValueError(f"not understood: {head}")
