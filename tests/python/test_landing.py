"""Tests of tools/landing, on a small repository that is made for each."""
import os
import pathlib
import shutil
import signal
import subprocess
import sys
import tempfile
import time
import unittest

ROOT = pathlib.Path(__file__).resolve().parents[2]

SIZES = "crates/low/specs/Sizes.antt"
OTHERS = "crates/low/specs/Others.antt"
LAWS = "crates/low/proofs/Laws.antt"
PROOF = "crates/low/proofs/add/Answers.antt"
CODE = "crates/low/src/lib.rt"
EDIT = "crates/low/must-fail/off_by_one.edit"
FILES = {
    SIZES: """-- Believed. Sizes.
use Rattle.std.specs.Prelude.{ℕ, ◌+◌}

-- how many
abbrev pub count : ℕ
count = 32

unfoldable pub twice : ℕ → ℕ
twice zero = zero
twice (suc n) = suc (suc (twice n))

pub record Pair : Type 0 where
  pub left : ℕ
  pub right : ℕ
""",
    OTHERS: "-- Internal.\n\nabbrev pub other : ℕ\nother = 1\n",
    LAWS: """-- Laws.
use Rattle.low.specs.Sizes.{twice}
infixr 5 ◌&◌

abbrev pub ◌&◌ {ℓ} : {A : Type ℓ} → A → A → A × A
a & b = (a, b)

module _ (n : ℕ)
    (m : ℕ) where
  pub twice-grows : n ≤ twice n
  unfolding twice
  twice-grows = go n
    where
      go : (k : ℕ) → k ≤ twice k
      go k = omega (arith, k)

  both : (n ≡ n) × (m ≡ m)
  both = (refl, refl)
""",
    PROOF: """use Rattle.low.proofs.add.Goals as goal

returns : goal.returns
returns c = refl
""",
    CODE: """// Adding.
#![tactic(auto)]

ghost use Rattle.std.specs.Prelude.{◌≡◌, ◌+◌, ◌<◌};
use other::{
    First,
    Second,
};

const LIMIT: u32 = 8;

#[repr(C)]
pub struct Kept {
    pub at: u32,
}

pub fn add(a: u32, b: u32) -> u32
    requires { a + b < 8 }
    ensures { result ≡ a + b }
{
    if a == LIMIT { b } else { a + b }
}

impl Kept {
    fn put(self, text: &[u8]) -> Kept {
        write(b"} // no comment {", text);
        self
    }
}
""",
    EDIT: """# one more
# refused at: proofs/add/Answers.antt
file: src/lib.rt
old: a + b }
new: a }
""",
    "crates/high/src/lib.rt": "pub fn top() {\n    low::add(1, 2);\n}\n",
    "docs/page.md": "one\ntwo\n",
}
# Takes two seconds for each line of that file above 11.
RT = """#!/bin/sh
sleep $(($(grep -c . crates/low/specs/Sizes.antt) * 2 - 22))
echo '== low'
printf '== high\\n== summary\\n'
"""


class Landing(unittest.TestCase):
    def setUp(self):
        made = tempfile.TemporaryDirectory()
        self.addCleanup(made.cleanup)
        self.root = pathlib.Path(made.name) / "repository"
        self.clones = pathlib.Path(made.name) / "clones"
        self.clones.mkdir()
        self.environment = dict(os.environ, TMPDIR=str(self.clones), PYTHONDONTWRITEBYTECODE="1",
                                PATH=f"{made.name}:{os.environ['PATH']}", GIT_CONFIG_NOSYSTEM="1",
                                GIT_CONFIG_GLOBAL="/dev/null")
        self.set_rt(RT)
        for name in ("tools/landing", "tests/sources.py"):
            (self.root / name).parent.mkdir(parents=True)
            shutil.copy(ROOT / name, self.root / name)
        self.git("init", "--quiet")
        self.commit(FILES)

    def set_rt(self, text):
        path = self.clones.parent / "rt"
        path.write_text(text, encoding="utf-8")
        path.chmod(0o755)

    def git(self, *words):
        subprocess.run(["git", "-c", "user.name=a", "-c", "user.email=a", *words], cwd=self.root,
                       env=self.environment, check=True)

    def commit(self, files):
        for name, text in files.items():
            path = self.root / name
            path.parent.mkdir(parents=True, exist_ok=True)
            if text is None:
                path.unlink()
            else:
                path.write_text(text, encoding="utf-8")
        self.git("add", "--all")
        self.git("commit", "--quiet", "--message", "a change")

    def run_landing(self, *words):
        return subprocess.run([sys.executable, self.root / "tools/landing", *words], text=True,
                              env=self.environment, check=False, capture_output=True)

    def printed(self, *words):
        run = self.run_landing(*(words or ("HEAD~1",)))
        self.assertEqual((run.returncode, run.stderr), (0, ""))
        self.assertLessEqual(max(map(len, run.stdout.splitlines())), 110)
        return run.stdout

    def moved(self, edits):
        """Commits these replacements, a file each; gives the rows that did not all stay and the
        names below the table."""
        files = {}
        for name, old, new in edits:
            text = files.get(name, FILES.get(name, ""))
            self.assertIn(old, text)
            files[name] = text.replace(old, new)
        self.commit(files)
        lines = self.printed().split("## Lines")[0].splitlines()
        rows = [line.strip("| ").split(" | ") for line in lines if line.startswith("| ")]
        rows = {row[0]: "".join(cell.strip() or "." for cell in row[1:5]) for row in rows[1:]}
        return ({name: row for name, row in rows.items() if row.strip("0.")},
                [line for line in lines if line.startswith("- ")])

    def test_comments_and_layout_do_not_count(self):
        self.assertEqual(self.moved([
            (SIZES, "-- how many", "-- how many there are"),
            (SIZES, "twice (suc n) = suc", "twice (suc n) =\n    suc"),
            (LAWS, "(refl, refl)", "(\n      refl, -- first\n      refl,\n    )"),
            (CODE, "(a: u32, b: u32)", "(\n    a: u32,\n    b: u32, // second\n)"),
            (CODE, "use other::{\n    First,", "use other::{"),
            (CODE, "tactic(auto)", "tactic(auto, using(more))"),
            (EDIT, "# one more\n", ""),
        ]), ({}, []))

    def test_pub_is_a_change_of_a_definition_and_not_of_a_law(self):
        self.assertEqual(self.moved([
            (SIZES, "unfoldable pub twice", "unfoldable twice"), (LAWS, "  both :", "  pub both :"),
        ]), ({"definitions": "0100"}, ["- changed in low: `twice` (Sizes)"]))

    def test_definition_is_moved(self):
        pair = FILES[SIZES][FILES[SIZES].index("pub record"):]
        self.assertEqual(self.moved([
            (SIZES, pair, ""), (OTHERS, "-- Internal.\n", "-- Internal.\n" + pair)
        ]), ({"definitions": "0010"}, ["- moved from low (Sizes) to low (Others): `Pair`"]))

    def test_definition_is_moved_to_the_proofs_and_back(self):
        twice = FILES[SIZES][FILES[SIZES].index("unfoldable"):FILES[SIZES].index("pub record")]
        self.assertEqual(self.moved([
            (SIZES, twice, ""), (LAWS, "module _", twice.replace("pub ", "") + "module _"),
        ]), ({"definitions": "0010"},
             ["- moved from low (specs.Sizes) to low (proofs.Laws): `twice`"]))
        self.assertIn("- moved from low (proofs.Laws) to low (specs.Sizes): `twice`\n",
                      self.printed("HEAD", "HEAD~1"))

    def test_definition_that_moved_and_changed_is_removed_and_added(self):
        self.assertEqual(self.moved([
            (SIZES, "abbrev pub count : ℕ\ncount = 32\n", ""),
            (OTHERS, "other = 1\n", "other = 1\n\nabbrev pub count : ℕ\ncount = 33\n"),
        ]), ({"definitions": "1001"},
             ["- added in low: `count` (Others)", "- removed in low: `count` (Sizes)"]))

    def test_proof_alone(self):
        self.assertEqual(self.moved([
            (LAWS, "omega (arith, k)", "omega arith"), (PROOF, "c = refl", "c = rw (c.e)"),
        ]), ({"proofs": ".2.."},
             ["- changed in low: `twice-grows` (Laws); `returns` (add.Answers)"]))
        self.commit({LAWS: FILES[LAWS].replace("unfolding twice", "unfolding twice other")})
        self.assertIn("- changed in low: `twice-grows` (Laws); `returns` (add.Answers)\n",
                      self.printed("HEAD~2"))

    def test_statement_and_what_is_around_it(self):
        self.assertEqual(self.moved([(LAWS, "n ≤ twice n\n", "n < twice n\n"),
                                     (LAWS, "(arith, k)", "arith")]),
                         ({"laws": "0100"}, ["- changed in low: `twice-grows` (Laws)"]))
        self.commit({LAWS: FILES[LAWS].replace("(m : ℕ)", "(m k : ℕ)")})
        self.assertIn("- changed in low: `both`, `twice-grows` (Laws)\n", self.printed())

    def test_what_unfolds_has_no_proof(self):
        self.assertEqual(self.moved([(LAWS, "= (a, b)", "= (b, a)")]),
                         ({"laws": "0100"}, ["- changed in low: `◌&◌` (Laws)"]))
        self.commit({LAWS: FILES[LAWS].replace("infixr 5", "infixr 6")})
        self.assertIn("- changed in low: `◌&◌` (Laws)\n", self.printed("HEAD~2"))

    def test_need_of_another_function_has_not_moved(self):
        self.commit({PROOF: None, "crates/low/proofs/sub/Answers.antt":
                     FILES[PROOF].replace("add", "sub")})
        self.assertIn("| laws | 1 | 0 | 0 | 1 | 3 |", self.printed())
        self.commit({"crates/low/proofs/sub/Answers.antt": None,
                     "crates/high/proofs/sub/Answers.antt":
                     FILES[PROOF].replace("add", "sub").replace(".low.", ".high.")})
        self.assertIn("- moved from low (sub.Answers) to high (sub.Answers): `returns`\n",
                      self.printed())

    def test_promises_and_code(self):
        changed = "- changed in low: `{}` (lib)".format
        for old, new, row, name in [
                ("a + b < 8", "a + b < 9", "promises", "add"),
                ("≡ a + b", "≡ b + a", "promises", "add"),
                ("b: u32", "b: u64", "promises", "add"),
                ("{ a + b }", "{ b + a }", "code", "add"),
                ("text: &[u8]", "bytes: &[u8]", "inner promises", "Kept::put"),
                ("} // no", "} // a", "code", "Kept::put"),
                ("u32 = 8", "u32 = 9", "types, constants", "LIMIT"),
                ("#[repr(C)]\n", "", "types, constants", "Kept")]:
            with self.subTest(new=new):
                self.assertEqual(self.moved([(CODE, old, new)]), ({row: "0100"}, [changed(name)]))
                self.commit({CODE: FILES[CODE]})

    def test_edits(self):
        other = EDIT.replace("off_by_one", "other")
        self.commit({other: FILES[EDIT]})
        self.assertIn("- added in low: `other`\n", self.printed())
        self.assertIn("| must-fail edits | 1 | 2 |\n", self.printed())
        self.assertIn("- changed in low: `off_by_one`",
                      self.moved([(EDIT, "new: a }", "new: b }")])[1])

    def test_lines(self):
        self.commit({OTHERS: FILES[OTHERS] + "\n-- more\n", "docs/page.md": "one\n", "x": "1\n",
                     "crates/low/stdout": "out\n"})
        printed = self.printed()
        for line in ["| low | +2 -0 | 0 | 0 | 0 |", "| in all | +2 -0 | 0 | 0 | 0 |",
                     "| docs | +0 -1 |", "| tests | 0 |", "| other files | +2 -0 |",
                     "1 of 2 crates did not change at all. Of the files: of specs 1 of 2, "
                     "of src 2 of 2, of proofs 2 of 2 did not."]:
            self.assertIn(line + "\n", printed)

    def test_seconds(self):
        self.commit({SIZES: FILES[SIZES] + "-- 1\n-- 2\n-- 3\n"})
        run = self.run_landing("--times", "HEAD~1", "HEAD")
        self.assertRegex(run.stdout, "\n".join([
            r"\| low \| [012] \| [6-9] \|", r"\| others \(1\) \| [012] \| [012] \|",
            r"\| `rt all verdict` in all \| "]))
        self.assertEqual((run.returncode, list(self.clones.iterdir())), (0, []))
        self.set_rt("#!/bin/sh\necho 'rt: FAILED: low'\nexit 1\n")
        run = self.run_landing("--times", "HEAD~1")
        self.assertEqual((run.returncode, run.stdout, list(self.clones.iterdir())), (1, "", []))
        self.assertIn("rt: FAILED: low", run.stderr)

    def test_nothing_is_left_where_it_is_stopped(self):
        told = self.clones.parent / "told"
        self.set_rt(f"#!/bin/sh\nsleep 60 &\necho $! >{told}.new\nmv {told}.new {told}\nwait\n")
        with subprocess.Popen([sys.executable, self.root / "tools/landing", "--times", "HEAD"],
                              env=self.environment, stderr=subprocess.DEVNULL) as run:
            while not told.exists():
                self.assertIsNone(run.poll())
                time.sleep(0.01)
            run.send_signal(signal.SIGTERM)
            self.assertEqual(run.wait(10), 1)
        self.assertEqual(list(self.clones.iterdir()), [])
        child = pathlib.Path("/proc") / told.read_text(encoding="utf-8").strip() / "cmdline"
        self.assertFalse(child.exists() and child.read_bytes())

    def test_bad_usage(self):
        for words in [[], ["a", "b", "c"], ["none"], ["HEAD", "none"], ["--time", "HEAD"],
                      ["--times"], ["HEAD:docs"]]:
            with self.subTest(words=words):
                run = self.run_landing(*words)
                self.assertEqual((run.returncode, run.stdout), (2, ""))
                self.assertTrue(run.stderr)

    def test_file_that_is_not_understood(self):
        self.commit({OTHERS: "f x = 1\n"})
        run = self.run_landing("HEAD~1")
        self.assertEqual((run.returncode, run.stdout), (1, ""))
        self.assertIn(f"{OTHERS}: not understood: f x = 1", run.stderr)


if __name__ == "__main__":
    unittest.main()
