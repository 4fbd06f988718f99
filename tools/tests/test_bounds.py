"""tools/bounds on a small repository. Run by `python3 -m unittest discover tools/tests`."""
import contextlib
import importlib.machinery
import importlib.util
import io
import os
import pathlib
import sys
import tempfile
import unittest
from unittest import mock

TOOL = os.path.join(os.path.dirname(os.path.dirname(os.path.realpath(__file__))), "bounds")
sys.dont_write_bytecode = True
LOADER = importlib.machinery.SourceFileLoader("bounds", TOOL)
bounds = importlib.util.module_from_spec(importlib.util.spec_from_loader("bounds", LOADER))
LOADER.exec_module(bounds)

PURSE = """//! A purse.

const MARKS: &[char] = &['{', '\\'', '"', '\\u{1b}'];

impl<T: Coin + Fn(u64) -> u64> Purse<T> {
    /// Takes (a, b, c).
    pub fn put<A: Read, B: Fn(u8, u8) -> u8>(
        &mut self,
        pair: (u64, u64), // two, at once
        table: Table<'_, A, B>,
        octets: [u8; 4],
    ) -> Result<[u8; 4], Fault>
        requires few { n ≤ 3 }
        requires* { IfOk result (λ r. {r}) }
        ensures held { self.new ≡ self.old } by { held-lemma }
        ensures* all { ⊤ }
    {
        let text = "{ not a block (";
        let it = move |x: u64| -> u64
            ensures own { result ≡ x }
        {
            give(x)
        };
        it(1)
    }
}

/// Who tells coins.
pub trait Coin: Drop {
    fn worth(&self) -> u64 requires { ⊤ } ensures { ⊤ };
}

impl<T: Coin> fmt::Display
    for Purse<T> {
    fn fmt(&self) -> fmt::Result {
        self.put();
    }
}

pub(crate) fn give(x: u64)
    ensures { Gives }
{}
"""
TRAIL = """# The map

## From `main` to the first octet

1. `bank/main: main` begins
2. `bank/purse: Purse::put`
3. `bank/purse: give`

## Why
"""


class Bounds(unittest.TestCase):
    def setUp(self):
        folder = tempfile.TemporaryDirectory()
        self.addCleanup(folder.cleanup)
        self.home = pathlib.Path(folder.name)
        self.write("crates/bank/src/purse.rt", PURSE)
        self.write("crates/bank/src/main.rt", "fn main() {\n    purse.put(1);\n}\n")
        self.write("crates/bank/src/tests.rt", "fn test(a: A, b: B, c: C, d: D, e: E, f: F, g: G, h: H, i: I) {}\n")
        self.write("crates/bank/src/tests/more.rt", "fn test(a: A, b: B, c: C, d: D, e: E, f: F, g: G, h: H, i: I) {}\n")
        self.write("crates/bank_tests/src/lib.rt", "\n" * 400)
        self.write("crates/bank/out/kept.antt", "\n" * 500)
        for name in bounds.PAGES:
            self.write(f"docs/{name}", "# A page\n")
        self.write("docs/ARCHITECTURE.md", TRAIL)
        patch = mock.patch.object(bounds, "HOME", self.home)
        patch.start()
        self.addCleanup(patch.stop)

    def write(self, name, text):
        path = self.home / name
        path.parent.mkdir(parents=True, exist_ok=True)
        path.write_text(text)

    def run_tool(self, *words):
        """Its exit status, what it prints and what it says on standard error."""
        printed, said = io.StringIO(), io.StringIO()
        with mock.patch.object(sys, "argv", ["bounds", *words]), contextlib.redirect_stdout(printed), contextlib.redirect_stderr(said):
            return bounds.main(), printed.getvalue(), said.getvalue()

    def refused(self, *lines):
        """With --check it fails, and says these lines alone."""
        self.assertEqual(self.run_tool("--check"), (1, "", "".join(f"bounds: {it}\n" for it in lines)))

    def test_counts(self):
        counts = [(it.place(), it.parameters, it.clauses, it.lines) for it in bounds.functions(bounds.code_of(PURSE), "bank/purse")]
        wanted = [("Purse::put", 4, 4, 9), ("Coin::worth", 1, 2, 1), ("Purse as Display::fmt", 1, 0, 3), ("give", 1, 1, 1)]
        self.assertEqual(counts, [(f"bank/purse: {name}", *more) for name, *more in wanted])

    def test_figures(self):
        self.assertEqual(self.run_tool("--check"), (0, "", ""))
        status, printed, _said = self.run_tool()
        self.assertEqual(status, 0)
        for line in (
            "folders under crates/: 2 (at most 30), 1 of tests, 1 with source (at most 19)",
            "functions: 5 in 2 files",
            "docs/PROMISES.md: 1 lines (at most 150)",
            "from main to the first octet: 2 calls (at most 30)",
            "more than 8 parameters: 0",
        ):
            self.assertIn(f"{line}\n", printed)

    def test_bounds_and_exceptions(self):
        parameters = ", ".join(f"{letter}: u64" for letter in "abcdefghi")
        clauses = "    ensures { ⊤ }\n" * 13
        self.write("crates/bank/src/long.rt", f"fn long({parameters})\n{clauses}{{\n" + "    go();\n" * 399 + "}\n")
        self.refused(
            "more than 8 parameters: bank/long: long 9",
            "more than 12 clauses: bank/long: long 13",
            "a body of more than 40 lines: bank/long: long 401",
            "a file of more than 400 lines: crates/bank/src/long.rt 415",
        )
        with mock.patch.dict(bounds.EXCEPTIONS, {(it, "bank/long: long"): "a table" for it in ("parameters", "clauses", "lines")}):
            self.refused("a file of more than 400 lines: crates/bank/src/long.rt 415")
            self.assertIn("  bank/long: long 13 (an exception: a table)\n", self.run_tool()[1])

    def test_files_of_tests_and_proofs(self):
        self.write("crates/bank_tests/src/lib.rt", "\n" * 401)
        self.write("crates/bank/proofs/Sums.antt", "\n" * 402)
        self.refused(
            "a file of more than 400 lines: crates/bank_tests/src/lib.rt 401",
            "a file of more than 400 lines: crates/bank/proofs/Sums.antt 402",
        )

    def test_a_page_and_folders(self):
        self.write("docs/PROMISES.md", "\n" * 151)
        for k in range(19):
            self.write(f"crates/c{k:02}/src/lib.rt", "")
        for k in range(10):
            self.write(f"crates/c{k:02}_tests/src/lib.rt", "")
        self.refused(
            "more than 30 folders: c18 31",
            "more than 19 folders with source: c18 20",
            "a page that is too long: docs/PROMISES.md 151",
        )

    def test_the_trail(self):
        page = TRAIL.replace("3. `bank/purse: give`", "3. `bank/purse: take`\n4. `bank/purse: Coin::worth`\n5. `bank/purse: give`")
        self.write("docs/ARCHITECTURE.md", page)
        self.refused(
            "the trail: bank/purse has no function take",
            "the trail: the body of Purse::put in bank/purse doesn't name take",
            "the trail: the body of Coin::worth in bank/purse doesn't name give",
        )
        self.write("docs/ARCHITECTURE.md", TRAIL + "".join(f"{k}. `bank/main: main`\n" for k in range(4, 50)))
        self.assertEqual(self.run_tool("--check")[0], 0)
        self.write("docs/ARCHITECTURE.md", TRAIL.replace("\n\n## Why", "".join(f"\n{k}. `bank/purse: give`" for k in range(4, 33)) + "\n"))
        self.assertIn("bounds: the trail: docs/ARCHITECTURE.md 31\n", self.run_tool("--check")[2])
        self.write("docs/ARCHITECTURE.md", "# The map\n")
        self.refused("the trail: docs/ARCHITECTURE.md has no list under '## From `main` to the first octet'")


if __name__ == "__main__":
    unittest.main()
