"""tools/index on a small repository. Run by `python3 -m unittest discover tools/tests`."""
import contextlib
import importlib.machinery
import importlib.util
import io
import os
import pathlib
import sys
import tempfile
import unittest
from unittest import mock

TOOL = os.path.join(os.path.dirname(os.path.dirname(os.path.realpath(__file__))), "index")
sys.dont_write_bytecode = True
LOADER = importlib.machinery.SourceFileLoader("index", TOOL)
index = importlib.util.module_from_spec(importlib.util.spec_from_loader("index", LOADER))
LOADER.exec_module(index)

LIB = """//! Accounts of one bank. They
//! balance. Nothing else does.

mod purse;
"""
PURSE = """//! A purse
//! (SMPP 3.4 5.1.3).

/// A purse. It is small.
#[derive(Drop)]
pub struct Purse<T: Coin> {
    held: u64,
}

impl<T: Coin> Purse<T> {
    /// Puts credits in, at most
    /// 3.4 of them. Fails never.
    // A note.
    pub fn put(
        &mut self,
        n: u64,
    ) -> u64
        requires { n ≤ 3 }
        ensures held { self.new ≡ self.old + n }
        ensures { IfOk result (λ n.
            n ≡ 3) }
    {
        self.sum(n)
    }

    fn sum(&self, n: u64) -> u64
        ensures own { result ≡ n }
    {
        n
    }

    pub(crate) fn inner(&self) {}
}

impl<T: Coin> fmt::Display
    for Purse<T> {
    ghost output = { λ purse. Some (text purse) };

    fn fmt(&self) -> fmt::Result {
        write(self)
    }
}

/// Who tells coins.
pub trait Coin: Drop {
    ghost Worth : Type 0;

    /// What it is worth.
    fn worth(&self) -> u64
        ensures { result ≡ worth self.now };
}

/// A law.
pub fn balances()
    ensures { Balances }
{}
"""
SPECS = """-- What purses hold.
-- They are small.
use Rattle.std.specs.Prelude.{ℕ}

-- the credits of a purse
-- and of a bank
abbrev pub held : ℕ → ℕ
held n = n

abbrev private : ℕ
private = 3

-- it balances (SMPP 3.4 4.1)
pub record Balances : Type 0 where
  -- a field
  pub sum : ℕ

unfoldable pub empty : ℕ
empty = 0
"""
WANTED = """
## `bank`

Accounts of one bank.

### `purse.rt`: A purse (SMPP 3.4 5.1.3)

- `Purse`: A purse.
- `Purse::put` [_, held, _]: Puts credits in, at most 3.4 of them.
- `Purse as Display` [output]
- `Coin`: Who tells coins.
- `Coin::worth` [_]: What it is worth.
- `balances` [_]: A law.

### `specs/Purses.antt`: What purses hold

- `held`: the credits of a purse and of a bank
- `Balances`: it balances (SMPP 3.4 4.1)
- `empty`
"""


class Index(unittest.TestCase):
    def setUp(self):
        folder = tempfile.TemporaryDirectory()
        self.addCleanup(folder.cleanup)
        self.home = pathlib.Path(folder.name)
        files = {"src/lib.rt": LIB, "src/purse.rt": PURSE, "src/tests.rt": PURSE, "specs/Lib.antt": SPECS, "specs/Purses.antt": SPECS}
        for name, text in files.items():
            self.write(f"crates/bank/{name}", text)
        self.write("crates.txt", "# crates\nbank may_wait=3: thiserror\nbank_tests: bank\n")
        (self.home / "docs").mkdir()
        patch = mock.patch.object(index, "HOME", self.home)
        patch.start()
        self.addCleanup(patch.stop)

    def write(self, name, text):
        path = self.home / name
        path.parent.mkdir(parents=True, exist_ok=True)
        path.write_text(text)

    def run_tool(self, *words):
        """Its exit status and what it says on standard error."""
        said = io.StringIO()
        with mock.patch.object(sys, "argv", ["index", *words]), contextlib.redirect_stderr(said):
            return index.main(), said.getvalue()

    def test_the_page(self):
        self.assertEqual(self.run_tool(), (0, ""))
        self.assertEqual((self.home / "docs/INDEX.md").read_text(), index.HEAD + WANTED)
        self.assertEqual(self.run_tool("--check"), (0, ""))

    def test_a_page_that_differs(self):
        self.run_tool()
        self.write("crates/bank/src/purse.rt", PURSE.replace("A law.", "The law."))
        status, said = self.run_tool("--check")
        line = (index.HEAD + WANTED).splitlines().index("- `balances` [_]: A law.") + 1
        self.assertEqual(status, 1)
        self.assertIn(f"line {line}: '- `balances` [_]: A law.' should be '- `balances` [_]: The law.'", said)

    def test_a_page_with_a_line_too_many_or_none(self):
        self.run_tool()
        page = self.home / "docs/INDEX.md"
        page.write_text(page.read_text() + "- `more`\n")
        status, said = self.run_tool("--check")
        self.assertEqual(status, 1)
        self.assertIn("'- `more`' should be ''", said)
        page.unlink()
        self.assertEqual(self.run_tool("--check")[0], 1)


if __name__ == "__main__":
    unittest.main()
