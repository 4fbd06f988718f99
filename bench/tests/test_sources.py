"""The sources of bench/run's benchmarks, which no gate compiles: whatever they name of this repository's crates is public there.
`bench/run --check` says whether they fit the crates in all else. Run by `python3 -m unittest discover bench/tests`."""
import glob
import os
import re
import unittest

BENCH = os.path.dirname(os.path.dirname(os.path.realpath(__file__)))
CRATES = os.path.join(os.path.dirname(BENCH), "crates")


def read(*path):
    with open(os.path.join(*path), encoding="utf-8") as file:
        return file.read()


def words(item):
    """The names of `Name` or of `{One, Two}`."""
    return re.findall(r"\w+", item)


def public(crate):
    """The names that its lib.rt gives to other crates."""
    text = read(CRATES, crate, "src", "lib.rt")
    items = re.findall(r"^pub use \w+(?:::\w+)*::(\w+|{[^}]*});", text, re.M)
    return {name for item in items for name in words(item)} | set(re.findall(r"^pub mod (\w+);", text, re.M))


class Sources(unittest.TestCase):
    def test_names_are_public(self):
        sources = glob.glob(os.path.join(BENCH, "*", "main.rt.txt"))
        self.assertNotEqual(sources, [])
        for source in sources:
            named = re.findall(r"\b(sms_\w+)::(\w+|{[^}]*})", read(source))
            self.assertNotEqual(named, [])
            for crate, item in named:
                with self.subTest(source=os.path.relpath(source, BENCH), crate=crate):
                    self.assertEqual(set(words(item)) - public(crate), set())


if __name__ == "__main__":
    unittest.main()
