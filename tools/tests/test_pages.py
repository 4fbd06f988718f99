"""The pages for engineers: each name and path in them that stands between backticks is one of the repository's, and READING lists all tools.
Run by `python3 -m unittest discover tools/tests`."""
import pathlib
import re
import unittest

HOME = pathlib.Path(__file__).resolve().parent.parent.parent
PAGES = ["ARCHITECTURE", "DECISIONS", "DEFINITIONS", "PROMISES", "READING"]
TEXTS = ["crates/*/src/**/*.rt", "crates/*/specs/*.antt", "crates/*/proofs/*.antt", "crates.txt", "check", "tools/*", "docs/OPERATING.md", "examples/*.toml"]
# Of the toolchain and of its command line.
ELSEWHERE = "CONTRACTS FIRST_PROOFS HERE Invariants LANGUAGE MODELS MODULE START WORD lemma signature sms_book_tests_tests tidy what_it_plants".split()


def page(name):
    return (HOME / "docs" / f"{name}.md").read_text()


def names_in(text):
    """The names between backticks, but in blocks of code."""
    text = re.sub(r"^( {4}|```).*?$", "", text, flags=re.M)
    return sorted({name for quoted in re.findall(r"`([^`]+)`", text) for name in re.findall(r"(?<!\*)\b[A-Za-z_]{3,}\w*\b(?!\*)", quoted)})


def known():
    """All names of the sources, and the names of files and folders."""
    names = set(ELSEWHERE)
    for pattern in TEXTS:
        for path in HOME.glob(pattern):
            if path.is_file() and "out" not in path.parts:
                names.update(re.findall(r"\w+", path.read_text(errors="replace")))
    for pattern in ["*", "*/*", "crates/*/*", "crates/*/*/*", "tools/tests/*", "fleet/tests/*", "bench/tests/*"]:
        for path in HOME.glob(pattern):
            names.update(re.findall(r"\w+", path.name))
    return names


class Pages(unittest.TestCase):
    def test_names(self):
        names = known()
        for name in PAGES:
            with self.subTest(page=name):
                self.assertEqual([it for it in names_in(page(name)) if it not in names], [])

    def test_paths(self):
        """A module, a file or a folder that is named with its crate is there."""
        for name in PAGES:
            with self.subTest(page=name):
                paths = [(HOME / "crates" / crate, path) for crate, path in re.findall(r"`(sms_\w+)/([\w/.-]+)", page(name))]
                there = {it for it in paths if any((it[0] / more).exists() for more in (it[1], f"src/{it[1]}", f"src/{it[1]}.rt", f"{it[1]}.edit"))}
                self.assertEqual([f"{crate.name}/{path}" for crate, path in paths if (crate, path) not in there], [])

    def test_tools(self):
        listed = set(re.findall(r"`([\w.-]+)/?`", "\n".join(line.split("|")[1] for line in page("READING").splitlines() if line.startswith("| `"))))
        tools = {path.name for path in (HOME / "tools").iterdir() if not path.name.startswith(("__", "."))}
        self.assertEqual(sorted(tools - listed), [])


if __name__ == "__main__":
    unittest.main()
