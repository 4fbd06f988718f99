"""The package has what its own pages point to, and the README has the example's report. Run by `python3 -m unittest discover tools/tests`."""
import os
import re
import shutil
import subprocess
import tempfile
import unittest

HOME = os.path.dirname(os.path.dirname(os.path.dirname(os.path.realpath(__file__))))
PARTS = ("bench", "crates", "docs", "examples", "fleet", "packaging", "release", "tools")
# A page or an example that a page names.
NAMED = re.compile(r"(?:docs|examples|bench)/[A-Za-z0-9_/-]+\.(?:md|svg|csv|toml|conf|out)")
# A drawing that it shows, which lies beside it.
SHOWN = re.compile(r"!\[[^]]*\]\(([\w.-]+)\)")
PAGES = ("README.md", "docs/OPERATING.md", "docs/FORMATS.md", "docs/SCALING.md", "docs/INTEROP.md")


def read(name):
    with open(name, encoding="utf-8") as file:
        return file.read()


class Package(unittest.TestCase):
    @unittest.skipUnless(shutil.which("dpkg-deb"), "dpkg-deb isn't installed")
    def test_what_the_pages_point_to(self):
        """What is named for engineers alone is named after these words in the README."""
        with tempfile.TemporaryDirectory() as folder:
            for it in PARTS:
                shutil.copytree(f"{HOME}/{it}", f"{folder}/{it}", ignore=shutil.ignore_patterns("out", "__pycache__"))
            for it in ("README.md", "crates.txt"):
                shutil.copy(f"{HOME}/{it}", folder)
            # (a release of these sources, whichever they are)
            sources = subprocess.run([f"{folder}/tools/sources-sum"], capture_output=True, text=True, check=True).stdout.strip()
            manifest = re.sub("(?m)^sources .*$", f"sources {sources}", read(f"{folder}/release/MANIFEST"))
            with open(f"{folder}/release/MANIFEST", "w", encoding="utf-8") as file:
                file.write(manifest)
            subprocess.run([f"{folder}/tools/package", f"{folder}/made"], capture_output=True, check=True)
            [made] = os.listdir(f"{folder}/made")
            subprocess.run(["dpkg-deb", "--extract", f"{folder}/made/{made}", f"{folder}/unpacked"], check=True)
            at = f"{folder}/unpacked/usr/share/doc/sms-send"
            for page in PAGES:
                text = read(f"{at}/{page}").partition("For engineers:")[0]
                for name in [*NAMED.findall(text), *(os.path.join(os.path.dirname(page), it) for it in SHOWN.findall(text))]:
                    with self.subTest(page=page, name=name):
                        self.assertTrue(os.path.isfile(f"{at}/{name}"), f"{page} names {name}")

    def test_the_readme_has_the_report_of_the_example(self):
        lines = "".join(f"    {it}\n" for it in read(f"{HOME}/examples/loop.out").splitlines())
        self.assertIn(lines, read(f"{HOME}/README.md"))


if __name__ == "__main__":
    unittest.main()
