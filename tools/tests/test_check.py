"""./check where the toolchain isn't installed. Run by `python3 -m unittest discover tools/tests`."""
import os
import shutil
import subprocess
import tempfile
import unittest

HOME = os.path.dirname(os.path.dirname(os.path.dirname(os.path.realpath(__file__))))


class Check(unittest.TestCase):
    def check(self, *words):
        """`./check` with a PATH that has what it needs up to there, and no `rt`."""
        with tempfile.TemporaryDirectory() as path:
            for it in ("bash", "dirname", "readlink", "sed"):
                os.symlink(shutil.which(it), f"{path}/{it}")
            more = {"env": {"PATH": path}, "capture_output": True, "text": True}
            return subprocess.run([f"{path}/bash", f"{HOME}/check", *words], check=False, **more)

    def test_what_is_missing(self):
        for words in ([], ["--plants"]):
            with self.subTest(words):
                ended = self.check(*words)
                self.assertEqual((ended.returncode, ended.stdout), (1, ""))
                self.assertIn("command 'rt'", ended.stderr)
                self.assertIn("'./check --program'", ended.stderr)
                self.assertNotIn("Traceback", ended.stderr)

    def test_help_and_unknown_arguments(self):
        self.assertEqual(self.check("--help").returncode, 0)
        self.assertEqual(self.check("--frob").returncode, 2)


if __name__ == "__main__":
    unittest.main()
