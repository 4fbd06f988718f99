"""bench/kill with a program that stands in for the sender: it says that all holds of the one that does right, and refuses each wrong one.
Run by `python3 -m unittest discover bench/tests`."""
import os
import subprocess
import unittest

HERE = os.path.dirname(os.path.realpath(__file__))
KILL, PROGRAM = os.path.join(os.path.dirname(HERE), "kill"), os.path.join(HERE, "stand_in")


class Kills(unittest.TestCase):
    def kill(self, wrong="", moments=1):
        words = [KILL, PROGRAM, "--moments", str(moments), "--messages", "300", "--seed", "7"]
        return subprocess.run(words, env={**os.environ, "WRONG": wrong}, capture_output=True, text=True, check=False)

    def test_what_holds(self):
        ended = self.kill(moments=3)
        self.assertEqual((ended.returncode, ended.stderr), (0, ""))
        self.assertIn("bench/kill: 3 moments, killed in", ended.stdout)

    def test_each_wrong_program_is_refused(self):
        told = {
            "late-note": "of which there is no note",
            "lost-note": "of which there is no note",
            "charges-all": "which the centre gave to None",
            "rest-all": "sent again: ",
        }
        for wrong, what in told.items():
            with self.subTest(wrong):
                ended = self.kill(wrong, moments=12)
                self.assertEqual(ended.returncode, 1, ended.stdout)
                self.assertIn(what, ended.stderr)

    def test_words(self):
        self.assertEqual(subprocess.run([KILL, "--help"], capture_output=True, check=False).returncode, 0)
        self.assertEqual(subprocess.run([KILL, PROGRAM, "--moments", "0"], capture_output=True, check=False).returncode, 2)


if __name__ == "__main__":
    unittest.main()
