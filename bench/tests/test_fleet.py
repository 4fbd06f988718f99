"""What bench/fleet compares, on a small job that the stand-in sent and on what is altered of it then.
Run by `python3 -m unittest discover bench/tests`."""
import glob
import os
import subprocess
import sys
import tempfile
import unittest

HERE = os.path.dirname(os.path.realpath(__file__))
HOME = os.path.dirname(os.path.dirname(HERE))
sys.path.insert(0, f"{HOME}/bench/centres")
import jobs_made
from counting import Centre


def text_of(name):
    with open(name, encoding="utf-8") as file:
        return file.read()


def sent_first(journal):
    """The message of a journal's first request."""
    with open(journal, encoding="utf-8") as file:
        return int(next(it for it in file if it.startswith("sent")).split(",")[4])


class Compared(unittest.TestCase):
    def setUp(self):
        room = tempfile.TemporaryDirectory()
        self.addCleanup(room.cleanup)
        self.job = f"{room.name}/job"
        self.centre = Centre(lambda destination, part: 88 if self.is_new(destination) and int(destination) % 7 == 0 else 0)
        self.addCleanup(self.centre.hang_up)
        self.seen = set()
        jobs_made.make(self.job, 40, 3, f"port = {self.centre.port}\nbase_ms = 1\n")
        jobs_made.split(self.job, 1, 25)
        words = [f"{HOME}/fleet/run", "--program", f"{HERE}/stand_in", "--part", f"{self.job}/parts/01"]
        subprocess.run(words, check=True)
        subprocess.run([f"{HOME}/fleet/merge", self.job], check=True, stdout=subprocess.DEVNULL)
        self.centre.quiet()

    def is_new(self, destination):
        is_new = destination not in self.seen
        self.seen.add(destination)
        return is_new

    def differs(self, what):
        with self.assertRaisesRegex(jobs_made.Wrong, what):
            jobs_made.compare(self.job, [self.centre])

    def edit(self, name, change):
        with open(name, encoding="utf-8") as file:
            lines = file.read().splitlines()
        with open(name, "w", encoding="utf-8") as file:
            file.write("\n".join(change(lines)) + "\n")

    def test_what_agrees(self):
        self.assertIn("40 messages", jobs_made.compare(self.job, [self.centre]))
        self.assertIn(88, [it.status for it in self.centre.submits])

    def test_what_differs(self):
        first, second = sorted(glob.glob(f"{self.job}/parts/01/*/journal"))[:2]
        extra = self.centre.submits[-1]
        with self.subTest("a request without a note"):
            kept = text_of(first)
            self.edit(first, lambda lines: [it for it in lines if not it.startswith("sent")])
            self.differs("of which there is no note")
            self.edit(first, lambda _: kept.splitlines())
        with self.subTest("a request again"):
            self.centre.submits.append(extra)
            self.differs("was sent again")
            self.centre.submits.pop()
        with self.subTest("another run's message"):
            taken, place = (sent_first(it) for it in (first, second))
            with open(f"{os.path.dirname(first)}/numbers.csv", encoding="utf-8") as file:
                number = file.read().splitlines()[1 + taken]
            self.edit(f"{os.path.dirname(second)}/numbers.csv", lambda lines: lines[: 1 + place] + [number] + lines[2 + place :])
            self.differs(f"message {number} was sent by")

    def test_charges_that_differ(self):
        report = f"{self.job}/report.csv"
        kept = text_of(report)
        with self.subTest("another message_id"):
            self.edit(report, lambda lines: [it + "x" if it.startswith("0,1,") else it for it in lines])
            self.differs("message 0, part 1 is charged by")
        with self.subTest("an answer that is nobody's"):
            self.edit(report, lambda _: kept.splitlines())
            self.centre.submits[-1].message_id += "x"
            self.differs("is charged by|neither charged nor unanswered")


if __name__ == "__main__":
    unittest.main()
