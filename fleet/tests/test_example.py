"""The example's job from end to end: split, sent by the released program to the test centre in its process, merged."""
import os
import shutil
import subprocess
import unittest

from reports import STATEMENT, Report
from tables import put_lines, records
from tests.helpers import HOME, PROGRAM, Case


class Example(Case):
    def setUp(self):
        super().setUp()
        os.rmdir(self.folder)
        shutil.copytree(f"{HOME}/examples/fleet", self.folder)

    def does(self, *words, status=0):
        ended = subprocess.run([f"{HOME}/fleet/{words[0]}", *words[1:]], capture_output=True, text=True)
        self.assertEqual(ended.returncode, status, ended.stderr)
        return ended.stdout + ended.stderr

    def send(self, folder, before):
        """A run; one without an accounts file gets what the run before left free."""
        if not os.path.exists(f"{folder}/accounts.csv"):
            rows = Report(f"{before}/report.csv").rows
            put_lines([["account", "credits"], *[[it, str(rows[it]["free"])] for it in rows]], f"{folder}/accounts.csv")
        with open(f"{folder}/report.csv", "w") as out:
            words = [PROGRAM, "loop", "--quiet", "--config", "send.toml"]
            self.assertEqual(subprocess.run(words, cwd=folder, stdout=out).returncode, 0)

    def test_a_job_is_as_its_runs(self):
        said = self.does("split", self.folder, "--jobs", "4", "--run-size", "25")
        self.assertEqual(said.count("parts/"), 4)
        for part in sorted(os.listdir(f"{self.folder}/parts")):
            before = None
            for run in sorted(os.listdir(f"{self.folder}/parts/{part}"), key=int):
                self.send(f"{self.folder}/parts/{part}/{run}", before)
                before = f"{self.folder}/parts/{part}/{run}"
        self.assertIn("200 messages", self.does("merge", self.folder))
        names = [f"{self.folder}/report.csv", f"{self.folder}/messages.csv"]
        subprocess.run([f"{HOME}/tools/balances", *names], check=True)
        accounts = [it for _, it in records(f"{self.folder}/accounts.csv")][1:]
        rows = Report(names[0]).rows
        self.assertEqual([[it, str(rows[it]["topped"])] for it in rows], accounts)
        self.assertGreater(sum(it["returned"] for it in rows.values()), 0)

    @unittest.skipUnless(shutil.which("parallel"), "GNU parallel isn't installed")
    def test_a_job_is_sent_by_fleet_run(self):
        self.does("split", self.folder, "--jobs", "3", "--run-size", "25")
        for _ in range(2):
            self.does("run", self.folder, "--program", PROGRAM, "--loop", "--jobs", "3")
        self.assertIn("200 messages", self.does("merge", self.folder))
        names = [f"{self.folder}/report.csv", f"{self.folder}/messages.csv"]
        subprocess.run([f"{HOME}/tools/balances", *names], check=True)
        self.assertEqual({it[0][2] for it in Report(names[0]).ends}, {"charged", "refused", "no-credit"})

    def test_words_and_faults(self):
        self.assertIn("usage: fleet/split", self.does("split", "--help"))
        self.assertIn("usage: fleet/merge", self.does("merge", "--help"))
        self.does("split", self.folder, status=2)
        self.does("split", self.folder, "--jobs", "0", status=2)
        self.does("split", self.folder, "--jobs", "2", "--run-size", "100001", status=2)
        self.assertIn("was not split", self.does("merge", self.folder, status=1))
        self.does("split", self.folder, "--jobs", "2")
        self.assertIn("was split already", self.does("split", self.folder, "--jobs", "2", status=1))
        self.assertIn("parts/01/1/report.csv: No such file", self.does("merge", self.folder, status=1))

    def test_it_is_one_as_a_whole_too(self):
        """The example's config is good as it stands, in its folder."""
        with open(f"{self.folder}/report.csv", "w") as out:
            words = [PROGRAM, "loop", "--quiet", "--config", "send.toml"]
            self.assertEqual(subprocess.run(words, cwd=self.folder, stdout=out).returncode, 0)
        self.assertEqual(len(Report(f"{self.folder}/report.csv").ends), 200)
        self.assertEqual(STATEMENT[0], "account")
