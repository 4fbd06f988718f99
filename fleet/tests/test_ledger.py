"""Jobs on a ledger, sent by the released program before a centre that counts: killed, refused, hung up on, and with a ledger that can't be written."""
import fcntl
import os
import subprocess
import sys
import threading

from books import Ledger, ledger_of, said
from jobs import Job, parts_of_job, runs_of_part
from links import State, next_run, state_of_folder
from merging import Differences, merge
from reports import Report
from splitting import split
from tables import Fault, put_text
from tests.helpers import HOME, PROGRAM, Case

sys.path.insert(0, f"{HOME}/bench/centres")
from counting import Centre
from rounds import HangsUp

CREDITS = 100


class OnLedger(Case):
    """A job whose accounts are a ledger's. The centre answers each request after a while, so that a kill or a loss comes before the end."""

    def begin(self, counts, size, parts=2, centre=None, **more):
        self.centre = centre or Centre(latency=0.01)
        self.job(counts, **more)
        put_text(f"port = {self.centre.port}\nwindow = 4\ndepth = 4\nanswer_ms = 5000\n", f"{self.folder}/send.toml")
        os.remove(f"{self.folder}/accounts.csv")
        self.ledger = f"{self.folder}/accounts.ledger"
        for it in counts:
            self.does("topup", "--ledger", self.ledger, it, str(CREDITS), "--ref", f"first-{it}")
        return split(self.folder, parts, size, self.ledger)

    def does(self, *words):
        return subprocess.run([PROGRAM, *words], check=True, capture_output=True, text=True).stdout

    def balance(self):
        """Each account's free, out, doubt and spent credits."""
        lines = self.does("balance", "--ledger", self.ledger).splitlines()[1:]
        return {said(name): list(map(int, numbers[1:])) for name, *numbers in (it.split(",") for it in lines)}

    def run_part(self, part="01", status=0, kill_after=None, **more):
        """fleet/run of a part, which is killed with its program once the centre has read so many requests."""
        command = [f"{HOME}/fleet/run", "--program", PROGRAM, "--part", f"{self.folder}/parts/{part}"]
        reached = self.centre.when(kill_after or 0)
        with subprocess.Popen(command, stderr=subprocess.PIPE, text=True, start_new_session=True, **more) as child:
            if kill_after:
                self.assertTrue(reached.wait(60))
                os.killpg(child.pid, 9)
            said = child.communicate(timeout=60)[1]
        self.assertEqual(child.returncode, -9 if kill_after else status, said)
        return said

    def run_all(self):
        for it in parts_of_job(self.folder):
            self.run_part(os.path.basename(it))

    def agrees(self, doubts=False):
        """The merged report, the ledger and the centre have the same."""
        self.assertEqual(merge(self.folder)[1], doubts)
        self.centre.quiet()
        report = Report(f"{self.folder}/report.csv")
        spent = {name: [row["free"], 0, row["reserved"], row["charged"]] for name, row in report.rows.items()}
        self.assertEqual(self.balance(), spent)
        self.assertEqual(len({(it.destination, it.part) for it in self.centre.submits}), len(self.centre.submits))
        charged = sum(it[3] for it in spent.values())
        self.assertTrue(charged <= len(self.centre.submits) <= charged + sum(it[2] for it in spent.values()))
        return report

    def test_a_job_that_goes_well(self):
        self.assertEqual(self.begin({"a": 25, "b, \u00e9": 3, "c": 4}, 10), [[10, 10, 5], [7]])
        self.assertEqual(ledger_of(f"{self.folder}/parts"), self.ledger)
        self.assertFalse(any(os.path.exists(f"{it}/accounts.csv") for runs in Job(self.folder, self.ledger).runs() for it in runs))
        self.run_part("01")
        self.does("topup", "--ledger", self.ledger, "b, \u00e9", "5")
        self.run_part("02")
        rows = self.agrees_with_names()
        self.assertEqual(rows, {"a": [100, 75, 0, 25, 0], "b, \u00e9": [105, 102, 0, 3, 0], "c": [100, 96, 0, 4, 0]})

    def agrees_with_names(self):
        merge(self.folder)
        return {name: list(row.values()) for name, row in Report(f"{self.folder}/report.csv").rows.items()}

    def test_runs_that_were_killed(self):
        self.begin({"a": 25, "b": 3, "c": 4}, 10)
        for count in (1, 5, 14):
            self.run_part(kill_after=count)
            self.centre.quiet()
        self.run_all()
        self.agrees(doubts=True)

    def test_what_was_taken_before_a_note_comes_back(self):
        """A run that was killed behind its head, or before its ledger had what it took."""
        self.begin({"a": 9}, 10)
        at = f"{self.folder}/parts/01/1"
        self.run_part(kill_after=1)
        with open(f"{at}/journal", "rb") as file:
            octets = file.read()
        with open(self.ledger, "rb") as file:
            entries = file.read()
        self.centre.quiet()
        head = octets[: octets.index(b"journal,1,")]
        for journal, ledger in ((head, entries), (head, entries[: entries.index(b"taken,")]), (head[:-4], entries[: entries.index(b"taken,")]), (b"", entries[: entries.index(b"taken,")])):
            with open(f"{at}/journal", "wb") as file:
                file.write(journal)
            with open(self.ledger, "wb") as file:
                file.write(ledger)
            self.assertIs(state_of_folder(at), State.READY)
            self.centre.submits.clear()
            self.run_part()
            self.agrees()
            os.remove(f"{at}/report.csv")
        os.remove(f"{self.folder}/report.csv")

    def test_a_bind_that_fails(self):
        """What was taken is back, and is taken again by the next call; with `--again` too."""
        self.begin({"a": 5}, 10)
        port = self.centre.port
        self.centre.hang_up()
        for words in ([], ["--with=--again 1"]):
            command = [f"{HOME}/fleet/run", "--program", PROGRAM, "--part", f"{self.folder}/parts/01", *words]
            ended = subprocess.run(command, capture_output=True, text=True)
            self.assertEqual(ended.returncode, 1)
            self.assertIn("ended with 3", ended.stderr)
            self.assertEqual(self.balance(), {"a": [CREDITS, 0, 0, 0]})
        self.centre = Centre(port=port)
        self.run_part()
        self.agrees()

    def test_a_connection_that_is_lost(self):
        """A run that left messages keeps its credits, and the report is no merge."""
        self.begin({"a": 9}, 10, centre=HangsUp(4, True))
        self.assertIn("run it again to go on", self.run_part(status=1))
        self.assertEqual(self.balance()["a"][1], CREDITS)
        with self.assertRaisesRegex(Differences, "100 credits of a are out with the run still"):
            merge(self.folder)
        while next_run(runs_of_part(f"{self.folder}/parts/01")):
            subprocess.run([f"{HOME}/fleet/run", "--program", PROGRAM, "--part", f"{self.folder}/parts/01"], capture_output=True)
        self.agrees(doubts=self.balance()["a"][2] > 0)

    def test_a_ledger_that_is_held_at_the_end(self):
        """The report isn't taken until the ledger has what came back."""
        self.begin({"a": 9}, 10)
        reached = self.centre.when(5)
        with open(self.ledger, "rb") as file:
            holder = threading.Thread(target=lambda: reached.wait(60) and fcntl.flock(file, fcntl.LOCK_EX))
            holder.start()
            command = [f"{HOME}/fleet/run", "--program", PROGRAM, "--part", f"{self.folder}/parts/01"]
            ended = subprocess.run(command, capture_output=True, text=True)
            holder.join()
        self.assertIn("fault: unsettled", ended.stderr)
        self.assertFalse(os.path.exists(f"{self.folder}/parts/01/1/report.csv"))
        self.run_part()
        self.agrees()

    def test_what_the_ledger_has_otherwise(self):
        self.begin({"a": 3, "b": 2}, 10, parts=1)
        self.run_part()
        self.agrees()
        os.remove(f"{self.folder}/report.csv")
        with open(self.ledger, "rb") as file:
            octets = file.read()
        for old, new, what in (
            (b",a,97,0,3\n", b",a,96,0,4\n", r"of a the ledger has \[100, 96, 0, 4\], and the statement \[100, 97, 0, 3\]"),
            (b",b,100\n", b",b,98\n", r"of b the ledger has \[98, 98, 0, 2\], and the statement \[100, "),
            (b",a,97,0,3\n", b",a,97,0,3", "100 credits of a are out|of b the ledger has"),
        ):
            self.assertEqual(octets.count(old), 1)
            with open(self.ledger, "wb") as file:
                file.write(octets.replace(old, new) if new.endswith(b"\n") else octets[: octets.index(old)])
            with self.assertRaisesRegex(Differences, what):
                merge(self.folder)

    def test_words_and_faults(self):
        self.begin({"a": 3}, 10)
        with open(f"{self.folder}/messages.csv") as file:
            put_text(file.read() + "nobody,,447700900000,x\n", f"{self.folder}/messages.csv")
        with self.assertRaisesRegex(Fault, f"messages.csv:5: no account 'nobody' in {self.ledger}"):
            Job(self.folder, self.ledger)
        for text, what in (("account,credits\n", "is no ledger"), ("", "is no ledger"), ("trial\nledger,1\n", "is a ledger of trials"), (None, "No such file")):
            put_text(text, f"{self.folder}/none") if text is not None else os.remove(f"{self.folder}/none")
            with self.assertRaisesRegex(Fault, what):
                Ledger(f"{self.folder}/none")
        ended = subprocess.run([f"{HOME}/fleet/run", "--program", PROGRAM, "--loop", "--part", f"{self.folder}/parts/01"], capture_output=True, text=True)
        self.assertEqual(ended.returncode, 1)
        self.assertIn("which no trial does", ended.stderr)
