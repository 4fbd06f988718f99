"""tools/journal-plot on journals made by the format. Run by `python3 -m unittest discover tools/tests`."""
import importlib.machinery
import importlib.util
import os
import shutil
import subprocess
import sys
import tempfile
import unittest
import xml.etree.ElementTree

PLOT = os.path.join(os.path.dirname(os.path.dirname(os.path.realpath(__file__))), "journal-plot")
sys.dont_write_bytecode = True
LOADER = importlib.machinery.SourceFileLoader("journal_plot", PLOT)
plot = importlib.util.module_from_spec(importlib.util.spec_from_loader("journal_plot", LOADER))
LOADER.exec_module(plot)

HEAD = "journal,1," + ",".join(["ab" * 32] * 3) + ",\n"
START = 1_800_000_000_000


def journal(count):
    """A sending of so many messages, one a millisecond, each answered 5 to 14 ms later; of ten one is throttled and sent again 100 ms
    later, one refused, one open, and one not handed on."""
    lines = []
    for k in range(count):
        lines += [(START + k, f"begun,{START + k},{k}"), (START + k, f"sent,{START + k},{k % 3},{k + 1},{k},1")]
        heard = START + k + 5 + k % 10
        status = {3: 88, 5: 69}.get(k % 10, 0)
        if k % 10 == 9:
            lines.append((START + k, f"unsent,{START + k},{k % 3},{k + 1}"))
        elif k % 10 != 7:
            lines.append((heard, f"heard,{heard},{k % 3},{k + 1},{status},0,{'' if status else k}"))
        if status == 88:
            again = heard + 100
            lines += [(again, f"sent,{again},{k % 3},{count + k + 1},{k},1")]
            lines += [(again + 7, f'heard,{again + 7},{k % 3},{count + k + 1},0,0,"a,b"')]
    return HEAD + "".join(it + "\n" for _, it in sorted(lines, key=lambda it: it[0]))


class Plots(unittest.TestCase):
    def setUp(self):
        room = tempfile.TemporaryDirectory()
        self.addCleanup(room.cleanup)
        self.folder = room.name

    def written(self, text, name="journal"):
        with open(f"{self.folder}/{name}", "w") as file:
            file.write(text)
        return f"{self.folder}/{name}"

    def test_each_request_has_its_fate(self):
        found = plot.requests(self.written(journal(1000)))
        outcomes = [it[2] for it in found]
        wanted = {"charged": 700, "refused": 100, "tried again": 100, "not handed on": 100, "open": 100}
        self.assertEqual({it: outcomes.count(it) for it in [*plot.ENDS, 'open']}, wanted)

    def test_series_sum_up(self):
        found = plot.requests(self.written(journal(1000)))
        rates, waits, counts = plot.series(found, START, 100, 13)
        self.assertEqual(sum(it[0] for it in rates) / 10, len(found))
        self.assertEqual([sum(it[k] for it in rates) / 10 for k in range(1, 5)], [700, 100, 100, 100])
        self.assertEqual(counts[-1], (100, 100))
        self.assertEqual(counts[4][1], 50)
        self.assertGreater(counts[4][0], 50)
        self.assertEqual(waits[5], (8, 13, 13))
        self.assertEqual(rates[0][0], 1000)

    def test_deliveries_are_by_the_first_final_state(self):
        found = [(0, 5, "charged", "a"), (10, 15, "charged", "b"), (20, 25, "refused", "c"), (30, 35, "charged", "d"), (40, None, "open", "")]
        records = [(20, "b", "ACCEPTD"), (31, "b", "UNDELIV"), (38, "b", "DELIVRD"), (29, "a", "DELIVRD"), (33, "c", "DELIVRD"), (39, "x", "DELIVRD")]
        lines = [f"received,{time},0,1,2,4,{message_id},{state},000,\n" for time, message_id, state in records]
        name = self.written("".join(lines) + "received,40,0", "inbox")
        receipts = plot.delivered([name])
        self.assertEqual(receipts, {"a": 29, "b": 31, "c": 33, "x": 39})
        self.assertEqual(plot.deliveries(found, receipts, 0, 10, 4), [None, None, (29, 29, 29), (21, 21, 21)])
        with self.assertRaisesRegex(plot.Fault, "inbox:2: no record"):
            plot.delivered([self.written(lines[0] + "received,1\n", "inbox")])

    def test_a_step_without_answers_is_empty(self):
        _, waits, _ = plot.series([(0, 5, "charged"), (90, None, "open")], 0, 10, 10)
        self.assertEqual(waits, [(5, 5, 5)] + [None] * 9)

    def test_quantiles(self):
        self.assertEqual([plot.quantile([1, 2, 3, 4], it) for it in (50, 95, 100)], [2, 4, 4])
        self.assertEqual([plot.quantile([7], it) for it in (50, 95, 100)], [7, 7, 7])
        self.assertEqual(plot.quantile(list(range(1, 101)), 95), 95)

    def test_steps(self):
        self.assertEqual([plot.step_for(it) for it in (1, 2000, 2001, 4001, 10_001, 20_001, 3_600_000)], [10, 20, 50, 50, 200, 500, 50_000])

    def test_answers(self):
        wanted = {(0, "0"): "charged", (88, "0"): "tried again", (20, "0"): "tried again", (8, "0"): "refused", (0, "1"): "refused"}
        self.assertEqual({it: plot.outcome_of(*it) for it in wanted}, wanted)

    def test_a_cut_line_counts_for_nothing(self):
        text = journal(20)
        self.assertEqual(len(plot.requests(self.written(text + "sent,1,2"))), len(plot.requests(self.written(text, "other"))))

    def test_a_journal_of_a_trial(self):
        text = journal(20)
        trial = text.replace("journal", "trial", 1)
        self.assertEqual(plot.requests(self.written(trial)), plot.requests(self.written(text, "other")))

    def test_rounds_have_their_own_numbers(self):
        text = journal(20)
        again = f"{text}round,{START + 200},2,1,1\n" + text.removeprefix(HEAD)
        once, twice = plot.requests(self.written(text)), plot.requests(self.written(again, "other"))
        self.assertEqual(twice, once * 2)

    def test_a_journal_of_the_other_kind(self):
        text = journal(20)
        other = text.replace("journal,1," + "ab" * 32, "journal,2,3,0,1,1", 1)
        self.assertEqual(plot.requests(self.written(other)), plot.requests(self.written(text, "other")))

    def test_faults_have_name_and_line(self):
        cases = {
            "sent,1,0,1,0,1\n": ":1: no note",
            HEAD + "sent,1,0,1\n": ":2: no note",
            HEAD + "what,1\n": ":2: no note",
            HEAD + HEAD: ":2: no note",
            HEAD + HEAD.replace("journal", "trial"): ":2: no note",
            HEAD.replace(",1,", ",3,", 1): ":1: a journal of the kind 3",
            HEAD.replace(",1,", ",2,", 1): ":1: no note",
            "journal\n": ":1: no note",
            HEAD + "begun,x,1\n": ":2: 'x' is no time",
            HEAD + "heard,1,0,1,0,0,\n": "heard of a request that was not sent: worker 0, number 1",
        }
        for text, wanted in cases.items():
            with self.assertRaisesRegex(plot.Fault, f"journal.*{wanted}"):
                plot.requests(self.written(text))
        with self.assertRaisesRegex(plot.Fault, "no request with a time"):
            plot.script([self.written(HEAD)], "x")

    @unittest.skipUnless(shutil.which("gnuplot"), "gnuplot isn't installed")
    def test_an_svg_is_drawn(self):
        names = [self.written(journal(1000)), self.written(journal(300), "other")]
        subprocess.run([PLOT, f"{self.folder}/out.svg", *names], check=True)
        drawn = xml.etree.ElementTree.parse(f"{self.folder}/out.svg")
        texts = {"".join(it.itertext()).strip() for it in drawn.iter("{http://www.w3.org/2000/svg}text")}
        self.assertLessEqual({"sent", "95 of 100", "tried again", "never answered", "milliseconds until an answer"}, texts)
        self.assertTrue(any("2027-01-15 08:00:00" in it for it in texts), texts)
        self.assertEqual(sorted(os.listdir(self.folder)), ["journal", "other", "out.svg"])
        inbox = self.written(f"received,{START + 2000},0,1,2,4,8,DELIVRD,000,\n", "inbox")
        subprocess.run([PLOT, f"{self.folder}/more.svg", "--inbox", inbox, *names], check=True)
        with open(f"{self.folder}/more.svg") as file:
            self.assertIn("milliseconds until delivery", file.read())

    def test_words(self):
        self.assertEqual(subprocess.run([PLOT], capture_output=True).returncode, 2)
        self.assertEqual(subprocess.run([PLOT, "--help"], capture_output=True).returncode, 0)
        ended = subprocess.run([PLOT, f"{self.folder}/o.svg", self.written("x\n")], capture_output=True, text=True)
        self.assertEqual((ended.returncode, os.path.exists(f"{self.folder}/o.svg")), (1, False))
        self.assertIn("journal:1: no note", ended.stderr)
