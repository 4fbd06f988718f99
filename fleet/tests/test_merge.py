import os

from jobs import Job
from merging import Differences, Merge, merge
from reports import Report
from splitting import split
from tables import Fault, put_lines, put_text, records
from tests.helpers import Case, run, run_all


# What can't stand where message 1 has its two parts.
OUT_OF_ORDER = [
    "1,2,1,charged,0,\n1,1,1,charged,0,\n",
    "1,1,1,charged,0,\n1,3,1,charged,0,\n",
    "1,2,1,charged,0,\n",
    "1,0,1,charged,0,\n",
    "1,1,1,lost,0,\n",
    "1,1,1,no-credit,,\n",
    "1,0,0,no-credit,,\n1,1,1,charged,0,\n",
    "1,0,0,no-credit,,\n1,2,1,charged,0,\n",
]


class Merging(Case):
    def made(self, counts, outcome=lambda k: ["charged"], parts=2, size=100, **more):
        job = self.job(counts, **more)
        split(self.folder, parts, size)
        run_all(job, outcome)
        return job

    def merged(self):
        return Report(f"{self.folder}/report.csv")

    def differs(self, what):
        with self.assertRaisesRegex(Differences, what):
            merge(self.folder)
        self.assertFalse(os.path.exists(f"{self.folder}/report.csv"))

    def edit(self, name, old, new):
        with open(f"{self.folder}/{name}", newline="") as file:
            text = file.read()
        self.assertEqual(text.count(old), 1, text)
        put_text(text.replace(old, new), f"{self.folder}/{name}")


class Whole(Merging):
    def test_every_message_stands_at_its_number(self):
        kinds = [["charged", "refused"], ["unanswered"], ["no-credit"], ["unsent", "unsent"], ["bad-address"]]
        self.made({"a": 7, "b": 5, "c": 1, "idle": 0}, lambda k: kinds[k % 5])
        self.assertEqual(merge(self.folder), (13, True))
        ends = self.merged().ends
        self.assertEqual([[it[2] for it in end] for end in ends], [kinds[k % 5] for k in range(13)])
        self.assertEqual(list(self.merged().rows), ["a", "b", "c", "idle"])
        self.assertEqual(self.merged().rows["idle"], {"topped": 100, "free": 100, "reserved": 0, "charged": 0, "returned": 0})

    def test_all_charged(self):
        self.made({"a": 3, "b": 2})
        self.assertEqual(merge(self.folder), (5, False))
        self.assertEqual(self.merged().rows["a"], {"topped": 100, "free": 97, "reserved": 0, "charged": 3, "returned": 0})

    def test_references_change_nothing(self):
        self.made({"a": 3, "b": 2}, refs=True)
        self.assertEqual(merge(self.folder), (5, False))

    def test_a_chain_goes_on_with_what_is_left(self):
        self.made({"a": 25, "b": 3}, size=10)
        merge(self.folder)
        self.assertEqual(self.merged().rows["a"], {"topped": 100, "free": 75, "reserved": 0, "charged": 25, "returned": 0})

    def test_runs_are_in_the_order_of_their_numbers(self):
        self.made({"a": 25, "b": 3}, size=2)
        folders = [[it.split("/")[-1] for it in runs] for runs in Job(self.folder).runs()]
        self.assertEqual(folders, [[str(k + 1) for k in range(13)], ["1", "2"]])
        os.rename(f"{self.folder}/parts/02/2", f"{self.folder}/parts/01/9.1")
        self.assertEqual(Job(self.folder).runs()[0][8:11], [f"{self.folder}/parts/01/{it}" for it in ("9", "9.1", "10")])

    def test_a_tariff_is_heeded(self):
        tariff = [["44", "3"], ["447700900001", "5"], ["", "2"]]
        self.made({"a": 3}, config='tariff = "tariff.csv"', tariff=tariff)
        merge(self.folder)
        self.assertEqual(self.merged().rows["a"]["charged"], 3 + 5 + 3)

    def test_names_with_commas_and_lines(self):
        names = {'a, "b"': 2, "c\nd": 1, "e\rf": 1}
        self.made(names)
        merge(self.folder)
        self.assertEqual(list(self.merged().rows), list(names))
        with open(f"{self.folder}/report.csv", newline="") as file:
            self.assertIn('\n"a, ""b""",100,98,0,2,0\n"c\nd",100,99,0,1,0\n"e\rf",', file.read())

    def test_it_may_be_done_again(self):
        self.made({"a": 2})
        merge(self.folder)
        merge(self.folder)

    def test_what_a_cut_run_left_is_done_by_the_next(self):
        job = self.job({"a": 4, "b": 2})
        split(self.folder, 1)
        left = run(job, f"{self.folder}/parts/01/1", lambda k: [["charged"], ["bind-closed"], ["unsent", "unsent"]][k % 3])
        self.write_rest([1, 2, 4, 5])
        run(job, f"{self.folder}/parts/01/1.1", free=left)
        self.assertEqual(merge(self.folder), (6, False))
        self.assertEqual([len(it) for it in self.merged().ends], [1] * 6)
        self.assertEqual([it["returned"] for it in self.merged().rows.values()], [0, 0])
        self.assertEqual(sum(it["charged"] for it in self.merged().rows.values()), 6)

    def write_rest(self, numbers):
        """What is left of the first run, as a run of its own."""
        at, new = f"{self.folder}/parts/01/1", f"{self.folder}/parts/01/1.1"
        os.makedirs(new)
        messages = [it for _, it in records(f"{self.folder}/messages.csv")]
        put_lines([messages[0]] + [messages[k + 1] for k in numbers], f"{new}/messages.csv")
        put_lines([["message"]] + [[str(k)] for k in numbers], f"{new}/numbers.csv")
        self.assertTrue(os.path.exists(f"{at}/accounts.csv"))

    def test_what_was_begun_is_not_done_again(self):
        for outcomes in (["charged"], ["unanswered"], ["refused"], ["unsent", "charged"], ["bad-address"]):
            with self.subTest(outcomes):
                self.setUp()
                job = self.job({"a": 3})
                split(self.folder, 1)
                left = run(job, f"{self.folder}/parts/01/1", lambda k, it=outcomes: it if k == 1 else ["charged"])
                self.write_rest([1])
                run(job, f"{self.folder}/parts/01/1.1", free=left)
                self.differs(f"message 1 was begun by an earlier run, as {outcomes[0]}")


class Differing(Merging):
    def test_a_run_without_a_report(self):
        self.made({"a": 3, "b": 2})
        os.remove(f"{self.folder}/parts/02/1/report.csv")
        with self.assertRaisesRegex(Fault, "parts/02/1/report.csv: No such file"):
            merge(self.folder)

    def test_a_job_that_was_not_split(self):
        self.job({"a": 3})
        with self.assertRaisesRegex(Fault, "was not split"):
            merge(self.folder)

    def test_a_report_that_is_cut(self):
        self.made({"a": 3})
        self.edit("parts/01/1/report.csv", "account,topped,free,reserved,charged,returned\na,100,97,0,3,0\n", "")
        with self.assertRaisesRegex(Fault, "no report with a statement"):
            merge(self.folder)

    def test_a_report_that_lacks_a_message(self):
        self.made({"a": 3})
        self.edit("parts/01/1/report.csv", "2,1,1,charged,0,\n", "")
        self.differs("3 messages, 3 numbers, 3 of them unlike, 2 ends")

    def test_a_statement_that_is_no_sum(self):
        self.made({"a": 3})
        self.edit("parts/01/1/report.csv", "a,100,97,0,3,0", "a,100,98,0,2,0")
        self.differs("account a has .*'charged': 2.*and its parts come to .*'charged': 3")

    def test_a_statement_that_does_not_balance(self):
        self.made({"a": 3})
        self.edit("parts/01/1/report.csv", "a,100,97,0,3,0", "a,100,98,0,3,0")
        self.differs("account a doesn't balance")

    def test_credits_that_were_not_given(self):
        self.made({"a": 3})
        self.edit("parts/01/1/report.csv", "a,100,97,0,3,0", "a,101,98,0,3,0")
        self.differs("account a was given 101, and there were 100")

    def test_a_chain_that_begins_with_too_much(self):
        self.made({"a": 15}, size=10)
        self.edit("parts/01/2/report.csv", "a,90,85,0,5,0", "a,100,95,0,5,0")
        self.differs("account a was given 100, and there were 90")

    def test_an_account_in_two_parts(self):
        self.made({"a": 3, "b": 2})
        self.edit("parts/02/1/report.csv", "b,100,98,0,2,0\n", "b,100,98,0,2,0\na,97,97,0,0,0\n")
        self.differs("account a is in .*/01 too")

    def test_an_account_that_the_job_does_not_have(self):
        self.made({"a": 3})
        self.edit("parts/01/1/report.csv", "a,100,97,0,3,0\n", "a,100,97,0,3,0\nx,1,1,0,0,0\n")
        self.differs("the job has no account x")

    def test_an_account_that_the_statement_lacks(self):
        self.made({"a": 3, "b": 2}, parts=1)
        self.edit("parts/01/1/report.csv", "b,100,98,0,2,0\n", "")
        self.differs("message 1 is paid by b, which the statement doesn't have")

    def test_messages_that_were_changed(self):
        self.made({"a": 3})
        self.edit("messages.csv", "Text, number 2", "Text, number 9")
        self.differs("message 2 is another in")

    def test_accounts_that_were_changed(self):
        self.made({"a": 3})
        self.edit("accounts.csv", "a,100", "a,90")
        self.differs("account a was given 100, and there were 90")

    def test_a_run_that_is_missing(self):
        self.made({"a": 3, "b": 1})
        os.rename(f"{self.folder}/parts/02", f"{self.folder}/elsewhere")
        self.differs("message 1 is in no run")

    def test_a_message_twice_in_a_run(self):
        self.made({"a": 2})
        put_lines([["message"], ["0"], ["0"]], f"{self.folder}/parts/01/1/numbers.csv")
        self.differs("1 of them unlike")

    def test_an_account_twice_in_a_statement(self):
        self.made({"a": 3})
        self.edit("parts/01/1/report.csv", "a,100,97,0,3,0\n", "a,100,97,0,3,0\na,97,97,0,0,0\n")
        with self.assertRaisesRegex(Fault, "report.csv:7: a record of the statement has an account of its own"):
            merge(self.folder)

    def test_a_report_out_of_order(self):
        self.made({"a": 3}, lambda k: ["charged", "charged"])
        good = "1,1,1,charged,0,\n1,2,1,charged,0,\n"
        for bad in OUT_OF_ORDER:
            self.edit("parts/01/1/report.csv", good, bad)
            with self.assertRaisesRegex(Fault, "report.csv:[0-9]+: part .* can't stand here"):
                merge(self.folder)
            self.edit("parts/01/1/report.csv", bad, good)
        merge(self.folder)


class Sums(Merging):
    """The sums of the whole, which no fault of one run alone can spoil: here what was added up is altered."""

    def found(self):
        job = self.made({"a": 3, "b": 2})
        found = Merge(job)
        for runs in job.runs():
            for it in runs:
                found.add(runs[0].rsplit("/", 1)[0], it)
        return found

    def test_they_agree(self):
        found = self.found()
        found.compare()
        self.assertEqual(found.wrong, [])

    def test_sums_of_the_runs_that_are_others(self):
        found = self.found()
        found.sums["a"]["returned"] += 1
        found.compare()
        self.assertEqual(len(found.wrong), 1)
        self.assertIn("account a: the runs come to", found.wrong[0])

    def test_credits_that_are_lost(self):
        found = self.found()
        found.free["b"] -= 1
        found.compare()
        self.assertEqual(len(found.wrong), 1)
        self.assertIn("account b was given 100, and has 97 free", found.wrong[0])


class Costs(Merging):
    def test_the_longest_prefix_counts(self):
        self.job({"a": 1}, config='tariff = "tariff.csv"', tariff=[["44", "3"], ["4477", "5"]])
        job = Job(self.folder)
        self.assertEqual([job.cost(it) for it in ("+4477009", "447", "331", "")], [5, 3, 1, 1])
