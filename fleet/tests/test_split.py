import os

from jobs import CONFIG, config_of_run, messages_of, read_accounts, read_config, read_numbers
from splitting import dealt, runs_of, split
from tables import Fault, put_lines, put_text, table
from tests.helpers import Case


class Dealing(Case):
    def test_the_largest_goes_first_and_each_to_the_lightest(self):
        self.assertEqual(dealt({"a": 3, "b": 9, "c": 4, "d": 4}, 2), [["b"], ["c", "d", "a"]])

    def test_it_is_as_one_would_do_it_by_hand(self):
        counts = {str(k): k * 48271 % 101 for k in range(200)}
        loads, wanted = [0] * 7, [[] for _ in range(7)]
        for account in sorted(counts, key=lambda it: -counts[it]):
            k = loads.index(min(loads))
            loads[k] += counts[account]
            wanted[k].append(account)
        self.assertEqual(dealt(counts, 7), wanted)

    def test_there_are_no_empty_parts(self):
        self.assertEqual(dealt({"a": 1, "b": 1}, 5), [["a"], ["b"]])

    def test_equal_accounts_stay_in_order(self):
        self.assertEqual(dealt(dict.fromkeys("abcd", 1), 1), [list("abcd")])


class Runs(Case):
    def test_small_accounts_share_a_run_up_to_its_size(self):
        self.assertEqual(runs_of("abc", {"a": 5, "b": 5, "c": 1}, 10), [[("a", 0, 5), ("b", 0, 5)], [("c", 0, 1)]])

    def test_a_large_account_has_a_chain_of_its_own(self):
        runs = runs_of("ab", {"a": 25, "b": 3}, 10)
        self.assertEqual(runs, [[("a", 0, 10)], [("a", 10, 20)], [("a", 20, 25)], [("b", 0, 3)]])

    def test_an_account_of_exactly_a_run_is_no_chain(self):
        self.assertEqual(runs_of("a", {"a": 10}, 10), [[("a", 0, 10)]])

    def test_a_run_has_64_accounts_at_most(self):
        names = [str(k) for k in range(130)]
        runs = runs_of(names, dict.fromkeys(names, 1))
        self.assertEqual([len(it) for it in runs], [64, 64, 2])


class Splitting(Case):
    def test_each_message_is_in_one_run_as_it_stands_in_the_file(self):
        job = self.job({"a": 7, 'b, "c"': 3, "d": 2})
        self.assertEqual(split(self.folder, 2, 5), [[5, 2], [5]])
        found = {}
        for runs in job.runs():
            for it in runs:
                numbers = read_numbers(f"{it}/numbers.csv")
                self.assertEqual(numbers, sorted(numbers))
                for k, (_, message) in zip(numbers, table(f"{it}/messages.csv", ["account", "source", "destination", "text"])):
                    self.assertNotIn(k, found)
                    found[k] = message
        self.assertEqual([found[k] for k in range(12)], job.messages)

    def test_references_stay_with_their_messages(self):
        job = self.job({"a": 7, "b": 3}, refs=True)
        split(self.folder, 2, 5)
        runs = [it for part in job.runs() for it in part]
        found = {k: message for it in runs for k, message in zip(read_numbers(f"{it}/numbers.csv"), messages_of(it))}
        self.assertEqual([found[k] for k in range(10)], job.messages)
        self.assertEqual([it[4] for it in job.messages], [f"R, {k}" for k in range(10)])

    def test_credits_stand_in_one_run(self):
        job = self.job({"a": 7, "b": 3, "d": 2, "idle": 0}, credits=9)
        split(self.folder, 2, 5)
        found = {}
        for runs in job.runs():
            for it in runs:
                if os.path.exists(f"{it}/accounts.csv"):
                    for account, credits in read_accounts(f"{it}/accounts.csv").items():
                        self.assertNotIn(account, found)
                        found[account] = credits
        self.assertEqual(found, {"a": 9, "b": 9, "d": 9})
        self.assertFalse(os.path.exists(f"{self.folder}/parts/01/2/accounts.csv"))

    def test_config_and_tariff_go_along(self):
        self.job({"a": 1}, config='tariff = "tariff.csv"  # prices\naccounts = "accounts.csv"\n', tariff=[["44", "3"]])
        split(self.folder, 1)
        at = f"{self.folder}/parts/01/1"
        with open(f"{at}/tariff.csv") as one, open(f"{self.folder}/tariff.csv") as other:
            self.assertEqual(one.read(), other.read())
        self.assertEqual(read_config(f"{at}/{CONFIG}"), read_config(f"{self.folder}/{CONFIG}"))

    def test_a_byte_order_mark_and_empty_lines_are_passed_over(self):
        self.job({"a": 2})
        put_text("\ufeffaccount,source,destination,text\n\na,1,2,x\r\n\r\n", f"{self.folder}/messages.csv")
        self.assertEqual(split(self.folder, 1), [[1]])

    def test_a_job_is_split_once(self):
        self.job({"a": 1})
        split(self.folder, 1)
        with self.assertRaisesRegex(Fault, "was split already"):
            split(self.folder, 1)

    def test_a_split_that_was_cut_is_begun_anew(self):
        self.job({"a": 1})
        os.makedirs(f"{self.folder}/parts.new/07/1")
        split(self.folder, 1)
        self.assertEqual(os.listdir(f"{self.folder}/parts"), ["01"])


class Configs(Case):
    def test_only_the_names_of_files_are_changed(self):
        text = '# accounts = "x"\nhost = "accounts = 1"\n  accounts = \'../a "b".csv\' # who\nmessages="m.csv"\r\nwindow = 8'
        wanted = '# accounts = "x"\nhost = "accounts = 1"\n  accounts = "accounts.csv" # who\nmessages="messages.csv"\r\nwindow = 8'
        put_text(text, f"{self.folder}/send.toml")
        self.assertEqual(config_of_run(read_config(f"{self.folder}/send.toml"), "send.toml"), wanted)

    def test_a_config_without_them_stays_as_it_is(self):
        put_text('tariff = ""\nport = 1\n', f"{self.folder}/send.toml")
        self.assertEqual(config_of_run(read_config(f"{self.folder}/send.toml"), "send.toml"), 'tariff = ""\nport = 1\n')

    def test_a_name_that_cannot_be_changed_is_a_fault(self):
        put_text('accounts = """a.csv"""\n', f"{self.folder}/send.toml")
        with self.assertRaisesRegex(Fault, "lines of their own"):
            config_of_run(read_config(f"{self.folder}/send.toml"), "send.toml")


class Faults(Case):
    def refused(self, what):
        with self.assertRaisesRegex(Fault, what):
            split(self.folder, 2)
        self.assertFalse(os.path.exists(f"{self.folder}/parts"))

    def test_a_message_of_nobody(self):
        self.job({"a": 2})
        put_lines([["account", "credits"], ["b", "1"]], f"{self.folder}/accounts.csv")
        self.refused("messages.csv:2: no account 'a' in accounts.csv")

    def test_a_short_record_behind_a_text_of_two_lines(self):
        self.job({"a": 1})
        put_text('account,source,destination,text\na,1,2,"x\ny"\na,1,2\n', f"{self.folder}/messages.csv")
        self.refused("messages.csv:4: 4 fields are wanted")

    def test_another_header(self):
        self.job({"a": 1})
        put_text("account,source,dest,text\na,1,2,x\n", f"{self.folder}/messages.csv")
        self.refused("messages.csv:1: its first record has to be account,source,destination,text")

    def test_credits_that_are_no_number(self):
        self.job({"a": 1})
        for text in ("-1", "1 ", "", "x", "٣", "0" * 21, str(2**40 + 1)):
            put_text(f"account,credits\na,{text}\n", f"{self.folder}/accounts.csv")
            self.refused("accounts.csv:2: '.*' is no number from 0 to")

    def test_an_account_twice(self):
        self.job({"a": 1})
        put_text("account,credits\na,1\n\na,1\n", f"{self.folder}/accounts.csv")
        self.refused("accounts.csv:4: account 'a' is there twice")

    def test_a_tariff_that_is_none(self):
        self.job({"a": 1}, config='tariff = "tariff.csv"', tariff=[["44", "1"]])
        for lines in (["44,1", "44,2"], ["+44,1"], ["1" * 21 + ",1"], ["44,1001"], ["44"]):
            put_text("prefix,credits\n" + "".join(f"{it}\n" for it in lines), f"{self.folder}/tariff.csv")
            self.refused("tariff.csv:[23]: ")

    def test_files_that_are_missing(self):
        self.refused("send.toml: No such file")
        self.job({"a": 1})
        os.remove(f"{self.folder}/messages.csv")
        self.refused("messages.csv: No such file")

    def test_a_config_that_is_no_toml(self):
        self.job({"a": 1})
        put_text("port =", f"{self.folder}/send.toml")
        self.refused("send.toml: is no TOML")

    def test_a_fields_file_that_is_none(self):
        self.job({"a": 1})
        put_text("priority =", f"{self.folder}/urgent.toml")
        for name, why in (("urgent.toml", "is no TOML"), ("none.toml", "No such file")):
            with self.assertRaisesRegex(Fault, f"{name}: {why}"):
                split(self.folder, 1, fields=f"{self.folder}/{name}")
        self.assertFalse(os.path.exists(f"{self.folder}/parts"))

    def test_octets_that_are_no_utf_8(self):
        self.job({"a": 1})
        with open(f"{self.folder}/accounts.csv", "wb") as file:
            file.write(b"account,credits\n\xff,1\n")
        self.refused("accounts.csv: is no CSV in UTF-8")

    def test_no_messages(self):
        self.job({"a": 0})
        self.refused("messages.csv: has no messages")
