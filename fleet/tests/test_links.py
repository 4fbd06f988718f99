import os

import tables
from links import NOTHING_NOTED, State, beginning, doubt_of, here, is_left, noted, state_of
from tests.helpers import Case, ending


class Ends:
    def __init__(self, *outcomes):
        self.ends = [ending(it) for it in outcomes]


class Links(Case):
    def test_a_run_is_told_by_its_files(self):
        given = {"accounts.csv", "messages.csv", "numbers.csv"}
        self.assertIs(state_of(given - {"accounts.csv"}, False), State.WAITING)
        self.assertIs(state_of(given, False), State.READY)
        self.assertIs(state_of(given | {"journal"}, False), State.READY)
        self.assertIs(state_of(given | {"journal"}, True), State.CUT)
        self.assertIs(state_of(given | {"journal", "report.csv.new"}, True), State.CUT)
        for doubt in (State.DOUBTFUL, State.ELSEWHERE):
            self.assertIs(state_of(given | {"begun", "journal"}, True, doubt), doubt)
            self.assertIs(state_of(given | {"begun", "journal"}, False, doubt), doubt)
            self.assertIs(state_of(given | {"begun", "journal", "report.csv"}, True, doubt), doubt)
        self.assertIs(state_of(given | {"begun", "journal", "report.csv"}, True), State.CUT)
        self.assertIs(state_of(given | {"journal", "report.csv"}, True), State.ENDED)

    def test_a_journal_that_noted_nothing(self):
        head = b"journal,1," + b",".join([b"ab" * 32] * 3) + b",\n"
        trial = head.replace(b"journal", b"trial")
        rounds = b"journal,2,3,0,1,1,a,b,\n" + b"".join(b"round,1790000000000,%d,1,1\n" % it for it in range(2, 300))
        for nothing in (b"", b"jour", head[:-1], head, head + b"begun,1", head + b"begun,1,0", trial, trial + b"begun,1,0", rounds[:33], rounds):
            self.assertTrue(NOTHING_NOTED.fullmatch(nothing), nothing)
        lost = [b"\n", b"\0", b"\0" * 4096, head + b"\0\0", head + b"begun,1,0\n", head + b"begun,1,0\nsent,1,0", b"begun,1,0\n", head * 2, trial + head]
        for text in lost + [head + b"x" * 500, b"journal,3,,,,\n", b"round,1,2,1,1\n", rounds + b"begun,1,0\n"]:
            self.assertFalse(NOTHING_NOTED.fullmatch(text), text)

    def test_a_journal_of_a_run_of_a_ledger(self):
        """What stands before the journal is no note, whether it is whole or truncated."""
        accounts = b"account,credits\na,5\nb,7\n"
        head = b"run,1," + b"5c" * 16 + b",%d\n" % len(accounts) + accounts
        first = b"journal,1,a,b,c,\n"
        for size in range(len(head + first) + 1):
            self.assertFalse(self.notes((head + first)[:size]), size)
        for noted in (head + first + b"begun,1,0\n", head + first + b"refused,1,0,no-credit\n", head.replace(b"run,1", b"run,2"), head.replace(b"5c", b"5C")):
            self.assertTrue(self.notes(noted), noted)

    def notes(self, octets):
        tables.put_octets(octets, f"{self.folder}/journal")
        return noted(self.folder)

    def test_a_machine_that_went_down(self):
        place = ["one", "id", "start"]
        self.assertIsNone(doubt_of("one id start no-sync\n", place, True))
        self.assertIsNone(doubt_of("one id start sync\n", place, False))
        self.assertIsNone(doubt_of("one id before sync\n", place, True))
        self.assertIs(doubt_of("one id before sync\n", place, False), State.DOUBTFUL)
        self.assertIs(doubt_of("one id before no-sync\n", place, True), State.DOUBTFUL)
        for begun in ("two id start sync\n", "one other start sync\n", "", "one id start\n"):
            self.assertIs(doubt_of(begun, place, True), State.ELSEWHERE)
        self.assertIsNone(doubt_of(beginning(False), here(), False))

    def test_what_was_lost_is_gone_on_with(self):
        self.assertTrue(is_left(Ends(["charged"], ["bind-closed"], ["no-credit"])))
        self.assertTrue(is_left(Ends(["charged"], ["out-of-memory"])))

    def test_what_was_begun_or_lacks_credits_is_left_as_it_is(self):
        self.assertFalse(is_left(Ends(["charged"], ["no-credit"], ["unsent", "charged"], ["unsent"], ["refused"], ["bad-address"])))


class Files(Case):
    def calls(self, does):
        """What is let out to the disk and what is renamed, in order, while something is done."""
        noted, real = [], (os.fsync, os.rename)

        def fsync(it):
            noted.append(("disk", os.path.basename(os.readlink(f"/proc/self/fd/{it}"))))
            real[0](it)

        def rename(old, new):
            noted.append(("rename", os.path.basename(old), os.path.basename(new)))
            real[1](old, new)

        os.fsync, os.rename = fsync, rename
        try:
            does()
        finally:
            os.fsync, os.rename = real
        return noted

    def test_a_file_is_on_the_disk_before_its_name_and_the_name_before_what_follows(self):
        noted = self.calls(lambda: tables.put_text("x", f"{self.folder}/a"))
        self.assertEqual(noted, [("disk", "a.new"), ("rename", "a.new", "a"), ("disk", "job")])

    def test_a_file_without_room_gives_back_what_it_took(self):
        with self.assertRaises(ValueError), tables.new_file(f"{self.folder}/a", "w") as file:
            file.write("x")
            raise ValueError
        self.assertEqual(os.listdir(self.folder), [])
