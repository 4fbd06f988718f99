"""What words choose plants in tools/plants, how it takes stored answers away, and what shows a plant refused. Run by `python3 -m unittest discover tools/tests`."""
import importlib.machinery
import importlib.util
import os
import sys
import tempfile
import unittest

PLANTS = os.path.join(os.path.dirname(os.path.dirname(os.path.realpath(__file__))), "plants")
sys.dont_write_bytecode = True
LOADER = importlib.machinery.SourceFileLoader("plants", PLANTS)
plants = importlib.util.module_from_spec(importlib.util.spec_from_loader("plants", LOADER))
LOADER.exec_module(plants)


class Chosen(unittest.TestCase):
    def setUp(self):
        self.folder = tempfile.TemporaryDirectory()
        self.addCleanup(self.folder.cleanup)
        for name in ("one", "two"):
            os.makedirs(f"{self.folder.name}/{name}/plants")
            for plant in ("early", "late"):
                open(f"{self.folder.name}/{name}/plants/{plant}.edit", "w").close()
        os.mkdir(f"{self.folder.name}/bare")

    def chosen(self, *words):
        return plants.chosen_by(words, self.folder.name)

    def test_a_crate_is_all_its_plants(self):
        self.assertEqual(self.chosen("one"), {"one": set()})
        self.assertEqual(self.chosen("one/early", "one"), {"one": set()})

    def test_some_plants(self):
        self.assertEqual(self.chosen("one/early", "two/late", "one/late"), {"one": {"early", "late"}, "two": {"late"}})

    def test_what_is_not_there(self):
        self.assertEqual(self.chosen("one", "none"), "none has no folder plants")
        self.assertEqual(self.chosen("bare/early"), "bare has no folder plants")
        self.assertEqual(self.chosen("one/never"), "one has no plant never")
        self.assertEqual(self.chosen("one/"), "one has no plant ")


ANSWERS = """use Rattle.std.proofs.Common.{arith, refl}

pub returns-clause-long : goal.returns-clause-long
returns-clause-long g c = (
  refl,
  search rules,
)

pub returns : goal.returns
returns g c =
    let few = c.requires.few in

    omega arith
"""


class Answers(unittest.TestCase):
    def setUp(self):
        self.folder = tempfile.TemporaryDirectory()
        self.addCleanup(self.folder.cleanup)
        self.file = "proofs/book/Book/keep/Answers.antt"
        os.makedirs(f"{self.folder.name}/{os.path.dirname(self.file)}")
        with open(f"{self.folder.name}/{self.file}", "w", encoding="utf-8") as it:
            it.write(ANSWERS)

    def cut(self, place, *goals):
        said = "".join(f"./{self.file}:3:7: error: `{it}`: expected type `ℕ`\n" for it in goals)
        return plants.answers_cut(self.folder.name, {place: "an.edit"}, said)

    def test_an_answer_goes_with_all_its_lines(self):
        head, first, second = ANSWERS.partition("pub returns-clause-long")[0], *ANSWERS.split("pub ")[1:]
        self.assertEqual(plants.without_answer(ANSWERS, "returns-clause-long"), f"{head}pub {second}")
        self.assertEqual(plants.without_answer(ANSWERS, "returns"), f"{head}pub {first}")
        self.assertEqual(plants.without_answer(ANSWERS, "returns-clause"), ANSWERS)

    def test_those_that_no_longer_fit_go(self):
        place = ("src/book.rt", "keep", 1, 9, "Book")
        self.assertEqual(self.cut(place, "returns"), {self.file: plants.without_answer(ANSWERS, "returns")})
        self.assertNotIn("pub ", self.cut(place, "returns", "returns-clause-long")[self.file])
        self.assertEqual(self.cut(place), {})

    def test_those_of_other_functions_stay(self):
        self.assertEqual(self.cut(("src/book.rt", "drop", 1, 9, "Book"), "returns"), {})
        self.assertEqual(self.cut(("src/book.rt", "keep", 1, 9, ""), "returns"), {})
        self.assertEqual(self.cut(("src/share.rt", "keep", 1, 9, "Share"), "returns"), {})

    def test_a_function_and_a_method(self):
        for place in (("src/book/Book.rt", "keep", 1, 9, ""), ("src/book.rt", "keep", 1, 9, "Book"), ("src/keeping.rt", "keep", 1, 9, "Book")):
            self.assertIn(self.file, self.cut(place, "returns"))

    def test_the_type_of_a_method(self):
        heads = {
            "impl Book ": "Book",
            "impl<N: BookName + LogName, F: Fn(u8) -> u8> Book<'_, N, F> ": "Book",
            "impl<W: Write> io::Write for &mut files::Kept<W> where W: From<u8> ": "KeptWrite",
            "pub fn keep() -> u32 ": "",
        }
        self.assertEqual({head: plants.type_of(head) for head in heads}, heads)


SOURCE = """pub fn keep() -> u32 {
    1
}

pub fn drop() -> u32 {
    2
}
"""
KEEP = "src/book.rt:2:5: it is not proved that what the function ensures holds when it returns (`returns`)"
MISS = "./proofs/book/keep/Answers.antt:4:3: error: `returns-clause-long`: `search`: no proof of `1 ≡ 2` was found"
UNFIT = "./proofs/book/keep/Answers.antt:4:3: error: `returns-clause-long`: expected type `1 ≡ 1`"
PROVED = "logic=proved functions=2"


class Tried(unittest.TestCase):
    """What edits of a crate of two functions come to, where the prover's words are those of `says`, by what it is asked of."""

    def setUp(self):
        self.folder = tempfile.TemporaryDirectory()
        self.addCleanup(self.folder.cleanup)
        self.addCleanup(setattr, plants, "rt", plants.rt)
        plants.rt = lambda folder, *words: (0, self.says(plants.read(f"{folder}/src/book.rt"), plants.read(f"{folder}/{self.file}")))
        self.file = "proofs/book/keep/Answers.antt"
        for file, text in ((self.file, ANSWERS), ("src/book.rt", SOURCE)):
            os.makedirs(f"{self.folder.name}/{os.path.dirname(file)}")
            with open(f"{self.folder.name}/{file}", "w", encoding="utf-8") as it:
                it.write(text)
        os.mkdir(f"{self.folder.name}/plants")

    def edit(self, name, text):
        with open(f"{self.folder.name}/plants/{name}.edit", "w", encoding="utf-8") as it:
            it.write(text)
        return it.name

    def keeps_two(self, own=""):
        return self.edit("keeps_two", f"file: src/book.rt\nold:     1\nnew:     2\n{own}")

    def drops_three(self):
        return self.edit("drops_three", "file: src/book.rt\nold:     2\nnew:     3\n")

    def tried(self, *edits):
        groups, alone = plants.batches_of(self.folder.name, edits)
        self.assertEqual((len(groups), alone), (1, []))
        return plants.tried(self.folder.name, groups[0])

    def test_an_open_goal_refuses_the_edit_of_its_function(self):
        self.says = lambda source, answers: f"{KEEP}\nlogic=not-proved"
        one, other = self.keeps_two(), self.drops_three()
        self.assertEqual(self.tried(one, other), {one: ("refused", KEEP), other: ("NOT SHOWN", "")})

    def test_without_a_place_each_goal_counts(self):
        self.says = lambda source, answers: KEEP
        other = self.drops_three()
        self.assertEqual(plants.tried(self.folder.name, {None: other}), {other: ("refused", KEEP)})

    def test_a_search_in_a_stored_answer(self):
        self.says = lambda source, answers: MISS if source != SOURCE else PROVED
        one = self.keeps_two()
        self.assertEqual(self.tried(one), {one: ("refused", MISS[len("./"):])})

    def test_what_is_proved_is_not_refused(self):
        self.says = lambda source, answers: PROVED
        one = self.keeps_two()
        self.assertEqual(self.tried(one)[one][0], "NOT REFUSED")

    def test_what_does_not_compile_is_left_out(self):
        error = "src/book.rt:6:5: error[E0308]: mismatched types"
        self.says = lambda source, answers: error if "    3" in source else f"{KEEP}\nlogic=not-proved"
        one, other = self.keeps_two(), self.drops_three()
        self.assertEqual(self.tried(one, other), {one: ("refused", KEEP), other: ("NOT READ by the prover", error)})

    def test_a_stored_answer_alone_shows_nothing(self):
        # (without it the goal is open, whatever the body)
        self.says = lambda source, answers: (PROVED if source == SOURCE else f"rt: begins\n{UNFIT}") if "clause-long" in answers else KEEP
        one = self.keeps_two()
        self.assertEqual(self.tried(one), {one: ("NOT SHOWN", UNFIT)})

    def test_a_goal_behind_a_stored_answer(self):
        self.says = lambda source, answers: PROVED if source == SOURCE else UNFIT if "clause-long" in answers else KEEP
        one = self.keeps_two()
        self.assertEqual(self.tried(one), {one: ("refused", KEEP)})

    def test_a_goal_that_lost_its_name_says_nothing(self):
        lost = "src/book.rt:2:5: it is not proved that what the function ensures holds when it returns (`returns-2-clause-long`)"
        self.says = lambda source, answers: PROVED if source == SOURCE else f"{lost}\n{MISS.replace('long', 'all')}"
        one = self.keeps_two()
        with open(f"{self.folder.name}/{self.file}", "a", encoding="utf-8") as it:
            it.write("\npub returns-clause-all : goal.returns-clause-all\nreturns-clause-all g c = search rules\n")
        self.assertEqual(self.tried(one), {one: ("refused", MISS.replace("long", "all")[len("./"):])})
        self.says = lambda source, answers: PROVED if source == SOURCE else f"{lost}\n{MISS}"
        self.assertEqual(self.tried(one)[one][0], "NOT SHOWN")

    def test_a_later_goal_of_one_name(self):
        stored = {"returns-then-eq", "returns-then-eq-2", "loop-turn-preserved"}
        self.assertEqual(plants.renamed("returns-then-eq-3", stored), "returns-then-eq-2")
        self.assertEqual(plants.renamed("loop-turn-2-preserved", stored), "loop-turn-preserved")
        self.assertEqual([plants.renamed(it, stored) for it in ("returns-then-eq-2", "returns-then-eq", "loop-turn-3-preserved")], [None] * 3)

    def test_an_answer_of_its_own(self):
        self.says = lambda source, answers: MISS if source != SOURCE and "by_search" in answers else UNFIT if source != SOURCE else PROVED
        one = self.keeps_two(f"file: {self.file}\nold:   refl,\nnew:   by_search,\n")
        self.assertEqual(self.tried(one), {one: ("refused", MISS[len("./"):])})

    def test_an_answer_of_its_own_that_proves_nothing(self):
        self.says = lambda source, answers: MISS if "by_search" in answers else PROVED
        one = self.keeps_two(f"file: {self.file}\nold:   refl,\nnew:   by_search,\n")
        self.assertEqual(self.tried(one)[one][0], "NOT SHOWN")

    def test_an_answer_of_another_function_has_no_place(self):
        one = self.edit("drops", f"file: src/book.rt\nold:     2\nnew:     3\nfile: {self.file}\nold:   refl,\nnew:   by_search,\n")
        self.assertEqual(plants.batches_of(self.folder.name, [one]), ([], [one]))


if __name__ == "__main__":
    unittest.main()
