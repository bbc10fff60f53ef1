"""Tests of tools/wrong_bodies.py, over a small crate in a folder of its own."""
import shutil
import subprocess
import sys
from pathlib import Path
from unittest import mock

from rooms import InARoom, placed, toy
from wrong_bodies import census, crates, proving

FILES = toy("wrong_bodies")
NUMBERS = FILES["specs/Numbers.antt"]
PROVED = "NOT REFUSED: the crate is still proved with this edit"
# By its name what is told of an edit, its old and new text, and its other lines.
EDITS = {
    "next.a_constant_named": ("refused by next next", "const FIRST: u32 = 1", "const FIRST: u32 = 3", "function: next", "clause: next"),
    "next.another_clause": ("NOT REFUSED: the clause up that it names is still proved with this edit", "n + FIRST", "n + FIRST + 3", "clause: up"),
    "next.another_of_two": ("NOT REFUSED: not by the clause up that it names; refused by next next", "n + FIRST", "n + FIRST + 3", "clause: up", "clause: next"),
    "twice.harmless": (PROVED, "sum(n, n)", "sum(n, n) + 0"),
    "order.green_is_red": ("refused by order ensures", "Lamp::Green => 4", "Lamp::Green => 3", "clause: ensures"),
    "order.red_is_green": ("refused by order ensures", "Lamp::Red => 3", "Lamp::Red => 4"),
    "order.harmless": (PROVED, "Lamp::Red => 3", "Lamp::Red => 2 + 1"),
    "of.ten_is_a_digit": ("refused by Digit::of invariant", "if n < 10 {", "if n < 11 {", "clause: invariant"),
    "rank.green_is_fifth": ("refused by LampRank::rank ensures", "Self::Green => 4", "Self::Green => 5"),
    "rank.red_is_sixth": ("refused by LampRank::rank ensures", "Self::Red => 3", "Self::Red => 6"),
    "rank.harmless": (PROVED, "Self::Red => 3", "Self::Red => 2 + 1"),
    "sum.one_too_many": ("NOT REFUSED: by no public clause, but by sum ensures", "} { a + b", "} { a + b + 1"),
    "sum.stands_for": ("refused by sum ensures, which stands for twice ensures", "} { a + b", "} { a + b + 2", "stands for: twice ensures"),
    "many.one_of_five": ("refused by many b", "{ 1 }", "{ 2 }", "clause: b"),
    "after.the_same": ("refused by the law a_number_is_below_the_next", "after n = n + 1", "after n = n", "law: a_number_is_below_the_next"),
    "double.another_row": (PROVED, "double n = n + n", "double n = n + n + n", "row: double_0_is_0"),
    "double.its_row": ("refused by the row double_2_is_4\n", "double n = n + n", "double n = n + n + n", "row: double_2_is_4", "law: a_number_is_below_the_next"),
    "double.harmless": (PROVED, "double n = n + n", "double n = n + (n + 0)"),
}
BAD = {
    "next.unknown": ("BAD EDIT: the prover cannot read it: ", "n + FIRST", "n + missing"),
    "double.open": ("BAD EDIT: the prover cannot read it: ", "double n = n + n", "double n = (n + n", "row: double_2_is_4"),
    "double.unknown": ("BAD EDIT: the prover cannot read it: ", "double n = n + n", "double n = n + missing", "row: double_2_is_4"),
    "twice.well": ("refused by twice ensures", "sum(n, n)", "sum(n, n) + 2"),
}
NOT_THERE = {"next.not_there": ("BAD EDIT: an 'old:' text is in src/lib.rt 0 times, and not once", "n + SECOND", "n")}


class Test(InARoom):
    def crate(self, edits, **others):
        """Writes a crate with its edits, each over the file that has its old text, and returns the folder."""
        shutil.rmtree(self.room / "crates", ignore_errors=True)
        files = dict(FILES)
        for name, (_, old, new, *lines) in edits.items():
            file = "specs/Numbers.antt" if old in NUMBERS else "src/lib.rt"
            files[f"wrong/{name}.edit"] = "\n".join([f"file: {file}", *lines, f"old: {old}", f"new: {new}", ""])
        files.update({f"wrong/{name}": text for name, text in others.items()})
        placed(self.room, {"crates.txt": "toy:\n", **{f"crates/toy/{path}": text for path, text in files.items()}})
        return self.room

    def ran(self, edits):
        """Runs the command, and returns its status and what it printed."""
        return subprocess.run([sys.executable, Path(__file__).with_name("wrong_bodies.py"), "--root", self.crate(edits)], capture_output=True, text=True)

    def lacks(self, edits, implied=""):
        with mock.patch.dict(census.EACH_CLAUSE, {"toy": ["next"]}):
            return census.census(crates.Repository(self.crate(edits, implied=implied)))

    def has_verdicts(self, edits, counts, said):
        for name, (verdict, *_) in edits.items():
            self.assertIn(f"\ntoy/{name}.edit: {verdict}", f"\n{said.stdout}")
        self.assertEqual((1, counts), (said.returncode, said.stdout.splitlines()[-1]))

    def test_each_edit_has_its_verdict(self):
        self.has_verdicts(EDITS, "10 refused, 8 not refused", self.ran(EDITS))

    def test_an_edit_that_is_no_code_is_told_and_nothing_is_proved_where_one_cannot_be_applied(self):
        self.has_verdicts(BAD, "1 refused, 3 not refused", self.ran(BAD))
        self.has_verdicts(NOT_THERE, "0 refused, 1 not refused", said := self.ran({**NOT_THERE, **BAD}))
        self.assertNotIn("twice.well", said.stdout)

    def test_copies_of_a_function_are_tried_side_by_side_but_not_two_edits_of_one_arm_of_a_method(self):
        edits = crates.Repository(self.crate({name: it for name, it in EDITS.items() if name.startswith(("order.", "rank."))})).crates["toy"].edits
        batches = [[it.name.removesuffix(".edit") for it in batch] for batch in proving.batches_of(edits, crates.Edit.clashes)]
        self.assertEqual([["order.green_is_red", "order.harmless", "order.red_is_green", "rank.green_is_fifth", "rank.harmless"], ["rank.red_is_sixth"]], batches)

    def test_what_lacks_its_edit_or_has_too_many_is_told(self):
        few = {it: EDITS[it] for it in ("next.a_constant_named", "of.ten_is_a_digit", "order.red_is_green", "rank.green_is_fifth")}
        lacking = ["toy: no edit of the law a_number_is_below_the_next", "toy: no edit of twice", "toy: no edit of many", "toy: no edit names next up"]
        self.assertEqual(lacking, self.lacks(few))
        few.update({it: EDITS[it] for it in ("sum.stands_for", "many.one_of_five", "after.the_same")})
        self.assertEqual([], self.lacks(few, "# what follows\nimplied: next up by next\n"))
        self.assertIn("toy/wrong/implied: there is nothing of this line: implied: next down by next", self.lacks(few, "implied: next down by next"))
        self.assertIn("toy: 4 edits of twice, more than 3", self.lacks({f"twice.{n}": ("", "sum(n, n)", f"sum(n, n) + {n}") for n in range(1, 5)}))
