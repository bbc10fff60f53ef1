"""Tests of tools/figures.py, over a small repository in a folder of its own."""
import json

from figures import main, page
from rooms import InARoom, placed, said, toy

LINES = """\
| `low` | 12 |  |  |  | 2 | 7 |
| `high` |  |  | 1 |  |  |  |
| all | 12 | 0 | 1 | 0 | 2 | 7 |
| rows | 2 |
| of these, at a start of Random that they name | 1 |
| tables | 1 |
| cases of the tables | 17 |
| bus | 4 |
| `rt ci` | 2026-11-26 | 2 | 47 | 90 | `9 passed, 0 failed` |
""".splitlines()


class Figures(InARoom):
    files = toy("figures")

    def main(self, *words):
        return said(main, list(words), self.room)[:2]

    def test_the_page_has_what_is_counted_and_what_was_measured(self):
        lines = page(self.room).splitlines()
        self.assertEqual([], [it for it in LINES if it not in lines])
        self.assertNotIn("    said", lines)

    def test_a_page_that_is_missing_or_differs_is_told_until_it_is_written(self):
        told = f"{self.room}/docs/figures.md is otherwise\n"
        self.assertTrue(self.main("--check")[1].startswith(told))
        self.assertEqual([0, 0], [self.main()[0], self.main("--check")[0]])
        placed(self.room, {"crates/low/wrong/three.edit": ""})
        status, said_of_it = self.main("--check")
        self.assertEqual((1, True), (status, said_of_it.startswith(told)))

    def test_seconds_are_taken_over_and_others_stay(self):
        placed(self.room, {"kept": json.dumps([["low", "proof", 20.0], ["high", "with tests", 5.0], ["", "other", 3.0]])})
        self.assertEqual((0, ""), self.main("--seconds", f"{self.room}/kept"))
        self.assertLessEqual({"| `low` | 20 |  |  |  | 2 | 7 |", "| `high` |  | 5 | 1 |  |  |  |"}, set(page(self.room).splitlines()))

    def test_other_words_are_refused(self):
        for words in (["--seconds"], ["--wrong"]):
            self.assertEqual(2, self.main(*words)[0])
