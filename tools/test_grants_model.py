"""Tests of tools/grants_model.py, over the lines that tools/grants_cases.py answers: each refusal is asked with each other, and an end comes to drops."""
import copy
import random
import unittest
from itertools import combinations

from grants_cases import CRATE, Model, answer

DATA = CRATE / "data" / "parts" / "grants"
TOGETHER = {  # what can speak against a call together
    "give": "12-13 12-14 12-15 12-18 13-14 13-15 13-16 13-17 13-11 13-18 14-15 14-16 14-17 14-11 14-18 15-16 15-17 15-11 "
            "15-18 16-18 17-11 17-18 11-18",
    "grant": "12-13 13-17 13-11 17-11",
    "take": "12-13 12-14 12-19 13-14 13-19 14-19",
    "drop": "12-13 12-14 13-14", "narrow": "12-13 12-14 13-14", "revoke": "12-13 12-14 13-14"}
# What can speak against a call alone: where there is no process, or no page, there is no entry either.
ALONE = {"give": "12 13 15 16 17 11 18", "grant": "12 13 16 17 11", "take": "19", "drop": "14", "narrow": "14", "revoke": "14"}


class Tests(unittest.TestCase):
    def test_each_refusal_is_asked_alone_and_with_each_other_that_can_hold(self):
        told = [line.partition("  # ") for line in (DATA / "refusals.txt").read_text().splitlines()[2:]]
        asked = {(line.split()[0], tuple(reasons.split())) for line, _, reasons in told if reasons}
        for call, pairs in TOGETHER.items():
            sets = [reasons for verb, reasons in asked if verb == call]
            self.assertEqual({"-".join(pair) for reasons in sets for pair in combinations(reasons, 2)}, set(pairs.split()), call)
            self.assertEqual({reasons[0] for reasons in sets if len(reasons) == 1}, set(ALONE[call].split()), call)

    def test_a_page_and_its_copy_have_other_bytes_only_in_other_frames(self):
        model = Model(1, 4, 1)
        for asked in ("write 0 5", "grant 1 00001000 0 write give 1", "give 1 00001000 1 00002000 3", "split 1 00001000", "write 0 6"):
            self.assertEqual(answer(model, asked)[1], "ok")
        self.assertEqual(([6, 5], [1, 0], {1}), (model.bytes[:2], model.lies[:2], model.marked))

    def test_an_end_comes_to_drops_one_after_the_other_in_any_order(self):
        rng, met, model = random.Random(15), 0, None
        for k, line in enumerate((DATA / "sequences.txt").read_text().splitlines()[2:]):
            model = answer(model, line.rpartition(" = ")[0])[0]
            for p in model.table.rows if k % 40 == 0 else ():
                ended, dropped, order = copy.deepcopy(model), copy.deepcopy(model), list(model.row(p))
                ended.end(p)
                rng.shuffle(order)
                for at in order:
                    dropped.remove([(p, at)])
                self.assertEqual(ended.table, dropped.table)
                met += any(entry.parent in [(p, at) for at in order] for entry in model.row(p).values())
        self.assertGreater(met, 20)
