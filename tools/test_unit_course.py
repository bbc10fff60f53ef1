"""Tests of tools/unit_course.py: it passes over the course as it is, and fails over others."""
import unittest

from rooms import said
from unit_course import EXPECTED, State, begins, main, nexts


def pushes_out(s):
    """A double miss that pushes out what the unit wrote."""
    return [it._replace(buffer=it.buffer - s.written) for it in nexts(s)] if s.place[0] == "double miss" else nexts(s)


def copy_counts(s):
    """A copy that counts an instruction."""
    return [it._replace(spent=it.spent + 1) for it in nexts(s)] if s.place == ("service",) else nexts(s)


def word_counts_not(s):
    """A word that is not counted."""
    return [it._replace(spent=s.spent) for it in nexts(s)] if s.place[:1] == ("word",) and s.place[2] == 3 else nexts(s)


class Tests(unittest.TestCase):
    def test_another_most_is_told(self):
        status, out, _ = said(main, expected={**EXPECTED, "instructions": 60})
        self.assertEqual((1, "61 instructions, and not 60", len(EXPECTED) + 1), (status, out.splitlines()[0], len(out.splitlines())))

    def test_another_course_is_found(self):
        for course in (pushes_out, copy_counts, word_counts_not):
            self.assertEqual(1, said(main, course)[0], course.__doc__)
        self.assertTrue(said(main, pushes_out)[1].splitlines()[-1].startswith("not tallied: State("))

    def test_a_unit_that_meets_nothing_ends_after_its_slot(self):
        [first] = [it for it in begins() if it == State(True, ("begun",), frozenset("FSAEfsae"), True, frozenset("A"))]
        [slot] = nexts(first)
        [service] = nexts(slot)
        self.assertEqual((2, [], frozenset()), (service.spent, nexts(service), service.met))
