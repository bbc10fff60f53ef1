"""Tests of the verdicts that tools/refused_growths.py gives, over programs that a small model plays, and of its library over a command of the system."""
import shutil
import subprocess
import tempfile
import unittest
from concurrent.futures import ThreadPoolExecutor

from refused_growths import MEMORY, TOLD, Program, Row, Run, Wrong, check_cuts, compiled, main, passed, tests_of, tried
from rooms import placed, said, toy

BEFORE, ALL = 6, 9  # the growths before a run, and in all; each of the others comes a turn later
WHOLE = b"time 3\n"
AGAIN = 2  # a growth that is asked for again


def mark_of(refuse):
    return (int(refuse.rstrip(".")), refuse.endswith("..")) if refuse else (ALL + 1, False)


class Played:
    """A program that answers as it has to, but where it is told to answer otherwise."""

    def __init__(self, other):
        self.other = other

    def answer(self, ticks, refuse):
        growth, on = mark_of(refuse)
        end = min(ticks, 3)
        last = BEFORE + end
        if growth > last or growth == AGAIN and not on:
            return Run(0, b"time %d\n" % end, b"")
        return Run(MEMORY, b"" if growth <= BEFORE else b"time %d\n" % (growth - BEFORE - 1), TOLD)

    def run(self, words, cwd=None, refuse=None, growths=None):
        return self.other.get(refuse) or self.answer(int(words[-1]), refuse)

    def counted(self, words, cwd=None):
        return self.run(words), BEFORE + min(int(words[-1]), 3)


class Tested:
    """A program of tests, of which one has four growths and may fail."""

    def __init__(self, fails=()):
        self.fails = fails

    def run(self, words, cwd=None, refuse=None, growths=None):
        if words == ["--list"]:
            return Run(0, b"a::for_want_of_memory_it_stays: test\na::it_stays: test\nb::after_want_of_memory_it_stays: test\n", b"")
        return Run(1 if refuse in self.fails else 0, b"", b"")

    def counted(self, words, cwd=None):
        return self.run(words), 4


ROW = Row("a row", "/", "policy", 3, (0, 1, 2, 3))
DONE = Run(0, WHOLE, b"")
FINE = [  # what is answered otherwise, and how often the run is whole all the same
    ({}, 1), (dict.fromkeys(("8", "9", "8..", "9.."), DONE), 5)]
WRONG = [  # what is answered otherwise, and what is told then
    ({"6": Run(MEMORY, b"time 0\n", TOLD)}, "growth 6 of 9: before the run it wrote"),
    *(({"7..": Run(MEMORY, text, TOLD)}, "growth 7.. of 9: this is no text of whole turns") for text in (b"", b"time 0", b"time 9\n")),
    ({"3..": DONE}, "growth 3.. of 9: the status is 0"),
    ({"2": Run(0, b"time 2\n", b"")}, "growth 2 of 9: the status is 0"),
    ({"9": DONE, "8..": DONE}, "growth 8.. of 9: the status is 0"),
    ({"8": DONE, "8..": DONE}, "growth 8.. of 9: the status is 0"),
    *(({"4": run}, "growth 4 of 9: the status is") for run in (Run(1, b"", TOLD), Run(-11, b"", b""), Run(MEMORY, b"", b""), Run(MEMORY, b"", b"dsmon: 23 WriteFault\n"))),
    ({"7": Run(MEMORY, b"time 2\n", TOLD)}, "a later growth was refused earlier"),
]


class Tests(unittest.TestCase):
    def setUp(self):
        self.lanes = ThreadPoolExecutor(2)
        self.addCleanup(self.lanes.shutdown)

    def test_each_growth_is_counted_where_all_is_right_and_what_is_wrong_is_told(self):
        for other, wholes in FINE:
            self.assertEqual(tried(Played(other), ROW, self.lanes), (ALL, ALL - BEFORE, wholes))
        for other, why in WRONG:
            with self.assertRaisesRegex(Wrong, why):
                tried(Played(other), ROW, self.lanes)

    def test_a_guest_that_grows_too_little_is_wrong(self):
        first, byte, line = (b"console 0 %d\n%s\nlog %d\n" % it for it in ((0, b"", 0), (1, b".", 0), (1, b".", 1)))
        check_cuts([first, byte, line], first)
        for texts, why in (([byte, line], "before its first turn"), ([first, line], "after a byte"), ([first, byte], "after a line of the log")):
            with self.assertRaisesRegex(Wrong, f"no run was cut {why}"):
                check_cuts(texts, first)

    def test_the_tests_about_memory_pass_whichever_growth_is_refused(self):
        self.assertEqual(tests_of(Tested()), ["a::for_want_of_memory_it_stays", "b::after_want_of_memory_it_stays"])
        self.assertEqual(passed(Tested(), "a", self.lanes), 4)
        for mark in ("3", "2.."):
            with self.assertRaisesRegex(Wrong, f"test a, growth {mark} of 4"):
                passed(Tested([mark]), "a", self.lanes)

    def test_the_library_counts_growths_and_refuses_them(self):
        with tempfile.TemporaryDirectory() as folder:
            library = compiled(folder)
            if not shutil.which("cc"):
                self.skipTest("no C compiler")
            source, program = f"{folder}/three.c", f"{folder}/three"
            placed(folder, toy("refused_growths"))
            subprocess.run(["cc", "-O0", source, "-o", program], check=True)
            three = Program(library, program)
            self.assertEqual(three.counted([]), (Run(0, b"", b""), 3))
            self.assertEqual([three.run([], refuse=it).status for it in ("1", "2", "3", "1..", "2..", "3..", "4")], [4, 2, 1, 7, 3, 1, 0])

    def test_what_was_not_built_is_told(self):
        status, out, _ = said(main, "/no/dsmon", "/no/tests")
        self.assertEqual(status, 0)
        self.assertIn("/no/dsmon was not built", out)
