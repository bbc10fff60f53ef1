"""Tests of tools/c_examples.py, with compilers that are none."""
import unittest
from unittest import mock

import c_examples
from c_examples import EXAMPLES, different, main, written
from elf_to_policy import HEAD
from rooms import said

NOTED = (EXAMPLES / "compiler").read_text("ascii")
THERE = written(EXAMPLES)
OTHER = {**THERE, "sieve-1.s": THERE["sieve-1.s"] + ".word 0x00000000\n"}


def checked(compiler, texts):
    """The status and the lines of a check where this compiler makes these texts."""
    with mock.patch.multiple(c_examples, made=lambda: texts, tools_here=lambda: compiler):
        status, out, _ = said(main, ["--check"])
    return status, out.splitlines()


CHECKS = [  # the compiler that is here, what it makes, the status, and the first line
    (NOTED, THERE, 0, "c_examples: the same words"),
    ("another\n", THERE, 0, "c_examples: the same words"),
    (NOTED, OTHER, 1, "c_examples: sieve-1.s: other words"),
    ("another\n", OTHER, 0, "c_examples: sieve-1.s: other words"),
    (None, OTHER, 0, "c_examples: no mipsel-linux-gnu-gcc, so nothing is compared"),
]


class Tests(unittest.TestCase):
    def test_words_are_the_noted_compilers(self):
        for compiler, made, *wanted in CHECKS:
            status, lines = checked(compiler, made)
            self.assertEqual(wanted, [status, lines[0]])
        self.assertEqual([*NOTED.splitlines(), "and compiled by", "another"], checked("another\n", OTHER)[1][2:])

    def test_a_file_too_many_or_too_few_is_different(self):
        self.assertEqual(["sieve.toml"], different({name: text for name, text in THERE.items() if name != "sieve.toml"}))
        self.assertEqual(["more-1.s"], different({**THERE, "more-1.s": ""}))

    def test_what_a_person_wrote_is_not_compared(self):
        self.assertEqual((True, False, True), ("words.input" in THERE, "editor.input" in THERE, all(it.startswith(HEAD) for it in THERE.values())))
