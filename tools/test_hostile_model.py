"""Tests of tools/hostile_model.py, with the turns, grants and late copies below it. Rows that were written by hand are compared by tools/trace_model.py."""
import re
import unittest

from case_files import DATA, escaped
from hostile_model import Hostile, NotQuiet, decode, encode
from trace_model import image

CODE, PAGE = 0x40_0000, 0x41_0000
LATE = {  # by hand: what each process puts of the rows of late copies, which is what was stored for it
    **dict.fromkeys(("copies_of_copies_1234", "copies_of_copies_4321", "copies_of_copies_2413"), [b"zaa", b"zbb", b"zcc", b"zdd"]),
    "original_dropped": [b"axx", b"a", b"bbbdcd", b"aee"], "original_taken": [b"0a", b"", b"bbc", b""],
    "frames_all_used": [b"00BaBabc00dbade", b"", b"", b""], "store_in_a_slot": [b"ababc", b"", b"", b""], "../../examples/late_copy": [b"b", b"ac", b"b", b""]}
QUIET = ["lui $8,0x41\nlw $9,0($8)\nlwl $9,5($8)", "lui $26,0x41\nlw $9,0($26)", "lui $8,0x41\nlw $9,0($8)\naddiu $9,$0,1\naddu $4,$9,$0"]
NOT_QUIET = ["addu $4,$26,$0", "lui $8,0x41\nsw $27,0($8)", "lui $8,0x41\nlw $9,0($8)\naddu $4,$9,$0", "lui $26,0x41\nlw $9,0($26)", "lui $8,0x41\nlwl $26,0($8)"]


def text_of(source, n, data=()):
    """What a run of one process with its code, and with data where it may write any, comes to."""
    rules = [(1, CODE, "read", 0, False), *((1, it, "write", 1, False) for it in data)]
    run = Hostile([(CODE, 0)], [image(source).ljust(4096, b"\0"), bytes(4096)], 2, 16, rules, 0, [])
    run.run(n)
    return run.text()


class Tests(unittest.TestCase):
    def test_each_word_is_the_instruction_that_it_was_made_of(self):
        for it in (("addiu", 9, 8, 0xFFFF), ("lw", 9, 4, 8), ("sll", 9, 8, 31), ("jalr", 31, 8), ("bltzal", 8, 0xFFFE), ("mult", 8, 9), ("break",)):
            self.assertEqual(decode(encode(*it)), it)

    def test_a_program_that_could_tell_of_a_touch_is_not_run(self):
        for source in NOT_QUIET:
            self.assertRaises(NotQuiet, text_of, source, 10, [PAGE])
        for source in QUIET:
            self.assertIn(b"\ntime 10\n", text_of(source, 10, [PAGE, 0]))

    def test_what_each_process_puts_is_what_was_stored_for_it(self):
        found = {name: re.findall(rb"^console \d \d+\n(.*)$", (DATA / "grants/late" / f"{name}{'.' if '.' in name else '/'}expected").read_bytes(), re.M) for name in [*LATE, "copies_of_one"]}
        self.assertEqual([sorted(it) for it in found.pop("copies_of_one")], [sorted(b"00B|az"), sorted(b"||"), sorted(b"|2"), sorted(b"|")])
        self.assertEqual(found, LATE)

    def test_bytes_are_written_as_a_file_of_cases_has_them(self):
        self.assertEqual(escaped(b"console 0 4\n=\n\\\xff\nconsole 1 0\n\nlog 0\ntime 1\n"), "console 0 4\n\\x3D\\x0A\\x5C\\xFF\nconsole 1 0\n\nlog 0\ntime 1\n")
