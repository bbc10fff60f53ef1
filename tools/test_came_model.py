"""Tests of tools/came_model.py: it comes to texts that were written by hand, and flags add what they say and nothing else."""
import unittest

import case_files
import trace_model
from came_model import BAD_MEMORY, BY_HAND, PIECE, BadMemory, Window, came, window_of
from case_files import DATA, files_in, policy_text

CODE = policy_text("", 2, 0, [(0x40_0000, 0)], [("code", "one.s", 0), ("data",)], [
    (1, 0x40_0000, "read", "code", False), (1, 0x41_0000, "read", "data", False)])
# What README.md has as its first example.
DENIED = "lui $8,0x41\nlw $9,8($8)\nsw $0,8($8)\n"
EMPTY = "console 0 0\n\nconsole 1 0\n\nconsole 2 0\n\nconsole 3 0\n\n"
LINE = "2 1 00400008 store 00410008 r2 1"
# Puts HI, waits for a character, and ends.
WAITS = "addiu $4,$0,72\naddiu $2,$0,1\nsyscall\naddiu $4,$0,73\naddiu $2,$0,1\nsyscall\naddiu $2,$0,9\nsyscall\naddiu $2,$0,0\nsyscall\n"
UNKNOWN = f"addiu $2,$0,12\nsyscall\n{WAITS}"
MANY = f"3 key 0 {'61' * 65}\n4 key 2 {'62' * 66}\n4 key 0 63\n"  # 64 come in at each time, so 1 is lost, and then 2 and 1
PUT, OUT = EMPTY.replace("0 0\n", "0 2\nHI", 1), f"{EMPTY}log 1\n{LINE}\ntime 10\n"
STANDS = f"out of ticks at 10\nprocess 1 parked 00400008 by {LINE}: rule 2 does not grant writing here\ndenied r2 1\n"
MUST_END = f"dsmon: process 1 has not ended: it is parked at 00400008 by {LINE}: rule 2 does not grant writing here\n"
MEMORY = "memory 1 00400000: 3C080041 8D090008 AD000008\nmemory 1 00410FFC: 00000000 -\n"
ENDED = "ended at 12\nprocess 1 ended 00400030\n"
LOST = "1 call of a number that is no call\n2 characters lost on console 0, the first at time 3\n2 characters lost on console 2, the first at time 4\n"
KEY = f"{PIECE + 4} key 0 41\n"
ANY = object()
TEXTS = [  # by hand: a source, words, an input; the status, and the two texts
    (DENIED, "10", "", 0, OUT, ""),
    (DENIED, "10 --summary", "", 0, OUT, STANDS),
    (DENIED, "10 --must-end", "", 4, OUT, MUST_END),
    (DENIED, "10 --must-end --summary", "", 4, OUT, STANDS + MUST_END),
    (DENIED, "10 --memory 1:00400000:3 --memory 1:00410FFC:2", "", 0, OUT + MEMORY, ""),
    (DENIED, "2 --must-end", "", 4, ANY, "dsmon: process 1 has not ended: it is ready at 00400008, and the ticks ran out\n"),
    (WAITS, "20 --must-end", "", 4, f"{PUT}log 0\ntime 20\n", "dsmon: process 1 has not ended: it waits for a character at 00400020\n"),
    (WAITS, "20 --must-end --summary", "15 key 0 41\n", 0, f"{PUT}log 0\ntime 17\n", "ended at 17\nprocess 1 ended 00400028\n"),
    # A bound is looked at after each piece, and the log counts as the consoles do.
    (WAITS, f"{PIECE + 100} --most 2 --must-end", KEY, 0, ANY, ""),
    (WAITS, "100 --most 2 --must-end", "", 4, ANY, ANY),
    (WAITS, "2 --most 0", "", 0, f"{EMPTY}log 0\ntime 2\n", ""),
    (DENIED, f"10 --most {len(LINE)}", "", 3, ANY, ANY),
    (DENIED, f"10 --most {len(LINE) + 1}", "", 0, ANY, ANY),
    (UNKNOWN, "50 --summary", MANY, 0, ANY, ENDED + LOST),
    (UNKNOWN, "50 --summary --most 100", MANY, 0, ANY, ENDED),
    (DENIED, "0" + " --memory 1:0:1" * 8, "", 0, ANY, ANY),
    (DENIED, "0" + " --memory 1:0:1" * 9, "", 1, "", BAD_MEMORY),
    # A process that is not there is told before a source is read.
    ("no instruction", "10 --summary --memory 1:0:1 --memory 3:0:1 --memory 2:0:1", "", 2, "", "dsmon: 12 NoProcess 3\n"),
]


def came_of(source, words, given=""):
    """What a source comes to: its status, and its two texts."""
    texts = {"policy.toml": CODE, "input.txt": given, "one.s": source}
    status, out, err = came(texts.__getitem__, f"run policy.toml input.txt {words}".split())
    return status, out.decode(), err.decode()


class Tests(unittest.TestCase):
    def test_texts_that_were_written_by_hand_come_out(self):
        for source, words, given, *wanted in TEXTS:
            found = came_of(source, words, given)
            self.assertEqual(tuple(it if want is ANY else want for want, it in zip(wanted, found)), found, words)

    def test_a_bound_is_looked_at_after_each_piece(self):
        for n, most, time, told in (
            (PIECE, 1, PIECE, "out of ticks at 65536"), (PIECE + 1, 1, PIECE, "stopped at 65536"), (2 * PIECE, 0, PIECE, "stopped at 65536"), (100, 1, 100, "out of ticks at 100"), (5, 0, 5, "out of ticks at 5"),
        ):
            status, out, err = came_of(WAITS, f"{n} --most {most} --summary --must-end", KEY)
            self.assertEqual((3, f"time {time}", told, "dsmon: 27 TooMuch"), (status, out.splitlines()[-1], err.splitlines()[0], err.splitlines()[-1]))
            self.assertNotIn("has not ended", err)

    def test_words_of_memory_are_read(self):
        for text, window in (("1:00410000:8", Window(1, 0x410000, 8)), ("12:0x7fC:3", Window(12, 2044, 3)), ("0100:0:1024", Window(100, 0, 1024)), ("1:FFFFF000:1024", Window(1, 0xFFFFF000, 1024))):
            self.assertEqual(window_of(text), window)
        for text in ("", "1", "1:0", "1:0:", ":0:1", "1::1", "1:0:1:1", "1:2:1", "0:0:1", "101:0:1", "1:0:0", "1:0:1025", "1:FFFFF004:1024", "1:000410000:1", "1:0X4:1", "1:0:0x1", "+1:0:1", "1:0 :1"):
            self.assertRaises(BadMemory, window_of, text)

    def test_flags_stand_anywhere_and_with_an_equals_sign(self):
        one, other = "run p i 5 --most 3 --memory 1:0:1 --summary", "run --summary --most=3 p --memory=1:0:1 i 5"
        self.assertEqual(*(trace_model.asked(it.split()) for it in (one, other)))

    def test_a_summary_adds_lines_to_standard_error_and_nothing_else(self):
        for folder, words in (("parked", "run ../two.toml resume.input 60"), ("kinds", "trace kinds.toml ../../nothing.input 100"), ("lost", "trace ../one.toml many.input 1000 --only end")):
            for flags in ("", " --must-end", " --memory 1:00410000:4"):
                plain, summed = (came(files_in(DATA / "came" / folder), f"{words}{flags}{it}".split()) for it in ("", " --summary"))
                self.assertEqual((plain.status, plain.out), (summed.status, summed.out))
                self.assertTrue(summed.err.endswith(plain.err) and summed.err != plain.err)

    def test_rows_that_were_written_by_hand_are_so_where_the_model_knows_them(self):
        for it in case_files.rows():
            if it.folder == DATA / BY_HAND and it.text.name in ("memory", "no_process_2", "no_process_100"):  # (of the others it knows nothing)
                self.assertEqual(came(files_in(it.folder), it.words), (it.status, b"", it.text.read_bytes()), it.line)
