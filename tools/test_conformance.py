"""Tests of tools/conformance.py: its guests on a plain model, and how it compares, without any peer."""
import struct
import tempfile
import unittest
from unittest import mock

import conformance
from conformance import REASONS, Table, differing, same_text, words_drawn
from conformance_guests import (
    BLOCKS, CASES, CODE, EDGES, MINE, OUT, PLACES, RESULTS, SUMS, TABLE, bare_end, buffer_guest, bytes_of, call, dsmon_end, elf_of, fault_guest, faults, guest_of,
    handler, late_guest, pairs)
from elf_program import program_of
from hostile_model import CODES, LOADS, Hostile, decode, encode, signed
from rooms import said

FEW = [(5, 3), (0x8000_0000, 0x8000_0000), (0xFFFF_FFFF, 2), (0x1234_5678, 0x9ABC_DEF0)]


def run_of(segments):
    """A run of a guest on the model of hostile/: its console and its log."""
    pages = program_of("guest", elf_of(segments), 0).pages
    rules = [(1, at, page.right, number, False) for number, (at, page) in enumerate(pages.items())]
    run = Hostile([(CODE, 0)], [bytes(it.data) for it in pages.values()], len(pages), len(pages), rules, 0, [])
    run.run(200_000)
    return bytes(run.consoles[0]), run.log


SUMS_OF_TWO = {
    "addu": lambda a, b: a + b, "subu": lambda a, b: a - b, "nor": lambda a, b: ~(a | b), "sltu": lambda a, b: a < b, "slt": lambda a, b: signed(a) < signed(b),
    "srav": lambda a, b: signed(a) >> (b & 31)}
SAME = [  # texts of two readers that say the same
    ("andi $25,$18,0x0943", "andi\t$25,$18,0x943"), ("beq $1,$2,.-8", "beq $1,$2,0xfffffffc"), ("div $5,$28", "div $0,$5,$28"), ("div $0", "div $0"),
    ("nop", "sll $0,$0,0x0"), ("jalr $31,$2", "jalr $2"), ("sub $1,$0,$2", "neg $1,$2")]
OTHER = [("lb $1,-1($2)", "lb $1,1($2)"), ("beq $1,$2,.-4", "beq $1,$2,0xfffffffc"), ("div $1", "div $0,$1"), ("lbu $1,0($2)", "lb $1,0($2)")]


def results(operands):
    """What a guest tells of each case over operands: the name, the pair and the result; with its segments."""
    segments, names = guest_of(operands, 0, dsmon_end)
    console, log = run_of(segments)
    return [(name, pair, it) for (name, pair), (it,) in zip(names, struct.iter_unpack("<I", bytes_of(console)), strict=True)], log, segments


class Tests(unittest.TestCase):
    def test_a_guest_tells_what_each_instruction_makes_of_its_operands(self):
        found, log, segments = results(FEW)
        self.assertEqual(([CODE, TABLE, RESULTS], []), ([it[0] for it in segments], log))
        for name, wanted in SUMS_OF_TWO.items():
            self.assertEqual([(pair, wanted(*pair) & 0xFFFF_FFFF) for pair in FEW], [(pair, it) for its, pair, it in found if its == name])
        self.assertEqual([15, 0], [it for name, pair, it in found if name == "mult" and pair[0] == 5])

    def test_branches_tell_whether_they_go_and_what_they_link(self):
        found, _, segments = results([(0, 0), (1, 0)])
        self.assertEqual([(0, 1), (1, 3)], [(pair[0], it) for name, pair, it in found if name == "beq"][::2])
        self.assertEqual([(0, 3), (1, 1)], [(pair[0], it) for name, pair, it in found if name == "bgtz"][::2])
        [link] = {it for name, _, it in [it for it in found if it[0] == "bgezal"][1::2]}
        self.assertTrue(0 < link < len(segments[0][1]) and link % 4 == 0)

    def test_each_instruction_is_met_and_each_pair_of_edges(self):
        met = {name for name, *_ in CASES} | {decode(word)[0] for _, words, *_ in CASES for word in words}
        self.assertEqual({"syscall", "break", "j", "jal"}, set(CODES) - met)
        self.assertEqual(set(CODES), {decode(it)[0] for it in words_drawn(1)} - {"raises"})
        self.assertEqual((pairs(1), len(EDGES) ** 2 + 60), (pairs(1), len(set(pairs(1)))))
        self.assertNotEqual(pairs(1), pairs(2))

    def test_the_guest_of_the_buffer_keeps_as_many_results_as_it_tells(self):
        kept = encode("addiu", OUT, OUT, 4)
        held, count = buffer_guest(1, bare_end)
        self.assertLessEqual(len(handler()), 32)
        self.assertEqual(count, [it for it, in struct.iter_unpack("<I", held)].count(kept) + 60 * handler().count(kept))

    def test_loads_are_late_in_the_guest_of_late_loads(self):
        held, count = late_guest(1, 0, 0, lambda first, size: [])
        names = [decode(it) for it, in struct.iter_unpack("<I", held)]
        early = [(one, other) for one, other in zip(names, names[1:]) if one[0] in LOADS and other[0] in SUMS and one[1] in other[2:]]
        self.assertGreater(len(early), 100)
        self.assertEqual([], [it for it in zip(names, names[1:]) if it[0][0] in LOADS and it[1][0] in (*SUMS, "lwl", "lwr") and it[0][1] == it[1][1]])
        self.assertEqual(count, BLOCKS * len(MINE) + PLACES // 4)

    def test_what_is_left_out_is_in_no_guest(self):
        lacks = frozenset({("sub", FEW[1])})
        whole, part = (guest_of(FEW, 0, dsmon_end, it)[1] for it in (frozenset(), lacks))
        self.assertEqual([("sub", FEW[1])], [it for it in whole if it not in part])
        self.assertTrue(all(name in {it for it, *_ in CASES} and why for _, name, _, why in REASONS))

    def test_faults_have_their_codes_on_the_model(self):
        for what, words, operands, code, _ in faults():
            _, log = run_of(fault_guest(words, operands, call(0)))
            self.assertEqual([str(code)], [it.split()[-1] for it in log], what)

    def test_texts_of_two_readers_are_compared_by_what_they_say(self):
        for mine, theirs in SAME:
            self.assertEqual(same_text(mine, 4), same_text(theirs, 4))
        for mine, theirs in OTHER:
            self.assertNotEqual(same_text(mine, 4), same_text(theirs, 4))

    def test_a_difference_is_told_with_its_operands_and_counted(self):
        names = [("addu", (1, 2)), ("subu", (3, 0x80000000))]
        for mine, told in ((bytes(8), []), (bytes(4) + b"\1\0\0\0", ["subu 00000003 80000000: 00000001, 00000000"]), (bytes(4), ["4 bytes, 8 bytes, and 8 are wanted"])):
            self.assertEqual(told, differing(names, mine, bytes(8)))
        table = Table()
        _, out, _ = said(table.add, "what", "peer", 1000, ["it"])
        self.assertEqual((1, "conformance: what, peer: it\n"), (table.failed, out))
        self.assertIn("| what | peer | 1,000 | 1 |", table.text())

    def test_missing_peers_are_skipped_and_a_missing_program_is_told(self):
        with tempfile.NamedTemporaryFile() as program, mock.patch.object(conformance.shutil, "which", lambda _: None):
            status, out, _ = said(conformance.main, ["--dsmon", program.name])
            self.assertIn("no program", said(conformance.main, ["--dsmon", f"{program.name}x"])[0])
        self.assertEqual((0, 7), (status, out.count("skipped: no package")))
