"""Tests of tools/bare_model.py: values that were worked out by hand."""
import unittest

from bare_model import FIRST, GENERAL, REFILL, Entry, Machine, text_of, told
from trace_model import image

DATA = 0x8050_0000  # a place of memory beyond the image, in kseg0
WORDS = {"mfc0 $26,$4": 0x401A2000, "mtc0 $26,$2": 0x409A1000, "tlbwr": 0x42000006, "rfe": 0x42000010, "tlbp": 0x42000008}  # as the manual has them


def machine(text="", random=63, keys=(), general=None, system=None, slots=None):
    """The machine with a source, before its first instruction; some registers, some of the coprocessor and some slots have these values."""
    it = Machine(image(text), random, keys)
    for held, values in ((it.r, general), (it.system, system), (it.slots, slots)):
        for n, value in (values or {}).items():
            held[n] = value
    return it


def after(text, turns=1, **begun):
    """The machine after so many instructions of a source."""
    it = machine(text, **begun)
    for done in range(turns):
        it.turn(done)
    return it


def lines(text, most, *flags):
    return told({"one.s": text}.get, ["bare", "one.s", str(most), *flags]).decode().splitlines()


class Machines(unittest.TestCase):
    def test_the_coprocessors_words_are_those_of_the_manual(self):
        for source, word in WORDS.items():
            self.assertEqual((int.from_bytes(image(source), "little"), text_of(word)), (word, source))

    def test_a_call_pushes_status_and_rfe_pops_it(self):
        it = after("syscall", system={12: 0x0C0D})
        self.assertEqual((it.pc, it.system[12], it.system[13], it.system[14]), (GENERAL, 0x0C34, 0x20, FIRST))
        it.coprocessor(it.seen(), "rfe", [])
        self.assertEqual(it.system[12], 0x0C3D)

    def test_in_a_slot_epc_is_the_branch(self):
        it = after("beq $0, $0, on\nsyscall\non: nop", 2)
        self.assertEqual((it.pc, it.system[13], it.system[14]), (GENERAL, 0x8000_0020, FIRST))

    def test_a_miss_of_the_users_half_has_a_vector_of_its_own(self):
        for address, vector, code in [(0x1000_2004, REFILL, 2), (0xC000_2004, GENERAL, 2), (0x1000_2002, GENERAL, 4)]:
            it = after("lw $9, 0($8)", general={8: address})
            self.assertEqual((it.pc, it.system[13] >> 2, it.system[8]), (vector, code, address))
        self.assertEqual((it.system[4], it.system[10]), (0, 0))  # a misaligned address leaves Context and EntryHi alone

    def test_a_miss_shows_its_page(self):
        it = after("sw $9, 0($8)", general={8: 0x1234_5678}, system={4: 0x8060_0000, 10: 0xFC0})
        self.assertEqual((it.system[4], it.system[10]), (0x8060_0000 | 0x12345 << 2, 0x1234_5FC0))

    def test_an_interrupt_leaves_random_alone(self):
        it = after("nop\nnop", system={12: 0x101, 13: 0x100})  # software's first request
        self.assertEqual((it.pc, it.system[13], it.random), (GENERAL, 0x100, 63))

    def test_the_user_may_not_use_the_coprocessor(self):
        it = machine(system={12: 2, 14: 0}, slots={9: Entry(0, 0x40_0300)})  # page 0 is the image, in any address space
        it.bus.memory[0x40_0000:0x40_0004] = image("rfe")
        it.pc, it.next = 0, 4
        it.turn(0)
        self.assertEqual((it.pc, it.system[13]), (GENERAL, 11 << 2))

    def test_random_goes_from_8_to_63(self):
        self.assertEqual([after("nop\nnop", turns, random=9).random for turns in (1, 2)], [8, 63])

    def test_a_store_wants_d_and_an_entry_wants_v(self):
        for low, code in [(0x50_0600, 0), (0x50_0200, 1), (0x50_0400, 3)]:
            it = after("sw $9, 4($8)", general={8: 0x1000, 9: 7}, slots={3: Entry(0x1000, low)})
            self.assertEqual((it.system[13] >> 2, it.bus.word(0x50_0004)), (code, 0 if code else 7))

    def test_a_probe_finds_the_slot_of_its_address_space(self):
        it = machine(system={10: 0x7000_0080}, slots={5: Entry(0x7000_0040, 0), 40: Entry(0x7000_0080, 0)})
        it.coprocessor(it.seen(), "tlbp", [])
        self.assertEqual(it.system[0], 40 << 8)

    def test_32_words_of_zeros_are_no_handler_and_break_1_ends_a_run_in_any_case(self):
        at_end, done = "at the general vector 80000080: ", "done, by break 1: "
        for text, stores, ending in [
            ("syscall", [], at_end), ("syscall", [(0x7C, 1), (0x100, 1)], at_end), *(("syscall", [(place, 2**31)], None) for place in (0x80, 0xC0, 0xFC)),
            ("break 1", [], done), ("break 1", [(0x80, 1)], done), ("break 2", [(0x80, 1)], None),
        ]:
            it = machine(text)
            for place, word in stores:
                it.bus.memory[place:place + 4] = word.to_bytes(4, "little")
            self.assertEqual(it.turn(0)[1], ending, (text, stores))

    def test_a_part_of_a_word_is_stored(self):
        for name, at, word in [("swl", 1, 0x0000_1234), ("swr", 1, 0x3456_7800), ("sb", 2, 0x0078_0000), ("sh", 2, 0x5678_0000)]:
            self.assertEqual(after(f"{name} $9, {at}($8)", general={8: DATA, 9: 0x1234_5678}).bus.word(0x50_0000), word, name)

    def test_a_character_comes_in_before_its_instruction_and_leaves_after_it(self):
        source = "lui $8, 0xBFE0\naddiu $9, $0, 0x20\nsw $9, 0($8)\naddiu $9, $0, 8\nsw $9, 16($8)\nlw $10, 8($8)\nnop\nsw $10, 24($8)\nnop"
        it = after(source, 8, keys=[(0, 2, 0x41), (5, 2, 0x42)])  # the first comes where the lines are not scanned yet
        self.assertEqual((it.r[10], it.sent), (0x8242, [(3, 0x42)]))


class Lines(unittest.TestCase):
    def test_a_late_load_is_told_when_it_can_be_read(self):
        found = lines("lui $8, 0x8040\nlw $9, 0($8)\naddu $10, $9, $0\nnop", 4)
        self.assertEqual(found[1:3], ["2 80400004 lw $9,0($8); $9 is late", "3 80400008 addu $10,$9,$0; $9 3C088040"])

    def test_windows_and_kinds_leave_lines_out(self):
        source = "lui $8, 0xBFE8\nlw $9, 0x28($8)\ntlbwr\nsyscall"
        for flags, numbers in {"--from 2 --to 4": "2 3 end", "--only exceptions": "4 end", "--only tlb": "3 end", "--only devices": "2 end", "--only end": "end"}.items():
            self.assertEqual(" ".join(it.split()[0] for it in lines(source, 10, *flags.split())).partition("end")[0] + "end", numbers, flags)

    def test_names_change_general_registers_alone(self):
        found = lines("lui $8, 0x8040\nlw $9, 0($8)\nmfc0 $27, $14\nmtc0 $9, $2\nnop", 5, "--names")
        self.assertEqual(found[:4], [
            "1 80400000 lui $t0,0x8040; $t0 80400000", "2 80400004 lw $t1,0($t0); $t1 is late", "3 80400008 mfc0 $k1,$14; $k1 is late; $t1 3C088040", "4 8040000C mtc0 $t1,$2; EntryLo 3C088000"])
        self.assertEqual(found[6:8] + found[14:16], ["$zero 00000000", "$at 00000000", "$t0 80400000", "$t1 3C088040"])

    def test_counts_and_memory_stand_at_the_end(self):
        found = lines("tlbwr\nlw $9, 0x1000($0)", 10, "--quiet", "--counts", "--memory", "00400000:2")
        self.assertEqual(found[-9:], [
            "instructions 2", "refills 1", "writes of the buffer 1", "interrupts of the lines 0", "interrupts of the clock 0", "characters in 0", "characters out 0",
            "exception 2 TLBL: 1", "memory 00400000: 42000006 8C091000"])
