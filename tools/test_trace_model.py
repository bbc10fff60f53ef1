"""Tests of tools/trace_model.py: words are written as a listing has them, a window leaves out lines and nothing else, and counts add up."""
import re
import subprocess
import unittest

import trace_model
from case_files import DATA, cases, files_in, with_cases
from trace_model import COMMON, HIDDEN, image, places, text_of, traced

KINDS = ("units", "idle", "switches", "calls", "denials", "copies", "lost")
VIEWS = "traces/views", "../../policies/two.toml", "resume.input", 16
ENTRIES = "traces/entries", "three.toml", "operator.input", 100
# Statements with their texts in a listing, where these are others.
TEXTS = {it: it for it in (
    "addiu $4,$0,-1", "lui $8,0x0041", "sll $9,$8,31", "sw $9,-4($8)", "jr $31", "jalr $31,$8", "mult $8,$9", "nop", "syscall 7", "mfhi $9", "andi $9,$8,0xFFFF")}
TEXTS |= {"beq $8,$9,on\non: nop": ".word 0x11090000 # beq $8,$9,.+4", "j on\non: nop": ".word 0x08100001 # j 0x00400004"}


def in_folder(folder, *words):
    return traced(files_in(DATA / folder), ["trace", *map(str, words)]).decode().splitlines()


def lines(*flags):
    return in_folder("traces/period", "../../policies/two_at_rate_3.toml", "../../nothing.input", 100, *flags)


def told(found):
    """The lines of what happens, the counts, and the rest."""
    begin = next(k for k, it in enumerate(found) if it.startswith(("from ", "time ")))
    end = next(k for k, it in enumerate(found) if it.startswith("process "))
    return found[:begin], found[begin:end], found[end:]


def count(found, kind):
    """A number of the first line of the counts."""
    return int(re.search(rf" {kind} (\d+)", told(found)[1][0])[1])


def is_entry(line):
    """Whether a line tells of an entry of the permission table."""
    return line.split(" ")[1:2] == ["entry"]


class Tests(unittest.TestCase):
    def test_a_text_is_read_back(self):
        for source, text in TEXTS.items():
            self.assertEqual(text_of(int.from_bytes(image(source)[:4], "little")), text)

    def test_windows_leave_lines_out_and_nothing_else(self):
        whole, counts, end = told(lines())
        for flags in ("--from 40", "--to 40", "--from 30 --to 60", "--process 2", "--only units", "--only switches", "--only denials", "--only calls", "--only end"):
            part, counts_of_part, same = told(lines(*flags.split()))
            rest = iter(whole)
            self.assertTrue(all(line in rest for line in part), flags)
            self.assertLess(len(part), len(whole), flags)
            self.assertEqual(end, same, flags)
            if flags.startswith(("--process", "--only")) and "end" not in flags:
                self.assertEqual(counts, counts_of_part, flags)

    def test_a_window_and_what_is_outside_it_are_the_whole(self):
        whole = lines()
        for time in (0, 1, 31, 32, 33, 64, 65, 100):
            before, after = lines("--to", time), lines("--from", time)
            self.assertEqual(told(before)[0] + told(after)[0], told(whole)[0])
            for kind in KINDS:
                self.assertEqual(count(before, kind) + count(after, kind), count(whole, kind), kind)

    def test_counts_are_of_the_lines(self):
        for words in (VIEWS, ("traces/keys", "two.toml", "few.input", 60), ("examples/labs", "share_copy.toml", "nothing.input", 100)):
            found = in_folder(*words)
            happened, counts, _ = told(found)
            units = [it for it in happened if re.match(r"\d+ \d+ [0-9A-F]{8} ", it)]
            numbers = {
                "units": len(units), "switches": sum(it.endswith(" runs") for it in happened), "calls": sum(" syscall  " in it for it in units),
                "denials": sum(it.startswith("denied ") for it in happened), "copies": sum(it.endswith(" copy  $2=00000000") for it in units),
                "lost": sum(int(it.split()[-1]) for it in happened if " lost " in it)}
            self.assertEqual(numbers, {kind: count(found, kind) for kind in numbers})
            for name, kind in (("call", "calls"), ("denied", "denials")):
                self.assertEqual(sum(int(it.split()[2]) for it in counts if it.startswith(f"{name} ")), count(found, kind), kind)

    def test_neither_the_order_nor_the_repetition_of_processes_means_anything(self):
        for flags, same in (("1 2", ""), ("2 1 2", ""), ("2", "2 100")):
            self.assertEqual(*(lines(*(word for p in it.split() for word in ("--process", p))) for it in (flags, same)))
        self.assertEqual([], [it for it in told(lines("--process", 100))[0] if re.match(r"\d+ \d+ |denied|.* runs$", it)])

    def test_the_end_has_the_time_what_the_log_denies_and_by_what_who_is_parked(self):
        self.assertEqual(([], ["time 16", "denied r0 3"]), told(in_folder(*VIEWS, "--only", "end"))[:2])
        self.assertEqual("process 1 parked 00400014 by 12 1 00400014 store 00000000 r0 3  $4=00000042", told(in_folder(*VIEWS))[2][0])

    def test_a_file_of_cases_is_written_anew(self):
        folder = DATA / "traces"
        text = (folder / "kinds.cases").read_text()
        words = "trace ../policies/code.toml ../nothing.input 10".split()
        new = with_cases(text.replace("calls 1", "calls 7"), lambda source: trace_model.told(files_in(folder, **{"one.s": source}), words))
        self.assertEqual((text.count("calls 1"), 1), (new.count("calls 1") + 1, new.count("calls 7")))  # (one can't be told, and is left)

    def test_the_labs_show_what_their_commands_write(self):
        folder = DATA / "examples" / "labs"
        blocks = [it.replace("\n    ", "\n")[4:] + "\n" for it in re.findall(r"(?<=\n\n)    .*(?:\n    .*)*", (folder / "answers.md").read_text())]
        shown = [(it.strip().split(" | "), text) for it, text in zip(blocks, blocks[1:]) if it.startswith("dsmon trace ") and " | " in it]
        self.assertEqual(5, len(shown))
        for (command, filter_), text in shown:
            written = traced(files_in(folder), command.split()[1:])
            self.assertEqual(text, subprocess.run(filter_, shell=True, input=written, stdout=subprocess.PIPE, check=True).stdout.decode(), command)

    def test_the_table_of_the_lab_on_the_buffer_is_that_of_its_cases(self):
        folder = DATA / "examples" / "labs"
        texts = {name.split()[0]: text for name, _, text in cases((folder / "reach.cases").read_text())} | {"80": (folder / "reach.told").read_text()}
        counts = {pages: re.search(r"instructions (\d+) refills (\d+)", text).groups() for pages, text in texts.items()}
        table = re.findall(r"^\| (\d+) \| (\S+) \| (\S+) \| (\S+) \|$", (folder / "answers.md").read_text().replace(",", ""), flags=re.M)
        self.assertEqual(counts, {pages: (instructions, refills) for pages, refills, instructions, _ in table})
        for pages, refills, instructions, own in table:
            self.assertEqual(int(instructions), int(own) + 10 * (int(refills) - 1) + 4)
            self.assertEqual(int(own), int(re.search(r"^time (\d+)$", texts[pages], flags=re.M)[1]))

    def test_registers_that_a_touch_may_change_are_nowhere(self):
        self.assertEqual([], [line for line in lines() for n in HIDDEN if f"  ${n}=" in line])

    def test_a_trace_by_its_sources_has_the_plain_lines(self):
        words = "traces/sources", "two.toml", "../../nothing.input", 60
        for line, by_source, named in zip(in_folder(*words), in_folder(*words, "--source"), in_folder(*words, "--names"), strict=True):
            self.assertEqual(line, re.sub(r"\$(\w+)", lambda m: f"${COMMON.index(m[1])}", named))
            self.assertTrue(re.sub(r"^( *)\w+\.s:\d+( \w+(\+\d+)?)?  ", r"\1", by_source).startswith(line.split("  unknown")[0]), by_source)

    def test_the_places_of_a_source(self):
        text = "nop\nmain:\nstart: nop # one\n.byte 1\n.space 3\nnop"
        self.assertEqual(places(text), [(4, 1, None), (4, 2, ("main", 4)), (8, 3, ("main", 4)), (9, 4, ("main", 4)), (12, 5, ("main", 4)), (16, 6, ("main", 4))])

    def test_entries_add_lines_and_nothing_else(self):
        for flags in ("", "--from 36", "--process 3", "--only calls", "--only end", "--to 30 --processor"):
            found = in_folder(*ENTRIES, *flags.split(), "--entries")
            self.assertEqual([it for it in found if not is_entry(it)], in_folder(*ENTRIES, *flags.split()), flags)
            self.assertEqual(any(map(is_entry, found)), "end" not in flags, flags)

    def test_a_window_has_the_entries_that_the_whole_has_then(self):
        whole = [it.split(" ", 4) for it in in_folder(*ENTRIES, "--entries") if is_entry(it)]
        for begin in range(71):
            found = [it.split(" ", 4) for it in in_folder(*ENTRIES, "--entries", "--from", begin) if is_entry(it)]
            first = int(found[0][0]) if found else 0
            table = {(p, address): said for time, _, p, address, said in whole if int(time) <= first}
            opening = {(p, address): said for time, _, p, address, said in found if int(time) == first}
            self.assertEqual({place: said for place, said in table.items() if said != "gone"} if found else {}, opening, begin)
