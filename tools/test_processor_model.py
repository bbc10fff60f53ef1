"""Tests of tools/processor_model.py: units that were counted by hand, the longest unit, and what holds in each run."""
import unittest

import trace_model
import unit_course
from case_files import DATA, cases, files_in, policy_text
from hostile_model import NotQuiet, signed
from trace_model import Traced, asked, traced
from turns_model import MASK

MOST = unit_course.EXPECTED
NOTHING = "processor instructions 0 refills 0 double 0 services 0, as Random fell"


class Touched(Traced):
    """A run in which register 26 is lost before it is the base of an access, but after the access was asked for by what it held."""

    def accessed(self, p, q, kind, base, offset, size):
        held = q.r[26]
        if base == 26:
            q.r[26] = 0
        found = super().accessed(p, q, kind, base, offset, size)
        if base == 26:
            self.asks[-1] = self.asks[-1]._replace(address=held + signed(offset, 16) & MASK)
        return found


def begun(read, policy, given, kind=Traced, random=63):
    return trace_model.begun(read, policy, given, kind, trace_model.View(processor=True, random=random))


def turns(run, n):
    """What each unit of a run took: its address and its counts."""
    while run.time < n and any(q.state != "Ended" for q in run.processes.values()):
        runner, before = run.ready[0] if run.ready else None, dict(run.done)
        pc = run.processes[runner].pc if runner else None
        run.turn()
        if runner:
            yield pc, {kind: times - before.get(kind, 0) for kind, times in run.done.items() if times > before.get(kind, 0)}


def lines_of(folder, words):
    return traced(files_in(DATA / folder), ["trace", *words.split()]).decode().splitlines()


def told(flags, n=100):
    """The lines of the processor of the run that puts A, with those of where a window ended."""
    found = lines_of("runs/put_a", f"../../policies/code.toml ../../nothing.input {n} {flags}")
    return [it for it in found if it.startswith(("processor", "entries", "entry"))]


def at_to(flags, n=100):
    """Those of where a window ended alone, and those of the end alone."""
    found = told(flags, n)
    at = next(k for k, it in enumerate(found) if it.startswith("processor"))
    return found[:at], found[at:]


def in_counts(n, to):
    """The lines of where a window ended of the run of `traces/counts`."""
    lines = lines_of("traces/counts", f"two.toml keys.input {n} --only calls --processor --to {to}")
    begin, end = (next(k for k, it in enumerate(lines) if it.startswith(word)) for word in ("entries", "processor"))
    return lines[begin:end]


def case(text, policy=None):
    """The run of a source in place of that of `put_a`, perhaps by another policy."""
    files = {"one.s": text, **({"p": policy} if policy else {})}
    return begun(files_in(DATA / "runs" / "put_a", **files), "p" if policy else "../../policies/code.toml", "../../nothing.input")


class Tests(unittest.TestCase):
    # The first instruction misses its page: 1 instruction. Of the handler 3 words are done, and the third misses the page of the page table:
    # a double miss, and 1 service. The instruction begins again, 1, and misses again; all 9 words are done, and the seventh writes the
    # slot that Random names; it begins once more, 1, and is done. So the unit takes 1 + 3 + 1 + 9 + 1 = 15 instructions and begins 2 refills.
    # The other four units take 1 each, and two of them are calls, with a service each: 19 instructions and 3 services.
    #
    # Random is 63 before the first instruction, and one less after each. Before the seventh word of the second refill 1 + 3 + 1 + 6 = 11 are
    # begun: it is 52. From a start of 8 on it goes on with 63 after one step, so it is 53 there.
    def test_the_run_that_puts_a(self):
        counts = "processor instructions 19 refills 2 double 1 services 3, as Random fell"
        table, code = "entry 0 C0001000 1 00002000 read", "00400000 1 00192000 read"
        self.assertEqual([counts, table, f"entry 52 {code}"], told("--processor"))
        self.assertEqual([counts, table, f"entry 53 {code}"], told("--processor --random 8"))
        self.assertEqual([(0x400000, {"instruction": 15, "refill": 2, "double": 1, "service": 1})], list(turns(case("nop"), 1)))

    def test_what_is_counted_is_from_a_beginning_on(self):
        self.assertEqual([NOTHING], told("--processor", 0))
        self.assertEqual([NOTHING, *told("--processor")[1:]], told("--processor --only end"))
        for flags, counts in (("--from 1", "4 refills 0 double 0 services 2"), ("--from 4 --to 0", "1 refills 0 double 0 services 1")):
            self.assertEqual(f"processor instructions {counts}, as Random fell", at_to(f"--processor {flags}")[1][0])

    # The page of the code is there once the first unit is done, at time 1, and nothing before. The run ends at time 5.
    def test_the_entries_where_a_window_ends(self):
        found = told("--processor")[1:]
        for time, n, entries in ((0, 100, []), *((time, 100, found) for time in (1, 2, 5)), (3, 3, found)):
            self.assertEqual([f"entries at {time}, as Random fell", *entries], at_to(f"--processor --to {time}", n)[0])
        for n, flags in ((100, "--to 6"), (3, "--to 4"), (100, ""), (100, "--to 2 --only end")):
            self.assertEqual([], at_to(f"--processor {flags}", n)[0], flags)
        self.assertEqual([], told("--to 2"))
        for begin, at in ((1, 1), (3, 3), (5, 5), (6, 5)):  # (where no line is told, they are those where what is told would begin)
            self.assertEqual(f"entries at {at}, as Random fell", at_to(f"--processor --from {begin} --to 1")[0][0])

    # Those at a time are those of the end of a run for so many ticks.
    def test_a_window_ends_with_the_entries_of_a_run_that_ends_there(self):
        for time in range(81):
            line, *entries = in_counts(80, time)
            self.assertEqual(f"entries at {time}, as Random fell", line)
            self.assertEqual(in_counts(time, time)[1:], entries, time)

    # A branch with its slot is two ticks. One begins at 20.
    def test_a_branch_may_go_past_the_end_of_a_window(self):
        for time, at in ((20, 20), (21, 22), (22, 22)):
            self.assertEqual(f"entries at {at}, as Random fell", lines_of("traces/keys", f"two.toml few.input 60 --only denials --processor --to {time}")[0])

    # docs/architecture.md, "How a user instruction travels": steps 1 to 4, 6 to 15, 16 to 25 and 26 are instructions and words, 5 a service.
    def test_a_load_that_misses_its_instruction_and_its_data(self):
        found = list(turns(case("lui $8,0x41\n.space 4092\nlw $9,0($8)", TWO_PAGES), 1025))
        self.assertEqual({"instruction": 21, "refill": 2}, found[1024][1])

    # The page of the instruction with that of its table, 1 + 3 + 1 + 9; then the page of address 0 with that of its table, of which the entry
    # is not valid: 1 + 3 + 1 + 9 + 1.
    def test_a_load_that_is_denied(self):
        self.assertEqual([(0x400000, {"instruction": 29, "refill": 4, "double": 2, "service": 3, "end": 1})], list(turns(case("lw $9,0($8)"), 1)))

    # docs/architecture.md, "Late copies": one exception, one service, and the store is done when the unit begins again.
    def test_a_late_copy(self):
        run = begun(files_in(DATA / "examples"), "late_copy.toml", "late_copy.input")
        copies = [(pc, counts) for pc, counts in turns(run, 1000) if "copy" in counts]
        self.assertTrue(copies)
        self.assertTrue(all(counts["service"] == 1 + counts.get("double", 0) for _, counts in copies), copies)

    # crates/rows/data/runs/longest_unit says how it comes to 61; tools/unit_course.py that none is longer.
    # The course that tools/unit_course.py has of a unit, where these pages are not in the buffer at first and nothing is pushed out.
    def test_a_unit_goes_as_its_course(self):
        for missing, found in (("Ff", list(turns(case("nop"), 1))), ("FfAaEe", list(turns(case("lw $9,0($8)"), 1)))):
            course = unit_course.State(False, ("begun",), frozenset("FSAEfsae") - set(missing), False, frozenset("AE"))
            while course.place != ("service",):
                course = unit_course.nexts(course)[0]
            [(_, counts)] = found
            self.assertEqual((course.spent, course.refills, course.tables), (counts["instruction"], counts["refill"] - counts["double"], counts["double"]))

    def test_the_longest_unit(self):
        for random in (8, 35, 63):
            run = begun(files_in(DATA / "runs" / "longest_unit"), "policy.toml", "input", Touched, random)
            found = dict(turns(run, 100))
            self.assertEqual({"instruction": 61, "refill": 7, "double": 3, "copy": 1, "service": 4}, found[0x7FFFFC])
            self.assertEqual(MOST["instructions"], max(it["instruction"] for it in found.values()))

    # docs/machine.md, the example at the end of "The refill handler".
    def test_numbers_run_out(self):
        run = case("on: addiu $2,$0,3\nsyscall\nj on\nnop", MANY)
        self.assertEqual(126, len(list(turns(run, 126))))
        self.assertEqual(({64: 1}, []), (run.numbers, [it for it in run.buffer.slots if it]))
        self.assertEqual(2, len(list(turns(run, 128))))
        self.assertEqual(({64: 1, 1: 2}, {0xC0001: 0x2 + 4 * 63, 0x400: 402}), (run.numbers, {it.page: it.frame for it in run.buffer.slots if it}))

    def test_programs_that_were_drawn_leave_the_buffer_as_it_may_be(self):
        for name in ("alone", "two", "two_by_the_clock"):
            for title, source, _ in list(cases((DATA / "hostile" / f"{name}.cases").read_text()))[:8]:
                run = begun(files_in(DATA / "hostile", **{"one.s": source}), f"{name}.toml", f"{name}.input")
                self.assertGreater(len(list(turns(run, 1000))), 10, title)
                self.hold(run, title)

    def test_no_unit_takes_more_than_the_course_of_a_unit_has(self):
        runs = [(it.line, files_in(it.folder), it.words) for it in trace_model.rows() if it.words[0] == "trace"]
        for it in (it for it in trace_model.tables() if it.words[0] == "trace"):
            runs += [(case, files_in(it.folder, **{it.file: source}), it.words) for case, source, _ in cases(it.cases.read_text())]
        for line, read, words in runs:
            _, policy, given, n = asked(words)[0]
            run = begun(read, policy, given)
            try:
                for _, it in turns(run, min(int(n), 2000)):
                    refills, doubles = it.get("refill", 0), it.get("double", 0)
                    for count, kind in ((it["instruction"], "instructions"), (refills - doubles, "tlbwr"), (doubles, "entries of page tables"), (doubles + it.get("copy", 0), "services after which it goes on")):
                        self.assertLessEqual(count, MOST[kind], line)
            except NotQuiet:
                continue
            self.assertEqual((63 - run.done["instruction"] - 8) % 56 + 8, run.buffer.random, line)
            self.hold(run, line)

    def hold(self, run, line):
        """No page of an address space has two entries, and those of a process's are what it is granted."""
        held = [it for it in run.buffer.slots if it]
        self.assertEqual(len(held), len({(it.page, it.number) for it in held}), line)
        for p, number in run.numbers.items():
            for it in held:
                if it.number == number:
                    self.assertEqual(run.translation(p, it.page), it, line)
        for slot, it in enumerate(run.buffer.slots):
            self.assertTrue(it is None or (slot < 8) == (it.page >= 0xC0000), line)


TWO_PAGES = policy_text(
    "", 4, 0, [(0x400000, 0)], [("code", "one.s", 0), ("more", "one.s", 1), ("data",)],
    [(1, 0x400000, "read", "code", False), (1, 0x401000, "read", "more", False), (1, 0x410000, "read", "data", False)])
MANY = policy_text("", 1, 0, [(0x400000, 0)] * 64, [("code", "one.s", 0)], [(p, 0x400000, "read", "code", False) for p in range(1, 65)])
