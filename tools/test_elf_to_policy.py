"""Tests of tools/elf_to_policy.py, over small ELF files that are built here."""
import re
import struct
import tomllib
from pathlib import Path

from c_examples import EXAMPLES, POLICIES
from elf_to_policy import HEAD, main
from later_instructions import coprocessor, later
from reading_model import input_refusal, policy_refusal
from rooms import TOP, InARoom, placed, said
from trace_model import image

PAGE = 4096
NOP, CALL = 0, 0x0000000C
CODE, DATA = 5, 6  # flags of segments: read and execute, read and write
HEADER = {"size": 1, "order": 1, "version": 1, "kind": 2, "machine": 8, "later_version": 1, "start": 0x00400000, "flags": 0x1001,
          "header_size": 52, "row_size": 32}


def words(*numbers):
    return struct.pack(f"<{len(numbers)}I", *numbers)


def elf(segments, sections=(), kinds=(), **changed):
    """An ELF file of segments, each an address, its bytes, its size in memory and its flags; and of sections, each an address, its size and its
    flags. Program headers of other kinds may stand before those of the segments."""
    it = {**HEADER, **changed}
    rows, data = [(kind, 0, 0, 0, 0, 0, 4, 4) for kind in kinds], b""
    begin = 52 + 32 * (len(rows) + len(segments))
    for address, held, size, flags in segments:
        rows.append((1, begin + len(data), address, address, len(held), size, flags, PAGE))
        data += held
    parts = [(0,) * 10, *((0, 1, flags, address, 0, size, 0, 0, 4, 0) for address, size, flags in sections)] if sections else []
    ident = b"\x7fELF" + bytes([it["size"], it["order"], it["version"]]) + bytes(9)
    head = struct.pack("<HHIIIIIHHHHHH", it["kind"], it["machine"], it["later_version"], it["start"], 52, begin + len(data) if parts else 0, it["flags"],
                       it["header_size"], it["row_size"], len(rows), 40 if parts else 0, len(parts), 0)
    return b"".join([ident, head, *(struct.pack("<8I", *row) for row in rows), data, *(struct.pack("<10I", *part) for part in parts)])


def memory_of(segments):
    """What segments put into memory: each byte that is not zero, by its address."""
    return {address + k: byte for address, held, *_ in segments for k, byte in enumerate(held) if byte}


SMALL = [(0x00400000, words(0x24020000, CALL), 8, CODE), (0x00401000, b"data", 0x1010, DATA)]
IN_MEMORY, HAS_CODE = 2, 6  # flags of sections
SECTIONS = [(0x00400000, 8, HAS_CODE), (0x00401000, 0x1010, IN_MEMORY)]
STACK = {0x80000000 - PAGE * k: "write" for k in range(1, 5)}
FIRST = SMALL[0]
KIND_REFUSED = [  # what is no executable for this machine
    ("no ELF file", b""), ("no ELF file", b"#!/bin/sh\n"), ("an ECOFF file, as ULTRIX has them", b"\x62\x01" + bytes(200)),
    ("an ECOFF file, as ULTRIX has them", b"\x66\x01" + bytes(200)), ("a big-endian ECOFF file", b"\x01\x60" + bytes(200)),
    ("an archive of object files", b"!<arch>\n" + bytes(200)),
    *((why, elf(SMALL, **changed)) for why, changed in [
        ("64 bits", {"size": 2}), ("big-endian", {"order": 2}), ("version 2", {"version": 2}), ("version 3", {"later_version": 3}), ("an object file: link it first", {"kind": 1}),
        ("dynamic", {"kind": 3}), ("a core file", {"kind": 4}), ("its type in ELF is 9", {"kind": 9}), ("another machine, number 62", {"machine": 62}), ("dynamic", {"kinds": [2]}),
        ("dynamic", {"kinds": [3]}), ("other sizes than those of ELF", {"header_size": 64}), ("other sizes than those of ELF", {"row_size": 56}), ("starts at 00400002", {"start": 0x00400002}),
        ("starts at 00400008", {"start": 0x00400008}), ("microMIPS or MIPS16", {"flags": 0x04001000}), ("made for MIPS II", {"flags": 0x10000000}),
        ("made for MIPS32 release 2", {"flags": 0x70001000}), ("made for architecture 15", {"flags": 0xF0000000})]),
    *((f"its section at {section[0]:08X} lies in no segment", elf(SMALL, sections=[*SECTIONS, section]))
      for section in [(0x003FFFFC, 8, IN_MEMORY), (0x00402008, 9, IN_MEMORY), (0xFFFFFFFC, 8, HAS_CODE)])]
SIZE_REFUSED = [  # segments that do not fit
    ("no segment to load", []),
    ("reaches beyond 7FFFFFFF", [FIRST, (0x80000000, b"", 4, DATA)]),
    ("reaches beyond 7FFFFFFF", [FIRST, (0x7FFFFFFC, b"", 8, DATA)]),
    ("reaches beyond 7FFFFFFF", [FIRST, (0xFFFFF000, b"", 0x2000, DATA)]),
    ("5 regions of 4 MiB, at 00400000, 00800000, 00C00000, 01000000, 7FC00000", [FIRST, *((0x00400000 * k, b"", 4, DATA) for k in (2, 3, 4))]),
    ("257 pages: a process may have 256", [FIRST, (0x00401000, b"", 252 * PAGE, DATA)]),
    ("1025 pages: a policy may have 1024", [FIRST, (0x00401000, b"", 1020 * PAGE, DATA)]),
    ("pages: a policy may have 1024", [FIRST, (0x00800000, b"", 0x70000000, DATA)]),
    ("where its stack of 4 pages lies", [FIRST, (0x7FFFCFFF, b"", 1, DATA)]),
    ("at 00400000 and 00400004 overlap", [FIRST, (0x00400004, b"", 4, DATA)]),
    ("more bytes in the file than in memory", [FIRST, (0x00401000, b"data", 3, DATA)]),
    ("starts at 00400000", [(0x00400004, words(CALL), 4, CODE)]),
    ("starts at 00400000", [(0x00400000, words(CALL), 4, DATA)])]
MOST = [  # as many pages and regions as there may be
    [FIRST, (0x00401000, b"", 251 * PAGE, DATA)], [FIRST, *((0x00400000 * k, b"", 4, DATA) for k in (2, 3))]]
LATER = [
    (0x00800034, "teq", "MIPS II"), (0x50800001, "beql", "MIPS II"), (0x0000000F, "sync", "MIPS II"), (0xC0820000, "ll", "MIPS II"), (0xDC820000, "ld", "MIPS III"),
    (0x0085102D, "daddu", "MIPS III"), (0x0085100B, "movn", "MIPS IV"), (0x70851002, "mul", "MIPS32"), (0x7C041420, "seb", "MIPS32 release 2"), (0x7C823800, "ext", "MIPS32 release 2"),
    (0x00241042, "rotr", "MIPS32 release 2")]
DATA_REFUSED = [  # what --data may not be, by the file and the address
    ("text@00500004", "00500004 is no address of a page"), ("text@80000000", "80000000 is no address of a page"), ("text@5G", "no FILE@ADDRESS"), ("text", "no FILE@ADDRESS"),
    ("text@", "no FILE@ADDRESS"), ("text@-1000", "no FILE@ADDRESS"), ("text@123456789", "no FILE@ADDRESS"), ("empty@00500000", "the file is empty"),
    ("textx@00500000", "no file of this name"), ("@00500000", "no file of this name"), ("long@7FFFF000", "reaches beyond 7FFFFFFF"), ("text@01000000", "with it one has 5 regions of 4 MiB"),
    ("long@00500000", "with it one has 259 pages: a process may have 256")]
KEYS = [  # the bytes of a file, the pace, and why they can't come in
    (64 * 4095, 1000, ""), (64 * 4095 + 1, 1000, "at most 262080 can come in"), (64, 500_000_000, ""), (65, 500_000_000, "its end would come at 1500000000")]


class Tests(InARoom):
    def setUp(self):
        super().setUp()
        self.put(one=elf(SMALL))

    def put(self, **files):
        """Puts executables into a room of their own, in place of what was there."""
        self.number = getattr(self, "number", 0) + 1
        self.into = self.room / f"{self.number}"
        placed(self.into, {f"{name}.elf": data for name, data in files.items()})
        self.names = [f"{self.into}/{name}.elf" for name in files]

    def run_it(self, *options):
        """The status, the lines on standard output, and those on standard error."""
        status, out, err = said(main, [*options, "--into", str(self.into), *self.names])
        return status, out.splitlines(), err.splitlines()

    def written(self):
        return {it.name for it in self.into.iterdir()} - {Path(it).name for it in self.names}

    def policy(self, name="one"):
        """A policy that was written, which is good."""
        held = (self.into / f"{name}.toml").read_bytes()
        self.assertIsNone(policy_refusal(held))
        return tomllib.loads(held.decode())

    def memory(self, process=1, name="one"):
        """What a process has in memory at first: each byte that is not zero, by its address; and the right of each page."""
        policy = self.policy(name)
        pages, held, rights = {it["name"]: it for it in policy["page"]}, {}, {}
        for rule in (it for it in policy["rule"] if it["process"] == process):
            rights[rule["address"]] = rule["right"]
            page = pages[rule["page"]]
            part = image((self.into / page["source"]).read_text())[PAGE * page["part"]:PAGE * (page["part"] + 1)] if "source" in page else b""
            held |= memory_of([(rule["address"], part)])
        return held, rights

    def assert_refused(self, why, *options):
        before = self.written()
        status, out, err = self.run_it(*options)
        self.assertEqual((2, [], 1), (status, out, len(err)), err)
        self.assertIn(why, err[0])
        self.assertEqual(before, self.written())

    def test_a_program_becomes_a_process_with_its_pages_and_the_lines_to_type_are_told(self):
        lines = [f"cd {self.into}", "dsmon check one.toml", "dsmon run one.toml one.input 1000000000 --summary --most 10000000"]
        self.assertEqual((0, lines, []), self.run_it())
        self.assertEqual({"one.toml", "one-1.s", "one.input"}, self.written())
        self.assertEqual((memory_of(SMALL), {0x00400000: "read", 0x00401000: "write", 0x00402000: "write", **STACK}), self.memory())
        policy = self.policy()
        self.assertEqual([{"start": 0x00400000, "line": 0}], policy["process"])
        self.assertEqual([("one-1.s", 0), ("one-1.s", 1), (None, None)], [(it.get("source"), it.get("part")) for it in policy["page"]][:3])
        self.assertFalse(any("give" in it for it in policy["rule"]))

    def test_two_hundred_kilobytes_lie_in_four_sources(self):
        held = b"".join(struct.pack("<I", 0x3C000000 + k) for k in range(200 * 1024 // 4))
        segments = [(0x00400000, held, len(held), CODE), (0x10000000, bytes(PAGE) + b"end", 3 * PAGE, DATA)]
        self.put(large=elf(segments))
        self.assertEqual(0, self.run_it()[0])
        sources = [f"large-{k}.s" for k in range(1, 5)]
        self.assertEqual({"large.toml", "large.input", *sources}, self.written())
        self.assertEqual([65536, 65536, 65536, 2 * PAGE + 4], [len(image((self.into / it).read_text())) for it in sources])
        self.assertEqual(memory_of(segments), self.memory(name="large")[0])
        pages = self.policy("large")["page"]
        self.assertEqual((50 + 3 + 4, 51), (len(pages), sum("source" in it for it in pages)))

    def test_segments_at_any_byte_of_a_page_share_it_and_rights_follow_the_flags(self):
        shared = [(0x00400000, words(CALL) * 3, 12, CODE), (0x0040000E, b"abc", 9, 4), (0x00400FFE, b"wxyz", 4, DATA)]
        flagged = [(0x00400000 + 0x1000 * flags, words(1 + flags), 4, flags) for flags in range(1, 8)]
        for segments, more, rights, told in [
            (shared, {}, {0x00400000: "write", 0x00401000: "write"}, "executed and written: 1, from 00400000"),
            ([*flagged, (0x00400000, b"none", 4, 0)], {"start": 0x00401000}, {at: "write" if flags & 2 else "read" for at, _, _, flags in flagged}, "executed and written: 2, from 00403000"),
        ]:
            self.put(one=elf(segments, **more))
            status, _, err = self.run_it("--stack", "0")
            self.assertEqual((0, 1, (memory_of(it for it in segments if it[3]), rights)), (status, len(err), self.memory()))
            self.assertIn(told, err[0])

    def test_several_files_are_several_processes(self):
        other = [(0x00600000, words(CALL, CALL), 8, CODE), (0x00700000, b"", 4, DATA)]
        self.put(one=elf(SMALL), two=elf(other, start=0x00600004))
        self.assertEqual(0, self.run_it("--line", "2,3", "--give", "--stack", "1")[0])
        policy = self.policy()
        self.assertEqual([(0x00400000, 2), (0x00600004, 3)], [(it["start"], it["line"]) for it in policy["process"]])
        self.assertEqual([memory_of(SMALL), memory_of(other)], [self.memory(it)[0] for it in (1, 2)])
        self.assertEqual({("read", False), ("write", True)}, {(it["right"], it.get("give", False)) for it in policy["rule"]})

    def test_one_file_may_run_twice_and_its_code_is_there_once(self):
        self.names *= 2
        self.assertEqual(0, self.run_it("--line", "1")[0])
        pages = [{it["address"]: it["page"] for it in self.policy()["rule"] if it["process"] == process} for process in (1, 2)]
        self.assertEqual([0x00400000], [at for at in pages[0] if pages[0][at] == pages[1][at]])
        self.assertEqual([memory_of(SMALL)] * 2, [self.memory(it)[0] for it in (1, 2)])
        self.assertEqual([1, 1], [it["line"] for it in self.policy()["process"]])

    def test_what_cannot_run_is_refused_by_name(self):
        cases = [*KIND_REFUSED, *((why, elf(segments)) for why, segments in SIZE_REFUSED)]
        for word, name, architecture in LATER:
            self.assertEqual((name, architecture), later(word))
            cases.append((f"`{name}` at 00400004 is an instruction of {architecture}", elf([(0x00400000, words(CALL, word), 8, CODE)], flags=0x70001000)))
        whole = elf(SMALL, sections=SECTIONS)
        cases += [("no ELF file" if size < 4 else "ends within its", whole[:size]) for size in range(len(whole))]
        for why, data in cases:
            with self.subTest(why, size=len(data)):
                self.put(one=data)
                self.assert_refused(why)

    def test_as_many_as_there_may_be_are_taken(self):
        for segments in MOST:
            self.put(one=elf(segments))
            self.assertEqual(0, self.run_it()[0])
            self.policy()
        most = elf([FIRST, (0x00401000, b"", 249 * PAGE, DATA)])
        for count, why in [(3, ""), (4, "1000 rules in all: a policy may have 999"), (5, "1250 pages in all: a policy may have 1024")]:
            self.put(**{f"p{k}": most for k in range(count)})
            self.assert_refused(why, "--stack", "0") if why else self.assertEqual(0, self.run_it("--stack", "0")[0])

    def test_no_instruction_of_the_processor_is_a_later_one(self):
        told = (TOP / "crates/rows/data/assembling/instructions/expected").read_text().split()
        mine = [int(it, 16) for it in told if re.fullmatch("[0-9A-F]{8}", it)]
        self.assertGreater(len(mine), 150)
        self.assertEqual([], [f"{it:08X}" for it in mine if later(it)])
        self.assertEqual({0x10}, {it >> 26 for it in mine if coprocessor(it)})

    def test_words_are_looked_at_where_sections_say_that_code_is(self):
        text = [(0x00400000, words(CALL), 4, CODE), (0x00400004, b"spot", 4, CODE)]
        self.assertIsNotNone(later(int.from_bytes(b"spot", "little")))
        self.put(one=elf(text))
        self.assert_refused("at 00400004")
        for data in (elf(text, sections=[(0x00400000, 4, HAS_CODE), (0x00400004, 4, IN_MEMORY)]), elf(SMALL, sections=[*SECTIONS, (0x00300000, 4, 0), (0x00300000, 4, 0x402), (0x00300000, 0, IN_MEMORY)])):
            self.put(one=data)
            self.assertEqual((0, []), self.run_it()[::2])

    def test_coprocessors_are_warned_of(self):
        self.put(one=elf([(0x00400000, words(CALL, 0x46000000, 0xC4800000, 0x40026000), 16, CODE)]))
        status, _, err = self.run_it()
        self.assertEqual((0, 2), (status, len(err)))
        self.assertIn("instructions of floating point: 2, from 00400004", err[0])
        self.assertIn("instructions of a coprocessor: 1, from 0040000C", err[1])

    def test_each_altered_byte_of_the_headers_is_refused_or_makes_a_good_policy(self):
        whole, refused = elf(SMALL, sections=SECTIONS), 0
        for at in [*range(52 + 64), *range(len(whole) - 120, len(whole))]:
            for byte in {0, 0xFF, *(whole[at] ^ 1 << bit for bit in range(8))} - {whole[at]}:
                self.put(one=whole[:at] + bytes([byte]) + whole[at + 1:])
                status, out, err = self.run_it()
                if status == 0:
                    self.policy()
                else:
                    refused += 1
                    self.assertEqual((2, [], 1, set()), (status, out, len(err), self.written()), (at, byte, err))
        self.assertGreater(refused, 500)

    def test_only_what_the_script_wrote_is_written_over(self):
        self.assertEqual([0, 0], [self.run_it()[0], self.run_it()[0]])
        policy, source, keys = (self.into / it for it in ("one.toml", "one-1.s", "one.input"))
        before = policy.read_text()
        keys.write_text("10 key 0 41\n")
        source.write_text("# mine\n")
        policy.write_text(f"{HEAD}, and this goes")
        self.assert_refused("one-1.s: it is there already, and not written by this script")
        self.assertEqual(f"{HEAD}, and this goes", policy.read_text())
        source.unlink()
        self.assertEqual((0, before, "10 key 0 41\n"), (self.run_it()[0], policy.read_text(), keys.read_text()))

    def test_files_that_cannot_be_read_or_written_are_told(self):
        mine = list(self.names)
        for name in [self.into / "none.elf", self.into, Path("/dev/null")]:
            self.names = [str(name)]
            self.assertEqual((2, [], [f"elf_to_policy: {name}: no file of this name"]), self.run_it())
        placed(self.into, {"other/one.elf": elf(SMALL)})
        self.names = [*mine, str(self.into / "other/one.elf")]
        self.assertIn("another file is called one too", self.run_it()[2][0])
        self.names, self.into = mine, self.into / "new" / "newer"
        self.assertEqual(2, self.run_it()[0])
        self.into = self.into.parent
        self.assertEqual((0, {"one.toml", "one-1.s", "one.input"}), (self.run_it()[0], self.written()))

    def test_wrong_words_are_told(self):
        (self.into / "text").write_bytes(b"x")
        keys = ["--keys", f"{self.into}/text", "--pace"]
        for options in (["--stack", "257"], ["--stack", "-1"], ["--line", "4"], ["--line", "0,"], ["--line", "x"], [*keys, "0"], [*keys, "1000000001"], [*keys, "1e3"]):
            self.assertEqual((2, []), self.run_it(*options)[:2])
        self.assertEqual({"text"}, self.written())

    def test_names_are_those_that_a_policy_may_have(self):
        self.put(**{"Old program, v1.2 (" + "x" * 60 + ")": elf(SMALL)})
        self.assertEqual(0, self.run_it()[0])
        [name] = [it.stem for it in self.into.glob("*.toml")]
        self.assertTrue(name.startswith("Old_program__v1.2__xxx"))
        self.policy(name)

    def test_a_file_lies_in_pages_that_each_process_may_read(self):
        held = bytes(range(1, 256)) * 20
        self.put(one=elf(SMALL), two=elf(SMALL))
        text = self.into / "a text.bin"
        text.write_bytes(held)
        self.assertEqual((0, []), self.run_it("--data", f"{text}@00500000", "--give")[::2])
        self.assertLessEqual({"one.toml", "one-1.s", "two-1.s", "a_text.bin-1.s"}, self.written())
        for process in (1, 2):
            memory, rights = self.memory(process)
            self.assertEqual(memory_of([*SMALL, (0x00500000, held)]), memory)
            self.assertEqual(["read", "read"], [rights[0x00500000], rights[0x00501000]])
        policy = self.policy()
        shared = [(it["process"], it["page"], "give" in it) for it in policy["rule"] if it["address"] >> 12 == 0x500]
        self.assertEqual([(1, "d1a00500000", False), (2, "d1a00500000", False)], shared)
        self.assertEqual(1, sum(it["name"] == "d1a00500000" for it in policy["page"]))

    def test_data_where_something_lies_already_is_refused_by_name(self):
        for address, owner in [("00400000", "one"), ("0x00402000", "one"), ("7FFFC000", "the stack of one"), ("00500000", "{text}@00500000")]:
            self.put(one=elf(SMALL))
            text = self.into / "text"
            text.write_bytes(b"x" * PAGE)
            self.assert_refused(f"elf_to_policy: {text}@{address}: the page at {int(address, 16):08X} is taken by {owner.format(text=text)}", "--data", f"{text}@00500000", "--data", f"{text}@{address}")
        text.write_bytes(b"x" * (PAGE + 1))
        self.assert_refused("the page at 00400000 is taken by one", "--data", f"{text}@003FF000")
        self.assertEqual(0, self.run_it("--data", f"{text}@003FE000")[0])

    def test_data_that_does_not_fit_is_refused_by_name(self):
        self.put(one=elf([*SMALL, (0x00800000, b"", 4, DATA), (0x00C00000, b"", 4, DATA)]))
        placed(self.into, {"text": b"text", "empty": b"", "long": b"x" * (250 * PAGE), "more/text": b"two"})
        for given, why in DATA_REFUSED:
            with self.subTest(given):
                self.assert_refused(why, "--data", f"{self.into}/{given}")
        self.assert_refused("no FILE@ADDRESS", "--data", "@00500000")
        self.assert_refused("two files are called text, and their sources would have one name", "--data", f"{self.into}/text@00500000", "--data", f"{self.into}/more/text@00501000")

    def test_a_file_comes_in_as_keys_of_64_at_a_time(self):
        held = bytes(range(256)) + b"end"
        self.put(one=elf(SMALL), two=elf(SMALL))
        text, given = self.into / "text", self.into / "one.input"
        text.write_bytes(held)
        self.assertEqual((0, []), self.run_it("--keys", str(text), "--pace", "1000", "--line", "2,1")[::2])
        lines = [it.split() for it in given.read_text().splitlines() if not it.startswith("#")]
        self.assertEqual([[str(1000 * k), "key", "2"] for k in range(1, 7)], [it[:3] for it in lines])
        self.assertEqual([held[k:k + 64] for k in range(0, 259, 64)] + [b"\4"], [bytes.fromhex(it[3]) for it in lines])
        self.assertIsNone(input_refusal(given.read_bytes(), ()))
        text.write_bytes(b"")
        self.assertEqual(0, self.run_it("--keys", str(text))[0])
        self.assertTrue(given.read_text().endswith("\n100000 key 0 04\n"))
        given.write_text("5 key 0 41\n")
        self.assert_refused("one.input: it is there already", "--keys", str(text))

    def test_keys_that_do_not_fit_are_refused_by_name(self):
        for size, pace, why in KEYS:
            self.put(one=elf(SMALL))
            text = self.into / "text"
            text.write_bytes(b"x" * size)
            words = "--keys", str(text), "--pace", str(pace)
            self.assert_refused(why, *words) if why else self.assertEqual((0, []), self.run_it(*words)[::2])
            self.assertTrue(why or input_refusal((self.into / "one.input").read_bytes(), ()) is None)
        self.assert_refused("no file of this name", "--keys", f"{text}x")

    def test_the_examples_and_the_commands_of_the_document_are_rows(self):
        rows = [it.split(maxsplit=3) for it in (TOP / "crates/rows/data/rows").read_text().splitlines()]
        mine = {words for folder, _, _, words in rows if folder == "examples/c"}
        told = re.findall(r"^    dsmon (.*)$", (TOP / "docs/c.md").read_text(), re.MULTILINE)
        self.assertGreater(len(told), 2)
        self.assertLessEqual({*told, *(f"run {it}.toml {it}.input 1000000000" for _, (it, *_) in POLICIES)}, mine)  # (what is told beside a text is in rows of `came`)
        self.assertTrue(all((EXAMPLES / f"{it}-1.s").is_file() for _, programs in POLICIES for it in programs))

    def test_the_document_shows_what_the_sieve_writes(self):
        lines = (EXAMPLES / "sieve.expected").read_text().splitlines()
        document = (TOP / "docs/c.md").read_text()
        self.assertIn("".join(f"    {it}".rstrip() + "\n" for it in lines[:3]), document)
        self.assertIn(f"an empty log and the {lines[-1]}.", document)
