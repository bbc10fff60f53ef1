"""Tests of tools/port.py: what the programs are given and how their texts are compared, with no package and no compiler."""
import random
import zlib
from pathlib import Path
from unittest import mock

import port
from port import ADDRESS, DAMAGED, END, EXAMPLES, PACKED, PORTS, TEXT, Refused, damaged, drawn_block, first_difference, item, items_in, parts, read_again
from rooms import InARoom, placed, said

RUN = b"console 0 6\nfirst\n\nconsole 1 0\n\nconsole 2 0\n\nconsole 3 0\n\nlog 1\n2 1 00400008 store 00410008 r2 1\ntime 10\n"


def unpacked(block):
    """What a block of lz4 holds."""
    held, at = bytearray(), 0

    def length(at, count):
        while count >= 15:
            count, at, more = count + block[at], at + 1, block[at]
            if more < 255:
                break
        return at, count

    while True:
        token = block[at]
        at, literals = length(at + 1, token >> 4)
        held += block[at:at + literals]
        at += literals
        if at == len(block):
            return bytes(held)
        back = int.from_bytes(block[at:at + 2], "little")
        at, more = length(at + 2, token & 15)
        for _ in range(more + 4):
            held.append(held[-back])


def package(room):
    """A source package with the files whose texts are packed."""
    folder = Path(room, "package")
    placed(folder, {it: f"{it}\n" * 500 for it in ("deflate.c", "LICENSE", "lib/lz4.c", "lib/LICENSE")})
    placed(folder, {"debian/changelog": "zlib (1:1.2.13-1) unstable; urgency=low\n"})
    return folder


DIFFERENCES = [  # two texts, and how they differ
    (b"a\nb\n", b"a\nb\n", None), (b"a\nb\n", b"a\nc\n", "line 2: 'b', natively 'c'"), (b"a\nb\n", b"a\n", "line 2: 'b', natively 'nothing'")]
COMPARED = [  # what dsmon puts, what stops a process there, what is put natively, the status, and what is told
    (b"a\nb\n", [], b"a\nb\n", 0, "lz4: 2 lines, 4 bytes, the same as natively"),
    (b"a\n", ["9 1 00400000 store 00000000 r0 3"], b"b\n", 1, "lz4: the log has 9 1 00400000 store 00000000 r0 3; line 1: 'a', natively 'b'"),
]


class Tests(InARoom):
    def said(self, words, **stand_ins):
        """The status of the script and its lines, with stand-ins for its functions."""
        with mock.patch.multiple(port, **stand_ins):
            status, out, err = said(port.main, words)
        return status, out.splitlines(), err.splitlines()

    def test_items_are_read_as_they_were_written(self):
        held = [(TEXT, 15, b"abcde"), (PACKED, -15, b""), (TEXT, 31, bytes(8))]
        file = b"".join(item(*it) for it in [*held, (END, 0, b"")])
        self.assertEqual((held, 0), (list(items_in(file)), len(file) % 4))

    def test_kinds_and_address_are_those_of_the_header_and_each_port_has_its_program(self):
        header = (EXAMPLES / "port" / "items.h").read_text("ascii")
        self.assertIn(f"END = {END}, TEXT = {TEXT}, PACKED = {PACKED}", header)
        self.assertIn(f"0x{ADDRESS:08X}", header)
        self.assertTrue(all((EXAMPLES / "port" / f"with_{it}.c").is_file() for it in PORTS))

    def test_streams_are_good_before_they_are_damaged(self):
        items = list(items_in(b"".join(port.zlib_items(package(self.room), random.Random(1))) + item(END, 0, b"")))
        packed = [(option, held) for kind, option, held in items if kind == PACKED]
        self.assertEqual(DAMAGED, len(packed) - 7)
        self.assertEqual(1, len({zlib.decompress(held, wbits=option) for option, held in packed[:7]}))
        for seed in range(50):
            self.assertGreater(len(unpacked(drawn_block(random.Random(seed)))), 12)

    def test_damaged_streams_have_a_bit_turned_or_are_cut_off(self):
        stream = bytes(range(200))
        for held, option in damaged([(stream, 7)], random.Random(3)):
            self.assertEqual((7, len(held) == len(stream)), (option, not stream.startswith(held)))

    def test_a_run_is_told_in_parts_and_the_first_difference_with_its_line(self):
        self.assertEqual((b"first\n", ["2 1 00400008 store 00410008 r2 1"], 10), parts(RUN))
        for mine, theirs, told in DIFFERENCES:
            self.assertEqual(told, first_difference(mine, theirs))

    def test_streams_that_were_put_are_read_again(self):
        held = random.Random(5).randbytes(100)
        digits = zlib.compress(held).hex()
        console = "\n".join(["zlib 1", *(digits[at:at + 64] for at in range(0, len(digits), 64)), "inflate"]).encode()
        self.assertEqual((1, 1), read_again(console, [(TEXT, 15, held), (PACKED, 15, b"x")]))
        for other in ((TEXT, 15, b"other"), (TEXT, 31, held)):
            self.assertEqual((0, 1), read_again(console, [other]))

    def test_the_same_text_and_another_are_told(self):
        program = self.room / "dsmon"
        program.touch()
        for mine, log, theirs, *wanted in COMPARED:
            status, out, err = self.said(["--dsmon", str(program), "--from", str(package(self.room)), "lz4"], check_tools=lambda needed: None,
                                         by_dsmon=lambda *given: (mine, log, 12), natively=lambda *given: theirs)
            self.assertEqual((*wanted, []), (status, out[-1], err))
            self.assertRegex(out[0], r"^lz4 1:1\.2\.13-1: 2 files as they stand; [\d,]+ bytes of texts and streams; 12 ticks")

    def test_a_package_is_fetched_with_lists_of_its_own(self):
        said = []

        def ran(words, cwd=None):
            said.append(words)
            if cwd:
                (cwd / "zlib-1").mkdir()
        with mock.patch.multiple(port, ran=ran, release_name=lambda: "bookworm"):
            self.assertEqual(self.room / "source" / "zlib-1", port.fetched("zlib", self.room))
        self.assertEqual([["update"], ["source", "zlib"]], [it[it.index("APT::Sandbox::User=root") + 1:] for it in said])
        self.assertTrue(all(f"Dir::State::lists={self.room / 'lists'}" in it for it in said))
        self.assertIn("deb-src", (self.room / "sources.list").read_text("ascii"))

    def test_what_is_missing_or_fails_is_told_and_wrong_words_are_refused(self):
        self.assertEqual((2, [], ["port: no nothing-like-it: apt-get install a-package"]), self.said(["zlib"], NEEDED={"nothing-like-it": "a-package"}))
        self.assertEqual((2, [], ["port: no program /no/dsmon: README.md says how it is built"]), self.said(["--dsmon", "/no/dsmon", "zlib"], check_tools=lambda needed: None))
        with self.assertRaisesRegex(Refused, "(?s)` ended with status 3:\nwhy$"):
            port.ran(["sh", "-c", "echo why >&2; exit 3"])
        for words in (["gzip"], ["--from", "."], ["--from", ".", "zlib", "lz4"]):
            self.assertEqual(2, said(port.options, words)[0])
