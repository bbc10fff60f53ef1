"""Tests of the C library of examples/c/lib/: its functions run on this machine beside those of the C library here.

Each file of the library is compiled by `gcc`, and its functions get the prefix `lib_`. The tests of examples/c/lib/tests/ call both at their edges and
with what is drawn, and formats that are wrong, with nothing to be touched behind the bytes. The programs that use the library run here too, with the C
library of this machine: each has to put what its `.expected` has for dsmon. Where there is no gcc, that is said, and nothing is tested.
"""
import re
import shutil
import subprocess
import tempfile
import unittest
from pathlib import Path

from port import EXAMPLES, of_pages, parts

LIBRARY, TESTS = EXAMPLES / "lib", EXAMPLES / "lib" / "tests"
HERE = all(map(shutil.which, ("gcc", "nm", "objcopy")))
if not HERE:
    print("test_c_library: no gcc here, so the C library is not tested")
# What stops a function that shifts too far, or reads a word where none is.
FLAGS = ["-std=c11", "-O1", "-g", "-Wall", "-Wextra", "-fwrapv", "-fno-builtin", "-fsanitize=undefined", "-fsanitize-undefined-trap-on-error"]
PROGRAMS = [  # the examples with the library: their files, and one that lies in pages at 00500000
    ("calculator", ["calculator.c", "expression.c"], None),
    ("words", ["words.c"], None),
    ("letters", ["letters.c"], "letters.txt"),
    ("library", ["library.c"], None),
]


def run(*words, **how):
    done = subprocess.run([str(it) for it in words], capture_output=True, **how)
    if done.returncode and "check" not in how:
        raise AssertionError(f"{' '.join(map(str, words[:3]))} ..\n{(done.stdout + done.stderr).decode(errors='replace')[-3000:]}")
    return done


def compiled_library(room):
    """The object files of the library, each of whose names has the prefix."""
    sources, objects = sorted(LIBRARY.glob("*.c")), []
    for it in sources:
        objects.append(room / f"{it.stem}.o")
        run("gcc", *FLAGS, "-ffreestanding", "-fno-tree-loop-distribute-patterns", f"-I{LIBRARY}", f"-I{TESTS}", "-c", "-o", objects[-1], it)
    named = run("nm", "-g", "--defined-only", "-P", *objects).stdout.decode().splitlines()
    names = sorted({it.split()[0] for it in named if " " in it} | {"heap", "heap_end"})
    Path(room, "names").write_text("".join(f"{it} lib_{it}\n" for it in names), "ascii")
    for it in objects:
        run("objcopy", f"--redefine-syms={room / 'names'}", it)
    return names, objects


def declared(header):
    """The names of the functions that a header of the library declares."""
    return set(re.findall(r"\b(\w+)\((?!\()[^;]*;", re.sub(r"^(#|//|typedef|extern).*$", "", (LIBRARY / header).read_text("ascii"), flags=re.MULTILINE)))


def keys(name):
    """What comes on line 0 of an example, up to control D, with the return key as a line feed."""
    text = (EXAMPLES / f"{name}.input").read_text("ascii")
    lines = re.findall(r"^\d+ key 0 ([0-9A-Fa-f]+)$", text, re.MULTILINE)
    return bytes.fromhex("".join(lines)).partition(b"\4")[0].replace(b"\r", b"\n")


def console(name):
    """What an example has to put on line 0."""
    return parts((EXAMPLES / f"{name}.expected").read_bytes())[0]


@unittest.skipUnless(HERE, "no gcc here, so the C library is not tested")
class Tests(unittest.TestCase):
    @classmethod
    def setUpClass(cls):
        folder = tempfile.TemporaryDirectory(prefix="c-library-")
        cls.addClassCleanup(folder.cleanup)
        cls.room = Path(folder.name)
        cls.names, cls.objects = compiled_library(cls.room)

    def test_functions_do_what_those_of_the_host_do(self):
        program = self.room / "tests"
        run("gcc", *FLAGS, "-D_GNU_SOURCE", "-fno-pie", "-no-pie", "-o", program, *sorted(TESTS.glob("*.c")), *self.objects)
        said = run(program, timeout=100).stdout.decode(errors="replace").splitlines()[-1]
        self.assertRegex(said, r"^\d{7,} checks, 0 failed$")

    def test_each_function_that_a_header_declares_is_there_and_tested(self):
        tests = "".join(it.read_text("ascii") for it in TESTS.glob("*.c"))
        headers = set().union(*(declared(it.name) for it in LIBRARY.glob("*.h")))
        self.assertGreater(len(headers), 60)
        self.assertEqual(set(), headers - set(self.names))
        self.assertEqual([], sorted(it for it in {*self.names} - {"heap", "heap_end", "ds_format"} if f"lib_{it}" not in tests))

    def test_programs_put_here_what_is_expected_of_dsmon(self):
        for name, sources, data in PROGRAMS:
            with self.subTest(name):
                program, files = self.room / name, [EXAMPLES / it for it in sources]
                run("gcc", "-std=c11", "-O1", "-fwrapv", "-o", program, *files, *(of_pages(EXAMPLES / data) if data else []))
                done = run(program, input=keys(name), check=False, timeout=100)
                status = f"\nexit {done.returncode}\n".encode() if done.returncode else b""
                self.assertEqual(console(name), done.stdout + status)
