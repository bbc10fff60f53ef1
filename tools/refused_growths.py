#!/usr/bin/env python3
"""Refuses each growth of memory of proved programs, alone and with all after it, and looks at what they answer.

It takes the programs that `rt ci` built in crates/*/out. A run of dsmon for which a growth is refused before its first turn writes nothing. One that is
cut short writes the text of some number of whole turns. Both end with status 3 and the line of want of memory. Where a growth alone is refused, the
program may ask for less instead, or do without, and then the run is whole. Where all from one on are refused, it may be whole only if it is so with each
of them refused alone. The tests whose names begin with `for_want_of_memory` or `after_want_of_memory` pass whichever growths are refused. Which growth is
refused says tools/refuse.c, a library that the toolchain's compiler makes. Where a program was not built, this is said, nothing is tried there, and the
status is 0. It is 1 where an answer is wrong.
"""
import os
import subprocess
import sys
import tempfile
from collections import namedtuple
from concurrent.futures import ThreadPoolExecutor
from pathlib import Path

import case_files
from page.program import installed

TOP = Path(__file__).resolve().parent.parent
DATA = TOP / "crates" / "rows" / "data"
NOTHING = str(DATA / "nothing.input")
MEMORY, TOLD = 3, b"dsmon: 25 Memory\n"
SECONDS = 60  # of one run
ABOUT_MEMORY = ("for_want_of_memory", "after_want_of_memory")
BYTES = 257  # of the guest: one more than a console makes room for at once
TICKS = 2 * BYTES + 6  # of its whole run, which is denied at time 515
KNOWN = [*range(4), *range(2 * BYTES - 6, TICKS + 1)]  # the times near the growths of its run

CODE = [(p, 0x40_0000, "read", "code", False) for p in (1, 2)]
POLICY = case_files.policy_text("The guest.", 16, 0, [(0x40_0000, 0), (0x40_0000, 1)], [("code", "guest.s", 0)], CODE)
# Puts so many bytes that its console grows twice, and is denied a store, so that the log grows before the other process
# begins: turns in which nobody is ready ask for no room.
GUEST = "addiu $a0, $zero, 46\n" + BYTES * "addiu $v0, $zero, 1\nsyscall\n" + "sw $zero, 0($zero)\n"


class Wrong(Exception):
    """What is not as it has to be."""


Run = namedtuple("Run", "status out err")  # how a run ended, and what it wrote


class Program:
    """A program that is run with the library in place."""

    def __init__(self, library, path):
        self.library, self.path = library, str(Path(path).resolve())

    def run(self, words, cwd=None, refuse=None, growths=None):
        env = {"LD_PRELOAD": self.library, **({"REFUSE": refuse} if refuse else {}), **({"GROWTHS": growths} if growths else {})}
        done = subprocess.run([self.path, *words], cwd=cwd, env=env, stdin=subprocess.DEVNULL, capture_output=True, timeout=SECONDS)
        return Run(done.returncode, done.stdout, done.stderr)

    def counted(self, words, cwd=None):
        """A run without a refusal, and how many growths it has."""
        with tempfile.NamedTemporaryFile() as file:
            run = self.run(words, cwd, growths=file.name)
            return run, int(file.read() or 0)


# A run of dsmon: its folder, its policy, its ticks, the times whose texts are known, and whether it is cut in each way.
Row = namedtuple("Row", "name folder policy ticks times has_each_cut", defaults=(False,))


def rows(folder):
    """The rows, and a guest that grows its console and the log after many turns."""
    (Path(folder) / "guest.toml").write_text(POLICY)
    (Path(folder) / "guest.s").write_text(GUEST)
    shared = str(DATA / "policies" / "code.toml")
    return [Row("put_a", str(DATA / "runs" / "put_a"), shared, 100, tuple(range(7))),
            Row("copied", str(DATA / "grants" / "copied"), "policy.toml", 100, tuple(range(29))),
            Row("share_and_copy", str(DATA / "grants" / "share_and_copy"), "policy.toml", 100, tuple(range(31))),
            Row("guest", folder, "guest.toml", TICKS, tuple(KNOWN), True)]


def judged(run, growth, may_be_whole, before, whole, known):
    """The place of a text among those that are known, none where nothing was written, or Wrong."""
    if run == Run(0, whole, b"") and may_be_whole:
        return len(known) - 1
    if run.status != MEMORY or run.err != TOLD:
        raise Wrong(f"the status is {run.status}, and it said {run.err!r} and wrote {run.out!r}")
    if growth <= before:
        if run.out:
            raise Wrong(f"before the run it wrote {run.out!r}")
        return None
    if run.out not in known:
        raise Wrong(f"this is no text of whole turns: {run.out!r}")
    return known.index(run.out)


def check_cuts(texts, first):
    """The guest was cut before its first turn, after a byte that was put, and after a line of the log."""
    for what, is_met in [
            ("before its first turn", lambda text: text == first),
            ("after a byte", lambda text: not text.startswith(b"console 0 0\n") and b"\nlog 0\n" in text),
            ("after a line of the log", lambda text: b"\nlog 1\n" in text)]:
        if not any(map(is_met, texts)):
            raise Wrong(f"no run was cut {what}")


def tried(program, row, lanes):
    """Tries each growth of a row both ways: how many there are, how many of them in the run, and how often the run was whole all the same."""
    words = lambda ticks: ["run", row.policy, NOTHING, str(ticks)]  # noqa: E731
    (whole, growths), (_, before) = (program.counted(words(it), row.folder) for it in (row.ticks, 0))
    known = [it.out for it in lanes.map(lambda n: program.run(words(n), row.folder), row.times)]
    if whole.status or whole.out != known[-1] or not 0 < before < growths:
        raise Wrong(f"{row.name}: without a refusal it ends with {whole.status}, and has {before} growths before the run and {growths} in all")
    spared, cuts, wholes = set(), set(), 0  # the growths that a run can do without, and the places where it was cut
    for on in (False, True):
        marks = [f"{growth}{'..' if on else ''}" for growth in range(1, growths + 1)]
        places = []
        for growth, run in enumerate(lanes.map(lambda mark: program.run(words(row.ticks), row.folder, mark), marks), 1):
            try:
                place = judged(run, growth, not on or spared.issuperset(range(growth, growths + 1)), before, whole.out, known)
            except Wrong as wrong:
                raise Wrong(f"{row.name}, growth {marks[growth - 1]} of {growths}: {wrong}") from None
            wholes += run.status == 0
            if run.status == 0 and not on:
                spared.add(growth)
            places += [place] if run.status and place is not None else []
        if places != sorted(places):
            raise Wrong(f"{row.name}: a later growth was refused earlier: {places}")
        cuts.update(places)
    if row.has_each_cut:
        check_cuts([known[it] for it in cuts], known[0])
    return growths, growths - before, wholes


def tests_of(program):
    """The names of a program's tests about want of memory."""
    names = [it.partition(": ")[0] for it in program.run(["--list"]).out.decode().splitlines()]
    return [it for it in names if it.split("::")[-1].startswith(ABOUT_MEMORY)]


def passed(program, name, lanes):
    """How many growths a test has, where it passes whichever are refused."""
    run, growths = program.counted([name])
    marks = [f"{growth}{on}" for growth in range(1, growths + 1) for on in ("", "..")]
    for mark, it in zip(["none", *marks], [run, *lanes.map(lambda mark: program.run([name], refuse=mark), marks)]):
        if it.status:
            raise Wrong(f"test {name}, growth {mark} of {growths}: the status is {it.status}, and it said {(it.out + it.err)!r}")
    return growths


def compiled(folder):
    """The library, made by the compiler of the toolchain."""
    library = str(Path(folder) / "refuse.so")
    compiler = [installed() / "toolchain/bin/clang", "-O1", "-shared", "-fPIC", "-nostdlib", "-fuse-ld=lld"]
    subprocess.run([*compiler, str(TOP / "tools" / "refuse.c"), "-o", library], check=True)
    return library


def main(dsmon=TOP / "crates/dsmon/out/dsmon", tests=TOP / "crates/ds_tests/out/ds_tests_tests"):
    with tempfile.TemporaryDirectory(prefix="refused-growths-") as folder, ThreadPoolExecutor(len(os.sched_getaffinity(0))) as lanes:
        library = compiled(folder)
        for path in (dsmon, tests):
            if not Path(path).is_file():
                print(f"refused_growths: {path} was not built, and was not tried")
        try:
            for row in rows(folder) if Path(dsmon).is_file() else []:
                growths, inside, wholes = tried(Program(library, dsmon), row, lanes)
                print(f"{row.name}: each of {growths} growths refused, {inside} of them in the run; asked otherwise {wholes} times")
            program = Program(library, tests)
            for name in tests_of(program) if Path(tests).is_file() else []:
                print(f"{name}: passes whichever of {passed(program, name, lanes)} growths is refused")
        except Wrong as wrong:
            print(f"refused_growths: wrong: {wrong}")
            return 1
    return 0


if __name__ == "__main__":
    sys.exit(main())
