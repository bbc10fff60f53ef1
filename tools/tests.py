#!/usr/bin/env python3
"""Runs the tests of the scripts, and the scripts that test the program, its data or the documents, side by side; with names, as test_page.py, these alone.

Each says what it said when it is done. The last line is 'N passed, M failed', and the status is 0 where M is 0.
"""
import os
import subprocess
import sys
import time
from concurrent.futures import ThreadPoolExecutor, as_completed
from pathlib import Path

TOP = Path(__file__).resolve().parent.parent
LONGEST = [f"test_{it}.py" for it in ("wrong_bodies", "elf_to_policy", "c_library", "conformance", "release")]
CHECKED = "trace_model hostile_cases grants_cases turns_cases came_model steps_model bare_model bare_cases reading_cases reason_cases".split()
CHECKED += "believe c_examples refusals figures documents".split()
OTHERS = ["debug_draws.py", "debug_sessions.py", "refused_growths.py", "unit_course.py", "wrong_bodies.py --count"]


def commands(top=TOP):
    """The tests, and the scripts that test something else than a script; those that take longest are first."""
    tests = sorted({it.name for it in Path(top, "tools").glob("test_*.py")}.difference(LONGEST))
    said = [*LONGEST, *(f"{it}.py --check" for it in CHECKED), *OTHERS, *tests]
    return [["tools/" + words[0], *words[1:]] for words in map(str.split, said)]


def ran(words, top=TOP):
    """Runs a script, or the tests of a module, and returns its status, and what it said with the seconds that it took."""
    began, name = time.monotonic(), Path(words[0]).stem
    run, folder = (["-m", "unittest", name], Path(top, "tools")) if name.startswith("test_") else (words, top)
    done = subprocess.run(
        [sys.executable, *run], cwd=folder, stdin=subprocess.DEVNULL, stdout=subprocess.PIPE, stderr=subprocess.STDOUT, errors="replace")
    took = time.monotonic() - began
    return done.returncode, f"== {' '.join(words)}: {took:.0f} s, status {done.returncode}\n{done.stdout}"


def main(commands, top=TOP):
    failed = 0
    with ThreadPoolExecutor(len(os.sched_getaffinity(0))) as lanes:
        for it in as_completed([lanes.submit(ran, words, top) for words in commands]):
            status, said = it.result()
            failed += status != 0
            print(said.rstrip("\n"), flush=True)
    print(f"{len(commands) - failed} passed, {failed} failed")
    return 1 if failed or not commands else 0


if __name__ == "__main__":
    sys.exit(main([it for it in commands() if not sys.argv[1:] or Path(it[0]).name in sys.argv[1:]]))
