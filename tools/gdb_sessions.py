#!/usr/bin/env python3
"""Runs sessions of a real gdb with `dsmon debug`, and tells of each whether it said what it has to.

A session is a script of gdb over an example, and lines that have to come in this order among what gdb writes. Then each of
two examples is gone through by random steps, forward and back, ten times; gdb has to end each time, with status 0, or 1
where its last command was refused.

It takes gdb-multiarch, and the assembler of binutils-mipsel-linux-gnu for labels and lines. Where one of them is not
installed, or the program is not built, the script says so, and its status is 0. It was written for gdb 13.1.
"""
import random
import shutil
import subprocess
import sys
import tempfile
import tomllib
from pathlib import Path

from debug_sessions import TOP, asked

SECONDS = 120

SESSIONS = tomllib.loads((TOP / "tools/debug/gdb.toml").read_text("utf-8"))["session"]
RANDOM = [("examples", "ping_pong.toml ping_pong.input 1000", "ping_pong.s", 2), ("examples", "hello.toml hello.input 100", "hello.s", 1)]
MOVES = ["stepi", "reverse-stepi", "next", "reverse-next", "step", "reverse-step", "continue", "reverse-continue", "info registers pc", "info threads", "x/4x 0x400000", "watch *(int*)0x410000", "delete"]


def said(program, gdb, place, script):
    """What gdb says to a script over an example, and its status."""
    folder, words, source, processes = place
    with tempfile.TemporaryDirectory() as name:
        elf = Path(name, f"{source}.elf")
        subprocess.run([TOP / "tools/asm_elf.sh", source, elf], cwd=TOP / folder, check=True)
        lines = ["set pagination off", "set confirm off", f"source {TOP / 'tools/debug.gdb'}", f"file {elf}"]
        lines += [f"add-inferior -exec {elf}"] * (processes - 1)
        lines += [f"target remote | {program} debug {words}", "stepi", "reverse-stepi", *script]
        done = subprocess.run([gdb, "-nx", "-q"], cwd=TOP / folder, input="\n".join(lines) + "\n", stdout=subprocess.PIPE, stderr=subprocess.STDOUT, timeout=SECONDS, text=True, errors="replace")
    return done.stdout, done.returncode


def lacks(text, wanted):
    """The first line that does not come in its order, or nothing."""
    at = 0
    for part in wanted:
        found = text.find(part, at)
        if found < 0:
            return part
        at = found + len(part)
    return None


def main(words=None):
    lacking = [it for it in ("gdb-multiarch", "mipsel-linux-gnu-as") if not shutil.which(it)]
    print("".join(f"skipped: there is no {it}\n" for it in lacking), end="")
    given = None if lacking else asked(__doc__, words, times=10)
    if given is None:
        return 0
    gdb, program = shutil.which("gdb-multiarch"), given.program
    runs = [(it["name"], it["place"], it["script"], it["wanted"]) for it in SESSIONS]
    for place, drawn, seed in ((place, random.Random(seed), seed) for place in RANDOM for seed in range(given.times)):
        runs.append((f"{place[1]}, draw {seed}", place, [drawn.choice(MOVES) for _ in range(60)], []))
    wrong = 0
    for name, place, script, wanted in runs:
        text, status = said(program, gdb, place, script)
        fault = lacks(text, wanted)
        if fault or status not in (0, 1):
            wrong += 1
            print(text)
        print(f"{name}: {'lacks ' + fault if fault else 'as it has to be'}, status {status}")
    return int(wrong > 0)


if __name__ == "__main__":
    sys.exit(main())
