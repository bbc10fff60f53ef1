#!/usr/bin/env python3
"""Tells what the gate takes, by crate: runs a command, and reads the processor seconds of all processes that it starts.

    tools/gate_times.py --keep CI -- rt ci                                the proofs, the tests, and the edits of must-fail/
    tools/gate_times.py --keep WRONG -- tools/wrong_bodies.py             the edits of wrong/
    tools/figures.py --seconds CI WRONG                                   takes both over into docs/figures.md, as a table

A process is counted for the crate that its words name (`--crate-name`), as a proof, as a proof with tests (`--test`), or as the try of an
edit, by the folder that it runs in. It is read a few times a second, as long as it runs; so the last fraction of a second of each
is lost, and a process that is shorter than that is not seen. With --keep FILE what was read is kept, also of a run that is cut short.
The status is that of the command.
"""
import argparse
import contextlib
import json
import os
import subprocess
import sys
import time
from collections import defaultdict, namedtuple
from pathlib import Path

TOP = Path(__file__).resolve().parent.parent
SECONDS = 0.2  # between two readings
TICKS = os.sysconf("SC_CLK_TCK")
KINDS = ["proof", "with tests", "must-fail", "wrong"]
# By the folders of edits, those in which rt ci and tools/wrong_bodies.py try them.
ROOMS = {"must-fail": "rt-edit-", "wrong": "wrong-bodies-"}
# What /proc tells of a process: who started it, its beginning, and the processor seconds that it took so far.
Process = namedtuple("Process", "parent start took")


def process_of(text):
    """The process of a text of /proc/N/stat. The command's name, in brackets, may have blanks."""
    fields = text[text.rindex(")") + 2 :].split()
    return Process(int(fields[1]), int(fields[19]), (int(fields[11]) + int(fields[12])) / TICKS)


def below(root, found):
    """The numbers of the processes that a process started, and those that these started."""
    children = [number for number, it in found.items() if it.parent == root]
    return [*children, *(it for child in children for it in below(child, found))]


def belongs(words, folder):
    """The crate and the kind of a process with these words, in this folder."""
    if "--crate-name" not in words[:-1]:
        return "", "other"
    tried = [kind for kind, room in ROOMS.items() if os.path.basename(folder).startswith(room)]
    return words[words.index("--crate-name") + 1], (tried or ["with tests" if "--test" in words else "proof"])[0]


def read(root, seen):
    """Reads the processes below one, and keeps of each its words, its folder and what it took."""
    def of_proc(number, name):
        with contextlib.suppress(OSError):  # (it may have ended)
            return Path("/proc", str(number), name).read_bytes().decode("utf-8", "replace")
        return ""

    found = {int(it): process_of(text) for it in os.listdir("/proc") if it.isdigit() and (text := of_proc(it, "stat"))}
    for number in below(root, found):
        key = number, found[number].start
        words, folder, _ = seen.get(key, ([], "", 0))
        if "--crate-name" not in words:  # (a process may still become what it is to run)
            words = of_proc(number, "cmdline").split("\0") or words
            folder = os.path.realpath(f"/proc/{number}/cwd")
        seen[key] = words, folder, found[number].took


def rows_of(seen):
    """What each crate took of each kind."""
    total = defaultdict(float)
    for words, folder, took in seen.values():
        total[belongs(words, folder)] += took
    return [[crate, kind, round(seconds, 2)] for (crate, kind), seconds in sorted(total.items())]


def measured(words, keep=None):
    """Runs a command, and returns its status, and what each crate took of each kind."""
    seen, kept, is_over = {}, time.monotonic(), False
    with subprocess.Popen(words, cwd=TOP, stdin=subprocess.DEVNULL) as ran:
        while not is_over:
            read(ran.pid, seen)
            is_over = ran.poll() is not None
            if keep and (is_over or time.monotonic() - kept > 10):
                Path(keep).write_text(json.dumps(rows_of(seen)), "utf-8")
                kept = time.monotonic()
            time.sleep(0 if is_over else SECONDS)
    return ran.returncode, rows_of(seen)


def main(words):
    command = words[words.index("--") + 1 :] if "--" in words else []
    parser = argparse.ArgumentParser(prog="gate_times.py", description=__doc__, formatter_class=argparse.RawDescriptionHelpFormatter)
    parser.add_argument("--keep", metavar="FILE", help="write there what was read")
    given = parser.parse_args(words[: words.index("--")] if "--" in words else words)
    if not command:
        parser.error("say a command behind --")
    status, rows = measured(command, given.keep)
    for crate, kind, seconds in rows:
        print(f"{crate or 'all others'}, {kind}: {seconds:.0f} s")
    return status


if __name__ == "__main__":
    sys.exit(main(sys.argv[1:]))
