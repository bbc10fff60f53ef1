#!/usr/bin/env python3
"""Holds the sessions of tools/debug/ with `dsmon debug`, and tells of each whether it was as written.

Each is held in lock step: a packet is sent once what was to be answered before has come. Then it is held anew, with all
that is sent at once, and with a byte at a time. What comes has to be the same each time.

A file NAME.session has a line of words, as `$ debug POLICY INPUT N`, given in examples/, and lines in their order:

    > TEXT    a packet of this text is sent
    < TEXT    a packet of this text has to come
    + or -    this mark has to come
    >> BYTES  these bytes are sent as they are; \\xHH is a byte
    ! LINE    a line that has to be told on standard error
    = N       the status, where it is not 0
    @ FOLDER  the folder below examples/ in which the words are given
    # ..      a comment

The program is crates/dsmon/out/dsmon, or --program FILE. Where there is none the script says so, and its status is 0.
"""
import argparse
import contextlib
import os
import re
import select
import subprocess
import sys
import time
from pathlib import Path

TOP = Path(__file__).resolve().parent.parent
SECONDS = 60


def framed(text):
    """A packet of this text, with its sum."""
    data = text.encode("latin-1")
    return b"$" + data + b"#%02x" % (sum(data) % 256)


def raw(text):
    """The bytes of a text in which \\xHH is a byte."""
    return re.sub(rb"\\x([0-9a-f]{2})", lambda it: bytes([int(it[1], 16)]), text.encode("latin-1"))


class Session:
    """What a file says: the words, what is sent and what has to come in their order, and how it ends."""

    def __init__(self, path):
        self.name, self.words, self.steps, self.told, self.status = path.stem, [], [], b"", 0
        self.folder = TOP / "examples"
        for line in path.read_text("utf-8").splitlines():
            sort, _, rest = line.partition(" ")
            match sort:
                case "$": self.words = rest.split()
                case ">": self.steps.append((True, framed(rest)))
                case ">>": self.steps.append((True, raw(rest)))
                case "<": self.steps.append((False, framed(rest)))
                case "+" | "-": self.steps.append((False, sort.encode()))
                case "!": self.told += rest.encode() + b"\n"
                case "@": self.folder = TOP / "examples" / rest
                case "=": self.status = int(rest)
                case "" | "#": pass
                case _: raise ValueError(f"{path}: {line}")

    def all_of(self, sent):
        """All that is sent, or all that has to come."""
        return b"".join(it for which, it in self.steps if which == sent)


def received(process, count):
    """So many bytes of what a process writes, or fewer where it ends or takes too long."""
    came, more, end = b"", b"any", time.monotonic() + SECONDS
    while more and len(came) < count and select.select([process.stdout], [], [], max(0, end - time.monotonic()))[0]:
        came += (more := os.read(process.stdout.fileno(), count - len(came)))
    return came


def held(program, session, steps):
    """What comes of steps, of which what is to come is waited for before the next piece is sent: all that came, what was told, and the status."""
    pipe, came = subprocess.PIPE, b""
    with subprocess.Popen([program, *session.words], cwd=session.folder, stdin=pipe, stdout=pipe, stderr=pipe, bufsize=0) as process:
        for sent, text in steps:
            if sent:
                with contextlib.suppress(BrokenPipeError):
                    process.stdin.write(text)
                continue
            more = received(process, len(text))
            came += more
            if more != text:
                break
        process.stdin.close()
        return came + process.stdout.read(), process.stderr.read(), process.wait(SECONDS)


def fault_of(session, outcome):
    """What is otherwise than the session has it, or nothing."""
    (came, told, status), wanted = outcome, session.all_of(False)
    if came != wanted:
        at = next((i for i, (a, b) in enumerate(zip(came, wanted)) if a != b), min(len(came), len(wanted)))
        return f"from byte {at} on {came[at : at + 120]!r} came, and {wanted[at : at + 120]!r} was to come"
    if told != session.told:
        return f"{told!r} was told"
    if status != session.status:
        return f"the status is {status}"
    return None


def fault_in(program, session):
    """What is otherwise in any of the ways in which the session is held."""
    text = session.all_of(True)
    ways = {"in lock step": session.steps, "at once": [(True, text)], "by bytes": [(True, bytes([it])) for it in text]}
    return next((f"{how}: {fault}" for how, steps in ways.items() if (fault := fault_of(session, held(program, session, steps)))), None)


def asked(about, words, *options, **numbers):
    """What a script is asked that takes the program; none where that is not there, which it says."""
    parser = argparse.ArgumentParser(description=about, formatter_class=argparse.RawDescriptionHelpFormatter)
    parser.add_argument("--program", type=lambda it: Path(it).resolve(), default=TOP / "crates/dsmon/out/dsmon")
    for name, default in numbers.items():
        parser.add_argument(f"--{name}", type=int, default=default)
    for name, how in options:
        parser.add_argument(name, **how)
    given = parser.parse_args(words)
    if given.program.is_file():
        return given
    print(f"skipped: there is no {given.program}")
    return None


def main(words=None):
    given = asked(__doc__, words, ("files", {"nargs": "*", "type": Path, "default": sorted((TOP / "tools/debug").glob("*.session"))}))
    wrong = 0
    for session in map(Session, given.files if given else ()):
        fault = fault_in(str(given.program), session)
        print(f"{session.name}: {fault or 'as written'}")
        wrong += fault is not None
    if given:
        print(f"{len(given.files) - wrong} of {len(given.files)} sessions are as written")
    return int(wrong > 0)


if __name__ == "__main__":
    sys.exit(main())
