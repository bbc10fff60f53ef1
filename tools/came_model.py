#!/usr/bin/env python3
"""What `dsmon run` and `dsmon trace` come to with --summary, --must-end, --memory and --most, by a plain model, and whether the rows have just that.

    tools/came_model.py FOLDER WORDS..   writes what the words after `dsmon` come to, both texts, with names looked up from FOLDER
    tools/came_model.py --check          names the text of each row of crates/rows/data/rows with one of these flags where that or its status is otherwise
    tools/came_model.py --write          writes each of them anew

It is written after docs/formats.md ("After the text", "What standard error tells of a run", "A bound of what is written"), over tools/trace_model.py, and
shares nothing with the program. Of words that ask for nothing it knows those of --memory alone: the rows of came/by_hand were written by hand, and no text is
written anew there.
"""
import re
import sys
import tomllib
from collections import namedtuple

import case_files
import trace_model
from case_files import DATA, files_in
from trace_model import UNKNOWN, Denied, Traced, begun, memory_lines, number
from turns_model import Run

BY_HAND = "came/by_hand"
FLAGS = ("--summary", "--must-end", "--memory", "--most")
PIECE = 65536  # so many ticks go by before the bytes are looked at
MOST_WINDOWS = 8
DONE, WORDS_REFUSED, INPUT_REFUSED, TOO_MUCH, UNENDED = range(5)  # the statuses
WHY = {  # what a rule says in words, or the letter in its place
    "K": "no process may use this address", "A": "the address is not a multiple of the size", "I": "no process may do this instruction",
    "r0": "no rule grants anything here"}
BAD_MEMORY = "dsmon: --memory takes P:ADDRESS:COUNT, as 1:00410000:8, at most eight times\n"
Window = namedtuple("Window", "process address count")  # words of a process's memory
Came = namedtuple("Came", "status out err")  # what words came to


class BadMemory(Exception):
    """Words of memory that there can't be."""


def window_of(text):
    """What the text after --memory asks for."""
    match = re.fullmatch(r"([0-9]{1,10}):(?:0x)?([0-9A-Fa-f]{1,8}):([0-9]{1,10})", text)
    it = match and Window(int(match[1]), int(match[2], 16), int(match[3]))
    if not it or not 1 <= it.process <= 100 or it.address % 4 or not 1 <= it.count <= 1024 or it.address + 4 * it.count > 2**32:
        raise BadMemory
    return it


def has_gone_too_far(run, n, most):
    """Runs for n ticks, or to the end of the first piece after which there are more bytes than these, put or in the log; whether there are."""
    for end in [*range(PIECE, n + 1, PIECE), n] if most is not None else [n]:
        run.run(end)
        if most is not None and sum(map(len, run.consoles)) + sum(len(line) + 1 for line in run.log) > most:
            return True
    return False


def parked_by(run, p):
    """By which line of the log a process is parked, with its rule in words. A refused give parks nobody, so it is never the last."""
    line = [it for it in run.log if it.split(" ")[1] == str(p)][-1]
    _, _, _, kind, _, rule, *_ = line.split(" ")
    other = f"rule {rule[1:]} {'does not grant writing here' if kind == 'store' else 'grants nothing here'}"
    return f" by {line}: {WHY.get(rule, other)}"


def summary(run, n, is_bounded):
    """What a run for n ticks came to, in lines: of one that is bounded without what goes unit by unit."""
    yield f"{'ended' if run.has_ended() else 'stopped' if run.time < n else 'out of ticks'} at {run.time}"
    yield from (f"process {p} {it.state.lower()} {it.pc:08X}{parked_by(run, p) if it.state == 'Parked' else ''}" for p, it in run.processes.items())
    if not is_bounded:
        if unknown := run.called[UNKNOWN] if run.view.only != "end" else 0:
            yield "1 call of a number that is no call" if unknown == 1 else f"{unknown} calls of numbers that are no call"
        for line, count in sorted((+run.told_lost).items()):
            first = f"on console {line}, {'at' if count == 1 else 'the first at'} time {run.first_lost[line]}"
            yield f"1 character lost {first}" if count == 1 else f"{count} characters lost {first}"
    yield from (f"denied {rule} {times}" for rule, times in run.denied_at_all().items())


def unended(run):
    """A line for each process that has not ended, of which the first is told."""
    for p, it in run.processes.items():
        where = f"dsmon: process {p} has not ended: it "
        match it.state:
            case "Ready": yield f"{where}is ready at {it.pc:08X}, and the ticks ran out"
            case "Waiting": yield f"{where}waits for a character at {it.pc:08X}"
            case "Parked": yield f"{where}is parked at {it.pc:08X}{parked_by(run, p)}"


def word_text(run, p, address):
    """A word as the process may read it."""
    try:
        page, at = run.place(p, "load", address)
        return f"{int.from_bytes(page[at:at + 4], 'little'):08X}"
    except Denied:
        return "-"


def text(lines):
    return "".join(f"{line}\n" for line in lines).encode()


def came(read, words):
    """What these words come to, with a function from a file's name to its text."""
    (command, policy, given, n), flags = trace_model.asked(words)
    try:
        windows = [window_of(it) for it in flags.get("memory", [])]
        if len(windows) > MOST_WINDOWS:
            raise BadMemory
    except BadMemory:
        return Came(WORDS_REFUSED, b"", BAD_MEMORY.encode())
    processes = len(tomllib.loads(read(policy))["process"])
    lacking = [it.process for it in windows if it.process > processes]
    if lacking:
        return Came(INPUT_REFUSED, b"", f"dsmon: 12 NoProcess {lacking[0]}\n".encode())
    run, most = begun(read, policy, given, Traced, trace_model.view_of(flags)), number(flags, "most", None)
    run.passes_idle = command == "run"
    is_too_much = has_gone_too_far(run, int(n), most)
    written = run.text() if command == "trace" else Run.text(run)
    written += "".join(line for p, *it in windows for line in memory_lines(f"{p} ", *it, lambda at: word_text(run, p, at))).encode()
    told = text(summary(run, int(n), most is not None)) if "summary" in flags else b""
    line = [*unended(run)][:1] if "must-end" in flags else []
    if is_too_much:
        return Came(TOO_MUCH, written, told + b"dsmon: 27 TooMuch\n")
    return Came(UNENDED if line else DONE, written, told + text(line))


def files():
    """The texts of the rows that this model can tell, each of which has its status."""
    for it in case_files.rows():
        if it.folder != DATA / BY_HAND and it.words[0] != "bare" and any(word.split("=")[0] in FLAGS for word in it.words):
            status, out, err = came(files_in(it.folder), it.words)
            yield it.text, out + err if status == it.status else f"the status is {status}: {it.line}\n"


if __name__ == "__main__":
    sys.exit(case_files.main(files, lambda read, words: b"".join(came(read, words)[1:])))
