#!/usr/bin/env python3
"""Writes the answers in crates/rows/data/parts/grants/ anew, by tools/grants_model.py, and the lines on these files of the crate's stdout.

What is asked is data, and stays: calls, commands and questions, of which each has its answer after an equals sign. They are answered over grants with
the bytes of their pages, address spaces and a buffer. Behind a refused call of refusals.txt, and of a line that has it already, stands all that speaks
against it. stories.txt was written by hand, with its answers.
"""
import re
import sys
import tomllib
from pathlib import Path

import case_files
from grants_model import Entry, Grants, right_has_ended
from spaces_model import AddressSpaces, LateCopies

CALLS = ["grant", "give", "take", "drop", "revoke", "narrow", "end", "split", "expire"]
CRATE = Path(__file__).resolve().parent.parent / "crates" / "rows"
REPLAYED = [f"{it}.txt" for it in "refusals stories sequences many spaces copies families ends".split()]  # in the order of the program
SIZES = {"byte": 1, "half": 2, "word": 4, "part": 1}  # what an address is a multiple of
FIRST_RANDOM, LAST_SLOT, FIRST_FREE_SLOT = 63, 63, 8


class Model(AddressSpaces, LateCopies, Grants):
    """What is done answers a number, of which 0 is told as "ok", or a word. What is asked has a method `tell_VERB`."""

    def __init__(self, processes, frames, named):
        super().__init__(range(1, processes + 1), frames, named)
        self.begin_spaces()
        self.place_pages()
        self.bytes = [0] * frames
        self.buffer, self.random = {}, FIRST_RANDOM  # slot: (number, address, frame, may be written)

    # The buffer.

    def held(self, p, address):
        """The slot where the buffer has a process's page, if it has it."""
        number = self.numbers.get(p)
        return next((slot for slot, it in self.buffer.items() if it[:2] == (number, address)), None)

    def flush(self):
        self.buffer = {}

    def forget(self, p, address):
        self.buffer.pop(self.held(p, address), None)

    def translated(self, p, address):
        entry = self.entry(p, address)
        return self.numbers[p], address, self.lies[entry.page], self.may_be_stored_to(entry)

    def rewrite_entry(self, p, address):
        slot = self.held(p, address)
        if slot is not None:
            self.buffer[slot] = self.translated(p, address)

    # What is done besides the calls and commands.

    def copy_page(self, page, copy):
        super().copy_page(page, copy)
        self.bytes[copy] = self.bytes[page]

    def write(self, page, byte):
        """Only a page whose frame is its own."""
        assert page not in self.marked
        self.bytes[page] = byte
        return 0

    def enter(self, first, last):
        for p in range(first, last + 1):
            assert self.lives(p)
            self.take_number(p)
        return 0

    def fill(self, p, address):
        self.enter(p, p)
        if self.entry(p, address).page is None or self.held(p, address) is not None:
            return "nothing"
        self.buffer[self.random] = self.translated(p, address)
        self.random = LAST_SLOT if self.random == FIRST_FREE_SLOT else self.random - 1
        return "filled"

    # What is asked.

    def tell_entry(self, p, address):
        if address not in self.row(p):
            return "none"
        right, page, rule, give, giver, parent, until = self.entry(p, address)
        words = ["nothing" if right == "none" else right, "-" if page is None else page, rule]
        words += ["give" if give else "keep", giver]
        words += ["from", parent[0], f"{parent[1]:08x}"] if parent else []
        words += ["until", until] if until else []
        return " ".join(map(str, words))

    def tell_decide(self, p, kind, size, address):
        """The page and the offset, or the rule and the code by which an access of a size is denied."""
        stores = kind == "store"
        why = ("A", 4 + stores) if address % SIZES[size] else self.why_denied(p, address, stores)
        return "denied {} {}".format(*why) if why else f"{self.entry(p, address & ~0xfff).page} {address % 4096}"

    def tell_translation(self, p, address):
        slot = self.held(p, address)
        if slot is None:
            return "none"
        _, _, frame, may_write = self.buffer[slot]
        return f"{'write' if may_write else 'read'} {frame}"


QUESTIONS = {  # what is asked besides
    "addresses": lambda it, p: " ".join(f"{address:08x}" for address in it.row(p)) or "none",
    "byte": lambda it, page: it.bytes[page], "frame": lambda it, page: it.lies[page], "space": lambda it, p: it.numbers.get(p, "none"),
    "next": lambda it: min((entry.until for entry in it.table.values() if entry.right != "none" and entry.until), default="none"),
    "due": lambda it, p, now: next((f"{address:08x}" for address, entry in it.row(p).items() if right_has_ended(entry, now)), "none")}
WORDS = {  # how the words of a line are read: a number in (d)ecimal or he(x)adecimal digits, (r)ight or other word, (g)ive, (b)y whom
    "start": "ddd", "grant": "dxdrgd", "give": "dxdxd", "take": "ddx", "drop": "dxb", "revoke": "dxd", "narrow": "dx",
    "end": "d", "split": "dx", "write": "dd", "enter": "dd", "fill": "dx", "entry": "dx", "addresses": "d", "byte": "d",
    "frame": "d", "space": "d", "translation": "dx", "next": "", "due": "dd", "decide": "drrx"}
READ = {"d": int, "x": lambda word: int(word, 16), "r": str, "g": {"keep": False, "give": True}.get,
        "b": {"own": False, "command": True}.get}


def begun(words):
    """The model of a policy, whose text has blanks in place of the ends of its lines."""
    policy = tomllib.loads(words.replace(" ", "\n"))
    model = Model(len(policy["process"]), policy["frames"], len(policy["page"]))
    for number, rule in enumerate(policy["rule"], 1):
        page = int(rule["page"].removeprefix("p")) if "page" in rule else None
        entry = Entry(rule["right"], page, number, rule.get("give", False), until=rule.get("until"))
        model.table[rule["process"], rule["address"]] = entry
    return model


def answer(model, asked):
    """The model after a line, and what is answered to the line."""
    verb, _, words = asked.partition(" ")
    if verb == "begin":
        return begun(words), "ok"
    if verb == "expire":
        time, high, *_ = (*words.split(), "0")
        return model, str(model.expire(int(time) + (int(high) << 32)) or "ok")
    values = [READ[kind](word) for kind, word in zip(WORDS[verb], words.split(), strict=True)]
    if verb == "start":
        return Model(*values), "ok"
    if verb in QUESTIONS:
        return model, str(QUESTIONS[verb](model, *values))
    answered = getattr(model, f"tell_{verb}", None) or getattr(model, verb)
    return model, str(answered(*values) or "ok")


def answered(text, tells_all):
    """The text of a file with what each line is answered; behind a refused one with all that speaks against it, where that is told."""
    model, lines = Model(0, 0, 0), []
    for line in text.splitlines():
        said, behind = re.fullmatch(r"(.*?)(\s*#.*)?", line).groups("")
        asked, is_asked, _ = said.rpartition(" = ") if " = " in said else (said, "", "")
        if asked:
            model, came = answer(model, asked)
            if came.isdigit() and asked.split()[0] in CALLS and (tells_all or re.fullmatch(r"  # [\d ]+", behind)):
                behind = "  # " + " ".join(map(str, model.reasons))
            line = (f"{asked} = {came}" if is_asked or came != "ok" else asked) + behind
        lines.append(line)
    return "".join(f"{it}\n" for it in lines)


def files():
    told = []  # by the program of a file of which no line differs
    for name in REPLAYED:
        path = CRATE / "data" / "parts" / "grants" / name
        text = answered(path.read_text(), name == "refusals.txt")
        lines = sum(bool(line.split("#")[0].strip()) for line in text.splitlines())
        told += [f"grants parts/grants/{name} {buffer}: {lines} as expected" for buffer in ("searched", "indexed")]
        yield path, text
    yield CRATE / "stdout", case_files.with_lines(CRATE / "stdout", "grants parts/grants/", told)


if __name__ == "__main__":
    sys.exit(case_files.main(files))
