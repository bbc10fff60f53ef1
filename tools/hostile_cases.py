#!/usr/bin/env python3
"""Writes the tables of crates/rows/data/hostile/, each case with the text of tools/hostile_model.py, and their lines of data/tables.

A case is a program that was drawn by a fixed seed: it jumps into slots, stores words into its own pages, ends a page in the middle of
a branch, and has its pages, those of its slots and its data in three regions of 4 MiB, where commands make the buffer forget what it
holds. Each process begins with a page and its copy, so that its first store to either waits for a copy. At the end commands put other
code in place of the program, which puts its registers and what its pages hold; another process, which nobody can change, puts what the
policy's pages hold. Programs that could tell whether a refill came before an instruction are drawn again, so a text is one at each
start of Random. Each kind of thing is met, or nothing is written.
"""
import random
import sys

import case_files
from case_files import escaped, policy_text, with_lines
from hostile_model import Hostile, NotQuiet, encode

FOLDER = "hostile"
CASES, STARTS = 60, (8, 35, 63)
CODE, MORE, DATA, COPY, SIDE = 0x7F_F000, 0x80_0000, 0xC0_0000, 0xC0_1000, 0xC0_4000  # of a hostile process; DATA's page is at 00000000 too
FRAMES, END, SHOWING, N = 14, 240, 1000, 4000  # when a program is replaced, the ticks until the next one is, and those of a run
SKIPPED = 256  # bytes of nothing before what shows
BEFORE, AFTER = 24, 24  # drawn words before the end of the first page, and from the second on
NAMED = ["code", "more", "data", "slide", "show", "saved", "witness"]
CODE_PAGE, MORE_PAGE, DATA_PAGE, SLIDE, SHOW, SAVED, WITNESS = range(7)
PLACES = ((CODE, CODE_PAGE), (MORE, MORE_PAGE), (DATA, DATA_PAGE))
KEPT = [k for k in range(1, 32) if k not in (26, 27)]  # registers that a program may tell

# What a process begins with: the addresses of its pages, and a copy of its data.
PREAMBLE = [
    ("lui", 16, 0x80), ("addiu", 16, 16, -96), ("lui", 17, 0x80), ("lui", 18, 0xC0), ("addiu", 19, 18, 0x1000), ("addiu", 2, 0, 5), ("syscall",),
    ("addu", 5, 2, 0), ("addu", 4, 18, 0), ("addu", 6, 19, 0), ("addiu", 7, 0, 3), ("addiu", 2, 0, 6), ("syscall",)]


def loaded(register, value):
    return [("lui", register, value >> 16), ("ori", register, register, value & 0xFFFF)]


def call(number):
    return [("addiu", 2, 0, number), ("syscall",)]


def sums(pages):
    """Puts a sum of some words of each page, and of its places, byte by byte."""
    words = []
    for address, first, count in pages:
        words += [*loaded(8, address + first), ("addiu", 9, 0, count), ("addiu", 10, 0, 0)]
        words += [("lw", 11, 0, 8), ("addiu", 8, 8, 4), ("addiu", 9, 9, -1), ("sll", 12, 10, 1), ("srl", 10, 10, 31), ("addu", 10, 10, 12),
                  ("bne", 9, 0, -7), ("addu", 10, 10, 11)]
        for shift in (24, 16, 8, 0):
            words += [("srl", 4, 10, shift), *call(1)]
    return words


STRIPES = [(CODE, 4096 - 4 * (BEFORE + 12), BEFORE + 12), (MORE, 0, AFTER), (DATA, 0, AFTER)]


def show():
    """Saves the registers, and puts sums of them, of the process's data and of its copy."""
    words = [*(("sw", k, 4 * k, 0) for k in KEPT), ("mfhi", 8), ("sw", 8, 0, 0), ("mflo", 8), ("sw", 8, 4 * 26, 0)]
    return [*words, *sums([(0, 0, 32), (DATA, 0, AFTER), (COPY, 0, AFTER)]), *call(0)]


def witness():
    """Waits for a character, puts the sums of the policy's pages, and ends."""
    return [*call(9), *sums([(at, first, count) for at, first, count in STRIPES]), *call(0)]


def words_of(instructions):
    return [encode(*it) for it in instructions]


def source(about, words, space=0):
    head = f"# {about}\n" * bool(about) + f".space {space}\n" * bool(space)
    return head + "".join(f".word 0x{word:08X}\n" for word in words)


def page(words, space=0):
    return (bytes(space) + b"".join(word.to_bytes(4, "little") for word in words)).ljust(4096, b"\0")


class Setting:
    """What the cases of a table have in common: the processes that have the program, the rate, and the commands."""

    def __init__(self, name, about, count, rate):
        self.name, self.about, self.count, self.rate = name, about, count, rate
        self.witness = count + 1
        self.start = CODE + 4096 - 4 * (BEFORE + len(PREAMBLE))
        self.rules = [(p, at, "write", number, True) for p in range(1, count + 1) for at, number in (*PLACES, (0, DATA_PAGE))]
        self.rules += [(self.witness, at, "read", number, False) for at, number in ((0x40_0000, WITNESS), *PLACES)]
        self.events = self.drawn_events()

    def drawn_events(self):
        """Commands that make the buffer forget pages and the pages of their tables, and the program's end."""
        rng, events, time = random.Random(f"events of {self.name}"), [], 8
        while time < END:
            p = rng.randint(1, self.count)
            side = rng.choice((CODE - 0x1000, MORE + 0x1000, SIDE, 0x5000))
            match rng.choices(("forget", "grant", "drop", "resume", "narrow"), (6, 2, 2, 3, 1))[0]:
                case "forget":
                    for at, number in PLACES:
                        events += [(time, "drop", p, at), (time, "grant", p, at, number, "write", True)]
                case "grant": events.append((time, "grant", p, side, SAVED, "read", False))
                case "drop": events.append((time, "drop", p, side))
                case "resume": events.append((time, "resume", p))
                case "narrow": events.append((time, "narrow", p, rng.choice((DATA, MORE))))
            time += rng.randint(1, 12)
        for k in range(1, self.count + 1):
            at = END + (k - 1) * SHOWING
            events += [(at, "drop", k, it) for it in (CODE, MORE, 0)]
            events += [(at, "grant", k, CODE, SLIDE, "read", False), (at, "grant", k, MORE, SHOW, "read", False), (at, "grant", k, 0, SAVED, "write", False), (at, "resume", k)]
        ask = END + self.count * SHOWING
        return [*events, *((ask, "key", line, b"?") for line in range(self.count + 1))]

    def policy(self):
        processes = [*((self.start, k) for k in range(self.count)), (0x0040_0000, self.count)]
        parts = {"code": ("one.s", 0), "more": ("one.s", 1), "slide": ("show.s", 0), "show": ("show.s", 1), "witness": ("witness.s", 0)}
        rules = [(p, at, right, NAMED[number], give) for p, at, right, number, give in self.rules]
        return policy_text(self.about, FRAMES, self.rate, processes, [(it, *parts.get(it, ())) for it in NAMED], rules)

    def input(self):
        lines = []
        for event in self.events:
            match event:
                case time, "key", line, held: lines.append(f"{time} key {line} {held.hex()}")
                case time, "grant", p, at, number, right, give: lines.append(f"{time} grant {p} {at:08X} {NAMED[number]} {right}{' give' if give else ''}")
                case time, what, p, *at: lines.append(f"{time} {what} {p}{''.join(f' {it:08X}' for it in at)}")
        return "\n".join(lines) + "\n"

    def begun(self, words):
        """The beginning of a run of a program, which begins in the first page and goes on in the second."""
        space = 4096 - 4 * (len(words) - AFTER)
        first, second = words[:-AFTER], words[-AFTER:]
        pages = [page(first, space), page(second), bytes(4096), bytes(4096), page(words_of(show()), SKIPPED), bytes(4096), page(words_of(witness()))]
        pages += [bytes(4096)] * (FRAMES - len(pages))
        processes = [(self.start, k) for k in range(self.count)] + [(0x40_0000, self.count)]
        return Hostile(processes, pages, len(NAMED), FRAMES, self.rules, self.rate, self.events)


SUMS = {  # sums with their operands: (t)arget, (r)egister, (i)mmediate, (s)hift and (h)alf
    "addiu": "tri", "addu": "trr", "subu": "trr", "xor": "trr", "sll": "trs", "sra": "trs", "slti": "tri", "add": "trr", "ori": "trh", "lui": "th",
    "mfhi": "t", "mflo": "t", "mult": "rr", "divu": "rr", "nor": "trr"}


class Drawn:
    """A program that is drawn word by word."""

    def __init__(self, rng):
        self.rng, self.words = rng, []
        self.add_up_to(BEFORE - 1)
        self.words += self.some(BEFORE - 1, "branch")
        self.words += self.some(BEFORE, rng.choice(("store", "store", "load", "alu")))
        self.add_up_to(BEFORE + AFTER)

    def add_up_to(self, total):
        while len(self.words) < total:
            self.words += self.some(len(self.words))[:total - len(self.words)]

    def register(self):
        return self.rng.choice((0, 0, 2, 8, 9, 10, 11, 12, 13, 14, 15, 21, 22, 23, 24, 25, 31))

    def target(self):
        return self.rng.choice((8, 9, 10, 11, 12, 13, 14, 15))

    def place(self, size=4):
        """A base and an offset: in the program, its data, its copy, by register 26, or somewhere wrong."""
        rng = self.rng
        kind = rng.choices(("code", "more", "data", "copy", "26", "zero", "off", "wrong"), (4, 4, 5, 5, 4, 2, 1, 1))[0]
        at = 4 * rng.randrange(AFTER) + rng.randrange(0, 4, size)
        if kind == "wrong":
            return rng.choice((8, 9, 22, 31)), at
        base = {"code": 16, "more": 17, "data": 18, "copy": 19, "26": 26, "zero": 0, "off": rng.choice((17, 18))}[kind]
        return base, at + (kind == "off")

    def some(self, here, kind=None):
        """Words of one kind, where so many stand before them."""
        rng = self.rng
        kinds = {"branch": 14, "jump": 3, "far": 3, "load": 11, "store": 14, "change": 8, "alu": 15, "call": 7, "long": 4, "odd": 3, "26": 8}
        match kind or rng.choices(list(kinds), list(kinds.values()))[0]:
            case "branch":
                away = rng.randint(-14, 14)
                name = rng.choice(("beq", "beq", "bne", "bne", "blez", "bgtz", "bltz", "bgez", "bltzal", "bgezal"))
                two = name in ("beq", "bne")
                return [encode(name, *([self.register(), self.register()] if two else [self.register()]), away)]
            case "jump":
                to = CODE + 4096 - 4 * BEFORE + 4 * rng.randrange(BEFORE + AFTER)
                return [encode(rng.choice(("j", "jal")), to >> 2)]
            case "far":
                words = [encode("addiu", 21, 17, 4 * rng.randint(-BEFORE, AFTER - 1) + rng.choice((0, 0, 0, 0, 0, 2)))]
                return words + [encode("jr", 21) if rng.random() < 0.5 else encode("jalr", rng.choice((31, 8)), 21)]
            case "load":
                name, size = rng.choice((("lw", 4), ("lw", 4), ("lh", 2), ("lhu", 2), ("lb", 1), ("lbu", 1), ("lwl", 1), ("lwr", 1)))
                base, at = self.place(size)
                return [encode(name, self.target(), at, base)]
            case "store":
                name, size = rng.choice((("sw", 4), ("sw", 4), ("sh", 2), ("sb", 1), ("swl", 1), ("swr", 1)))
                base, at = self.place(size)
                return [encode(name, self.register(), at, base)]
            case "change":
                # a word of the program becomes another, a little after this one
                word, to = rng.choice(self.some(0)), here + 3 + rng.randrange(12)
                by = rng.choice((22, 23, 24, 25))
                return words_of(loaded(by, word)) + [encode("sw", by, 4 * (to - BEFORE), 17)]
            case "alu":
                draw = {"t": self.target, "r": self.register, "i": lambda: rng.randint(-40, 40), "s": lambda: rng.randrange(32), "h": lambda: rng.randrange(65536)}
                return [rng.choice([encode(name, *(draw[it]() for it in kinds)) for name, kinds in SUMS.items()])]
            case "call":
                number = rng.choices((1, 2, 3, 4, 5, 6, 8, 7, 0, 9, 77), (6, 2, 6, 4, 4, 10, 4, 4, 1, 2, 2))[0]
                address = rng.choice((18, 19, 16, 17))
                first = {1: [encode("addu", 4, 0, self.register())], 8: [encode("addu", 4, 0, 19)],
                         7: [encode("addiu", 4, 0, 1), encode("addu", 5, 0, 19)],
                         6: [encode("addu", 4, 0, address), encode("addiu", 5, 0, rng.randint(1, 2)), encode("addiu", 6, 18, 0x1000 * rng.randint(1, 3)), encode("addiu", 7, 0, 3)]}
                return first.get(number, []) + words_of(call(number))
            case "long":
                return words_of(rng.choice(([("mult", 8, 9), ("mfhi", 10)], [("div", 9, 8), ("mflo", 11)], [("mtlo", 12), ("mtlo", 13)])))
            case "odd":
                return [rng.choice((rng.randrange(2**32), encode("break"), encode("syscall"), 0x42000010, 0xC4000000, 0xC0000000, 0x00A02809))]
            case "26":
                return [encode("lui", 26, DATA >> 16)]


KINDS = ("a changed word is done", "a slot is begun with", "a slot on the next page", "a store to a page with a copy", "an access by register 26")


def drawn(setting):
    """The programs of a setting's cases with their runs."""
    rng, made = random.Random(f"programs of {setting.name}"), []
    while len(made) < CASES:
        words = words_of(PREAMBLE) + Drawn(rng).words
        try:
            run = setting.begun(words)
            run.run(END)
            if run.shares == 0 and sum(kind in run.seen for kind in KINDS) >= 3:  # (it does enough to be kept)
                run.run(N)
                made.append((words, run))
        except NotQuiet:
            continue
    for kind in (*KINDS, "a copy", "exec I 10 in a slot", "store r 1", "fetch r 2"):
        assert sum(kind in run.seen for _, run in made) > 1, f"{setting.name} does not meet {kind}"
    assert set().union(*(run.calls for _, run in made)) == set(range(11)), f"{setting.name} does not make each call"
    return made


SETTINGS = [
    Setting("alone", "A process with its pages in three regions, its data in two places, and one that looks at them.", 1, 0),
    Setting("two", "Two processes in the same pages, which take turns by calls alone, and one that looks at them.", 2, 0),
    Setting("two_by_the_clock", "Two processes in the same pages, which take turns every 32 ticks, and one that looks at them.", 2, 3),
]


def cases(setting):
    out = ["# Programs that were drawn. Written by tools/hostile_cases.py.\n"]
    for k, (words, run) in enumerate(drawn(setting), 1):
        out.append(f"== program {k}\n{source('', words, 4096 - 4 * (len(words) - AFTER))}--\n{escaped(run.text())}")
    return "".join(out)


def files():
    """The sources, policies, inputs and cases, and the index with a line of each table for some starts of Random."""
    folder = case_files.DATA / FOLDER
    yield folder / "show.s", source("The first page does nothing, and the second puts registers and data.", words_of(show()), 4096 + SKIPPED)
    yield folder / "witness.s", source("Waits, and puts what the policy's pages hold.", words_of(witness()))
    for it in SETTINGS:
        yield folder / f"{it.name}.toml", it.policy()
        yield folder / f"{it.name}.input", it.input()
        yield folder / f"{it.name}.cases", cases(it)
    lines = [f"{FOLDER} one.s {it.name}.cases run {it.name}.toml {it.name}.input {N} --random {start}" for it in SETTINGS for start in STARTS]
    yield case_files.DATA / "tables", with_lines(case_files.DATA / "tables", FOLDER, lines)


if __name__ == "__main__":
    sys.exit(case_files.main(files))
