#!/usr/bin/env python3
"""Writes the drawn programs in crates/rows/data/bare/, each with the text of tools/bare_model.py.

A program has the nine words at 80000000, over a page table of its own with pages of each kind, and a handler at 80000080 that counts, takes what
the devices ask with, and goes on after whatever raised the exception. Then come drawn instructions in mapped pages, in user mode or in
kernel mode: sums, accesses of memory and devices by all segments, calls, branches, and those of the coprocessor.
"""
import random
import sys
from pathlib import Path

import case_files
from bare_model import told

FOLDER = case_files.DATA / "bare"
CASES, MOST, START = 16, 500, 40
WORDS = f"bare one.s {MOST} --random {START} --keys drawn.input".split()
KINDS = ("exceptions", "tlb", "devices")
SEEDS = {"exceptions": range(17, 21), "tlb": range(21, 25), "devices": range(25, 29)}  # the programs of which one kind of instruction is told

FRONT = Path(__file__).with_name("bare_front.s").read_text()
POINTERS = (16, 16, 17, 17, 18, 19, 20, 21, 22, 23, 23)  # registers with addresses of pages, of kseg0, of each device and of kseg2
SUMS, HALVES = "add addu sub subu and or xor nor slt sltu".split(), "addi addiu slti sltiu".split()
LOADS, STORES = "lw lw lb lbu lh lhu lwl lwr".split(), "sw sw sb sh swl swr".split()
PLACES = (0, 4, 8, 0x10, 0x18, 0x28, 0x2C, 0x30)
STRANGE = (0x4400_0000, 0x4800_1234, 0xC400_0000, 0x4000_0001, 0x4200_0000)  # words of coprocessors that name no instruction


def put(value, address):
    """Stores a word at an address of a register."""
    return [f"lui $10, 0x{value >> 16:X}", f"ori $10, $10, 0x{value & 0xFFFF:X}", f"sw $10, {address}"]


def front(drawn):
    """The words of the handlers, the page table, the devices, and the way to the body."""
    write, lines = drawn.choice(["tlbwr", "tlbwr", "tlbwi"]), []
    for page in range(2):
        lines += put(0x40_0600 + 0x1000 * page, f"{0x1000 + 4 * page}($8)")
    for page in range(4):
        frame = drawn.choice([0x50_0000, 0x50_0000, 0x51_0000, 0x80_0000, 0x1FE0_0000])
        lines += put(frame + 0x1000 * page + drawn.choice([0, 0x200, 0x400, 0x600, 0x700, 0xE00]), f"{0x1040 + 4 * page}($8)")
    lines += [*put(drawn.choice([6, 7]), "0x28($18)"), *put(0x40, "0x2C($18)")]
    lines += [*put(0x60, "0($19)"), *put(drawn.randrange(1, 16), "16($19)"), *put(0x80_0000, "0($20)")]
    mode = drawn.choice([0, 8]) | drawn.choice([0x0, 0x1000_0000, 0x2000_0000]) | drawn.choice([0xC04, 0xF04, 0x804])
    lines += [f"lui $10, 0x{mode >> 16:X}", f"ori $10, $10, 0x{mode & 0xFFFF:X}", "mtc0 $10, $12"]
    return FRONT.format(write=write, drawn="\n".join(lines))


def instruction(drawn, label):
    """An instruction: of ten kinds, as often as one of these is asked for."""
    anywhere, own = (lambda: f"${drawn.randrange(24)}"), (lambda: f"${drawn.randrange(1, 16)}")
    place = lambda: drawn.choice(["0x18($19)", f"{drawn.choice(PLACES)}($18)", *(f"{drawn.choice([0, 4, 8, drawn.randrange(-8, 64)])}(${drawn.choice(POINTERS)})" for _ in range(6))])  # noqa: E731
    match drawn.choices(range(10), [24, 12, 12, 12, 12, 5, 7, 10, 2, 8])[0]:
        case 0: return f"{drawn.choice(SUMS)} {own()}, {anywhere()}, {anywhere()}"
        case 1: return f"{drawn.choice(HALVES)} {own()}, {anywhere()}, {drawn.randrange(-2**15, 2**15)}"
        case 2: return f"lui {own()}, {drawn.choice([0x7FFF, 0x8000, drawn.randrange(2**16)])}"
        case 3: return f"{drawn.choice(LOADS)} {own()}, {place()}"
        case 4: return f"{drawn.choice(STORES)} {anywhere()}, {place()}"
        case 5: return drawn.choice(["syscall", "syscall 7", "break", "break 2"])
        case 6: return drawn.choice([f"{it} {anywhere()}, {anywhere()}, {label}" for it in ("beq", "bne")] + [f"{it} {anywhere()}, {label}" for it in ("blez", "bgtz", "bltz", "bgezal")] + [f"j {label}"])
        case 7:
            read, write = drawn.choice([0, 1, 2, 3, 4, 8, 10, 12, 13, 14, 15]), drawn.choice([0, 2, 4, 8, 10, 13, 14])
            return drawn.choice(["tlbp", "tlbr", "tlbwi", "tlbwr", f"mfc0 {own()}, ${read}", f"mfc0 {own()}, ${read}", f"mtc0 {anywhere()}, ${write}"])
        case 8: return f".word 0x{drawn.choice([*STRANGE, drawn.getrandbits(32)]):X}"
        case _:
            return drawn.choice([f"{it} {own()}, {anywhere()}, {drawn.randrange(32)}" for it in ("sll", "srl", "sra")] + [f"{it} {anywhere()}, {anywhere()}" for it in ("mult", "divu")] + [f"mfhi {own()}", f"mflo {own()}"])


def source(drawn):
    """The text of a drawn program. A branch leads forward, by at most eight instructions."""
    count, labels, lines = drawn.randrange(100, 250), {}, []
    for k in range(count):
        label = f"x{k}"
        said = instruction(drawn, label)
        if said.endswith(label):
            labels.setdefault(min(k + drawn.randrange(2, 9), count), []).append(label)
        lines.append(said)
    marked = [mark for k in range(count) for mark in [*(f"{it}:" for it in labels.get(k, [])), lines[k]]]
    return front(drawn) + "\n".join([*marked, *(f"{it}:" for it in labels.get(count, [])), "break 1"]) + "\n"


def keys():
    """The input of all programs: characters of the four lines, more of them at once than there is room for."""
    drawn = random.Random("keys")
    lines = [f"{time} key {drawn.randrange(4)} {drawn.randbytes(drawn.choice([1, 1, 2])).hex().upper()}" for time in sorted(drawn.randrange(100, MOST - 20) for _ in range(20))]
    return "\n".join(["# For drawn.cases.", "20 key 0 41", *lines, f"{MOST - 20} key 1 {drawn.randbytes(70).hex().upper()}"]) + "\n"


def chosen(kind):
    """The words by which one kind of instruction is told, from the 100th on, with all else that may be."""
    return [*WORDS, *f"--from 100 --only {kind} --matches --counts --memory 00000080:12 --memory 0x601040:4".split()]


def table(seeds, words):
    """Programs, each with its text."""
    made = "# Programs that were drawn. Written by tools/bare_cases.py.\n\n"
    for k in seeds:
        text = source(random.Random(k))
        made += f"== program {k}\n{text}--\n{told({'one.s': text, 'drawn.input': keys()}.get, words).decode()}"
    return made


def files():
    """The input, the tables, and the index with their lines."""
    made = {"drawn": (range(1, CASES + 1), WORDS), **{f"drawn_{kind}": (SEEDS[kind], chosen(kind)) for kind in KINDS}}
    yield FOLDER / "drawn.input", keys()
    yield from ((FOLDER / f"{name}.cases", table(*it)) for name, it in made.items())
    yield case_files.DATA / "tables", case_files.with_lines(case_files.DATA / "tables", "bare one.s drawn", [f"bare one.s {name}.cases {' '.join(words)}" for name, (_, words) in made.items()])


if __name__ == "__main__":
    sys.exit(case_files.main(files))
