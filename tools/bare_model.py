#!/usr/bin/env python3
"""What `dsmon bare` writes, by a plain model, and whether the rows of bare runs have just that.

    tools/bare_model.py FOLDER WORDS..   prints what the words after `dsmon` ask for, with names looked up from FOLDER
    tools/bare_model.py --check          names the text of each row of crates/rows/data whose words begin with `bare`, where it differs
    tools/bare_model.py --write          writes each of them anew

It is written after docs/bare.md, docs/machine.md ("Memory and devices") and Kane and Heinrich, chapters 4 and 5, and shares nothing with the
program. The sums, branches and texts of a user's instructions are those of tools/hostile_model.py and tools/trace_model.py.
"""
import contextlib
import math
import sys
from collections import namedtuple
from itertools import combinations
from types import SimpleNamespace
from typing import NamedTuple

import case_files
import trace_model
from bare_devices import Bus, BusError
from case_files import files_in
from hostile_model import LOADS, SIZES, STORES, Hostile, decode, merged, signed, stored
from trace_model import BRANCHES, COMMON, SYSTEM_WORDS, asked, by_names, decode_all, events_of, image, memory_lines, number
from turns_model import MASK, Denied

SLOTS, WIRED, FIRST = 64, 8, 0x8040_0000  # Random names slots from the first that is not wired
REFILL, GENERAL, VECTOR_WORDS, FINISH = 0x8000_0000, 0x8000_0080, 32, 0x4D
EXCEPTIONS = "Int Mod TLBL TLBS AdEL AdES IBE DBE Sys Bp RI CpU Ov".split()
SYSTEM = {word: name for name, word in SYSTEM_WORDS.items()}
NAMES = {0: "Index", 2: "EntryLo", 4: "Context", 8: "BadVAddr", 10: "EntryHi", 12: "Status", 13: "Cause", 14: "EPC"}
WRITABLE = {0: 0x8000_3F00, 2: 0xFFFF_FF00, 4: 0xFFE0_0000, 10: 0xFFFF_FFC0, 12: 0xF003_FF3F, 13: 0x0000_0300}  # the bits of a register that `mtc0` writes
IDENTITY = 0x230
MATCH = "slots {} and {} match each other, which the architecture forbids\n"
READS = SimpleNamespace(operand=lambda q, n: q.r[n])  # how an instruction of hostile_model reads a register here


class Raised(Exception):
    """An exception: its code, the address that was refused, whether no entry matched, and the coprocessor that may not be used."""

    def __init__(self, code, address=None, is_miss=False, unit=None):
        self.code, self.address, self.is_miss, self.unit = code, address, is_miss, unit


class Entry(NamedTuple):
    """A slot of the buffer, as the two words that it is written by."""

    high: int
    low: int

    def matches(self, page, number):
        return self.high >> 12 == page and (self.low >> 8 & 1 or self.high >> 6 & 63 == number)

    def meets(self, other):
        """Whether some page of some address space has both entries."""
        return self.high >> 12 == other.high >> 12 and ((self.low | other.low) >> 8 & 1 or self.high >> 6 & 63 == other.high >> 6 & 63)

    def __str__(self):
        return f"{self.high & ~4095:08X} asid {self.high >> 6 & 63} frame {frame_text(self.low)}"


def frame_text(low):
    return f"{low & ~4095:08X}" + "".join(f" {name}" for bit, name in zip((11, 10, 9, 8), "NDVG") if low >> bit & 1)


def exception_text(code):
    return f"{code} {EXCEPTIONS[code] if code < len(EXCEPTIONS) else 'reserved'}"


def decoded(word):
    """The name of a word's instruction with its operands; a coprocessor's without a name of its own is `cop` with its number."""
    if word in SYSTEM:
        return (SYSTEM[word],)
    if word >> 26 == 16 and word & 0x7FF == 0 and word >> 21 & 31 in (0, 4):
        return ("mtc0" if word >> 21 & 31 else "mfc0", word >> 16 & 31, word >> 11 & 31)
    name, *o = decode_all(word)
    if name is None and decode(word)[1] == 11:
        return ("cop", word >> 26 & 3)
    return ("reserved",) if name is None else (name, *o)


def text_of(word, names=False):
    """A word as `dsmon list --words` writes it, or with common names as with `--names`; a register of the coprocessor has its number only."""
    name, *o = decoded(word)
    if name in ("mfc0", "mtc0"):
        return f"{name} {register_text(o[0], names)},${o[1]}"
    text = name if name in SYSTEM.values() else trace_model.text_of(word)
    return by_names(text) if names else text


def register_text(n, names):
    return f"${COMMON[n] if names else n}"


# What is told: nothing but the end, from which instruction on and before which, of which kind alone, slots that match, counts, the address and the count of spans
# of memory, and registers by their common names.
View = namedtuple("View", "is_quiet first past only matches counts memory names", defaults=(False, 0, math.inf, None, False, False, (), False))


class Machine:
    """The processor in kernel mode, with its bus, an image, and the characters that are to come: each with its time, its line and its byte."""

    def __init__(self, held, random, keys):
        self.r, self.hi, self.lo, self.late = [0] * 32, 0, 0, None
        self.pc, self.next, self.in_slot = FIRST, FIRST + 4, False
        self.system = dict.fromkeys(NAMES, 0)
        self.slots, self.random = [Entry((2**19 + k) << 12, 0) for k in range(SLOTS)], random
        self.bus, self.keys, self.sent = Bus(held), list(keys), []
        self.counts, self.entered = dict.fromkeys(["refills", "writes of the buffer", "interrupts of the lines", "interrupts of the clock", "characters in"], 0), [0] * len(EXCEPTIONS)

    # Registers.

    def seen(self):
        """The general registers as the next instruction reads them: one whose load is late has its old value."""
        r = list(self.r)
        if self.late:
            r[self.late[0]] = self.late[1]
        return r

    def mfc0(self, number):
        return {1: self.random << 8, 15: IDENTITY, 13: self.system[13] | self.bus.requests()}.get(number, self.system.get(number, 0))

    def mtc0(self, number, value):
        if number in WRITABLE:
            self.system[number] = self.system[number] & ~WRITABLE[number] & MASK | value & WRITABLE[number]

    def others(self):
        return {"HI": self.hi, "LO": self.lo, **{name: self.mfc0(number) for number, name in NAMES.items()}}

    def is_user(self):
        return bool(self.system[12] & 2)

    # Accesses.

    def find(self, page):
        number = self.system[10] >> 6 & 63
        return next((k for k, it in enumerate(self.slots) if it.matches(page, number)), None)

    def place(self, address, size, is_store=False):
        if address % size or address >= 2**31 and self.is_user():
            raise Raised(5 if is_store else 4, address)
        if 0x8000_0000 <= address < 0xC000_0000:
            return address & 0x1FFF_FFFF
        slot, code = self.find(address >> 12), 3 if is_store else 2
        if slot is None:
            raise Raised(code, address, is_miss=True)
        low = self.slots[slot].low
        if not low & 0x200:
            raise Raised(code, address)
        if is_store and not low & 0x400:
            raise Raised(1, address)
        return low & ~4095 & MASK | address & 4095

    def reached(self, *access):
        """The physical place of an access, or none."""
        with contextlib.suppress(Raised):
            return self.place(*access)

    def load(self, name, address, t):
        size = SIZES.get(name, 1)
        place = self.place(address, size)
        if name in ("lwl", "lwr"):
            return merged(name, self.bus.load(place, "part"), place % 4, self.r[t]) & MASK
        value = self.bus.load(place, size)
        return signed(value, 8 * size) & MASK if name in ("lb", "lh") else value

    def store(self, name, address, value):
        place = self.place(address, SIZES.get(name, 1), True)
        data, before = stored(name, value, place % 4)
        self.bus.store(place - before, data, name == "sw")

    # An instruction.

    def write(self, n, value):
        if n:
            self.r[n] = value & MASK

    def operate(self, r, name, o):
        told = SimpleNamespace(r=r, hi=self.hi, lo=self.lo)
        try:
            changed = Hostile.operate(READS, told, name, o)
        except Denied as denied:
            raise Raised(denied.args[3])
        self.hi, self.lo = told.hi, told.lo
        if changed:
            self.write(*changed)

    def coprocessor(self, r, name, o):
        """An instruction of a coprocessor: a register that is loaded with its value, or none."""
        unit, system = o[0] if name == "cop" else 0, self.system
        is_usable = unit == 0 and not self.is_user() or system[12] >> 28 + unit & 1
        if not is_usable:
            raise Raised(11, unit=unit)
        match name:
            case "cop": raise Raised(10)
            case "mfc0": return o[0], self.mfc0(o[1])
            case "mtc0": self.mtc0(o[1], r[o[0]])
            case "tlbwi": self.slots[system[0] >> 8 & 63] = Entry(system[10], system[2])
            case "tlbwr": self.slots[self.random] = Entry(system[10], system[2])
            case "tlbr":
                entry = self.slots[system[0] >> 8 & 63]
                system[10], system[2] = entry.high & 0xFFFF_FFC0, entry.low & 0xFFFF_FF00
            case "tlbp":
                slot = self.find(system[10] >> 12)
                system[0] = 2**31 if slot is None else slot << 8
            case "rfe": system[12] = system[12] & ~15 & MASK | system[12] >> 2 & 15
        return None

    def instruction(self):
        """One instruction, and whether it is a jump."""
        try:
            word = self.bus.load(self.place(self.pc, 4), 4)
        except BusError:
            raise Raised(6)
        r, loaded, (name, *o) = self.seen(), None, decoded(word)
        if name in ("syscall", "break", "reserved"):
            raise Raised({"syscall": 8, "break": 9, "reserved": 10}[name])
        if name in (*BRANCHES, "j", "jal", "jr", "jalr"):
            if self.in_slot:
                raise Raised(10)
            to = Hostile.branch(READS, SimpleNamespace(r=r, set=self.write), self.pc, name, o)
            self.pc, self.next, self.in_slot, self.late = self.next, to, True, None
            return True
        try:
            if name in LOADS:
                loaded = o[0], self.load(name, r[o[2]] + signed(o[1], 16) & MASK, o[0])
            elif name in STORES:
                self.store(name, r[o[2]] + signed(o[1], 16) & MASK, r[o[0]])
            elif name in ("cop", "mfc0", "mtc0", *SYSTEM.values()):
                loaded = self.coprocessor(r, name, o)
            else:
                self.operate(r, name, o)
        except BusError:
            raise Raised(7)
        self.late = None
        if loaded and loaded[0]:
            self.late = loaded[0], self.r[loaded[0]]
            self.r[loaded[0]] = loaded[1]
        self.pc, self.next, self.in_slot = self.next, self.next + 4 & MASK, False
        return False

    def enter(self, raised):
        """The processor goes to the vector of an exception."""
        system, (code, address) = self.system, (raised.code, raised.address)
        unit = system[13] >> 28 & 3 if raised.unit is None else raised.unit
        system[12] = system[12] & ~63 & MASK | (system[12] & 15) << 2
        system[13] = (self.in_slot << 31) | unit << 28 | system[13] & 0x300 | code << 2
        system[14] = self.pc - 4 * self.in_slot & MASK
        if address is not None:
            system[8] = address
            if code in (1, 2, 3):
                system[4] = system[4] & ~0x1F_FFFC & MASK | (address >> 12 & 0x7_FFFF) << 2
                system[10] = system[10] & 4095 | address & ~4095
        to = REFILL if raised.is_miss and address < 2**31 else GENERAL
        self.pc, self.next, self.in_slot, self.late = to, to + 4, False, None

    def step(self):
        """An interrupt or an instruction: the code of the exception, if there is one, and whether it was a jump."""
        status = self.system[12]
        if status & 1 and status & (self.system[13] & 0x300 | self.bus.requests()) & 0xFF00:
            self.enter(Raised(0))
            return 0, False
        code, is_jump = None, False
        try:
            is_jump = self.instruction()
        except Raised as raised:
            self.enter(raised)
            code = raised.code
        self.random = SLOTS - 1 if self.random == WIRED else self.random - 1
        return code, is_jump

    # What is told.

    def about_to(self, word):
        """The slot that an instruction is about to write, its store as the place and the register's value, and whether it reaches a device, if it is done."""
        r, (name, *o) = self.seen(), decoded(word) if word is not None else (None,)
        slot = {"tlbwi": self.system[0] >> 8 & 63, "tlbwr": self.random}.get(name)
        place = self.reached(r[o[2]] + signed(o[1], 16) & MASK, 1, name in STORES) if name in (*LOADS, *STORES) else None
        return slot, (place, r[o[0]]) if place is not None and name in STORES else None, place is not None and not self.bus.is_memory(place)

    def count(self, code, is_jump, word, came):
        """What is counted of a step that has just been done."""
        self.counts["characters in"] += came
        if code is None:
            self.counts["writes of the buffer"] += not is_jump and SYSTEM.get(word) in ("tlbwi", "tlbwr")
            return
        self.entered[code] += 1
        self.counts["refills"] += self.pc == REFILL
        for bit, device in (10, "lines"), (11, "clock"):
            self.counts[f"interrupts of the {device}"] += code == 0 and self.bus.requests() & self.system[12] & 1 << bit != 0

    def turn(self, done, view=View(is_quiet=True)):
        """One instruction when so many are done: its line, and why the run ends with it, if it does."""
        others, asked, came = self.others(), self.bus.requests(), 0
        while self.keys and self.keys[0][0] <= done:
            self.bus.receive(*self.keys.pop(0)[1:])
            came += 1
        pc, place, r, slots = self.pc, self.reached(self.pc, 4), self.seen(), list(self.slots)
        word = self.bus.word(place) if place is not None and self.bus.is_memory(place) else None
        slot, stored, is_device = self.about_to(word)
        code, is_jump = self.step()
        ending = self.ending(code, word)
        self.count(code, is_jump, word, came)
        self.bus.tick()
        self.sent += self.bus.leaving()
        if view.is_quiet or view.only == "end" or not view.first <= done + 1 < view.past:
            return "", ending
        is_done = code is None and not is_jump
        is_told = {
            None: True,
            "exceptions": code is not None,
            "tlb": is_done and SYSTEM.get(word, "rfe") != "rfe" or code in (1, 2, 3),
            "devices": is_done and is_device or code == 0 or asked != self.bus.requests(),
        }[view.only]
        line = self.line(view.names, done, pc, word, r, others, slot, stored, code, is_jump) if is_told else ""
        pairs = combinations(range(SLOTS), 2) if view.matches and slots != self.slots else ()
        begun = [it for it in pairs if self.meet(*it) and not slots[it[0]].meets(slots[it[1]])]
        return line + "".join(MATCH.format(*it) for it in begun), ending

    def meet(self, a, b):
        return self.slots[a].meets(self.slots[b])

    def line(self, names, done, pc, word, r, others, slot, stored, code, is_jump):
        told = [f"{done + 1} {pc:08X} {'not fetched' if word is None else text_of(word, names)}"]
        if code is None and not is_jump:
            told += [f"slot {slot} {self.slots[slot]}"] if slot is not None else []
            told += [f"{stored[0] & ~3:08X} holds {self.bus.word(stored[0] & ~3) if self.bus.is_memory(stored[0]) else stored[1]:08X}"] if stored else []
            told += [f"{register_text(self.late[0], names)} is late"] if self.late else []
        told += [f"{register_text(n, names)} {new:08X}" for n, (old, new) in enumerate(zip(r, self.seen())) if old != new]
        told += [f"{name} {new:08X}" for (name, new), old in zip(self.others().items(), others.values()) if old != new]
        told += [f"exception {exception_text(code)} at {self.pc:08X}"] if code is not None else []
        return "; ".join(told) + "\n"

    def ending(self, code, word):
        """Why the run ends after an instruction, if it does."""
        if code == 9 and word == FINISH:
            return "done, by break 1: "
        for vector, told in [(GENERAL, "at the general vector 80000080: "), (REFILL, "at the refill vector 80000000, where 32 words are 0: ")]:
            first = vector - 2**31
            if self.pc == vector and not self.is_user() and not any(self.bus.memory[first:first + 4 * VECTOR_WORDS]):
                return told
        return None

    def run(self, most, view):
        """The whole text, piece by piece."""
        for done in range(most):
            line, ending = self.turn(done, view)
            yield line
            if ending:
                cause = exception_text(self.system[13] >> 2 & 31)
                yield from self.end(view, done + 1, f"{ending}exception {cause}, EPC {self.system[14]:08X}, BadVAddr {self.system[8]:08X}")
                return
        yield from self.end(view, most, "all instructions that were asked for")

    def end(self, view, done, why):
        yield f"end after {done}: {why}\n"
        yield from (f"{register_text(n, view.names)} {value:08X}\n" for n, value in enumerate(self.seen()))
        yield from (f"{name} {value:08X}{fields_text(name, value)}\n" for name, value in self.others().items())
        yield f"Random {self.random}\n"
        yield from (f"slot {k} {entry}\n" for k, entry in enumerate(self.slots) if entry.low & 0x200)
        firsts = {k: j for k, j in reversed([*combinations(range(SLOTS), 2)]) if self.meet(k, j)}  # of each slot the first that it matches
        yield from (MATCH.format(k, firsts[k]) for k in sorted(firsts))
        for line in range(4):
            yield f"sent {line} {''.join(f'{byte:02X}' for it, byte in self.sent if it == line)}\n"
        if view.counts:
            yield f"instructions {done}\n"
            yield from (f"{name} {count}\n" for name, count in {**self.counts, "characters out": len(self.sent)}.items())
            yield from (f"exception {exception_text(code)}: {count}\n" for code, count in enumerate(self.entered) if count)
        for address, count in view.memory:
            yield from memory_lines("", address, count, lambda it: f"{self.bus.word(it):08X}")


def fields_text(name, w):
    """The fields of a register of the coprocessor."""
    match name:
        case "Index": return f" P {w >> 31} slot {w >> 8 & 63}"
        case "EntryLo": return f" frame {frame_text(w)}"
        case "Context": return f" PTEBase {w & 0xFFE0_0000:08X} BadVPN {w >> 2 & 0x7_FFFF:08X}"
        case "EntryHi": return f" page {w & ~4095:08X} asid {w >> 6 & 63}"
        case "Status": return "".join(f" {it} {w >> 5 - k & 1}" for k, it in enumerate("KUo IEo KUp IEp KUc IEc".split())) + f" IM {w >> 8 & 255:02X}"
        case "Cause": return f" BD {w >> 31} CE {w >> 28 & 3} IP {w >> 8 & 255:02X} code {exception_text(w >> 2 & 31)}"
        case _: return ""


def told(read, words):
    """What `dsmon` writes for these words, the first of which is `bare`, with a function from a file's name to its text."""
    (_, source, most), flags = asked(words)
    memory = [(int(address, 16), int(count)) for address, count in (it.split(":") for it in flags.get("memory", ()))]
    window = number(flags, "from", 0), number(flags, "to", math.inf), flags.get("only", [None])[-1]
    view = View("quiet" in flags, *window, "matches" in flags, "counts" in flags, memory, "names" in flags)
    events = events_of(read(flags["keys"][-1]), ()) if "keys" in flags else ()
    keys = [(time, line, byte) for time, what, line, *held in events if what == "key" for byte in held[0]]
    return "".join(Machine(image(read(source)), number(flags, "random", 63), keys).run(int(most), view)).encode()


def files():
    return [(it.text, told(files_in(it.folder), it.words)) for it in case_files.rows() if it.words[0] == "bare" and it.status == 0]


if __name__ == "__main__":
    sys.exit(case_files.main(files, told))
