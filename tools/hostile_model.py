"""What an instruction does, also where a program changes itself and jumps anywhere: a run, over tools/turns_model.py.

It is written after docs/machine.md and Kane and Heinrich, and shares nothing with the program: an instruction is the word
that its page holds when it is fetched. There is no buffer, no page table and no touch. So a program has to be one that
can't tell: NotQuiet is raised where an instruction reads register 26 or 27, or a register whose load is late. Register 26
may hold the address of an access, where address 0 in its place means the same bytes.
"""
from functools import lru_cache

from grants_model import COPY
from turns_model import CALL, JUMP, MASK, Denied, Run

SIGN = 2**31

# Each form of operands: what of a word has to be zero, and of each operand its lowest bit and number of bits.
S, T, D, A, I = (21, 5), (16, 5), (11, 5), (6, 5), (0, 16)
CODES = {
    **{name: (code, (S,), (D, T, A)) for code, name in {0: "sll", 2: "srl", 3: "sra"}.items()},
    **{name: (code, (A,), (D, T, S)) for code, name in {4: "sllv", 6: "srlv", 7: "srav"}.items()},
    "jr": (8, (T, D, A), (S,)), "jalr": (9, (T, A), (D, S)), "syscall": (12, (), ()), "break": (13, (), ()),
    "mfhi": (16, (S, T, A), (D,)), "mthi": (17, (T, D, A), (S,)), "mflo": (18, (S, T, A), (D,)), "mtlo": (19, (T, D, A), (S,)),
    **{name: (24 + k, (D, A), (S, T)) for k, name in enumerate("mult multu div divu".split())},
    **{name: (32 + k, (A,), (D, S, T)) for k, name in enumerate("add addu sub subu and or xor nor".split())},
    "slt": (42, (A,), (D, S, T)), "sltu": (43, (A,), (D, S, T)),
    **{name: (1 << 26 | k << 16, (), (S, I)) for k, name in {0: "bltz", 1: "bgez", 16: "bltzal", 17: "bgezal"}.items()},
    "j": (2 << 26, (), ((0, 26),)), "jal": (3 << 26, (), ((0, 26),)),
    "beq": (4 << 26, (), (S, T, I)), "bne": (5 << 26, (), (S, T, I)), "blez": (6 << 26, (T,), (S, I)), "bgtz": (7 << 26, (T,), (S, I)),
    **{name: (8 + k << 26, (), (T, S, I)) for k, name in enumerate("addi addiu slti sltiu andi ori xori".split())},
    "lui": (15 << 26, (S,), (T, I)),
    **{name: (32 + k << 26, (), (T, I, S)) for k, name in enumerate("lb lh lwl lw lbu lhu lwr".split())},
    **{name: (k << 26, (), (T, I, S)) for k, name in {40: "sb", 41: "sh", 42: "swl", 43: "sw", 46: "swr"}.items()},
}
LOADS, STORES = "lb lh lwl lw lbu lhu lwr".split(), "sb sh swl sw swr".split()
SIZES = {"lh": 2, "lhu": 2, "sh": 2, "lw": 4, "sw": 4}


def merged(name, whole, b, old):
    """What lwl or lwr makes of a register that held `old`, by the word around an address that is b more than a multiple of 4."""
    return whole << 24 - 8 * b | old % (1 << 24 - 8 * b) if name == "lwl" else old >> 32 - 8 * b << 32 - 8 * b | whole >> 8 * b


def stored(name, value, b):
    """The bytes that a store writes, and how far before such an address they begin."""
    if name == "swl":
        return (value >> 24 - 8 * b).to_bytes(b + 1, "little"), b
    size = 4 - b if name == "swr" else SIZES.get(name, 1)
    return (value & (1 << 8 * size) - 1).to_bytes(size, "little"), 0


SUMS = {  # what an instruction makes of two values, or of one and a number
    "add": lambda a, b: signed(a) + signed(b), "sub": lambda a, b: signed(a) - signed(b), "addu": lambda a, b: a + b, "subu": lambda a, b: a - b,
    "and": lambda a, b: a & b, "or": lambda a, b: a | b, "xor": lambda a, b: a ^ b, "nor": lambda a, b: ~(a | b),
    "slt": lambda a, b: signed(a) < signed(b), "sltu": lambda a, b: a < b,
    "sll": lambda a, n: a << n, "srl": lambda a, n: a >> n, "sra": lambda a, n: signed(a) >> n}


class NotQuiet(Exception):
    """What an instruction reads depends on whether a touch came before."""


def bits(word, field):
    return word >> field[0] & (1 << field[1]) - 1


def encode(name, *operands):
    """The word of an instruction; a branch has its words from the slot on."""
    code, _, fields = CODES[name]
    return code | sum((it & (1 << n) - 1) << low for it, (low, n) in zip(operands, fields))


@lru_cache(None)
def decode(word):
    """The name of a word's instruction, with its operands; or what it raises."""
    op = word >> 26
    if op in (17, 18, 19, 49, 50, 51, 57, 58, 59, 16):
        return ("raises", 11)
    key = word & 63 if op == 0 else word & 0xFC1F0000 if op == 1 else op << 26
    for name, (code, zeros, fields) in CODES.items():
        if code == key and (op == 0) == (code < 64):
            o = tuple(bits(word, it) for it in fields)
            is_own = name == "jalr" and o[0] == o[1] or name in ("bltzal", "bgezal") and o[0] == 31
            return ("raises", 10) if is_own or any(bits(word, it) for it in zeros) else (name, *o)
    return ("raises", 10)


def signed(value, n=32):
    return value - (1 << n) if value >> n - 1 & 1 else value


class Hostile(Run):
    """A run of processes whose code lies in their pages."""

    def __init__(self, *begun):
        super().__init__(*begun)
        self.slots, self.changed, self.copied, self.shares = set(), set(), set(), 0

    # Accesses.

    def at(self, p, kind, address, size):
        if address % size:
            raise Denied(kind, address, "A", 5 if kind == "store" else 4)
        return self.place(p, kind, address)

    def operand(self, q, number):
        """What an instruction reads in a register."""
        if number in (26, 27) or number and number == q.late:
            raise NotQuiet
        return q.r[number]

    def accessed(self, p, q, kind, base, offset, size):
        """The bytes of a page and a place in them."""
        if base != 26 or q.late == 26:
            return self.at(p, kind, (self.operand(q, base) + signed(offset, 16)) & MASK, size)
        try:
            (one, at), (other, there) = (self.at(p, kind, (it + signed(offset, 16)) & MASK, size) for it in (q.r[26], 0))
        except Denied:
            raise NotQuiet
        if one is not other or at != there:
            raise NotQuiet
        if q.r[26]:
            self.sees("an access by register 26")
        return one, at

    def number_of(self, content):
        return next(k for k, it in self.pages.items() if it is content)

    # Instructions.

    def load(self, p, q, name, t, offset, base):
        page, at = self.accessed(p, q, "load", base, offset, SIZES.get(name, 1))
        whole, b = int.from_bytes(page[at & ~3:(at & ~3) + 4], "little"), at % 4
        if name in ("lwl", "lwr"):
            if t in (26, 27):
                raise NotQuiet
            value = merged(name, whole, b, q.r[t])
        else:
            size = SIZES.get(name, 1)
            value = int.from_bytes(page[at:at + size], "little")
            value = signed(value, 8 * size) if name in ("lb", "lh") else value
        q.set(t, value)
        return t or None

    def store(self, p, q, name, t, offset, base):
        # (the address is decided first: a value that is read late is no matter where the store is denied)
        page, at = self.accessed(p, q, "store", base, offset, SIZES.get(name, 1))
        data, before = stored(name, self.operand(q, t), at % 4)
        at -= before
        number = self.number_of(page)
        if number in self.copied:
            self.sees("a store to a page with a copy")
            self.copied.discard(number)
        self.changed.update((number, k & ~3) for k, byte in enumerate(data, at) if page[k] != byte)
        page[at:at + len(data)] = data

    def operate(self, q, name, o):
        """An instruction that accesses no memory and jumps nowhere: its new register and value, or none."""
        r = lambda k: self.operand(q, o[k])  # noqa: E731
        match name:
            case "lui": return o[0], o[1] << 16
            case "mfhi": return o[0], q.hi
            case "mflo": return o[0], q.lo
            case "mthi": q.hi = r(0)
            case "mtlo": q.lo = r(0)
            case "mult" | "multu":
                product = signed(r(0)) * signed(r(1)) if name == "mult" else r(0) * r(1)
                q.hi, q.lo = product >> 32 & MASK, product & MASK
            case "div" | "divu":
                a, b = (signed(r(0)), signed(r(1))) if name == "div" else (r(0), r(1))
                quotient = abs(a) // abs(b) * (-1 if (a < 0) != (b < 0) else 1) if b else 0
                q.hi, q.lo = a - quotient * b & MASK, quotient & MASK
            case "sllv" | "srlv" | "srav": return o[0], SUMS[name[:3]](r(1), r(2) & 31)
            case "sll" | "srl" | "sra": return o[0], SUMS[name](r(1), o[2])
            case "andi" | "ori" | "xori": return o[0], SUMS[name[:-1]](r(1), o[2])
            case _:
                b = signed(o[2], 16) & MASK if CODES[name][2][2] == I else r(2)
                value = SUMS[name.replace("i", "")](r(1), b)  # (of `addi` that of `add`)
                if name in ("add", "addi", "sub") and not -SIGN <= value < SIGN:
                    raise Denied("exec", None, "I", 12)
                return o[0], value
        return None

    def branch(self, q, pc, name, o):
        """Where a branch or jump goes, after it has written its link; none where it is neither."""
        on, r = pc + 4, lambda k: self.operand(q, o[k])  # noqa: E731
        to = on + 4 * signed(o[-1], 16) if o else None
        match name:
            case "j" | "jal": to = on & 0xF0000000 | o[0] << 2
            case "jr": to = r(0)
            case "jalr": to = r(1)
            case "beq" | "bne": to = to if (r(0) == r(1)) == (name == "beq") else pc + 8
            case "blez" | "bgtz": to = to if (signed(r(0)) <= 0) == (name == "blez") else pc + 8
            case "bltz" | "bltzal" | "bgez" | "bgezal": to = to if (signed(r(0)) < 0) == name.startswith("bltz") else pc + 8
            case _: return None
        if name in ("jal", "jalr", "bltzal", "bgezal"):
            q.set(o[0] if name == "jalr" else 31, pc + 8)
        return to & MASK

    def instruction(self, p, pc, in_slot):
        """One instruction: none, or a jump with its target, or a call."""
        q = self.processes[p]
        self.notes(pc, in_slot)
        page, at = self.at(p, "fetch", pc, 4)
        if (self.number_of(page), at) in self.changed:
            self.sees("a changed word is done")
        name, *o = decode(int.from_bytes(page[at:at + 4], "little"))
        if name in ("raises", "break"):
            raise Denied("exec", None, "I", *o or [9])
        if name == "syscall":
            if in_slot:
                raise Denied("exec", None, "I", 8)
            return CALL
        late = None
        if name in LOADS:
            late = self.load(p, q, name, *o)
        elif name in STORES:
            self.store(p, q, name, *o)
        elif name in ("j", "jal", "jr", "jalr", "beq", "bne", "blez", "bgtz", "bltz", "bgez", "bltzal", "bgezal"):
            if in_slot:
                raise Denied("exec", None, "I", 10)
            to = self.branch(q, pc, name, o)
            q.late = None
            return JUMP, to
        elif changed := self.operate(q, name, o):
            q.set(*changed)
        q.late = late
        return None

    # What a test may want to be met.

    def notes(self, pc, in_slot):
        """An instruction is begun."""
        if not in_slot and pc in self.slots:
            self.sees("a slot is begun with")
        if in_slot and pc % 4096 == 0:
            self.sees("a slot on the next page")
        if in_slot:
            self.slots.add(pc)

    def copy_page(self, page, copy):
        super().copy_page(page, copy)
        self.copied |= {page, copy}
        self.sees("a copy")

    def give(self, p, address, receiver, to, mode):
        number = super().give(p, address, receiver, to, mode)
        self.shares += not number and mode != COPY
        return number
