#!/usr/bin/env python3
"""Writes the rows of crates/rows/data/processes/turns/, each with the text of tools/hostile_model.py.

In each row more processes than there are address spaces take turns, so that numbers run out again and again, while calls
and commands change entries of processes that have a number, that had one before a flush, and that never had one. Plans and
inputs are made up by a fixed seed while the model runs, so that most of what is planned is allowed. turns.s, which does
what plans tell, is written by hand. Each kind of change is met, or nothing is written.
"""
import random
import sys

import case_files
from case_files import policy_text
from hostile_model import Hostile
from spaces_model import AddressSpaces
from trace_model import image

DATA = case_files.DATA / "processes" / "turns"
START, PLAN = 0x40_0000, 0x40_F000
IN_A_PAGE, WORDS = 7, 146  # processes that have their plans in one page, and the words of a plan
OWN, NEXT, GIVEN, FAR = 0x40_1000, 0x40_2000, 0x40_3000, 0x80_1000  # pages of every process
SPARE, PARKED = 8, 3  # frames for copies, and the most that are parked
CHANGES = {(verb, kind) for verb in ("give", "take", "grant", "narrow", "revoke", "drop by command", "end") for kind in ("held", "lost", "never")}
CHANGES |= {("drop", "held"), *((f"{verb} along", kind) for verb in ("take", "revoke") for kind in ("held", "lost"))}  # (who drops is on the processor)
ROWS = {"70": (70, 0, 45000), "100": (100, 0, 45000), "70_by_the_clock": (70, 3, 30000), "100_by_the_clock": (100, 3, 30000)}


def letter(p):
    return 33 + p % 94


def word_of(what, address=0, p=0, to=0, m=0):
    """A word of a plan. The letter that a store puts stands where another word has a page."""
    page = to if what == 11 else (to >> 22) << 4 | (to >> 12) & 15
    return what << 28 | (address >> 22) << 24 | (address >> 12 & 15) << 20 | p << 12 | page << 4 | m


class Made(AddressSpaces, Hostile):
    """A run whose plans and commands are made up on its way."""

    passes_idle = False

    def __init__(self, name, count, rate):
        self.rng, self.count = random.Random(name), count
        self.plan, self.input = {}, []
        self.had, self.met = set(), set()  # who had a number, and which changes were met of processes of which kind
        self.begin_spaces()
        self.plans = (count + IN_A_PAGE - 1) // IN_A_PAGE
        pages = 1 + self.plans + count
        rules = [rule for p in range(1, count + 1) for rule in self.rules_of(p)]
        code = image((DATA / "turns.s").read_text()).ljust(4096, b"\0")
        super().__init__(
            [(self.start_of(p), p % 4) for p in range(1, count + 1)], [code, *[bytes(4096)] * (pages + SPARE - 1)], pages, pages + SPARE, rules, rate)

    def start_of(self, p):
        return START + 8 * ((p - 1) % IN_A_PAGE)

    def own(self, p):
        """The page of its own of a process."""
        return self.plans + p

    def rules_of(self, p):
        """The code, the plan, its own page, and that of the next process."""
        return [(p, START, "read", 0, False), (p, PLAN, "read", 1 + (p - 1) // IN_A_PAGE, False),
                (p, OWN, "write", self.own(p), True), (p, NEXT, "read", self.own(p % self.count + 1), True)]

    # Which process has which kind of number.

    def enters(self, p):
        self.take_number(p)
        self.had.add(p)

    def changes(self, verb, p, address):
        self.met.add((verb, self.kind(p)))
        super().changes(verb, p, address)

    def kind(self, p):
        return "held" if p in self.numbers else "lost" if p in self.had else "never"

    # Plans.

    def place(self, p, kind, address):
        if kind == "load" and PLAN <= address < PLAN + 4096:
            at = (1 + (p - 1) // IN_A_PAGE, address - PLAN)
            if at not in self.plan:
                self.plan[at] = self.next_word(p)
                self.pages[at[0]][at[1]:at[1] + 4] = self.plan[at].to_bytes(4, "little")
        return super().place(p, kind, address)

    def next_word(self, p):
        """What a process does next."""
        rng = self.rng
        address = rng.choice([OWN, NEXT, GIVEN, FAR])
        what = rng.choices(["load", "store", "give", "take", "drop", "yield", "exit"],
                           [30, 20, 16, 12, 3, 20 if self.rate else 45, 0.2])[0]
        match what:
            case "exit" if self.count != 70 and len(self.alive()) >= 80: return word_of(0)
            case "yield" | "exit": return word_of(3)
            case "give": return self.gift(p)
            case "take": return word_of(7, *self.taken_back(p))
            case "drop": return word_of(8, GIVEN)
        is_store = what == "store"
        if not self.allows(p, address, is_store) and (self.parked() >= PARKED or rng.random() < 0.6):
            return word_of(3)
        return word_of(11, address, 0, letter(p), 3) if is_store else word_of(10, address, 0, 0, 3)

    def gift(self, p):
        """Something that the process has, for a process of some kind, which mostly has nothing there."""
        rng = self.rng
        to = rng.choice([GIVEN, GIVEN, FAR])
        free = [q for q in self.some_kind() if (q, to) not in self.table]
        shared = [at for at in (GIVEN, FAR) if self.has_right(p, at) and self.entry(p, at).give]
        return word_of(6, rng.choice(shared or [OWN, OWN, NEXT]), rng.choice(free or self.alive()), to, rng.choice([1, 1, 2, 2, 3]))

    def taken_back(self, p):
        """An entry that the process gave, to a process of some kind, and whose it is, first one that was shared on; now and then another."""
        given, places = {}, [place for place, entry in self.table.items() if entry.giver == p]
        shared_on = [place for place in places if len(self.family(place)) > 1]
        for q, address in shared_on or places:
            given.setdefault(self.kind(q), []).append((address, q))
        if given and self.rng.random() < 0.9:
            return self.rng.choice(given[self.rng.choice(sorted(given))])
        return GIVEN, self.rng.randrange(1, self.count + 1)

    def alive(self):
        return [p for p in self.processes if self.lives(p)]

    def parked(self):
        return sum(q.state == "Parked" for q in self.processes.values())

    def some_kind(self):
        """The processes that live and have one kind of number, which is chosen."""
        kinds = {}
        for p in self.alive():
            kinds.setdefault(self.kind(p), []).append(p)
        return kinds[self.rng.choice(sorted(kinds))]

    def allows(self, p, address, is_store):
        return self.entry(p, address).right in (("write",) if is_store else ("read", "write"))

    # Commands.

    def commands(self):
        if self.rng.random() > 0.012:
            return
        parked = [p for p, q in self.processes.items() if q.state == "Parked"]
        if parked and (len(parked) >= PARKED or self.rng.random() < 0.6):
            yield from self.mended(self.rng.choice(parked))
        elif len(parked) < PARKED:
            yield self.told(*self.change())

    def told(self, verb, p, *words):
        """A command, whose line is noted."""
        texts = [f"{word:08X}" if k == 0 else self.name_of(word) if k == 1 else word for k, word in enumerate(words)]
        if verb == "grant":
            texts = [*texts[:3], *(["give"] if words[3] else [])]
        self.input.append(" ".join([str(self.time), verb, str(p), *texts]))
        return (verb, p, *words)

    def name_of(self, page):
        return "code" if page == 0 else f"plan{page}" if page <= self.plans else f"own{page - self.plans}"

    def mended(self, p):
        """What a parked process was denied is granted, if it isn't by now, and it goes on."""
        _, _, _, kind, address, _, _ = next(line for line in reversed(self.log) if line.split()[1:2] == [str(p)]).split()
        address = int(address, 16) // 4096 * 4096
        if not self.allows(p, address, kind == "store"):
            if self.has_right(p, address):
                yield self.told("revoke", p, address)
            page = 0 if address == START else self.own(p % self.count + 1 if address == NEXT else p)
            yield self.told("grant", p, address, page, "write" if kind == "store" else "read", self.rng.random() < 0.7)
        yield self.told("resume", p)

    def change(self):
        """A command that changes an entry of a process of some kind, or ends it."""
        rng = self.rng
        p = rng.choice(self.some_kind())
        if self.count > 70 and len(self.alive()) > 80 and rng.random() < 0.06:
            return "stop", p
        address = rng.choice([OWN, OWN, NEXT, NEXT, GIVEN, FAR, START])
        if not self.has_right(p, address):
            page = rng.choice([self.own(p), self.own(rng.randrange(1, self.count + 1))])
            return "grant", p, address, 0 if address == START else page, rng.choice(["read", "write"]), rng.random() < 0.5
        return rng.choice(["narrow", "narrow", "revoke", "drop"]), p, address


def policy_of(made, name):
    about = f"{made.count} processes that take turns. Written by tools/turns_cases.py."
    pages = [("code", "turns.s", 0), *((f"plan{k}", f"{name}.s", k - 1) for k in range(1, made.plans + 1)), *((f"own{p}",) for p in made.processes)]
    rules = [(p, address, right, made.name_of(page), give) for p in made.processes for _, address, right, page, give in made.rules_of(p)]
    return policy_text(about, made.frames, made.rate, [(made.start_of(p), p % 4) for p in made.processes], pages, rules, "08X")


def plan_text(made):
    """The plans of all processes, page after page."""
    lines, at = ["# Written by tools/turns_cases.py."], 0
    for (page, place), word in sorted(made.plan.items()):
        here = (page - 1) * 4096 + place
        lines += [f".space {here - at}"] if here > at else []
        lines.append(f".word 0x{word:08X}")
        at = here + 4
    return "\n".join([*lines, ""])


def files():
    met = set()
    for name, (count, rate, n) in ROWS.items():
        made = Made(name, count, rate)
        made.run(n)
        met |= made.met
        yield DATA / f"{name}.toml", policy_of(made, name)
        yield DATA / f"{name}.s", plan_text(made)
        yield DATA / f"{name}.input", "\n".join(["# Written by tools/turns_cases.py.", *made.input, ""])
        yield DATA / name, made.text()
    assert CHANGES <= met, CHANGES - met


if __name__ == "__main__":
    sys.exit(case_files.main(files))
