#!/usr/bin/env python3
"""Goes through every course that a unit can take, and says how long the longest is.

    tools/unit_course.py    says how many states there are and the most of each count; the status is 1 where a count is another than expected

The crate ds_refinement proves of each course that it is tallied, and so that its counts are few. Here the same relation is searched: at each state that can
be reached the same invariant is checked, and the most of each count shows that the bounds are not too wide.

A page that a unit asks for is a letter: F its instruction, S the one in its slot, E its data before the process is touched, A its data after
that; the same in lower case is that page's page of the page table. The buffer holds any of the eight at first. Each write pushes out any one page of its
half of the buffer that the unit has not written, or none.
"""
import sys
from collections import deque, namedtuple
from itertools import chain, combinations

PAGES, TABLES = "FSAE", "fsae"
WASTED = {"F": 1, "S": 2, "A": 2}  # instructions of the program that a miss sends to waste
COST = {"early": 11, "F": 10, "f": 4, "S": 11, "s": 5, "A": 11, "a": 5, "copied": 2}
REFILLS, DOUBLES, COPIES = {"early", "F", "S", "A"}, {"early", "f", "s", "a"}, {"early", "copied"}
EXPECTED = {
    "instructions": 61, "tlbwr": 4, "entries of page tables": 4, "services after which it goes on": 5,
    "steps of Random from the first tlbwr to the last": 46, "steps of Random from the first tlbwr to the end": 53}
# A state of a unit: whether it has a slot; its place, ("begun",), ("slot",), ("word", ask, number), ("double miss", ask) or ("service",); the buffer; whether the
# process was touched; of A and E those that may be written; what of COST was met, and what the unit has put into the buffer; its instructions, refills, entries
# of page tables and services; and the steps of Random since the first tlbwr, and from that to the last.
State = namedtuple("State", "branches place buffer touched dirty met written spent refills tables services since last", defaults=(frozenset(), frozenset(), *[0] * 6))


def subsets(letters):
    return [frozenset(it) for it in chain.from_iterable(combinations(letters, n) for n in range(len(letters) + 1))]


def cost(met):
    return sum(COST[it] for it in met)


def page_of(ask, touched):
    return "E" if ask == "A" and not touched else ask


def is_far(s):
    """Whether the instructions so far are as many as the place allows, by what was met."""
    match s.place:
        case ("begun",): return s.spent <= cost(s.met)
        case ("slot",): return s.spent <= cost(s.met) + 1
        case ("service",): return s.spent <= cost(s.met) + 2
        case ("double miss", ask): return ask not in s.met and ask.lower() not in s.met and s.spent <= cost(s.met) + WASTED[ask] + 3
        case ("word", ask, word) if word <= 6: return ask not in s.met and word + 1 <= s.spent <= cost(s.met) + WASTED[ask] + word
        case ("word", _, word): return s.spent + 9 <= cost(s.met) + word


def is_tallied(s):
    """The invariant: what was met is in the buffer, and no more is counted than was met."""
    kept = all(it in s.buffer and it in s.written for it in s.met if it in "FSAfsa")
    copied = "copied" not in s.met or "A" in s.dirty
    few = s.refills <= len(s.met & REFILLS) and s.tables <= len(s.met & DOUBLES) and s.services <= len(s.met & DOUBLES) + len(s.met & COPIES)
    return kept and copied and few and (s.touched or not s.met) and s.since <= max(0, s.spent - 7) and is_far(s)


def counted(s, *place):
    """After one more instruction."""
    return [s._replace(place=place, spent=s.spent + 1, since=s.since + (s.refills > 0))]


def meets(s, ask, what):
    """What was met, with data's page before the first touch as `early`."""
    return s.met | {"early" if ask == "A" and not s.met else what}


def pushed_out(s, half):
    """The buffer after each choice of what a write into one half pushes out."""
    return [s.buffer - {it} for it in ["", *(s.buffer & set(half) - s.written)]]


def after_instruction(s):
    """An instruction of the program."""
    if s.place == ("begun",) and "F" not in s.buffer:
        return counted(s, "word", "F", 0)
    if s.place == ("begun",) and s.branches:
        return counted(s, "slot")
    if s.place == ("slot",) and "S" not in s.buffer:
        return counted(s, "word", "S", 0)
    if page_of("A", s.touched) not in s.buffer:
        return counted(s, "word", "A", 0)
    return counted(s, "service")  # (where it retires, the unit ends)


def after_word(s):
    """A word of the refill handler."""
    _, ask, word = s.place
    page = page_of(ask, s.touched)
    if word == 2 and page.lower() not in s.buffer:
        return counted(s, "double miss", ask)
    if word == 8:
        return counted(s, "begun")
    if word != 6:
        return counted(s, "word", ask, word + 1)
    more = {"met": meets(s, ask, ask), "written": s.written | {page}, "touched": True}
    since = s.since + 1
    return [s._replace(place=("word", ask, 7), buffer=it | {page}, spent=s.spent + 1, since=since, refills=s.refills + 1, last=s.since, **more) for it in pushed_out(s, PAGES)]


def after_service(s):
    """A service of the monitor, where the unit goes on."""
    if s.place[0] == "double miss":
        table = page_of(s.place[1], s.touched).lower()
        more = {"met": meets(s, s.place[1], s.place[1].lower()), "written": s.written | {table}, "touched": True}
        return [s._replace(place=("begun",), buffer=it | {table}, tables=s.tables + 1, services=s.services + 1, **more) for it in pushed_out(s, TABLES)]
    page = page_of("A", s.touched)
    if page in s.dirty:
        return []
    return [s._replace(place=("begun",), dirty=s.dirty | {page}, met=meets(s, "A", "copied"), touched=True, services=s.services + 1)]


def nexts(s):
    return {"begun": after_instruction, "slot": after_instruction, "word": after_word}.get(s.place[0], after_service)(s)


def begins():
    return [State(branches, ("begun",), buffer, touched, dirty) for branches in (False, True) for buffer in subsets(PAGES + TABLES) for dirty in subsets("AE") for touched in (False, True)]


def search(nexts=nexts):
    """The number of states, the most of each count, and a state that is not tallied, if there is one."""
    seen, waiting, most = set(), deque(begins()), [0] * len(EXPECTED)
    while waiting:
        s = waiting.popleft()
        if s in seen:
            continue
        if not is_tallied(s):
            return len(seen), most, s
        seen.add(s)
        most = [max(it) for it in zip(most, (s.spent, s.refills, s.tables, s.services, s.last, s.since))]
        waiting.extend(nexts(s))
    return len(seen), most, None


def main(nexts=nexts, expected=EXPECTED):
    states, most, untallied = search(nexts)
    if untallied:
        print(f"not tallied: {untallied}")
        return 1
    for (what, number), found in zip(expected.items(), most):
        print(f"{found} {what}" + ("" if found == number else f", and not {number}"))
    print(f"{states} states, each of them tallied")
    return 0 if most == list(expected.values()) else 1


if __name__ == "__main__":
    sys.exit(main())
