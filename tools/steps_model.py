#!/usr/bin/env python3
"""What a station is told to come to by each of its steps: the lines of the runs in crates/rows/data/steps/index.

A step is an instruction of the processor, those of the refill handler among them, or a service of the monitor; the last of a unit ends it, and then
comes its boundary. tools/processor_model.py says which there are.
"""
import sys

import case_files
from hostile_model import MASK, signed
from processor_model import Processor
from trace_model import asked, begun, number


class Stepped(Processor):
    """A run that keeps a line for each step: the time, the instructions of the unit that goes on, and the kind."""

    def __init__(self, *begun_with):
        self.lines, self.happened = [], []
        super().__init__(*begun_with)

    def accessed(self, p, q, kind, base, offset, size):
        """By register 26 an access is done where that leads once a refill of the unit has cleared it, and in these runs each such unit has one."""
        if base != 26:
            return super().accessed(p, q, kind, base, offset, size)
        found = [self.at(p, kind, it + signed(offset, 16) & MASK, size) for it in (q.r[26], 0)]
        *self.asks, before, after = self.asks
        self.asks.append(before._replace(after_touch=after.address))
        return found[1]

    def counts(self, *kinds):
        super().counts(*kinds)
        self.happened += [it for it in kinds if it in ("instruction", "service")]

    def unit(self, p):
        self.happened = []
        ticks = super().unit(p)
        spent = 0
        for kind in self.happened[:-1]:
            spent += kind == "instruction"
            self.lines.append(f"{self.time} {spent} inside")
        self.lines.append(f"{self.time + ticks} 0 unit")
        return ticks

    def turn(self):
        super().turn()
        self.lines.append(f"{self.time} 0 boundary")

    def told(self):
        over = [f"{self.time} 0 over"] * (2 * self.has_ended())
        return "".join(f"{it}\n" for it in [*self.lines, *over]).encode() + self.text()


def files():
    """The texts of all lines of the index. Either buffer takes the same steps."""
    for _, folder, text, _, *words in case_files.index("steps/index"):
        (_, policy, given, n), flags = asked(words)
        run = begun(case_files.files_in(case_files.DATA / folder), policy, given, Stepped, number(flags, "random", 63))
        run.run(int(n))
        yield case_files.DATA / folder / text, run.told()


if __name__ == "__main__":
    sys.exit(case_files.main(files))
