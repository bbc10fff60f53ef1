"""Tests debug_draws.py over lists of positions that were worked out by hand."""
import unittest
from types import SimpleNamespace

import debug_draws as draws


def position(time, runner, pcs, word, log=(), ended=()):
    """Two processes that share a word at 00410000."""
    page = word.to_bytes(4, "little") + bytes(4092)
    run = SimpleNamespace(
        time=time, ready=[runner] if runner else [], pages={0: bytes(4096), 1: page}, consoles=[b""] * 4, log=list(log),
        processes={p: SimpleNamespace(r=[0] * 32, hi=0, lo=0, pc=pc, state="Ended" if p in ended else "Ready") for p, pc in pcs.items()},
        table={(p, at): SimpleNamespace(page=k, right="read") for p in pcs if p not in ended for k, at in enumerate((0x400000, 0x410000))},
    )
    return draws.Position(run)


# Process 1 stores 1 in its second unit, process 2 stores 2 in its first, is denied in its second, and process 1 has a last one.
PATH = [
    position(0, 1, {1: 0x400000, 2: 0x400100}, 0),
    position(1, 1, {1: 0x400004, 2: 0x400100}, 0),
    position(2, 2, {1: 0x400008, 2: 0x400100}, 1),
    position(4, 2, {1: 0x400008, 2: 0x400104}, 2),
    position(5, 1, {1: 0x400008, 2: 0x400104}, 2, ["4 2 00400104 store 00420000 r0 3"]),
    position(6, 1, {1: 0x40000C, 2: 0x400104}, 2, ["4 2 00400104 store 00420000 r0 3"]),
]


CALLS = position(0, 1, {1: 0x410000, 2: 0x400104}, 12, ended=[2])  # whose next unit is the last exit
ENDING = [CALLS, position(1, None, {1: 0x410004, 2: 0x400104}, 12, ended=[1, 2])]
TOLD = {  # packets, and what is answered last to each
    # A watch is told of who watches; one of a process that doesn't go stops nobody; going back it is found where the session stands.
    ("Z2,410000,4", "vCont;c", "vCont;c"): ["OK", "T05thread:p1.1;watch:00410000;", "T05thread:p1.1;watch:00410000;"],
    ("Z2,410000,4", "vCont;c:p2.1"): ["OK", "T0bthread:p2.1;"],
    ("Z2,410000,4", "vCont;c", "bc", "bs", "bc"): ["OK", "T05thread:p1.1;watch:00410000;", "T05thread:p1.1;watch:00410000;", "T05thread:p1.1;", "T05thread:p1.1;replaylog:begin;"],
    # A denial is a signal; a range ends where it is left; a step back is one of its process, and one without a turn stays.
    ("vCont;c", "vCont;c"): ["T0bthread:p2.1;", "T05thread:p2.1;replaylog:end;"],
    ("vCont;r400000,400008:p1.1;c", "p25"): ["T05thread:p1.1;", "08004000"],
    ("vCont;c", "Hcp1.1", "bs", "Hgp1.1", "p25"): ["T0bthread:p2.1;", "OK", "T05thread:p1.1;", "OK", "04004000"],
    ("vCont;s", "Hcp2.1", "bs"): ["T05thread:p1.1;", "OK", "T02thread:p2.1;"],
    # A time that is asked for is passed once; memory ends where it may not be loaded; what is too long, and too many.
    ("qRcmd," + b"stop 2".hex(), "vCont;c", "vCont;c"): ["OK", "T05thread:p1.1;", "T0bthread:p2.1;"],
    ("m410ffe,8", "m411000,4"): ["0000", "E14"],
    ("Z2,410000,41",): ["E16"],
    tuple(f"Z2,{at:x},1" for at in range(17)): ["OK"] * 16 + ["E1C"],
}


class Draws(unittest.TestCase):
    def test_packets_are_answered(self):
        for packets, wanted in TOLD.items():
            debugger = draws.Debugger(PATH, 6)
            self.assertEqual(wanted, [debugger.answer(it)[-1] for it in packets], packets)

    def test_the_last_exit_is_not_done(self):
        self.assertEqual("T05thread:p1.1;replaylog:end;", draws.Debugger(ENDING, 6).answer("vCont;c")[-1])
        self.assertTrue(CALLS.exits_next())

    def test_examples_are_there_and_are_drawn(self):
        for run in draws.RUNS:
            path = draws.positions(*run)
            packets = draws.drawn(path, draws.random.Random(1), 40)
            self.assertEqual((40, True), (len(packets), (draws.Drawn(run, path, packets).folder / run[1]).is_file()))

    def test_a_program_that_answers_nothing(self):
        run = draws.RUNS[0]
        self.assertIn("was to come", draws.Drawn(run, draws.positions(*run), ["g"]).fault("/bin/true"))
