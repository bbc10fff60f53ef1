"""Tests of tools/gate_times.py: which process counts for what, and what is told and kept."""
import json
import sys

from gate_times import TICKS, Process, belongs, below, main, process_of
from rooms import InARoom, said

# Works for half a second of processor time in a process that it starts, whose words name a crate.
WORKS = "import time\nwhile time.process_time() < 0.5:\n    pass"
STARTS = f"import subprocess, sys\nsubprocess.run([sys.executable, '-c', {WORKS!r}, '--crate-name', 'ds_word', '--test'])"


WORDS = ["rattle", "build", "--crate-name", "ds_tlb", "src/lib.rt"]
BELONGS = [  # the words of a process, its folder, and for what it counts
    (WORDS, "/work/crates/ds_tlb", ("ds_tlb", "proof")),
    ([*WORDS, "--test"], "/work/crates/ds_tlb", ("ds_tlb", "with tests")),
    (WORDS, "/tmp/rt-edit-12-abc", ("ds_tlb", "must-fail")),
    (WORDS, "/tmp/wrong-bodies-abc", ("ds_tlb", "wrong")),
    (["rattle", "fmt"], "/work", ("", "other")),
    (["rattle", "--crate-name"], "/work", ("", "other")),
]


class Tests(InARoom):
    def test_a_process_is_read_whatever_its_name_and_counts_for_its_crate(self):
        fields = ["S", "7", *["0"] * 9, "150", "50", *["0"] * 6, "99", "0"]
        for name in ("rattle", "a name", "a) b ("):
            self.assertEqual((7, 99, 200 / TICKS), process_of(f"12 ({name}) " + " ".join(fields)))
        for words, folder, wanted in BELONGS:
            self.assertEqual(wanted, belongs(words, folder))

    def test_processes_below_one_are_found(self):
        found = {number: Process(parent, 0, 0) for number, parent in {2: 1, 3: 2, 4: 3, 5: 1, 6: 5}.items()}
        self.assertEqual([3, 4], sorted(below(2, found)))

    def test_what_a_process_took_is_measured_kept_and_told(self):
        kept = self.room / "kept"
        status, out, _ = said(main, ["--keep", str(kept), "--", sys.executable, "-c", STARTS])
        [[crate, kind, took]] = [it for it in json.loads(kept.read_text("utf-8")) if it[0]]
        self.assertEqual((0, "ds_word", "with tests"), (status, crate, kind))
        self.assertTrue(0.1 < took < 1, took)
        self.assertRegex(out, r"(?m)^ds_word, with tests: \d s$")

    def test_the_status_is_that_of_the_command(self):
        kept = self.room / "kept"
        self.assertEqual(3, said(main, ["--keep", str(kept), "--", sys.executable, "-c", "raise SystemExit(3)"])[0])
        self.assertEqual([], json.loads(kept.read_text("utf-8")))
