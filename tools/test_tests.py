"""Tests of tools/tests.py: each script is run, and one that fails is told."""
from pathlib import Path

from rooms import InARoom, placed, said
from tests import TOP, commands, main


class Tests(InARoom):
    def said(self, **scripts):
        """The status and the lines of a run of these scripts, by their names."""
        placed(self.room, {f"{name}.py": text for name, text in scripts.items()})
        status, out, _ = said(main, [[f"{name}.py", "one", "two"] for name in scripts], self.room)
        return status, out.splitlines()

    def test_scripts_that_end_well_pass(self):
        status, lines = self.said(first="print('said')", second="import sys\nprint(sys.argv[1:])")
        self.assertEqual((0, "2 passed, 0 failed"), (status, lines[-1]))
        self.assertIn("said", lines)
        self.assertIn("['one', 'two']", lines)

    def test_a_script_that_fails_is_told(self):
        status, lines = self.said(first="pass", second="raise SystemExit('it went wrong')")
        self.assertEqual((1, "1 passed, 1 failed"), (status, lines[-1]))
        self.assertIn("it went wrong", lines)
        self.assertTrue(any(it.startswith("== second.py one two: ") and it.endswith("status 1") for it in lines))

    def test_each_script_of_tests_is_run(self):
        names = [words[0] for words in commands()]
        self.assertLessEqual({f"tools/{it.name}" for it in Path(TOP, "tools").glob("test_*.py")}, set(names))
        self.assertEqual([], [it for it in names if not Path(TOP, it).is_file()])
        self.assertEqual(len(names), len(set(names)))
