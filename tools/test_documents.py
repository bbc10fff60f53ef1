"""Tests of tools/documents.py, over small repositories."""
from pathlib import Path

from documents import COLUMNS, LINES, faults
from rooms import InARoom, placed, toy

GOOD = toy("documents")
LONG = "≡" * (COLUMNS + 1)
TOLD = [  # documents by their names that are otherwise, and what is told
    ({}, []),
    ({"words": (LONG + "\n") * 1000}, []),  # (one without a size)
    ({"machine": "# Machine\n"}, ["docs/words.md: named neither by README.md nor by a document that it names"]),
    ({"words": "`tools/walk.py`, `tools/run.py`\n"}, ["docs/words.md: `tools/walk.py` is not there"]),
    ({"words": "`src/gone.rt`\n"}, ["docs/words.md: `src/gone.rt` is not there"]),
    ({"words": None}, ["docs/machine.md: `docs/words.md` is not there"]),
    ({"words": "[It](gone.md), [there](../README.md#it), [far](https://a.b/c)\n"}, ["docs/words.md: `gone.md` is not there"]),
]
for path, most in LINES.items():  # those with a size, whose lines and columns are counted, as characters
    name, head = Path(path).stem, GOOD[path]
    at = head.count("\n") + 1
    TOLD += [({name: head + "a line\n" * (most + 1 - at)}, []), ({name: head + "a line\n" * (most + 2 - at)}, [f"{path}: {most + 1} lines, at most {most}"]),
             ({name: head + LONG[1:] + "\n"}, []), ({name: head + LONG + "\n"}, [f"{path}:{at}: 121 columns, at most 120"])]


class Tests(InARoom):
    def told(self, changed):
        """The faults of a good repository with documents that are otherwise."""
        for path, text in GOOD.items():
            text = changed.get(Path(path).stem, text)
            placed(self.room, {path: text}) if text is not None else Path(self.room, path).unlink()
        return faults(self.room)

    def test_what_is_wrong_is_told_and_nothing_else(self):
        for changed, wanted in TOLD:
            self.assertEqual(wanted, self.told(changed), changed)
        self.assertIn("README.md: missing", self.told({"README": None}))
