"""Tests of tools/refusals.py, over a small crate and a small document."""
import unittest

from refusals import Wrong, said_by_crate, written
from rooms import toy

CRATE, DOCUMENT = toy("refusals").values()
WRITTEN = [  # another document, and what becomes of it
    (DOCUMENT, DOCUMENT),
    (DOCUMENT.replace("Mend it", "Leave it"), DOCUMENT),
    (DOCUMENT.replace("Too many.", "Too few."), DOCUMENT),
    (DOCUMENT.replace("Too many.", "Too many. Or none."), DOCUMENT),
    (DOCUMENT.replace("Another.", "Others."), DOCUMENT.replace("Another.", "Others.")),
]
WRONG = [  # another crate, another document, and what is told of them
    (CRATE.replace("LIMIT:", "LIMITS:"), DOCUMENT, "LIMITS is not the constant of Limit"),
    (CRATE.replace("/// 10 `Limit`.", "/// Too much."), DOCUMENT, "a constant has no number"),
    (CRATE + CRATE[CRATE.index("/// 10"):], DOCUMENT, "two constants"),
    (CRATE, "# Refusals\n", "10 Limit is not in the document"),
    (CRATE, DOCUMENT.replace("**10 `Limit", "**11 `Limit"), "10 Limit is not in the document"),
]


class Tests(unittest.TestCase):
    def test_the_document_is_written_with_the_words_of_the_crate(self):
        self.assertEqual(list(said_by_crate(CRATE)), [("8", "BadToml"), ("10", "Limit")])
        self.assertIn('No "document", such', said_by_crate(CRATE)["8", "BadToml"])
        for document, wanted in WRITTEN:
            self.assertEqual(wanted.split(), written(CRATE, document).split())
        self.assertEqual(written(CRATE, DOCUMENT), DOCUMENT)
        self.assertIn("**10 `Limit KEY`.** Too many.\n\n## Of a run\n", written(CRATE, WRITTEN[2][0]))

    def test_what_is_wrong_is_told(self):
        for crate, document, why in WRONG:
            with self.assertRaisesRegex(Wrong, why):
                written(crate, document)
