#!/usr/bin/env python3
"""Writes the words of crates/ds_check/src/refusals.rt into docs/refusals.md, or with --check tells where the two differ.

The crate has a constant for each refusal that a reader of a policy, a source or an input can meet: what was found, and
how it is mended. The document has the same words after the refusal's number and name. Where lines end does not count.
"""
import re
import sys
from pathlib import Path

import case_files

TOP = Path(__file__).resolve().parent.parent
CRATE = TOP / "crates" / "ds_check" / "src" / "refusals.rt"
DOCUMENT = TOP / "docs" / "refusals.md"
CONSTANT = re.compile(r'/// (\d+) `(\w+)`\.\npub\(crate\) const (\w+): &str = "\\\n((?:[^"\\]|\\.)*)";')
PARAGRAPH = re.compile(r"^\*\*(\d+) `(\w+)[^`]*`\.\*\* (.*?)(?=^\*\*\d+ `|^## |\Z)", re.MULTILINE | re.DOTALL)


class Wrong(Exception):
    """Words that are not one with what they should be one with."""


def said_by_crate(text):
    """The words of each refusal by its number and name, as the crate has them."""
    found = {}
    for number, name, constant, words in CONSTANT.findall(text):
        if constant != re.sub(r"(?<=[a-z])(?=[A-Z])", "_", name).upper():  # (BAD_TOML is that of BadToml)
            raise Wrong(f"{constant} is not the constant of {name}")
        if (number, name) in found:
            raise Wrong(f"{number} {name} has two constants")
        found[number, name] = re.sub(r"\\(.)", r"\1", words)
    if len(found) != text.count("const "):
        raise Wrong("a constant has no number, or not that form")
    return found


def written(crate, document):
    """The document with the crate's words, each of which it has a place for."""
    said = said_by_crate(crate)
    if lacking := said.keys() - {it[:2] for it in PARAGRAPH.findall(document)}:
        raise Wrong(f"{' '.join(min(lacking))} is not in the document")

    def paragraph(found):
        words = said.get(found.group(1, 2), found[3])
        return found[0] if words.split() == found[3].split() else f"{found[0].removesuffix(found[3])}{words.rstrip()}\n\n"

    return PARAGRAPH.sub(paragraph, document)


def files():
    yield DOCUMENT, written(CRATE.read_text(), DOCUMENT.read_text())


if __name__ == "__main__":
    sys.exit(case_files.main(files))
