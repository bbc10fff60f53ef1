#!/usr/bin/env python3
"""Writes the refusals in the tables of crates/rows/data/reading/ anew, by tools/reading_model.py.

The policies and inputs are data, and stay, those of tables that were written by hand among them. In other tables each key of a policy is doubled, missing and
of another type; and a policy and an input are cut off after each byte, or have bytes that were drawn.
"""
import re
import sys
import tomllib

import case_files
from reading_model import input_refusal, policy_refusal, sources

CASE = re.compile(rb"^(== .*\n)((?s:.*?))^-- .*\n", re.M)
ESCAPE = re.compile(rb"\\(?:x([0-9A-Fa-f]{2})|(r)|(\\)|\n)")


def without_escapes(text):
    return ESCAPE.sub(lambda it: bytes([int(it[1], 16)]) if it[1] else b"\r" if it[2] else b"\\" if it[3] else b"", text)


def answer(table, text):
    """The refusal of an input, or of a policy: a good one may name a source that is not there."""
    if table.file == "input":
        pages = tomllib.loads((table.folder / table.words[1]).read_text())["page"]
        return input_refusal(text, [it["name"] for it in pages]) or "ok"
    lacking = [it for it in sources(text) if not (table.folder / it).is_file()]
    return policy_refusal(text) or (f"26 Unreadable {lacking[0]}" if lacking else "ok")


def files():
    for it in (it for it in case_files.tables() if it.line.startswith("reading ")):
        yield it.cases, CASE.sub(
            lambda found: b"%s%s-- %s\n" % (found[1], found[2], answer(it, without_escapes(found[2])).encode()), it.cases.read_bytes())


if __name__ == "__main__":
    sys.exit(case_files.main(files))
