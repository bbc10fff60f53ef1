#!/usr/bin/env python3
"""Writes docs/figures.md: what is counted in the repository, and what was measured.

    tools/figures.py                 writes the page
    tools/figures.py --check         says whether the page differs from what is counted now; the status is 1 then
    tools/figures.py --seconds FILE  takes the processor seconds of a file of `tools/gate_times.py --keep` over into tools/figures.json, then writes the page

What is counted: wrong bodies by crate, rows, tables and their cases, words that run nothing, stepped runs, and the lines on parts. What is measured lies in
tools/figures.json: `runs`, whole commands with their minutes, which are written there by hand; `seconds`, by crate and kind, with the day.
"""
import json
import sys
import time
from pathlib import Path

import case_files
from case_files import table
from gate_times import KINDS, ROOMS, TOP

PAGE, MEASURED = "docs/figures.md", "tools/figures.json"
HEAD = "# Figures\n\nThis page is written by `tools/figures.py`. The gate fails where something that can be counted differs from it."


def edits_by_crate(top):
    """The crates in the order of crates.txt, and of each how many edits each folder of them has."""
    lines = [it.partition("#")[0].partition(":")[0].split() for it in Path(top, "crates.txt").read_text("utf-8").split("\n")]
    return {it[0]: {room: len(list(Path(top, "crates", it[0], room).glob("*.edit"))) for room in ROOMS} for it in lines if it}


def crates_of(edits, measured):
    """The part on crates: the processor seconds of each kind, and how many wrong bodies each has."""
    took = {(crate, kind): seconds for crate, kind, seconds in measured["seconds"]}
    rows = []
    for crate, its in edits.items():
        seconds = [f"{it:.0f}" if it >= 0.5 else "" for it in (took.get((crate, kind), 0) for kind in KINDS)]
        counts = [its[room] or "" for room in ROOMS]
        rows.append([f"`{crate}`", *seconds[:2], counts[0], seconds[2], counts[1], seconds[3]])
    sums = [f"{sum(took.get((crate, it), 0) for crate in edits):.0f}" for it in KINDS]
    counts = [sum(it[room] for it in edits.values()) for room in ROOMS]
    rows.append(["all", *sums[:2], counts[0], sums[2], counts[1], sums[3]])
    return [
        *("## Crates", ""),
        f"Processor seconds, as last read (on {measured['day']}) while other work went on beside it: of the crate's proof (of a",
        "program, with both of its compilations); of its second proof, with its tests; of the wrong bodies in `must-fail/` and in `wrong/`, each with their number. Where nothing",
        "stands, nothing was read. A sum has what was read of the crates above it.",
        "",
        *table(["Crate", "Proof", "With tests", "`must-fail/`", "", "`wrong/`", ""], rows),
    ]


def words_of(top, path):
    """The lines of an index, without comments."""
    file = Path(top, path)
    return [it for it in file.read_text("utf-8").splitlines() if it and not it.startswith("#")] if file.is_file() else []


def rows_of(top):
    """The part on rows, tables and cases."""
    rows, tables = words_of(top, "crates/rows/data/rows"), words_of(top, "crates/rows/data/tables")
    told, steps, parts = [words_of(top, f"crates/rows/data/{it}") for it in ("told", "steps/index", "parts/index")]
    outcomes = dict(it.rsplit(": ", 1) for it in words_of(top, "crates/rows/stdout") if ": " in it)
    cases = {line: int(outcomes.get(line, "0").split()[0]) for line in [*tables, *parts] if outcomes.get(line) != "as expected"}
    counted = {"rows": len(rows), "of these, at a start of Random that they name": sum("--random" in it for it in rows), "tables": len(tables),
               "cases of the tables": sum(cases.get(it, 0) for it in tables), "words that run nothing": len(told), "stepped runs": len(steps)}
    of_parts = {it.split()[1]: cases[it] for it in parts if it in cases}
    return [
        *("## Rows and cases", "", "The program `rows` runs these:", "", *table(["What", "How many"], counted.items())),
        *("", "And the lines of these files, over one or both buffers:", "", *table(["File", "How many"], of_parts.items())),
    ]


def page(top=TOP):
    measured = json.loads(Path(top, MEASURED).read_text("utf-8"))
    head, keys = ["Command", "Day", "Processors", "Minutes", "Processor minutes", "Last line"], ("what", "day", "processors", "minutes", "processor minutes")
    runs = [[*map(it.get, keys), f"`{it['last line']}`"] for it in measured["runs"]]
    parts = [["## What whole commands took", "", *table(head, runs)], crates_of(edits_by_crate(top), measured), rows_of(top)]
    return "\n\n".join([HEAD, *("\n".join(it) for it in parts)]) + "\n"


def take_seconds(files, top=TOP):
    """Takes over what was read of crates and kinds; what was read of others before stays."""
    measured = json.loads(Path(top, MEASURED).read_text("utf-8"))
    took = {(crate, kind): seconds for crate, kind, seconds in measured["seconds"]}
    names = edits_by_crate(top)
    for it in files:
        took.update({(crate, kind): seconds for crate, kind, seconds in json.loads(Path(it).read_text("utf-8")) if crate in names})
    measured["seconds"] = [[*it, took[it]] for it in sorted(took) if it[0] in names]
    measured["day"] = time.strftime("%Y-%m-%d", time.gmtime())
    lines = ",\n".join(f"    {json.dumps(it)}" for it in measured["seconds"])
    runs = ",\n".join(f"    {json.dumps(it)}" for it in measured["runs"])
    Path(top, MEASURED).write_text(f'{{\n  "day": "{measured["day"]}",\n  "runs": [\n{runs}\n  ],\n  "seconds": [\n{lines}\n  ]\n}}\n', "utf-8")


def main(words, top=TOP):
    if words[:1] == ["--seconds"] and words[1:]:
        take_seconds(words[1:], top)
        words = []
    return case_files.main(lambda: [(Path(top, PAGE), page(top))], words=words)


if __name__ == "__main__":
    sys.exit(main(sys.argv[1:]))
