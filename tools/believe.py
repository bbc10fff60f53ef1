#!/usr/bin/env python3
"""Writes docs/believe.md: the definitions on which the clauses of the program's calls rest, in the order of a reader.

    tools/believe.py           writes the page, and the clauses that docs/theorems.md shows as code as their source has them
    tools/believe.py --check   says where the page, or a clause in docs/theorems.md, differs; the status is 1 then
    tools/believe.py --of FILE FUNCTION CLAUSE..   prints the definitions on which these clauses of a function rest, or all

The lists stand in tools/believe/lists.toml. A name that can't be followed, a field that no type of the lists has, a clause of `run_files` that is in no
list, and one that docs/theorems.md doesn't show are told with their places, and the status is 1. So are a definition of specs/ in no list that stands neither below Inner nor
below Rows, and a name that two modules besides these give to different things, unless the glossary has it among its homonyms.
"""
import sys
from pathlib import Path

from believe.page import LISTS, PAGE, named_by, page
from believe.repository import Repository
from believe.texts import Unresolved
from believe.shown import DOCUMENT, shown

TOP = Path(__file__).resolve().parent.parent


def main(words, top=TOP, lists=LISTS):
    if words[:1] == ["--of"] and len(words) > 2:
        repository = Repository(top)
        try:
            reached = repository.rests_on(named_by(repository, *words[1:3], words[3:])[1].found.values()).values()
        except Unresolved as fault:
            print(fault)
            return 1
        print("".join(f"{it.path}:{it.line}: {it.name}, {len(it.own)} lines\n" for it in reached), end="")
        print(f"{len(reached)} definitions, {sum(it.code for it in reached)} lines and {sum(it.comments for it in reached)} of comments")
        return 0
    if words not in ([], ["--check"]):
        print(__doc__)
        return 1
    repository = Repository(top)
    now, told = page(repository, lists)
    document = Path(top, DOCUMENT).read_text("utf-8")
    functions = {it.function: it.path for it in lists if it.function}
    made, other, missing = shown(document, repository, functions, [lists[0].function])
    told += missing
    if words:
        was = Path(top, PAGE).read_text("utf-8") if Path(top, PAGE).is_file() else ""
        told += other
        if now and was != now:
            told += [f"{PAGE}: {it}" for it in was.splitlines() if it not in now.splitlines()] or [f"{PAGE} lacks lines"]
            told.append("run tools/believe.py")
    elif now:
        Path(top, PAGE).write_text(now, "utf-8")
        Path(top, DOCUMENT).write_text(made, "utf-8")
    print("\n".join(told) or f"{PAGE} has the definitions on which {len(lists)} lists of clauses rest")
    return 1 if told else 0


if __name__ == "__main__":
    sys.exit(main(sys.argv[1:]))
