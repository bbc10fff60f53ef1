#!/usr/bin/env python3
"""Checks the documents (--check): it tells each fault, and ends with status 1 where there is one.

README.md has at most 120 lines, docs/theorems.md 450 and docs/DECISIONS.md 500, each of at most 120 columns. Each document
in docs/ is named in README.md, or in a document that README.md names. What a link leads to is there, and so is each file or
folder of the repository that stands in backticks: one that begins at the top of the repository, or in a folder of a crate,
such as `src/lib.rt`. Words in capitals stand for any name, as in `crates/NAME/wrong/`. What speaks of the past may name what
is gone: CHANGELOG.md and docs/log.md.
"""
import re
import sys
from pathlib import Path

TOP = Path(__file__).resolve().parent.parent
LINES = {"README.md": 120, "docs/theorems.md": 450, "docs/DECISIONS.md": 500}  # at most, of these documents
COLUMNS = 120  # of their lines, at most
PAST = {"CHANGELOG.md", "docs/log.md"}
CODE = re.compile(r"`([^`\n]+)`")
LINK = re.compile(r"\]\(([^)#\s]+)")
PATH = re.compile(r"[\w.-]+(/[\w.-]+)*/?$")
IN_A_CRATE = ("src", "specs", "proofs", "wrong", "must-fail")
ANY_NAME = re.compile(r"(?<![A-Za-z])[A-Z]{2,}(?![A-Za-z])")
CAPITALS = {"README.md", "CONTRIBUTING.md", "CHANGELOG.md", "HANDLES", "DECISIONS.md"}


def documents(top):
    """The documents of the repository by their paths, each with its text."""
    places = ("*.md", "docs/*.md", "crates/*/README.md", "crates/*/data/README.md", "crates/*/data/*/README.md")
    return {str(it.relative_to(top)): it.read_text("utf-8") for it in sorted(it for place in places for it in top.glob(place))}


def names(text):
    """What stands in backticks, as paths: without the words of a command after a path."""
    return {it for it in CODE.findall(text) if PATH.match(it)}


def is_there(top, path):
    """Whether a path leads to a file or a folder, perhaps without the ending of its language; one in a crate's folder, in any crate."""
    path = path.rstrip("/")
    start = "crates/*/" if path.split("/")[0] in IN_A_CRATE else ""
    return any(next(top.glob(f"{start}{path}{ending}"), None) for ending in ("", ".rt", ".antt"))


def missing(top, path, text):
    """The paths that a document names, and its links, that lead nowhere. A path with a word in capitals stands for any name."""
    tops = {it.name for it in top.iterdir() if it.is_dir()} | set(IN_A_CRATE)
    named = {it for it in names(text) if it.split("/")[0] in tops and "/" in it or it in CAPITALS}
    is_any = lambda it: any(part not in CAPITALS and ANY_NAME.search(part) for part in it.split("/"))  # noqa: E731
    told = [it for it in sorted(named) if not is_any(it) and not is_there(top, it)]
    return told + [it for it in LINK.findall(text) if "://" not in it and not ((top / path).parent / it).exists()]


def faults(top):
    """All that is wrong with the documents below a folder."""
    texts = documents(top)
    told = [] if "README.md" in texts else ["README.md: missing"]
    for path, most in LINES.items():
        held = texts.get(path, "").splitlines()
        told += [f"{path}: {len(held)} lines, at most {most}"] if len(held) > most else []
        told += [f"{path}:{at}: {len(it)} columns, at most {COLUMNS}" for at, it in enumerate(held, 1) if len(it) > COLUMNS]
    near = names(texts.get("README.md", ""))
    far = near.union(*(names(texts[it]) for it in near if it in texts))
    told += [f"{it}: named neither by README.md nor by a document that it names" for it in texts if it.startswith("docs/") and it not in far]
    return told + [f"{path}: `{it}` is not there" for path in texts if path not in PAST for it in missing(top, path, texts[path])]


def main():
    told = faults(TOP)
    print("".join(f"documents: {it}\n" for it in told) + f"documents: {len(documents(TOP))} documents, {len(told)} faults")
    return 1 if told else 0


if __name__ == "__main__":
    sys.exit(main())
