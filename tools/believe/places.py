"""Where a definition of `specs/` has to stand, and which name may be given twice."""
import re
from pathlib import Path

GLOSSARY, ENTRY = "docs/glossary.md", "Homonyms"
APART = ("Inner", "Rows")  # what no promise needs: what code and proofs share, and worked rows with what they are made of


def is_apart(path):
    """Whether a file of definitions is one of those that no promise needs."""
    return path.split("/")[3].removesuffix(".antt") in APART


def misplaced(files, seen):
    """Tells the definitions of the lists that stand apart, and those that are in no list and don't."""
    for one in (it for file in files for it in file.definitions):
        if (one.key in seen) == is_apart(one.path):
            why = "is in a list, and stands below Inner or Rows" if one.key in seen else "is in no list, and stands neither below Inner nor below Rows"
            yield f"{one.path}:{one.line}: `{one.name}` {why}"


def given_twice(files):
    """The names that modules give to different things, with the definitions; those of one text are one thing. A constructor is a name, too."""
    by_name = {}
    for file in files:
        for name, one in file.local.items() if not is_apart(file.path) else ():
            text = " ".join(" ".join(line for _, line in one.text).split())  # (what a definition says, without its comments)
            by_name.setdefault(name, {}).setdefault(text, one)
    return {name: list(ones.values()) for name, ones in sorted(by_name.items()) if len({one.path for one in ones.values()}) > 1}


def allowed(top):
    """The names that the glossary says stand for several things."""
    place = Path(top, GLOSSARY)
    entry = re.search(rf"^\*\*{ENTRY}\.\*\*.*?(?=^\*\*|\Z)", place.read_text("utf-8") if place.is_file() else "", re.MULTILINE | re.DOTALL)
    return set(re.findall(r"`([^`\s]+)`", entry.group())) if entry else set()


def confused(top, files):
    """Tells the names of several things that the glossary has not, and those it has that stand for one."""
    twice, known = given_twice(files), allowed(top)
    for name in (it for it in twice if it not in known):
        yield f"`{name}` stands for several things, and not in {GLOSSARY}, {ENTRY}: " + ", ".join(f"{it.path}:{it.line}" for it in twice[name])
    yield from (f"{GLOSSARY}: `{it}` of {ENTRY} doesn't stand for several things" for it in sorted(known - set(twice)))
