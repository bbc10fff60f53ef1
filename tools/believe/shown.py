"""Clauses that a document shows as code: lines that begin with a function's name and `ensures` are what the source has, word for word."""
import re

from .contracts import Contract

DOCUMENT = "docs/theorems.md"
CLAUSE = re.compile(r"^ {4}\S.*\n(?:^ {5,}.*\n)*", re.MULTILINE)  # a line of code, and those below it that stand further to the right
FIRST = re.compile(r" {4}(\w+) ensures (\w+) \{")


def shown(text, repository, functions, whole):
    """A document's text with each clause as the source has it, and what is wrong.

    `functions` has the file of each function that may be shown; of those that are `whole`, each clause has to be."""
    contracts = {name: Contract(repository.read(path), name) for name, path in functions.items()}
    faults, found = [], set()

    def anew(code):
        got = FIRST.match(code.group())
        if not got:
            return code.group()
        name, clause = got.groups()
        place = f"{DOCUMENT}:{text.count(chr(10), 0, code.start()) + 1}"
        if name not in contracts or ("ensures", clause) not in contracts[name].clauses:
            faults.append(f"{place}: no `{name}` of the lists has a clause `{clause}`")
            return code.group()
        found.add((name, clause))
        lines = contracts[name].said(clause)
        now = "\n".join([f"    {name} {lines[0].strip()}", *lines[1:]]) + "\n"
        if now.split() != code.group().split():
            faults.append(f"{place}: clause `{clause}` of `{name}` is not as {functions[name]} has it")
        return now

    made = CLAUSE.sub(anew, text)
    missing = [(name, clause) for name in whole for clause in contracts[name].promised() if (name, clause) not in found]
    return made, faults, [f"{DOCUMENT}: clause `{clause}` of `{name}` is not shown" for name, clause in missing]
