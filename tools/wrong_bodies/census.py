"""Counts what the wrong bodies of a repository have to name: each public function and law, and of some functions each clause."""
import re
from pathlib import Path

MOST, MOST_OF_ONE = 600, 3
EACH_CLAUSE = {"ds_trace": ["trace_files"], "ds_bare": ["run_bare"], "ds_drive": ["drive"], "ds_grants": ["Grants::*"], "ds_tlb": ["Lookaside::*"]}  # The functions of which each clause is named by an edit; Type::* are all that are public of a type or a trait.
EACH_CLAUSE["ds_station"] = ["run_files", "run_policy", "Station::new", "Station::step", "Station::run"]
LINE = re.compile(r"implied: (?P<function>\S+) (?P<clause>\S+) by (?P<by>\S.*)|none: (?P<none>\S+) \S.*|(?:#.*)?")


def census(repository):
    """Returns a line for each thing that has no edit, or too many."""
    total = sum(len(it.edits) for it in repository.crates.values())
    lacks = [line for it in repository.crates.values() if not it.is_program and not it.name.endswith("_tests") for line in lacks_of(repository, it)]
    return [f"there are {total} edits, more than {MOST}", *lacks] if total > MOST else lacks


def lacks_of(repository, crate):
    """Returns what the edits of a crate lack."""
    implied = set()
    public = {it.function: it for it in crate.by_name.values() if it.is_public}
    key = lambda body: body.method if body.method in repository.methods else body.function
    keys = lambda name: {key(body) for body in crate.named(name)}
    tried = {key(public[it]) for edit in crate.edits for it in edit.functions if it in public}
    tried |= {it for edit in crate.edits for law in edit.laws for it in keys(law)}
    for other, name in ((other, it[0].rpartition("/")) for other in repository.crates.values() for edit in other.edits for it in edit.stands):
        tried |= keys(name[2]) if (name[0] or other.name) == crate.name else set()
    file = Path(crate.folder, "wrong/implied")
    for text in file.read_text("utf-8").split("\n") if file.is_file() else []:
        it = LINE.fullmatch(text)
        bodies = crate.named(it["function"] or it["none"] or "") if it else []
        names = [it["clause"], *it["by"].split()] if it and it["clause"] else []
        if not it or (it["function"] or it["none"]) and not bodies or not all(name in crate.clauses_of(bodies[0]) for name in names):
            yield f"{crate.name}/wrong/implied: there is nothing of this line: {text}"
        elif names:
            implied |= {(key(body), names[0]) for body in bodies}
        else:
            tried |= {key(body) for body in bodies}
    for body in public.values():
        if (not body.method or body.method in repository.methods) and key(body) not in tried:
            yield f"{crate.name}: no edit of {'the law ' if body.is_law else ''}{body.function}"
    named = implied | {pair for edit in crate.edits for _, pairs in edit.clauses for pair in pairs}
    fits = lambda name: any(f"::{name}".endswith(f"::{it}") or it.endswith("*") and f"::{it[:-1]}" in f"::{name}" for it in EACH_CLAUSE.get(crate.name, ()))
    each = {key(it): it for it in public.values() if fits(it.function) or fits(it.method)}
    for body in each.values():
        yield from (f"{crate.name}: no edit names {key(body)} {it}" for it in crate.clauses_of(body)[:-1] if (key(body), it) not in named)
    for body in public.values():
        count = sum(edit.function == body.function for edit in crate.edits)
        most = MOST_OF_ONE + (len(crate.clauses_of(body)[:-1]) if key(body) in each else 0)
        if count > most:
            yield f"{crate.name}: {count} edits of {body.function}, more than {most}"
