"""The page of what has to be believed."""
import re
import tomllib
from collections import Counter, namedtuple
from itertools import groupby
from pathlib import Path

from case_files import table

from .contracts import Contract
from .places import confused, misplaced
from .texts import Unresolved, about
from .words import Names

PAGE = "docs/believe.md"
KIT_FIELDS = {"now", "old", "new", "items", "top", "contents", "remaining"}  # of the kit's types
# What a list is made for (tools/believe/lists.toml).
Asked = namedtuple("Asked", "about compared path function clauses laws", defaults=("", "", (), ()))
GIVEN = tomllib.loads(Path(__file__).with_name("lists.toml").read_text("utf-8"))
HEAD, LISTS = GIVEN["head"], [Asked(**it) for it in GIVEN["list"]]


def title(asked):
    return f"`{asked.function}`" if asked.function else "The laws of " + ", ".join(f"`{it}`" for it in asked.laws)


def all_specs(repository):
    """The files of definitions, by their paths."""
    return [repository.read(str(it.relative_to(repository.top))) for it in sorted(repository.top.glob("crates/*/specs/**/*.antt"))]


def is_row(one):
    return one.text[-1][1].split() == [one.name, "=", "refl"]


def by_language(ones):
    """Those of `specs/`, and those of Rust."""
    return ([it for it in ones if it.path.endswith(ending)] for ending in (".antt", ".rt"))


def sums(ones):
    """How many definitions, and their lines without comments and with."""
    return len(ones), sum(it.code for it in ones), sum(it.comments for it in ones)


def contract_of(repository, path, function):
    """The contract of a function of a file. Raises `Unresolved`."""
    file = repository.read(path)
    if file is None:
        raise Unresolved(f"{path}: is not there")
    return Contract(file, function)


def named_by(repository, path, function, clauses):
    """What clauses of a function name, or all of them, with the file."""
    contract = contract_of(repository, path, function)
    other = [it for it in clauses if it not in contract.promised()]
    if other:
        raise Unresolved(f"{path}: `{function}` has no clause `{other[0]}`")
    return path, repository.of_contract(contract, set(clauses) if clauses else None, Names(repository, contract.file))


def laws_of(repository, crate):
    """The laws of a crate, each with its file: its public functions that take nothing and do nothing."""
    for place in sorted(repository.top.glob(f"crates/{crate}/src/**/*.rt")):
        path = str(place.relative_to(repository.top))
        for it in re.findall(r"^pub fn (\w+)\(\)\n(?: .*\n)*\{\}$", place.read_text("utf-8"), flags=re.MULTILINE):
            yield path, it


def asked_of(repository, asked):
    """What a list is made of: what its clauses name, with their files, and the words that tell which they are."""
    if asked.function:
        told = asked.clauses or contract_of(repository, asked.path, asked.function).promised()
        return [named_by(repository, asked.path, asked.function, asked.clauses)], ", ".join(f"`{it}`" for it in told)
    laws = [it for crate in asked.laws for it in laws_of(repository, crate)]
    return [named_by(repository, *it, []) for it in laws], f"{len(laws)} laws" if len(laws) > 1 else "one law"


class Lists:
    """The lists, each with what it has besides those before it."""

    def __init__(self, repository, given):
        self.repository, self.given, self.faults, self.parts, self.kit = repository, given, [], [], set()
        seen, fields = {}, KIT_FIELDS
        for it in given:
            try:
                named, told = asked_of(repository, it)
                reached = repository.rests_on(one for _, names in named for one in names.found.values())
            except Unresolved as fault:
                self.faults.append(str(fault))
                continue
            fields = fields | {name for it in reached.values() for name in (it.name, *it.members)}
            for path, its in [*named, *((one.path, repository.follow(one)) for one in reached.values())]:
                self.faults += [f"{path}:{number}: no type has the field `{it}`" for it, number in its.fields.items() if it not in fields]
                self.kit |= its.kit
            self.parts.append((told, [one for one in reached.values() if one.key not in seen]))
            seen.update(reached)
        self.seen = seen
        for path, function in dict.fromkeys((it.path, it.function) for it in given if it.clauses and repository.read(it.path)):
            listed = {clause for it in given if (it.path, it.function) == (path, function) for clause in it.clauses}
            left = [it for it in contract_of(repository, path, function).promised() if it not in listed]
            self.faults += [f"{path}: clause `{it}` of `{function}` is in no list of tools/believe/lists.toml" for it in left]


def files_of(repository, ones):
    """The definitions by their files, in the order of a reader: a file after those that name something of it."""
    by_file = {}
    for it in sorted(ones, key=lambda it: it.line):
        by_file.setdefault(it.path, []).append(it)
    named = {path: [other.path for it in its for other in repository.follow(it).found.values() if other.path in by_file and other.path != path] for path, its in by_file.items()}
    users = set().union(*named.values())
    done, order = set(), []

    def visit(path):
        if path not in done:
            done.add(path)
            for it in reversed(named[path]):
                visit(it)
            order.append(path)

    for path in [*reversed([it for it in by_file if it not in users]), *by_file]:
        visit(path)
    return {path: by_file[path] for path in reversed(order)}


def part(repository, at, lists, rows):
    """The part of the page on one list."""
    asked, (told, ones) = lists.given[at], lists.parts[at]
    specs, types = by_language(ones)
    some = [it for it in specs if rows[it.key]]
    files = files_of(repository, ones)
    (count, code, comments), (count_types, code_types, comments_types) = sums(specs), sums(types)
    besides = " besides those above" if at else ""
    lines = [
        f"## {at + 1}. {title(asked)}: {told}", "", asked.about, "",
        f"{count} definitions{besides}, in {len({it.path for it in specs})} files of `specs/`: {code} lines, and {comments} of comments. {count_types} types and constants of Rust: {code_types} lines, and {comments_types} of comments. "
        f"On {len(some)} of the definitions rests a worked row.", "",
    ]
    if asked.compared:
        lines += ["Compared with:", "", *(f"- {it};" for it in asked.compared[:-1]), f"- {asked.compared[-1]}.", ""]
    cells = [[f"`{path}`", about(repository.read(path)), sum(it.code for it in its), len(set().union(*(rows[it.key] for it in its))) or "",
              ", ".join(f"`{it.name}` {it.line} ({len(it.own)})" for it in its)] for path, its in files.items()]
    return lines + table(["File", "About", "Lines", "Rows", "Definitions"], cells)


def summary(lists):
    """The table of the lists, and what they come to."""
    cells, so_far = [], []
    for at, (told, ones) in enumerate(lists.parts):
        so_far += ones
        (specs, types), (all_so_far, _) = by_language(ones), by_language(so_far)
        cells.append([f"{at + 1}. {title(lists.given[at])}", told, *sums(specs), sums(types)[1], sums(all_so_far)[1]])
    return table(["List", "Clauses", "Definitions", "Lines", "Comments", "Lines of types", "Lines so far, without types"], cells)


def kit_words(lists):
    """What the lists name of the kit."""
    by_module = {module: [name for _, name in its] for module, its in groupby(sorted(lists.kit), lambda it: it[0])}
    return ["## Of the kit", "", f"The lists name these {len(lists.kit)} of the kit's own words, which its guides explain:", "",
            *table(["Module", "Names"], [[f"`{module}`", ", ".join(f"`{it}`" if it != "|" else it for it in names)] for module, names in by_module.items()])]


def left(repository, lists):
    """What of `specs/` is in no list, by crates."""
    counts, rows, lines = Counter(), Counter(), Counter()
    for it in (it for file in all_specs(repository) for it in file.definitions if it.key not in lists.seen):
        crate = it.path.split("/")[1]
        (rows if is_row(it) else counts)[crate] += 1
        lines[crate] += it.code
    cells = [[f"`{it}`", counts[it], rows[it], lines[it]] for it in sorted(lines)]
    return ["## In no list", "", "Definitions of `specs/` on which no clause above rests: below `Inner` those of private contracts, of laws and of other calls, and below `Rows` worked rows with what they are made of.", "",
            *table(["Crate", "Definitions", "Worked rows", "Lines"], [*cells, ["all", counts.total(), rows.total(), lines.total()]])]


def page(repository, given):
    """The page of some lists, and what is wrong."""
    lists = Lists(repository, given)
    rows = {key: set() for key in lists.seen}
    files = all_specs(repository)
    lists.faults += [*misplaced(files, lists.seen), *confused(repository.top, files)] if not lists.faults else []
    for one in (it for file in files for it in file.definitions if is_row(it)):
        try:
            for key in repository.rests_on([one]).keys() & rows.keys():
                rows[key].add(one.key)
        except Unresolved as fault:
            lists.faults.append(str(fault))
    if lists.faults:
        return "", list(dict.fromkeys(lists.faults))
    parts = [HEAD, "\n".join(summary(lists)), *("\n".join(part(repository, at, lists, rows)) for at in range(len(given))),
             "\n".join(kit_words(lists)), "\n".join(left(repository, lists))]
    return "\n\n".join(parts) + "\n", []
