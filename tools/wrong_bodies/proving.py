"""Checks a copy of a crate with edits in it, and gives each edit its verdict."""
import os
import re
import shutil
import subprocess
from pathlib import Path
from typing import NamedTuple

from .crates import Edit

KIT = Path(shutil.which("rt") or "rt").resolve().parent.parent
NOT_SEARCHED, IN_PROOF = re.compile(r"`search` did not prove ([^;]*)"), re.compile(r"(?:\./)?proofs/(\S+)/(Answers|Proof|Invariants)\.antt:\d+:\d+: error: (?:`([^`]*)`: )?(.*)")  # what no search proved and no answer is written for; an error at an answer, which names its goal first.
NOT_OWN = re.compile(r"is not in scope|has no |is no name|not admitted|not proved")  # What another function's failure, or a name that the edit took away, makes an error of a proof file.
IN_SOURCE, UNREADABLE = re.compile(r"(?:\./)?(?:src|specs)/\S+?:\d+:\d+: error(?:\[[\w-]+\])?: (?:(`[^`]*`): )?(.*)"), re.compile(r"is not in scope|has no field|is no name|operand is missing|expected the end|cannot continue")  # (of a text of src/ or specs/, and not that a statement is false)
ROW = re.compile(r"(?m)^pub (\S+) : .*\n(?:(?:\1 |unfolding |[] \t)}]).*\n|\n)*")
LOOP_GOAL, CLAUSE_GOAL = re.compile(r"-(?:init|preserved|smaller)(?:-|\Z)"), re.compile(r"-clause-(\w+)")  # Goals of a loop's invariant, which stands in proofs/; the clause that a goal is of.
REFUSED, NOT_PROVED = re.compile(r"(?:\./)?(?:specs|proofs)/(\S+)\.antt:\d+:\d+: error: `([^`]*)`: (.*)"), re.compile(r"fn \w+::(\S+): (?:not proved|no proof)")
ROWS = "ghost use Rattle.std.specs.Prelude.{◌≡◌};\nfn read() -> u8 ensures { result ≡ 0 } { 0 }\n"  # a function that has rows read
REFUSED_ANSWER, OPEN_GOAL = "\npub unasked : missing\nunasked = missing\n", re.compile(r"note: (?:\./)?(src/\S+?):(\d+):\d+: (?:it is not proved|`\w+` found no proof) .*?\(`([^`]*)`\)(?:;|\Z)")  # In the answers of a function: nothing is offered for its open goals then, for which each would be searched once more. Where each goal that was not proved stands.
unquoted = lambda words: re.sub(r"`[^`]*`", "", words)  # noqa: E731


class Said(NamedTuple):
    """What a check said: its status, its lines, and by function the goals that were not proved."""

    status: int
    lines: list
    goals: dict

    def could_read(self):
        """Returns whether the prover read every text, and came to an end."""
        is_lost = any(it and (not it[1] or UNREADABLE.search(unquoted(it[2]))) for it in map(IN_SOURCE.match, self.lines))
        return self.status in (0, 1) and not is_lost and self.lines[-1].startswith(("only=", "logic="))

    def is_proved(self):
        """Returns whether nothing was refused but what a copy has in place of proofs."""
        return self.status == 0 or not self.goals and all(NOT_OWN.search(unquoted(it)) for it in self.lines if ": error" in it)

    def complaint(self):
        return next((it for it in self.lines if ": error" in it or it.startswith("error")), self.lines[-1])


def goals_in(lines, crate, text_of):
    """Returns by function the names of the goals that were not proved, the crate's name taken from the functions'. A closure's are its function's."""
    start, found, texts = f"fn {crate.name}::", {}, {}
    said = dict(it[len(start) :].split(": ", 1) for it in lines if it.startswith(start) and ": " in it)
    goals = [(name, goal.strip("` ")) for name, words in said.items() for it in NOT_SEARCHED.findall(words) for goal in it.split(", ")]
    named = [(it[1].replace("/", "::"), it) for it in map(IN_PROOF.match, lines) if it]
    goals += [(name, it[3] or "") for name, it in named if "not proved" in said.get(name, "") and not NOT_OWN.search(unquoted(it[4]))]
    for path, line, goal in (it.groups() for it in map(OPEN_GOAL.match, lines) if it):
        texts[path] = texts.get(path) or text_of(path)
        goals.append((crate.function_at(path, texts[path], int(line)), goal))
    for name, goal in dict.fromkeys(goals):
        found.setdefault(re.sub(r"\bfn::(\w+)::.*", r"\1", name), []).append(goal)
    return found


def left_out(body, edit):
    """Returns where the clauses of a function stand that an edit of it does not name, if it names some, with what takes their place."""
    named = {"ensures", *edit.named(body.function)}
    spans = sorted((span for clause, span in body.spans.items() if clause not in named and len(named) > 1), key=lambda it: it[0] - it[1])
    return [(start, end, "ensures other { Unit {0} }" if at == 0 and len(body.spans) == len(spans) + 1 else "") for at, (start, end) in enumerate(spans)]  # (goals have clauses in their names where there are two, so one stays and says nothing)


class Prover:
    """Checks a copy of one crate in a room, over what the checks of this prover keep."""

    def __init__(self, crate, room):
        self.crate, self.room, self.seconds = crate, room, 0.0
        folder = lambda it: f"{crate.repository.root}/crates/{it}/out/rlib" if it in crate.repository.crates else f"{KIT}/rlibs"
        self.root = "src/main.rt" if crate.is_program else "src/lib.rt"
        self.words = ["--crate-name", crate.name, self.root, "--incremental", f"{room}/incremental", "--jobs", "1"]
        self.words += [word for it in ("std", *crate.uses) for word in ("--extern", f"{it}={folder(it)}/{it}.rlib")]
        self.words += [word for it in ("std", *(it.name for it in crate.repository.below(crate))) for word in ("-L", f"dependency={folder(it)}")]
        self.words += ["--antt-project", f"{KIT}/rattle/logic/antt-project.json", "--logic-built", f"{KIT}/logic_built"]

    def check(self, edits, functions):
        """Checks a copy of the crate with these edits: these functions alone, or all where there is none. In the copy others have an empty loop for a body, and a proof that is
        refused at once. A function of the copy's own has the rows read that turned definitions name."""
        files, placed, is_asked = {}, [it for it in edits if not it.copy], functions not in ([], [""])
        broken, pieces = {name for it in placed for name in it.functions if name in it.asked or not it.asked}, [(*piece, it.file) for it in placed for piece in it.pieces]
        text_of = lambda path: files.get(path, self.crate.texts[path])
        for body in (self.crate.by_name[name] for name in broken):
            files.update(self.proofs(body, is_asked and not body.method) if body.is_plain else ())
        for it in (it for it in edits if it.copy):
            body, name, text, more = self.crate.by_name[it.function], it.function.rpartition("::")[2], self.crate.texts[it.file], 0
            for start, end, new in sorted([*left_out(body, it), *it.pieces], reverse=True):
                text, more = text[:start] + new + text[end:], more + len(new) - (end - start)
            pieces.append((body.end, body.end, "\n" + re.sub(rf"\bfn {name}\b", f"fn {name}{it.copy}", text[body.top : body.end + more], count=1), it.file))
            files.update(self.proofs(body, is_asked, it.copy))
        for body in self.crate.by_name.values() if functions and all(it.asked for it in edits) else ():
            if body.is_plain and body.function not in broken:
                name = body.function.rpartition("::")[2]
                files.update({f"{body.proofs}/{it}.antt": "" for it in ("Answers", "Invariants")})
                files[f"{body.proofs}/Proof.antt"] = f"pub {name}_spec : missing\n{name}_spec = missing\n"
                is_edited = any(it.file == body.path and body.start < start < body.end for it in placed for start, *_ in it.pieces)
                if body.end - body.start > 10 and not is_edited and not any(other.start < body.start < other.end for other in self.crate.bodies[body.path]):
                    files[body.path] = text_of(body.path)[: body.start + 1] + " loop {} ".ljust(body.end - body.start - 2) + text_of(body.path)[body.end - 1 :]
        rows, modules = {row for it in edits for row in it.rows}, sorted({it for edit in edits for it in edit.modules})
        for path in [it for it in self.crate.logic if f"Rattle.{self.crate.name}.{it[:-5].replace('/', '.')}" in modules]:
            is_left = lambda it: it[1] in rows or sum(text.count(it[1]) for text in self.crate.logic.values()) > it[0].count(it[1])  # (of a module of rows those that are not named stay only where others speak of them)
            files[path] = ROW.sub(lambda it: it[0] if is_left(it) else re.sub(r"[^\n]", " ", it[0]), self.crate.logic[path])
        if modules:
            files.update({self.root: text_of(self.root) + "mod rows_of_edits;\n", "src/rows_of_edits.rt": ROWS})
            files["proofs/rows_of_edits/read/Answers.antt"] = "".join(f"use {it} as rows{at}\n" for at, it in enumerate(modules)) + REFUSED_ANSWER
        return self.ran(pieces, files, "check", *self.words, *(word for it in sorted(set(functions)) for word in ("--only", it)))

    def proofs(self, body, is_asked, copy=""):
        """Returns the files of a function's proof, or of that of a copy of it, with an answer that is refused where the function is asked for."""
        name, own = body.function.replace("::", "."), self.crate.logic
        files = {it: own.get(f"{body.proofs}/{it}.antt", "").replace(f"{name}.", f"{name}{copy}.") for it in ("Answers", "Invariants", "Proof")}
        files["Answers"] += REFUSED_ANSWER if is_asked and not files["Proof"] else ""
        return {f"{body.proofs}{copy}/{it}.antt": text for it, text in files.items() if text}

    def ran(self, pieces, files, *words):
        """Runs rattle in a copy of the crate with files of its own, of which those without text are left out, and with these pieces of texts, the last of a text first."""
        for part in ("src", "specs", "proofs"):
            shutil.rmtree(Path(self.room, part), ignore_errors=True)
            shutil.copytree(Path(self.crate.folder, part), Path(self.room, part)) if Path(self.crate.folder, part).is_dir() else None
        for it, text in files.items():
            Path(self.room, it).parent.mkdir(parents=True, exist_ok=True)
            Path(self.room, it).write_text(text, "utf-8") if text else Path(self.room, it).unlink(missing_ok=True)
        for start, end, new, file in sorted(pieces, reverse=True):
            text = Path(self.room, file).read_text("utf-8")
            Path(self.room, file).write_text(text[:start] + new + text[end:], "utf-8")
        with subprocess.Popen([f"{KIT}/bin/rattle", *words], cwd=self.room, stdin=subprocess.DEVNULL, stdout=subprocess.PIPE, stderr=subprocess.STDOUT) as ran:
            lines = re.sub(r"\n +(?=\S)", " ", ran.stdout.read().decode("utf-8", "replace").rstrip("\n")).split("\n")  # (a long line is broken, and goes on behind blanks)
            _, status, used = os.wait4(ran.pid, 0)
            ran.returncode = os.waitstatus_to_exitcode(status)
        self.seconds += used.ru_utime + used.ru_stime
        return Said(ran.returncode, lines, goals_in(lines, self.crate, lambda path: Path(self.room, path).read_text("utf-8")))


def lacking_below(repository, crates):
    """Returns the libraries below crates that rt cannot build, of those that are older than their texts, by the time at which they were put there."""
    for it in repository.below(*crates):
        made = Path(it.folder, "out/rlib", f"{it.name}.rlib", "format")
        texts = [path for part in ("src", "specs", "proofs") for path in Path(it.folder, part).rglob("*.*") if path.is_file()]
        if not made.is_file() or any(path.stat().st_mtime > made.stat().st_ctime for path in texts):
            ran = subprocess.run(["rt", "lib"], cwd=it.folder, stdin=subprocess.DEVNULL, stdout=subprocess.PIPE, stderr=subprocess.STDOUT, errors="replace")
            if ran.returncode:
                yield f"library {it.name}: {ran.stdout.strip()}"


def clause_of(crate, function, goal):
    """Returns the clause that a goal is of, or nothing where it is of a proof's script, or of a condition that the code owes somewhere."""
    if not goal.startswith(("returns", "invariant_of-")) or LOOP_GOAL.search(goal):
        return ""
    clauses = crate.clauses_of(crate.by_name[function])[:-1] if function in crate.by_name else ()
    named = CLAUSE_GOAL.search(goal)
    return "invariant" if goal.startswith("invariant_of-") else named[1] if named else "ensures" if "ensures" in clauses else " or ".join(clauses)


def batches_of(edits, clash):
    """Returns the edits in as few batches as the first fit gives, each with no two that clash."""
    batches = []
    for it in edits:
        fit = next((batch for batch in batches if not any(clash(it, other) for other in batch)), None)
        batches.append([it]) if fit is None else fit.append(it)
    return batches


def try_edits(prover, edits):
    """Tries edits of a crate in batches. The front end reads a batch before anything is proved, and one that it can't read is halved. A batch refuses an edit of code by goals of its own
    function, or arm, where no function without an edit has one, and is halved else; and a turned definition by its rows. One that no batch refuses is tried alone, and so is one without a
    row, by its laws, and one that a check can be asked nothing of, by the whole crate."""
    together = [it for it in edits if (it.rows if it.is_turned else it.asked)]
    left = [*([it] for it in edits if it not in together), *batches_of(together, Edit.clashes)]
    while left:
        batch = left.pop()
        edit, functions = batch[0], [f"{name}{it.copy}" for it in batch for name in it.asked]
        said = prover.check(batch, functions)
        if len(batch) > 1 and not (said.could_read() and (edit.is_turned or set(said.goals) <= set(functions))):
            left += [batch[: len(batch) // 2], batch[len(batch) // 2 :]]
        elif not said.could_read():
            edit.verdict, why = ("BAD EDIT", "cannot read it") if said.status == 1 else ("NOT TRIED", "could not tell")
            edit.why = f"the prover {why}: {said.complaint()}"
        elif len(batch) == 1 and said.is_proved():
            edit.verdict, edit.why = "NOT REFUSED", f"the {f'clause {edit.clauses[0][0]} that it names' if edit.clauses else 'crate'} is still proved with this edit"
        else:
            for it in batch:
                judge_turned(it, said) if it.is_turned else judge(it, [*goals_of(it if len(batch) > 1 else None, said, batch)])
            left += [[it] for it in batch if len(batch) > 1 and it.verdict != "refused"]


def goals_of(edit, said, batch):
    """Returns the goals that were not proved, or those of an edit's functions, beside edits of other arms those of its arm; of these none, where a goal is of no edit's arm."""
    for function in edit.functions if edit else said.goals:
        goals = said.goals.get(f"{function}{edit.copy}" if edit else function, [])
        beside = [it for it in batch if edit and not edit.copy and it is not edit and not it.copy and function in it.functions]
        is_told = all(any(it.owns(goal, function) for it in (edit, *beside)) for goal in goals) if beside else True
        name = function if edit or not batch else function.removesuffix(batch[0].copy or "::")
        yield from ((name, it) for it in goals if not beside or edit.owns(it, function) and (is_told or not any(edit.functions.values())))


def clauses_among(crate, goals):
    """Returns the functions and clauses that goals are of, and those among them that are public."""
    found = list(dict.fromkeys((function, clause) for function, goal in goals if (clause := clause_of(crate, function, goal))))
    return found, [it for it in found if it[0] in crate.by_name and crate.by_name[it[0]].is_public]


def judge(edit, goals):
    """Gives an edit of code its verdict: refused are those by a public clause, all that it names among them, or those that stand for one."""
    found, public = clauses_among(edit.crate, goals)
    owed = [" ".join(it) for it in found] or [" ".join(it) for it in goals if it[1] and not LOOP_GOAL.search(it[1])]
    other = [clause for clause, pairs in edit.clauses if not pairs & set(found)]
    why = f"not by the clause {other[0]} that it names; refused by {', '.join(owed) or 'a step of its proof alone'}" if other else ", ".join(map(" ".join, public))
    why = why or (f"{owed[0]}, which stands for {' '.join(edit.stands[0])}" if edit.stands and owed else "")
    why = why or (f"by no public clause, but by {owed[0]}, and it names none that this stands for" if owed else "by a step of its proof alone")
    edit.verdict, edit.why = "NOT REFUSED" if other or not public and not (edit.stands and owed) else "refused", why


def judge_turned(edit, said):
    """Gives a turned definition its verdict: each row that it names has to be refused, or else each law, or some row, law or public clause."""
    crate, errors = edit.crate, {it[2]: it[1] for it in map(REFUSED.match, said.lines) if it and not NOT_OWN.search(unquoted(it[3]))}
    rows = [name for name, file in errors.items() if any(it.endswith("Rows") for it in file.split("/"))]
    laws = [it[1] for it in map(NOT_PROVED.match, said.lines) if it and it[1] in crate.by_name and crate.by_name[it[1]].is_law]
    clauses = [" ".join(it) for it in clauses_among(crate, goals_of(None, said, []))[1] if it[0] not in laws]
    held = [f"the law {it}" for it in edit.laws if not edit.rows and not {body.function for body in crate.named(it)} & {*laws}]
    left = [*(f"the row {it}" for it in edit.rows if it not in rows), *held][:1]
    told = [*(f"the row {it}" for it in edit.rows or rows[:1]), *(f"the law {it}" for it in laws[:3]), *clauses[:1]]
    why = f"{left[0]} still holds; refused is {', '.join([*rows, *laws, *errors][:3])}" if left else ", ".join(told) or f"by no row, law or public clause, but by {said.complaint()}"
    edit.verdict, edit.why = "NOT REFUSED" if left or not told else "refused", why
