"""The crates of a repository: their functions' bodies, with arms, clauses, and who may call them; and what their wrong bodies change and name."""
import os
import re
from difflib import SequenceMatcher
from pathlib import Path
from types import SimpleNamespace as Part

NO_CODE = re.compile(r"""//[^\n]*|/\*.*?\*/|r(#*)".*?"\1|"(?:[^"\\]|\\.)*"|'(?:[^'\\\n]|\\[^'\n]+|\\')'""", re.S)  # Comments, strings and characters, in which no bracket and no `fn` counts.
FUNCTION = re.compile(r"\b(?P<public>pub\s+)?(?:(?:pub\s*\([^()]*\)|const|unsafe|extern)\s+)*fn\s+(?P<name>\w+)")
BEFORE_CLAUSE, CLAUSE = re.compile(r"\b(?:(?:requires|ensures)\s*\*?(?:\s*\w+)?|ghost(?:\s+\w+\s*:)?)\s*\Z"), re.compile(r"\bensures\s*\*?\s*(\w*)\s*\{")
ARM = re.compile(r"\b([A-Z]\w*|\d+)\s*(?:\{[^{}]*\}|\([^()]*\))?\s*=>\s*")  # A constructor or a number, and what it binds, before the text of its arm.
IMPL, TRAIT = re.compile(r"(?m)^\s*(?:unsafe\s+)?impl\b(?P<of>[^{;]*)\{"), re.compile(r"(?m)^\s*(?:pub\s+)?trait\s+(\w+)[^{;]*\{")
TYPE, PUBLIC_USE = re.compile(r"\b(?:struct|enum|trait)\s+(\w+)"), re.compile(r"\bpub\s+use\s+([^;]*);")
PAIR, OTHER = re.compile(r"(?m)^old: (.+)\nnew:(?: (.*))?$"), re.compile(r"(?m)^(?!(?:file|old|new|row|law|clause|stands for|function):|$).*")
DECLARED, WORD = re.compile(r"(?m)^(?:(?:pub|abbrev|record|data|ruleset|mod) )*([^\s(){}]+) .*:(?: |$)"), re.compile(r"[^\s(){}.,;]+")  # A declaration of the logic begins a line, and its equations stand below it.
MODULE = re.compile(r"(?P<test>#\[cfg\(test\)\]\s*)?(?P<public>\bpub\s+)?\bmod\s+(?P<name>\w+)\s*;")
code_of = lambda text: NO_CODE.sub(lambda it: re.sub(r"[^\n]", " ", it[0]), text)  # noqa: E731  (as long)
modules_of = lambda file: [it for it in re.sub(r"(/mod)?\.rt\Z", "", file).split("/")[1:] if it not in ("lib", "main")]  # noqa: E731  (outermost first)


def closed(code):
    """Returns where each bracket that is opened is closed."""
    ends, opened = {}, []
    for it in re.finditer(r"[](){}[]", code):
        if it[0] in "{([":
            opened.append(it.start())
        elif opened:
            ends[opened.pop()] = it.start()
    return ends


def arms_in(code, ends, start, end):
    """Returns the arms of a body's matches."""
    for head in ARM.finditer(code, start, end):
        at = head.end()
        while at < end and code[at] not in ",})]":
            is_block, at = at == head.end() and code[at] == "{", ends.get(at, at) + 1
            if is_block:
                break
        yield Part(name=head[1], start=head.end(), end=at)


def declared_in(text):
    """Returns what a text of the logic declares, with the words that stand in it."""
    heads = [*DECLARED.finditer(text)]
    for it, end in zip(heads, [*(it.start() for it in heads[1:]), len(text)]):
        yield Part(name=it[1], start=it.start(), end=end, words={*WORD.findall(re.sub("--.*", "", text[it.start() : end]))})


class Crate:
    """A crate, with its texts by their paths, the bodies in each, what the methods of its traits ensure, and its wrong bodies."""

    def __init__(self, repository, name, uses):
        self.repository, self.name, self.uses, self.folder, self.edits = repository, name, uses, Path(repository.root, "crates", name), []
        read = lambda pattern: {it.relative_to(self.folder).as_posix(): it.read_text("utf-8") for it in sorted(self.folder.glob(pattern))}
        texts, specs, proofs = read("src/**/*.rt"), read("specs/**/*.antt"), read("proofs/**/*.antt")
        self.logic, self.is_program, self.methods = {**specs, **proofs}, "src/main.rt" in texts, {}
        self.size = sum(map(len, [*self.logic.values(), *texts.values()]))
        codes = {path: code_of(text) for path, text in texts.items()}
        modules = [("/".join([*modules_of(path), it["name"]]), it) for path, code in codes.items() for it in MODULE.finditer(code)]
        tests = tuple(f"src/{name}{end}" for name, it in modules if it["test"] for end in (".rt", "/"))
        codes = {path: code for path, code in codes.items() if not path.startswith(tests)}
        self.texts = {**{path: texts[path] for path in codes}, **specs}
        self.homes = {name: path for path, code in codes.items() for name in TYPE.findall(code)}
        self.handed_out = {name for code in codes.values() for use in PUBLIC_USE.findall(code) for name in re.findall(r"\w+", use)}
        self.open_modules = {name for name, it in modules if it["public"]}
        self.declared = {path: list(declared_in(text)) for path, text in self.logic.items()}
        self.bodies = {path: list(self.bodies_of(path, code)) for path, code in codes.items()}
        self.by_name = {it.function: it for bodies in self.bodies.values() for it in bodies}

    def named(self, words):
        """Returns the functions whose name, or end of it, this is; a method of a trait stands for itself in each type."""
        return [it for it in self.by_name.values() if f"::{it.function}".endswith(f"::{words}") or it.method and f"::{it.method}".endswith(f"::{words}")]

    def rests(self, row, turned):
        """Returns whether a row rests on one of these definitions, by the names that stand in it, and in what they name."""
        found = left = {row}
        while left:
            left = set().union(*(it.words for it in sum(self.declared.values(), []) if it.name in left)) - found
            found = found | left
        return bool(found & {*turned})

    def function_at(self, path, text, line):
        """Returns the function, of a text that may be an edited one, in whose body or head a line is."""
        bodies = [(text.count("\n", 0, it.start) + 1, text.count("\n", 0, it.end) + 1, it.function) for it in self.bodies_of(path, code_of(text))]
        around = [(last - first, name) for first, last, name in bodies if first <= line <= last]
        return min(around or [(first, name) for first, _, name in bodies if line < first], default=(0, ""))[1]

    def bodies_of(self, path, code):
        """Returns the bodies of a file's functions, and notes the methods of its traits."""
        ends, modules = closed(code), modules_of(path)
        blocks = list(self.blocks(path, code, ends))
        for head in FUNCTION.finditer(code):
            at = head.end()
            while at < len(code) and code[at] != ";" and (code[at] != "{" or BEFORE_CLAUSE.search(code[head.end() : at])):  # (to where its body begins, or to the semicolon of one that has none)
                at = ends.get(at, at) + 1 if code[at] in "{([" else at + 1
            spans = {it[1] or "ensures": (it.start(), ends.get(it.end() - 1, at) + 1) for it in CLAUSE.finditer(code, head.end(), at)}
            names, of_type, trait, is_declared = next((it[2:] for it in blocks if it[0] < head.start() < it[1]), (modules, head["name"], "", False))
            if is_declared:
                self.methods[f"{trait}::{head['name']}"] = (*spans,)
            if code[at : at + 1] == "{":
                end = ends.get(at, at) + 1
                is_open = self.is_program or of_type in self.handed_out or all("/".join(modules[: n + 1]) in self.open_modules for n in range(len(modules)))  # (other crates can name it: each of its modules is public, or a `pub use` hands it out; of a program all can)
                is_public = is_open and bool(head["public"] or trait)
                is_law = is_public and not trait and not code[at + 1 : end - 1].strip()
                top = re.search(r"(?m)(?:^[ \t]*#\[.*\n)*^[ \t]*\Z", code[: head.start()])
                # (the name as a check prints it, without the crate's; `method` of a trait that it implements; no clauses where the trait has them; plain where its proof's place is its name)
                yield Part(
                    function="::".join([*names, head["name"]]), proofs="/".join(["proofs", *names, head["name"]]), path=path, top=top.start() if top else head.start(), start=at, end=end, arms=[*arms_in(code, ends, at, end)], spans=spans,
                    is_law=is_law, is_public=is_public, method=trait and f"{trait}::{head['name']}", is_default=is_declared,
                    is_plain=not is_law and not is_declared and (not trait or of_type in self.homes) and not Path(self.folder, "proofs", *names, f"+{head['name']}").is_dir(),
                )  # fmt: skip

    def blocks(self, path, code, ends):
        """Returns the blocks of a file that hold methods: start, end, the names that lead to a method, its type, its trait, and whether that is declared there."""
        for head in IMPL.finditer(code):
            words = re.sub(r"\A\s*<[^{]*?>(?=\s+[A-Za-z:])|\bwhere\b.*", "", head["of"], flags=re.S)
            trait, _, of_type = words.rpartition(" for ")
            trait, _, given = trait.partition("<")
            short = lambda it: re.sub(r"<.*|\W|.*::", "", it.strip(), flags=re.S)
            name = short(of_type) + short(trait) + "".join(map(short, given.split(",")))
            names = [*modules_of(path if trait else self.homes.get(name, path)), name]
            yield head.end() - 1, ends.get(head.end() - 1, 0), names, short(of_type), short(trait), False
        for head in TRAIT.finditer(code):
            yield head.end() - 1, ends.get(head.end() - 1, 0), [*modules_of(path), head[1]], head[1], head[1], True

    def clauses_of(self, body):
        """Returns the names of what a function ensures, `invariant` among them, of which nothing is said here."""
        return (*body.spans, *self.repository.methods.get(body.method, ()), "invariant")


class Edit:
    """A file of `file:`, `old:` and `new:` lines, over one file of src/ or of specs/. docs/gate.md has its other lines."""

    def __init__(self, path, crate):
        self.crate, self.name, self.names = crate, path.name, {crate.name, f"{crate.name}/{path.name}", f"{crate.name}/{path.stem}"}
        self.words = path.read_text("utf-8", "replace")
        lines = lambda head: [it.split() for it in re.findall(rf"(?m)^{head}: *(.+)", self.words)]
        self.rows, self.laws, self.stands = sum(lines("row"), []), sum(lines("law"), []), lines("stands for")
        self.functions, files = {name: frozenset(arms) for name, *arms in lines("function")}, sorted({it[0] for it in lines("file")})  # (by function the arms that it changes, or none where it may change all; the first has to be refused)
        self.file, self.is_turned = "".join(files[:1]), "".join(files[:1]).startswith("specs/")
        self.function, self.asked, self.clauses, self.modules, self.pieces, self.copy = "", [], [], [], [], ""  # (the first function, those of which a check is asked, each clause that it names with the functions, and methods of a trait, that it may be of)
        self.why = self.apply(files) or self.find(lines("clause"))
        self.owns = lambda goal, function: any(re.search(rf"(?:\A|-){re.escape(it)}(?!\w)", goal) for it in self.functions.get(function, ()))  # whether a goal of a function is of an arm that it changes; the clauses of a function that it names
        self.named = lambda function: {clause for clause, pairs in self.clauses if (function, clause) in pairs}
        self.verdict = "BAD EDIT" if self.why else ""

    def apply(self, files):
        """Finds what it puts in place of what, and returns why it cannot be applied, if so."""
        if OTHER.search(self.words) or len(files) != 1 or self.file not in self.crate.texts:
            return f"it has to name one file of src/ or specs/, and no test's, and no line begins so: {files}, {OTHER.findall(self.words)}"
        was = text = self.crate.texts[self.file]
        for old, new in PAIR.findall(self.words):
            if text.count(old) != 1:
                return f"an 'old:' text is in {self.file} {text.count(old)} times, and not once"
            text = text.replace(old, new)
        lines, others = was.splitlines(True), text.splitlines(True)
        for kind, start, end, first, last in SequenceMatcher(None, lines, others, autojunk=False).get_opcodes():
            old, new, at = "".join(lines[start:end]), "".join(others[first:last]), len("".join(lines[:start]))
            front = len(os.path.commonprefix([old, new]))
            back = len(os.path.commonprefix([old[front:][::-1], new[front:][::-1]]))
            self.pieces += [] if kind == "equal" else [(at + front, at + len(old) - back, new[front : len(new) - back])]
        self.start, self.end = (self.pieces or [(0, 0)])[0][0], (self.pieces or [(0, 0)])[-1][1]
        return "" if self.pieces else "it changes nothing"

    def find(self, clauses):
        """Finds the function, with its arm, in whose body the edit lies, if it names none, and returns what it names that is not there."""
        crate = self.crate
        around = lambda parts: [it for it in parts if it.start <= self.start and self.end <= it.end]
        for body in [] if self.functions or self.is_turned else sorted(around(crate.bodies[self.file]), key=lambda it: it.end - it.start)[:1]:
            arms = [it.name for it in sorted(around(body.arms), key=lambda it: it.start - it.end)[:1]]
            self.functions = {body.function: frozenset(f"in-{it}" for it in arms if [other.name for other in body.arms].count(it) == 1)}  # (goals are named after the constructor, so one that stands in two arms tells nothing)
        self.function = next(iter(self.functions), "")
        self.asked = [] if any(it.function in self.functions and it.is_default for it in crate.by_name.values()) else [*self.functions]  # (a check cannot be asked of a trait's own body of a method, so the whole crate is checked then)
        self.asked += ["rows_of_edits::read"] if self.rows else [body.function for law in self.laws for body in crate.named(law)]
        at = {it: [path for path, text in crate.logic.items() if re.search(rf"(?m)^(?:\w+ )*{re.escape(it)} : ", text)] for it in self.rows}
        self.modules = sorted({f"Rattle.{crate.name}.{path[:-5].replace('/', '.')}" for paths in at.values() for path in paths})
        self.turned = [it.name for it in crate.declared.get(self.file, ()) if any(start < it.end and it.start < end for start, end, _ in self.pieces)]
        lost = [f"row {it}" for it, paths in at.items() if not paths] + [f"function {it}" for it in self.functions if it not in crate.by_name]
        lost += [f"law {it}" for it in self.laws if not any(body.is_law for body in crate.named(it))]
        lost += [f"public clause {' '.join(it)}" for it in self.stands if not crate.repository.has_public(*it)]
        for *function, clause in clauses:
            bodies = [it for it in crate.named(" ".join(function) or self.function) if clause in crate.clauses_of(it)]
            self.clauses.append((clause, {(name, clause) for it in bodies for name in (it.function, it.method)}))
            lost += [] if bodies else [f"clause {' '.join([*function, clause])}"]
        named = {name for _, pairs in self.clauses for name, _ in pairs}
        self.asked = [it for it in self.asked if not named or it in named or it not in self.functions]
        body = crate.by_name.get(self.function)  # (it breaks a copy of its function, with a name of its own, so that others are tried beside it; not one of many arms, of which each takes long)
        is_within = body and body.path == self.file and body.start < self.start and self.end < body.end and self.asked == [*self.functions]
        if is_within and len(self.asked) == 1 and body.is_plain and not body.method and len(body.arms) < 20 and f"{body.proofs}/Proof.antt" not in crate.logic:
            self.copy = "_" + re.sub(r"\W", "_", self.name.removesuffix(".edit").rpartition(".")[2])
        return f"there is no {lost[0]}" if lost else ""

    def overlaps(self, other):
        """Returns whether the two change one text."""
        return not (self.copy or other.copy) and self.file == other.file and any(it[0] <= its[1] and its[0] <= it[1] for it in self.pieces for its in other.pieces)

    def clashes(self, other):
        """Returns whether one check could not tell the two apart: they change one text, one function, or one arm where both know theirs."""
        if self.is_turned or other.is_turned:
            return self.is_turned != other.is_turned or self.overlaps(other) or any(self.crate.rests(row, its.turned) for it, its in ((self, other), (other, self)) for row in it.rows)
        both = [(self.functions[it], other.functions[it]) for it in self.functions.keys() & other.functions.keys()]
        return self.overlaps(other) or not (self.copy or other.copy) and any(not mine or not others or mine & others for mine, others in both)

    def __str__(self):
        return f"{self.crate.name}/{self.name}: {'refused by' if self.verdict == 'refused' else f'{self.verdict}:'} {self.why}"


class Repository:
    """The crates of a repository, in the order of crates.txt, which lists the lowest first."""

    def __init__(self, root):
        self.root = Path(root).resolve()
        rows = [line.partition("#")[0].partition(":") for line in Path(self.root, "crates.txt").read_text("utf-8").split("\n")]
        self.crates = {name.strip(): Crate(self, name.strip(), below.split()) for name, _, below in rows if name.strip()}
        self.methods = {name: clauses for it in self.crates.values() for name, clauses in it.methods.items()}
        for it in self.crates.values():
            it.edits = [Edit(path, it) for path in sorted(Path(it.folder, "wrong").glob("*.edit"))]

    def below(self, *crates):
        """Returns the repository's crates on which some rest, lowest first."""
        names = {name for it in crates for name in it.uses}
        for it in reversed(self.crates.values()):
            names.update(it.uses if it.name in names else ())
        return [it for it in self.crates.values() if it.name in names]

    def has_public(self, function, *clause):
        """Returns whether a function, as `name` or `CRATE/name`, is public and has the clause."""
        crate, _, name = function.rpartition("/")
        its = [self.crates[crate]] if crate in self.crates else [] if crate else self.crates.values()
        return len(clause) == 1 and any(body.is_public and clause[0] in it.clauses_of(body) for it in its for body in it.named(name))
