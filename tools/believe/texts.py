"""Cuts files into definitions.

A definition is what one name stands for: a declaration of an `.antt` file, with its comment; or a type, a trait, a constant or a macro of an
`.rt` file, with its doc comment and without its attributes. A value of a type that has a `Model` is known by its `Value` alone: of such a type
only its head and that count.
"""
import re
from dataclasses import dataclass, field
from itertools import accumulate

DECLARED = re.compile(r"(?:(?:abbrev|unfoldable|pub|infix[lr]? \d+) )*(?:(record|data|module) )?(\S+)")
FIRST_WORDS = {"abbrev", "unfoldable", "pub", "record", "data", "module", "infix", "infixl", "infixr"}
LATER_WORDS = {"unfolding", "where", "in", "then", "else"}
MEMBER = re.compile(r"\s+(?:pub )?((?:[^\s:(){}]+ )+): ")
ITEM = re.compile(r"(?:pub(?:\([a-z]+\))? )?(struct|enum|trait|const|static|type|macro_rules!) (\w+)")
USE = re.compile(r"\s*(?:pub )?(?:ghost )?use\s+([^;{]*?)\s*(?:\{([^}]*)\})?\s*;?\s*$")
LITERAL = re.compile(r'//[^\n]*|b?"(?:\\.|[^"\\])*"|\'(?:\\.|[^\'\\\n])\'', re.DOTALL)
OPEN, CLOSE = "({[", ")}]"


class Unresolved(Exception):
    """A name that leads nowhere, or a text that can't be read, with its place."""


@dataclass
class Definition:
    """What one name stands for."""
    path: str  # from the top of the repository
    name: str
    kind: str  # record, data or module, or nothing for a function; of Rust its keyword, or model
    text: list  # its lines without comments, each with its number
    own: list  # the numbers of its lines, with those of its comments
    comments: int  # how many of these are comments alone
    outer: object = None  # the definition whose parameters it has, too
    members: set = field(default_factory=set)  # fields, constructors or variants

    @property
    def line(self):
        """The first line that is no comment."""
        return self.text[0][0]

    @property
    def code(self):
        """How many lines are no comments."""
        return len(self.own) - self.comments

    @property
    def key(self):
        return self.path, self.own[0]


def level(line):
    """How many brackets a line opens, less those that it closes."""
    return sum(line.count(it) for it in OPEN) - sum(line.count(it) for it in CLOSE)


def indent_of(line):
    return len(line) - len(line.lstrip())


def uses(lines):
    """The `use` lines, each on one line, and the numbers of all that they take up."""
    found, numbers, open_ = [], set(), 0
    for number, line in enumerate(lines, 1):
        if open_ > 0:
            found[-1] += " " + line.strip()
        elif re.match(r"\s*(pub )?(ghost )?use\b", line):
            found.append(line)
        else:
            continue
        numbers.add(number)
        open_ = level(found[-1])
    return found, numbers


class Imports:
    """What the `use` lines of definitions bring in: names by their (path, name there), and modules by their paths."""

    def __init__(self):
        self.names, self.modules = {}, {}

    def add(self, line):
        path, braces = USE.match(line).groups()
        if braces is None:
            path, _, other = path.partition(" as ")
            self.modules[other or path.split(".")[-1]] = path
        for it in filter(None, (one.strip() for one in (braces or "").split(","))):
            name, _, other = it.partition(" as ")
            self.names[other or name] = path.rstrip("."), name


class Specs:
    """A file of definitions."""

    def __init__(self, path, text):
        self.path, self.imports, self.definitions = path, Imports(), []
        self.raw = text.split("\n")
        bare = [re.sub(r'("(?:\\.|[^"\\])*")|(?:^|(?<=\s))--.*', lambda found: found.group(1) or "", it) for it in self.raw]  # without comments
        found, skipped = uses(bare)
        for it in found:
            self.imports.add(it)
        self.cut(bare, skipped)
        self.local = {}
        for it in self.definitions:
            self.local[it.name] = it
            if it.kind in ("record", "data"):  # its fields, or its constructors
                head = next((k for k, (_, line) in enumerate(it.text) if re.search(r"\bwhere\s*$", line)), len(it.text))
                it.members = {name for _, line in it.text[head + 1:] if (got := MEMBER.match(line)) for name in got[1].split()}
            if it.kind == "data":
                self.local.update(dict.fromkeys(it.members, it))

    def cut(self, bare, skipped):
        comment, one, outer = [], None, None
        for number, line in enumerate(bare, 1):
            if number in skipped or re.match(r"(pub )?mod ", line) or not self.raw[number - 1].strip():
                comment, one = [], one if number not in skipped else None
                continue
            if not line.strip():
                comment.append(number)
                continue
            outer = outer if indent_of(line) else None
            if begins(line, 2 if outer else 0, one):
                kind, name = DECLARED.match(line.strip()).groups()
                one = Definition(self.path, name, kind or "", [], [], 0, outer)
                outer = one if kind == "module" else outer
                self.definitions.append(one)
            if one is None:
                raise Unresolved(f"{self.path}:{number}: begins no definition")
            one.text.append((number, line))
            one.own += [*comment, number]
            one.comments += len(comment)
            comment = []


def begins(line, indent, one):
    """Whether a line is the first of a definition, where definitions begin with so many blanks, and `one` is the definition before."""
    words = line.split()
    if indent_of(line) != indent or words[0] in LATER_WORDS or words[0][0] in CLOSE:
        return False
    if one and len(one.text) == 1 and one.text[0][1].lstrip().startswith("infix"):
        return False
    return one is None or words[0] in FIRST_WORDS or len(words) > 1 and words[1] == ":" and words[0] != one.name


def about(file):
    """What a file is about: the first sentence of the comment at its head."""
    mark = "--" if file.path.endswith(".antt") else "//!"
    head = re.match(rf"(?:{mark}.*\n)*", "\n".join(file.raw) + "\n")[0].replace(mark, " ")
    return re.split(r"(?<=\.)\s", " ".join(head.split()), maxsplit=1)[0].strip()


class Code:
    """A file of Rust: its types, traits, constants and macros, and the names that it brings in."""

    def __init__(self, path, text):
        self.path, self.imports, self.rust, self.definitions = path, Imports(), {}, []
        blank = lambda it: re.sub(r"[^\n]", " ", it)  # noqa: E731  (what stands in place of a comment, a text or a character, with quotes about a text)
        bare = LITERAL.sub(lambda it: blank(it[0]) if it[0].startswith("/") else f'"{blank(it[0][1:-1])}"', text)
        self.raw, self.lines = text.split("\n"), bare.split("\n")
        for it in uses(self.lines)[0]:
            if "ghost " in it:
                self.imports.add(it)
        for it in re.findall(r"^(?:pub(?:\(crate\))? )?use ([^;]+);", "\n".join(self.lines), flags=re.MULTILINE):
            self.rust.update(rust_uses(" ".join(it.split())))
        self.definitions += [self.item(at, *got.groups()) for at, line in enumerate(self.lines) if (got := ITEM.match(line))]
        self.local = {it.name: it for it in self.definitions}

    def item(self, at, kind, name):
        """The type, trait, constant or macro that begins in a line."""
        first = at
        while first and re.match(r"\s*(///|#\[)", self.raw[first - 1]):
            first -= 1
        own = [k + 1 for k in range(first, self.end(at) + 1) if self.raw[k].strip() and not re.match(r"\s*#\[", self.raw[k])]
        model = self.model(name)
        if model:
            own, kind = [k for k in own if k <= at + 1] + model, "model"
        comments = sum(bool(re.match(r"\s*//", self.raw[k - 1])) for k in own)
        text = [(k, self.lines[k - 1]) for k in (own if not model else model[1:]) if not re.match(r"\s*//", self.raw[k - 1])]
        one = Definition(self.path, name, kind, text, own, comments)
        one.members = set(re.findall(MEMBERS.get(kind, "$^"), "\n".join(line for _, line in one.text), flags=re.MULTILINE))
        return one

    def end(self, at):
        """The last line of the item that begins in a line."""
        for k, depth in enumerate(accumulate(map(level, self.lines[at:])), at):
            if depth == 0 and re.search(r"[;}]\s*$", self.lines[k]):
                return k
        raise Unresolved(f"{self.path}:{at + 1}: has no end")

    def model(self, name):
        """The lines of a type's model that say what its values are: its head, and `Value`."""
        head = next((k for k, line in enumerate(self.lines) if re.match(rf"impl(<.*>)? Model for {name}\b", line)), None)
        if head is None:
            return []
        value = next(k for k in range(head, self.end(head)) if re.match(r"\s+ghost Value =", self.lines[k]))
        return [head + 1, *range(value + 1, self.end(value) + 2)]


MEMBERS = {"enum": r"^    (\w+)", "struct": r"(\w+):", "trait": r"(?:ghost|const|fn) (\w+)"}


def rust_uses(text):
    """The names that a `use` of Rust brings in, each with its path."""
    path, brace, rest = text.partition("{")
    if not brace:
        whole, _, other = text.strip().partition(" as ")
        return {other or whole.split("::")[-1]: whole}
    parts, depth = [""], 0
    for c in rest[: rest.rindex("}")]:
        depth += (c == "{") - (c == "}")
        parts.append("") if c == "," and depth == 0 else parts.append(parts.pop() + c)
    return {name: whole for it in parts if it.strip() for name, whole in rust_uses(path + it.strip()).items()}
