"""Reads the contract of a function."""
import re

from .texts import Unresolved, level

CLAUSE = re.compile(r"\s*(requires|ensures|changed)(?: (\w+))? \{")

GENERIC = re.compile(r"(?:^|,) *(?:const )?(\w+)(?:: (\w+))?")


class Contract:
    """A function's signature and clauses, as lines with their numbers."""

    def __init__(self, file, name, text=None):
        """Of the function of this name in a file, or in the text of a trait there."""
        lines = text or list(enumerate(file.lines, 1))
        at = next((k for k, (_, line) in enumerate(lines) if re.match(rf"\s*(pub )?(const )?fn {name}\b", line)), None)
        if at is None:
            raise Unresolved(f"{file.path}: has no function `{name}`")
        self.file, self.name = file, name
        within = next((k for k in range(at, -1, -1) if lines[k][1].startswith("impl")), None) if lines[at][1].startswith(" ") and text is None else None
        self.within = [lines[within]] if within is not None else []  # the head of the `impl` that it stands in
        self.head, self.clauses = [], {}
        where, depth = self.head, 0
        for number, line in lines[at:]:
            got = CLAUSE.match(line) if depth == 0 else None
            if got:
                word, own = got.groups()
                where = self.clauses.setdefault((word, own or ""), [])
                line, depth = " " * got.end() + line[got.end():], 1
            elif depth == 0 and (self.clauses or re.match(r"\s*\{", line)):
                break
            depth += level(line)
            if depth == 0 and where is not self.head:
                line = line[: line.rindex("}")]
            where.append((number, line))
            if where is self.head and depth <= 1 and re.search(r"[;{]\s*$", line):
                break

    def promised(self):
        """The names of its `ensures` clauses."""
        return [own for word, own in self.clauses if word == "ensures"]

    def said(self, name):
        """An `ensures` clause as the source has it, line by line."""
        numbers = [number for number, _ in self.clauses["ensures", name]]
        return [self.file.raw[number - 1] for number in numbers]

    def generics(self):
        """The generic parameters, each with its bound."""
        head = " ".join(line for _, line in [*self.within, *self.head])
        return dict(GENERIC.findall(", ".join(one or other for one, other in re.findall(rf"fn {self.name}<(.*?)>\(|impl<(.*?)> ", head))))

    def parameters(self):
        """All names that are bound in the clauses."""
        return set(re.findall(r"(\w+)\s*:", " ".join(line for _, line in self.head))) | set(self.generics()) | {"self", "result"}
