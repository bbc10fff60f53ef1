"""Reads which words of a text are bound in it, and which are names of definitions."""
import re
from itertools import accumulate

from .texts import CLOSE, MEMBER, OPEN, Code, Unresolved, indent_of

TOKEN = re.compile(r'"(?:\\.|[^"\\])*"|[(){}\[\];,]|[^\s(){}\[\];,"]+')
KEYWORDS = set("Type record let in do elim as where Unit tt absurd omega cc".split())
SIGNS = set("→ × ¬ : = ← ↦ | λ ∀ _ ∷ ⊤ ⊥ . .. ≡".split())
# constructors of the kit that begin with a small letter
CONSTRUCTORS = set("true false zero suc pos neg string integer float boolean array table item no_items member no_members".split())
RUST_WORDS = set("Self Option Some None Result Ok Err Vec String Box Copy Clone Drop Debug Iterator FnMut Fn FnOnce Sized Type List Write".split())


class Names:
    """The definitions that texts of a file name, what they name of the kit, and the fields that they read."""

    def __init__(self, repository, file):
        self.repository, self.file, self.imports = repository, file, file.imports
        self.found, self.kit, self.fields = {}, set(), {}  # a field with the line in which it is read
        self.signs = {piece: name for name in [*self.imports.names, *file.local] if "◌" in name for piece in name.split("◌") if piece}
        if "◌>>=◌" in self.imports.names:
            self.signs["do"] = "◌>>=◌"

    def of_definition(self, one):
        bound = set()
        if one.outer:
            self.note(one.outer)
            bound = self.walk(tokens_of(one.outer.text)[1:], bound)
        (self.of_type if one.kind in ("record", "data", "module") else self.of_function)(one, bound)

    def of_type(self, one, bound):
        """A record, whose fields are bound in the next ones; or a type with constructors."""
        tokens = tokens_of(one.text)
        end = next((k for k, (it, _) in enumerate(tokens) if it == "where"), len(tokens))
        start = next(k for k, (it, _) in enumerate(tokens) if it in (one.name, "module"))
        bound = self.walk(tokens[start + 1: end], bound)
        parts = [([], set())]
        for number, line in one.text:
            got = MEMBER.match(line)
            if got and set(got.group(1).split()) <= one.members:
                parts.append((tokens_of([(number, line[got.end():])]), set(got.group(1).split())))
            elif end < len(tokens) and number > tokens[end][1]:
                parts[-1][0].extend(tokens_of([(number, line)]))
        for part, names in parts:
            self.walk(part, set(bound))
            bound |= names if one.kind == "record" else set()

    def of_function(self, one, bound):
        """A function's type and equations; those below a `where` see what the equation above them binds."""
        clauses = clauses_of(one)
        bound = bound | {tokens[0][0] for tokens, _ in clauses[1:] if tokens[1][0] == ":"}
        above = set()
        for at, (tokens, inner) in enumerate(clauses):
            scope = bound | above if inner else set(bound)
            if at == 0 or tokens[1][0] == ":":
                self.walk(tokens[2:], scope)
                continue
            above = above if inner else scope
            depths = accumulate((it in OPEN) - (it in CLOSE) for it, _ in tokens)
            end = next(k for k, ((it, _), depth) in enumerate(zip(tokens, depths)) if it == "=" and depth == 0)
            for it, number in tokens[:end]:
                if it != one.name and it not in bound:
                    self.pattern(it, number, scope)
            self.walk(tokens[end + 1:], scope)

    def pattern(self, it, number, scope):
        """A word of a pattern: a constructor is a name, and all else is bound."""
        if it not in OPEN + CLOSE + ",;" and it not in SIGNS and it not in self.signs and it[0] not in '"0123456789':
            self.lead(it, number) if self.is_constructor(it) else scope.add(it)

    def is_constructor(self, it):
        head, *rest = it.split(".")
        if rest and head in self.imports.modules:
            return True
        one = self.file.local.get(head)
        if one is None and head in self.imports.names:
            path, head = self.imports.names[head]
            one = self.repository.find(path, head)
            if one is None:
                return head[:1].isupper() or head in CONSTRUCTORS
        return one is not None and one.kind in ("data", "enum") and head in one.members

    def lead(self, it, number):
        """Follows a name, which is not bound. Raises `Unresolved` where it leads nowhere."""
        head, *rest = it.split(".")
        if head in self.file.local:
            self.note(self.file.local[head])
        elif head in self.imports.names:
            self.outside(*self.imports.names[head], number)
        elif rest and head in self.imports.modules:
            self.outside(self.imports.modules[head], rest.pop(0), number)
        elif isinstance(self.file, Code) and head in self.file.rust:
            self.note(self.repository.of_rust(self.file.rust[head], self.file, number))
        elif not (isinstance(self.file, Code) and head in RUST_WORDS):
            raise Unresolved(f"{self.file.path}:{number}: `{it}` leads nowhere")
        self.read(rest, number)

    def read(self, fields, number):
        """Notes fields that are read; a part of a pair has no name."""
        for it in filter(lambda it: it and not it.isdigit(), fields):
            self.fields.setdefault(it, number)

    def note(self, one):
        if one:
            self.found[one.key] = one

    def outside(self, path, name, number):
        """A name of another file."""
        try:
            one = self.repository.find(path, name)
        except Unresolved as fault:
            raise Unresolved(f"{self.file.path}:{number}: {fault}") from fault
        self.note(one)
        self.kit |= set() if one else {(path, name)}

    def walk(self, tokens, bound):
        """Reads an expression in which these are bound, and returns what is bound after it."""
        return Walk(self, tokens, bound).scopes[0]

    def word(self, it, number, scope):
        if it[0] in '"0123456789' or it in ",;":
            return
        if it in self.signs:
            self.lead(self.signs[it], number)
        elif it.startswith("."):
            self.read(it.split("."), number)
        elif it.split(".")[0] in scope:
            self.read(it.split(".")[1:], number)
        elif it not in KEYWORDS and it not in SIGNS:
            self.lead(it, number)


class Walk:
    """Goes through an expression, bracket by bracket. A bracket has the names that are bound up to its end."""

    def __init__(self, names, tokens, bound):
        self.names, self.tokens, self.at = names, tokens, 0
        self.scopes = [set(bound)]  # of each bracket that is open
        self.kinds = [["", 0]]  # of each its sign, and how many `let`s within it have not come to their `=`
        self.groups = []  # of each what it binds for what stands after it
        self.lets, self.later = [], None
        while self.at < len(tokens):
            self.step(*tokens[self.at])
            self.at += 1
        self.scopes[0] |= {self.later[0]} if self.later else set()

    def step(self, it, number):
        if self.later and number > self.later[1]:  # a line of `do` binds in the next ones
            self.scopes[-1].add(self.later[0])
            self.later = None
        ahead = self.tokens[self.at + 1][0] if self.at + 1 < len(self.tokens) else ""
        match it:
            case "(" | "{" | "[": self.open(it)
            case ")" | "}" | "]": self.close()
            case "|": self.alternative()
            case "λ" | "∀": self.under()
            case "let": self.let()
            case "in" if self.lets: self.scopes[-1] |= self.lets.pop()
            case "=": self.kinds[-1][1] -= self.kinds[-1][1] > 0
            case _ if ahead == "←": self.later = it, number
            case _ if ahead != "=" or self.kinds[-1] != ["{", 0]: self.names.word(it, number, self.scopes[-1])  # (else it is a field that gets a value)

    def open(self, it):
        """A bracket opens. What a group `(a b : T)` binds is bound after it."""
        names, start = binders(self.tokens, self.at)
        self.groups.append(names)
        self.kinds.append([it, 0])
        self.scopes.append(set(self.scopes[-1]))
        if names:
            self.at = start - 1
        elif it == "[":
            self.alternative()

    def close(self):
        if len(self.scopes) > 1:
            self.scopes.pop()
            self.kinds.pop()
            self.scopes[-1] |= self.groups.pop()

    def let(self):
        """What a `let` binds is bound after its `in`."""
        names = set()
        while self.tokens[self.at + 1][0] not in ("=", ":"):
            self.at += 1
            names |= {self.tokens[self.at][0]} - set(OPEN + CLOSE + ",")
        self.lets.append(names)
        self.kinds[-1][1] += 1

    def under(self):
        """What a λ binds, up to its dot."""
        while self.at + 1 < len(self.tokens):
            self.at += 1
            it, _ = self.tokens[self.at]
            if it in "({":
                end = closing(self.tokens, self.at)
                names, start = binders(self.tokens, self.at)
                self.names.walk(self.tokens[start:end], self.scopes[-1])
                self.scopes[-1] |= names or {word for word, _ in self.tokens[self.at + 1: end]}
                self.at = end
                continue
            self.scopes[-1].add(it.rstrip("."))
            if it.endswith("."):
                return

    def alternative(self):
        """The pattern before the next `↦`, if there is one within this bracket."""
        depth = 0
        for k in range(self.at + 1, len(self.tokens)):
            it = self.tokens[k][0]
            if depth == 0 and it == "↦":
                for word, number in self.tokens[self.at + 1: k]:
                    self.names.pattern(word, number, self.scopes[-1])
                self.at = k
            depth += (it in OPEN) - (it in CLOSE)
            if depth < 0 or depth == 0 and it in ("|", "↦"):
                return


def tokens_of(text):
    """The words of some lines, each with the number of its line."""
    return [(it, number) for number, line in text for it in TOKEN.findall(line)]


def closing(tokens, at):
    """Where the bracket closes that opens there."""
    depths = accumulate((it in OPEN) - (it in CLOSE) for it, _ in tokens[at:])
    return next((k for k, depth in enumerate(depths, at) if depth == 0), len(tokens))


def binders(tokens, at):
    """The names that a group `(a b : T)` binds, and where its type begins; none, and the end, where the bracket is no group."""
    names = set()
    for k in range(at + 1, len(tokens) if tokens[at][0] in "({" else 0):
        it = tokens[k][0]
        if it == ":" and names:
            return names, k + 1
        if it in OPEN + CLOSE + ",;" or it in SIGNS - {"_"} or it[0] in '"0123456789':
            break
        names.add(it)
    return set(), len(tokens)


def clauses_of(one):
    """The type of a function and its equations, each as its words, and whether it stands below a `where`."""
    lines = [it for it in one.text if it[1].split()[0] not in ("infix", "infixl", "infixr", "unfolding")]
    base, below, found = indent_of(lines[0][1]), None, []
    for number, line in lines:
        if line.strip() == "where":
            below = -1
            continue
        below = indent_of(line) if below == -1 else below
        if indent_of(line) in (base, below) and line.strip()[0] not in CLOSE:
            found.append(([], indent_of(line) == below))
        found[-1][0].extend(tokens_of([(number, line)]))
    head = found[0][0]
    while head[0][0] in ("abbrev", "unfoldable", "pub"):
        head.pop(0)
    return found
