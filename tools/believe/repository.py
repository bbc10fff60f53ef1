"""Follows names from one definition of a repository to the next."""
import re
from pathlib import Path

from .contracts import Contract
from .texts import Code, Specs, Unresolved
from .words import RUST_WORDS, Names, tokens_of

NAME = re.compile(r"(?<![\w'])[A-Za-z_]\w*(?:::\w+)*!?")


class Repository:
    """All definitions below a folder, read as they are asked for."""

    def __init__(self, top):
        self.top, self.files, self.named = Path(top), {}, {}
        self.crates = {it.name for it in Path(top, "crates").iterdir() if it.is_dir()}

    def read(self, path):
        """A file as `Specs` or `Code`, or nothing where there is none."""
        if path not in self.files:
            place = self.top / path
            kind = Specs if path.endswith(".antt") else Code
            self.files[path] = kind(path, place.read_text("utf-8")) if place.is_file() else None
        return self.files[path]

    def find(self, path, name):
        """The definition of a name in a module, or nothing where the module is none of the repository. Raises `Unresolved`."""
        library, crate, room, *rest = [*path.split("."), "", "", ""][: max(3, path.count(".") + 1)]
        if library != "Rattle" or crate not in self.crates:
            return None
        if rest[:1] in (["declared"], ["contracts"]):
            return self.declared(crate, rest[1:], name)
        file = self.read(f"crates/{crate}/{room}/{'/'.join(rest)}.antt")
        if file is None and len(rest) > 1:  # a type's own module
            return self.find(path.rpartition(".")[0], rest[-1])
        if file is None or name not in file.local:
            raise Unresolved(f"`{path}` has no `{name}`")
        return file.local[name]

    def declared(self, crate, parts, name):
        """A type or a constant of Rust by its path among what a crate declares: `fault.Fault`, `fault.Fault.TheVariants`, `told.TheConstants`."""
        types = [it for it in parts if it[:1].isupper() and not it.startswith("The")]
        modules = [it for it in parts if it[:1].islower()]
        file = self.code_of(crate, modules)
        one = file and file.local.get(types[-1] if types else name)
        if one and not (parts[-1] == "TheVariants" and name not in one.members):
            return one
        raise Unresolved(f"crates/{crate}/src declares no `{'.'.join([*parts, name])}`")

    def code_of(self, crate, modules):
        """The file of a module of Rust, if there is one."""
        return self.read(f"crates/{crate}/src/{'/'.join(modules) or 'lib'}.rt")

    def of_rust(self, path, file, number):
        """The definition of a path that a file of Rust brings in, or nothing where it is none of the repository."""
        crate, *parts = path.split("::")
        own = file.path.split("/")[1]
        if crate == "super":
            crate, parts = "crate", [*file.path.split("/src/")[1][:-3].split("/")[:-1], *parts]
        crate = own if crate == "crate" else crate
        if crate not in self.crates:
            return None
        one = self.code_of(crate, parts[:-1])
        if one and parts[-1] in one.local:
            return one.local[parts[-1]]
        if one and parts[-1] in one.rust:  # passed on by `pub use`
            inner = one.rust[parts[-1]]
            known = inner.split("::")[0] in self.crates | {"crate", "super"}
            return self.of_rust(inner if known else "::".join(["crate", *parts[:-1], inner]), one, number)
        raise Unresolved(f"{file.path}:{number}: `{path}` leads nowhere")

    def rust_names(self, text, file, params=()):
        """The definitions that lines of Rust name."""
        found = []
        for number, line in text:
            for it in NAME.findall(line):
                head = it.rstrip("!").split("::")[0]
                if head in params:
                    continue
                if head in file.local:
                    found.append(file.local[head])
                elif head in file.rust and it.split("::")[-1][:1].isupper():
                    found.append(self.of_rust(file.rust[head] if head[:1].isupper() else file.rust[head] + it[len(head):], file, number))
                elif head not in file.rust and head[:1].isupper() and head not in RUST_WORDS:
                    raise Unresolved(f"{file.path}:{number}: `{it}` leads nowhere")
        return {it.key: it for it in found if it}

    def follow(self, one):
        """What a definition names, as `Names`."""
        if one.key not in self.named:
            file = self.read(one.path)
            names = Names(self, file)
            if one.path.endswith(".antt"):
                names.of_definition(one)
            elif one.kind == "model":  # the words of its value
                value = [(number, re.sub(r"^\s*ghost Value = \{|\};\s*$", "", line)) for number, line in one.text if not line.startswith("impl")]
                names.walk(tokens_of(value), set())
            elif one.kind == "trait":  # the types and the clauses of its functions
                for name in re.findall(r"\bfn (\w+)", "\n".join(line for _, line in one.text)):
                    self.of_contract(Contract(file, name, one.text), None, names, one.members)
            elif one.kind == "macro_rules!":
                names.found = {file.local[it].key: file.local[it] for _, line in one.text for it in re.findall(r"(\w+)!", line) if it in file.local}
            else:  # a type or a constant
                text = [(number, re.sub(r"^    \w+", "", line) if one.kind == "enum" else line) for number, line in one.text]
                generic = re.search(rf"\b{one.name}<(.*?)>", " ".join(line for _, line in text))
                names.found = self.rust_names(text, file, set(re.findall(r"(?:^|, )(?:const )?(\w+)", generic.group(1))) if generic else ())
            names.found.pop(one.key, None)
            self.named[one.key] = names
        return self.named[one.key]

    def of_contract(self, contract, wanted, names, bound=frozenset()):
        """The types of a function, and those of its clauses that are wanted, or all."""
        generics = contract.generics()
        names.found.update(self.rust_names([*contract.within, *contract.head], contract.file, set(generics) | bound))
        for (word, own), text in contract.clauses.items():
            if wanted is None or word == "ensures" and own in wanted:
                names.walk(tokens_of(text), contract.parameters() | bound)
        return names

    def rests_on(self, start):
        """All definitions that some rest on, by their keys, in the order of a reader: each after those that name it."""
        done, order = set(), []
        for first in reversed(list(start)):
            stack = [(first, None)]
            while stack:
                one, left = stack.pop()
                if left is None:
                    if one.key in done:
                        continue
                    done.add(one.key)
                    left = list(self.follow(one).found.values())
                if left:
                    stack.append((one, left))
                    stack.append((left.pop(), None))
                else:
                    order.append(one)
        return {it.key: it for it in reversed(order)}
