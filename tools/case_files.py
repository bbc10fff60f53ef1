"""What scripts share that write files: rows and tables of cases, policies, tables of documents, and files that are written or compared."""
import re
import sys
from collections import namedtuple
from pathlib import Path

DATA = Path(__file__).resolve().parent.parent / "crates" / "rows" / "data"

# A line of data/rows: its folder, its status, the file of its text, and its words.
Row = namedtuple("Row", "line folder status text words")
# A line of data/tables: its folder, the file in whose place a case's text stands, the file of the cases, and its words.
Table = namedtuple("Table", "line folder file cases words")


def index(name):
    return [(line, *line.split(" ")) for line in (DATA / name).read_text().splitlines()]


def rows():
    return [Row(line, DATA / folder, int(status), DATA / folder / text, words) for line, folder, status, text, *words in index("rows")]


def tables():
    return [Table(line, DATA / folder, file, DATA / folder / name, words) for line, folder, file, name, *words in index("tables")]


def files_in(folder, **given):
    """A function from a name to a file's text, or to what is given in its place."""
    return lambda name: given[name] if name in given else (folder / name).read_text()


def cases(text):
    """The cases of a file: name, source, and what is expected of a run that is done."""
    for name, body in zip(*[iter(re.split(r"^== (.*)\n", text, flags=re.M)[1:])] * 2):
        source, mark, wanted = body.partition("\n--\n")
        if mark:
            yield name, source + "\n", wanted


def escaped(text):
    """What is expected of a run, as a file of cases has it: a line each of a console, whose line feeds are escaped."""
    consoles, rest = [], text
    while found := re.match(rb"console \d (\d+)\n", rest):
        end = found.end() + int(found[1])
        consoles += [found[0][:-1], rest[found.end():end]]
        rest = rest[end + 1:]
    lines = ["".join(chr(it) if 32 <= it < 127 and it != 92 else f"\\x{it:02X}" for it in line) for line in [*consoles, *rest.splitlines()]]
    return "".join((f"\\x3D{it[1:]}" if it.startswith("=") else it) + "\n" for it in lines)


def with_cases(text, told):
    """The text of a file of cases, in which a function from a case's source has what is expected of it, or none where it can't be told."""
    pieces = re.split(r"^(== .*\n)", text, flags=re.M)
    for k in range(2, len(pieces), 2):
        source, mark, wanted = pieces[k].partition("\n--\n")
        now = told(source + "\n") if mark else None
        if now is not None and now.strip() != re.sub(rb"\\x([0-9A-F]{2})", lambda it: bytes([int(it[1], 16)]), wanted.encode()).strip():
            pieces[k] = source + mark + escaped(now)
    return "".join(pieces)


def with_lines(path, begins, lines):
    """The text of a file in which these are the lines that begin so."""
    held = path.read_text().splitlines()
    first = next(k for k, it in enumerate(held) if it.startswith(begins))
    others = [it for it in held if not it.startswith(begins)]
    return "".join(f"{it}\n" for it in [*others[:first], *lines, *others[first:]])


def policy_text(about, frames, rate, processes, pages, rules, digits="08x"):
    """A policy: processes as starts and lines, pages as names, some with a source and a part, and rules, each with the name of its page."""
    lines = [f"# {about}", "version = 1", f"frames = {frames}", *([f"rate = {rate}"] if rate else []), "process = ["]
    lines += [f"    {{ start = 0x{start:{digits}}, line = {line} }}," for start, line in processes]
    lines += ["]", "page = ["]
    for name, *place in pages:
        rest = ', source = "{}", part = {}'.format(*place) if place else ""
        lines.append(f'    {{ name = "{name}"{rest} }},')
    lines += ["]", "rule = ["]
    for p, address, right, page, give in rules:
        rest = ", give = true" if give else ""
        lines.append(f'    {{ process = {p}, address = 0x{address:{digits}}, right = "{right}", page = "{page}"{rest} }},')
    return "\n".join([*lines, "]", ""])


def table(head, rows):
    """A table of a document, in lines."""
    return ["| " + " | ".join(head) + " |", "|" + "---|" * len(head), *("| " + " | ".join(map(str, it)) + " |" for it in rows)]


def main(files, told=None, words=None):
    """The command of a script that makes files, pairs of a path and its text or bytes: it writes them, or by --check tells which are otherwise.

    That of a model has --write for it; and by FOLDER WORDS.. it writes what it tells for the words after `dsmon`, with names looked up from FOLDER."""
    words, name = sys.argv[1:] if words is None else words, Path(sys.argv[0]).stem
    if told and len(words) > 1:
        sys.stdout.buffer.write(told(files_in(Path(words[0])), words[1:]))
        return 0
    if words not in (["--check"], ["--write"] if told else []):
        print(f"{name}: --check compares, and {'--write' if told else 'no word'} writes")
        return 2
    made = [(path, held.encode() if isinstance(held, str) else held) for path, held in files()]
    others = [(path, held) for path, held in made if not path.is_file() or path.read_bytes() != held]
    if words == ["--check"]:
        print("".join(f"{path} is otherwise\n" for path, _ in others) + f"{name}: {len(made) - len(others)} texts as they are written, {len(others)} otherwise")
        return 1 if others else 0
    for path, held in others:
        path.parent.mkdir(parents=True, exist_ok=True)
        path.write_bytes(held)
    return 0
