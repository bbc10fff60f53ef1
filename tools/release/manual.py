"""The manual page, made of what the program says of itself and of sections of the documents.

Of Markdown these forms are known: paragraphs, lists, tables, texts that are indented by four, and headings.
"""
import re
from itertools import groupby

from release import Refused

SECTIONS = [  # of the page: its title, the document, and the heading there; None is what stands before the first
    ("DESCRIPTION", "README.md", None),
    ("COMMANDS", None, None),
    ("POLICY", "docs/policy.md", "A policy"),
    ("INPUT", "docs/policy.md", "An input"),
    ("OUTPUT", "docs/formats.md", "What is written"),
    ("EXIT STATUS", "docs/formats.md", "Statuses of the program"),
    ("DIAGNOSTICS", "docs/refusals.md", None),
    ("EXAMPLES", "README.md", "A denial"),
]
PARTS = ("Arguments:", "Options:", "Commands:")  # of what the program says of its words


def plain(text):
    """A text that the formatter takes as it is."""
    return re.sub(r"^(?=[.'])", r"\\&", text.replace("\\", "\\e"), flags=re.MULTILINE)


def literal(text):
    """A text whose signs are to be typed as they are shown."""
    return plain(text).replace("-", "\\-").replace("`", "\\(ga").replace("'", "\\(aq").replace("^", "\\(ha").replace("~", "\\(ti")


def inline(text):
    """A text of Markdown: what stands in backticks, or between asterisks, is bold, and of a link its words are left."""
    text = re.sub(r"\[([^\]]+)\]\([^)]*\)", r"\1", text)
    parts = re.split(r"(`[^`]+`|\*\*[^*]+\*\*)", text)
    bold = [f"\\fB{literal(it.strip('`*'))}\\fP" if it[:1] in "`*" and len(it) > 2 else it.replace("\\", "\\e") for it in parts]
    return re.sub(r"^(?=[.'])", r"\\&", "".join(bold))


def shown(lines):
    """Lines as they stand, a little to the right."""
    return [".PP", ".RS 4", ".nf", *(literal(it) for it in lines), ".fi", ".RE"]


def joined(lines):
    return inline(" ".join(it.strip() for it in lines))


def items(lines):
    """A list, each of whose items begins with a dash."""
    found = re.split(r"^- ", "\n".join(lines), flags=re.MULTILINE)[1:]
    return [it for item in found for it in (".IP \\(bu 2", joined(item.splitlines()))]


def cells(line):
    return [it.strip().replace("\0", "|") for it in line.strip().strip("|").replace("\\|", "\0").split("|")]


def table(lines):
    """A table: what stands first in a row is its name, and the other columns follow, with their names where they are more than one."""
    heads, rows = cells(lines[0]), [cells(it) for it in lines[2:]]
    made = []
    for first, *rest in rows:
        told = [cell if len(heads) == 2 else f"{head}: {cell}" for head, cell in zip(heads[1:], rest) if cell]
        made += [".TP", inline(first), inline("; ".join(told))]
    return made


def kind_of(line):
    """Which form of Markdown a line is."""
    forms = {"blank": r"\s*$", "shown": "    ", "table": r"\|", "heading": "#", "text": ""}
    return next(kind for kind, form in forms.items() if re.match(form, line))


def blocks(text):
    """The blocks of a text of Markdown with their kinds: a text that begins with a dash is a list, and what is shown may have empty lines."""
    runs = [(kind, list(lines)) for kind, lines in groupby(text.splitlines(), kind_of)]
    made = []
    for kind, lines in runs:
        if kind == "text" and lines[0].startswith("- "):
            kind = "list"
        if kind == "shown" and len(made) > 1 and made[-1][0] == "blank" and made[-2][0] == "shown":
            made.pop()
            made[-1][1].extend(["", *lines])
        else:
            made.append((kind, lines))
    return [it for it in made if it[0] != "blank"]


def split(lines):
    """A paragraph, and the list that follows it without an empty line."""
    at = next((k for k, it in enumerate(lines) if it.startswith("- ")), len(lines))
    return [".PP", joined(lines[:at]), *(items(lines[at:]) if at < len(lines) else [])]


def formatted(text):
    """A text of Markdown as lines of the manual page."""
    forms = {"shown": lambda it: shown([line[4:] for line in it]), "table": table, "list": items, "text": split,
             "heading": lambda it: [f".SS {joined([it[0].lstrip('# ')])}"]}
    return [it for kind, lines in blocks(text) for it in forms[kind](lines)]


def section(documents, path, heading):
    """The text of a document below a heading, or before its first."""
    found = re.search(rf"^## {re.escape(heading)}$\n(.*?)(?=^## |\Z)" if heading else r"\A# [^\n]*\n(.*?)(?=^## |\Z)", documents.get(path, ""), re.DOTALL | re.MULTILINE)
    if not found or not found[1].strip():
        raise Refused(f"{path} has no section {heading or 'at its beginning'}, and the manual page has it")
    return found[1]


def help_lines(text):
    """What the program says of a command, after its first line: the words that it takes, and what follows as it stands."""
    made, rest, part = [], [], False
    for line in text.splitlines()[1:]:
        if line in PARTS:
            part = True
        elif part and line.startswith("  ") and not rest:
            word, _, about = line.strip().partition("  ")
            made += [".TP", f"\\fB{literal(word)}\\fP", plain(about.strip())]
        elif line.startswith("Usage: "):
            made += [".PP", f"\\fB{literal(line.removeprefix('Usage: '))}\\fP"]
        elif line.strip() or rest:
            part = False
            rest.append(line)
    return made + (shown(rest) if rest else [])


def commands(helps):
    """What the program says of its commands, each below its name."""
    made = []
    for name, text in helps.items():
        if name:
            about = text.splitlines()[0]
            made += [f".SS {name}", plain(about[0].upper() + about[1:]) + ".", *help_lines(text)]
    return made


def manual(helps, documents, version, day):
    """The manual page as a text. `helps` has what the program says of itself, by the names of its commands, and '' for all of it."""
    about, usages = helps[""].splitlines()[0], [re.search(r"^Usage: dsmon (.*)$", text, re.MULTILINE) for name, text in helps.items() if name]
    lines = [f'.TH DSMON 1 "{day}" "dsmon {version}"', ".SH NAME", f"dsmon \\- {plain(about[0].lower() + about[1:])}", ".SH SYNOPSIS"]
    lines += [line for it in usages if it for line in (".br", f".B dsmon {literal(it[1])}")][1:]
    for title, path, heading in SECTIONS:
        lines += [f".SH {title}", *(formatted(section(documents, path, heading)) if path else commands(helps))]
    lines += [".SH SEE ALSO", "These documents lie beside the program:", *(line for path in documents for line in (".br", f"\\fI{literal(path)}\\fP"))]
    doubled = [line == ".PP" and before.startswith((".SH", ".SS", ".PP")) for before, line in zip(["", *lines], lines)]  # a paragraph that has begun already
    return "\n".join(line for line, is_double in zip(lines, doubled) if not is_double) + "\n"
