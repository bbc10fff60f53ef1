#!/usr/bin/env python3
"""Writes what `dsmon` tells in tables of sources, policies and inputs of crates/rows/data/mistakes/ anew.

The texts are data, and stay. Two tables are of sources, with what `dsmon list` tells by the rules of docs/mistakes.md: each byte alone in a line, directly
after a statement, and after a statement and a blank; and statements that are cut off after each of their bytes. The others are of policies and inputs, with
all that `dsmon check` tells by tools/reason_model.py: each byte in several places, texts that are cut off after each of their bytes, and those of two tables
that were written by hand.
"""
import re
import sys
from collections import namedtuple

import case_files
from reading_cases import without_escapes
from reason_model import input_told, policy_told, shown

DATA = case_files.DATA / "mistakes"
CASE = re.compile(rb"^== (.*)\n((?s:.*?))((?:^-- .*\n)(?:\| .*\n)*)", re.M)
PAGES = ["code", "data"]
BLANKS = b" \t\r"
LETTERS = b"abcdefghijklmnopqrstuvwxyz"
UPPER = LETTERS.upper()
DIGITS = b"0123456789"
WRITTEN = LETTERS + UPPER + DIGITS + BLANKS + b"_$(),-.:"
# What the operands of a statement are to be.
KINDS = {
    b"add": ["a register"] * 3, b"addi": ["a register", "a register", "a number"], b"addiu": ["a register", "a register", "a number"],
    b"lw": ["a register", "an address"], b"sll": ["a register", "a register", "a number"], b"beq": ["a register", "a register", "a label"],
    b".word": ["a number or a label"], b"j": ["a label"], b"jal": ["a label"], b"jalr": ["a register", "a register"]}
FORMS = {
    "a register": rb"\$(zero|at|v[01]|a[0-3]|t[0-9]|s[0-7]|k[01]|gp|sp|fp|ra)", "a number": rb"-?[0-9]{1,10}|0x[0-9A-Fa-f]{1,8}",
    "a label": rb"[A-Za-z_][A-Za-z0-9_]{0,31}", "an address": rb"-?[0-9]{1,10}\(\$sp\)", "a number or a label": rb"-?[0-9]{1,10}|0x[0-9A-Fa-f]{1,8}"}
# What is said of a byte that no line holds.
SIGNS = {
    b";/!@": "A comment begins with `#`, and a line has one statement.", b"\"'": "Characters are written as numbers: `.byte 72`.",
    b"+*%=<>&|~^": "Numbers are written out, and an address is built by `lui` and `ori`."}
OTHER_SIGN = "They hold letters, digits, `_`, blanks and `$ ( ) , - . :`."
REGISTERS = ("Registers are `$0` to `$31`, or `$zero`, `$at`, `$v0`, `$v1`, `$a0` to `$a3`,", "`$t0` to `$t9`, `$s0` to `$s7`, `$k0`, `$k1`, `$gp`, `$sp`, `$fp` and `$ra`.")
WANTED = {
    "a register": "A register is `$` and a number or a name: `$8` or `$t0`.", "a number": "A number is decimal, with or without `-`, or hexadecimal after `0x`.",
    "a label": "A label is a name that a line has before its colon.", "an address": "An address is a number, and a register in parentheses: `0($t0)`.",
    "a number or a label": "A number is decimal, with or without `-`, or hexadecimal after `0x`."}
# What is told of a line: the line of its fault, what it quotes, and how it is mended. A byte is quoted where it first stands, a text where it stands once.
Told = namedtuple("Told", "first quote mending is_byte", defaults=(b"", (), False))


def quoted(text):
    """As much of a text as is told, with `?` for what can't be seen."""
    return "".join(chr(c) if 32 <= c <= 126 else "?" for c in text[:40])


def no_byte(c):
    return Told(f"No label and no statement may hold `{quoted(bytes([c]))}`.", bytes([c]), (next((it for signs, it in SIGNS.items() if c in signs), OTHER_SIGN),), True)


def no_mnemonic(word):
    """What is told of a first word that is no mnemonic, no macro and no directive."""
    if word.startswith(b"."):
        return Told(f"There is no directive `{quoted(word)}`.", word, ("There are `.word x`, `.byte n` and `.space n`.",))
    if any(c in UPPER for c in word):
        return Told(f"`{quoted(word)}` has letters in upper case. Mnemonics and directives are in lower case.", word)
    return Told(f"There is no mnemonic `{quoted(word)}`.", word, ("A label has a colon directly after it, and a mnemonic a blank.",))


def operands(least, most, found):
    """What is told where a statement has another number of operands."""
    wanted = most if least == most else f"{least} to {most}"
    return Told(f"The statement wants {wanted} operands, and has {found}.", b"", ("Each operand is written, with commas between them: `addiu $v0, $zero, 1`.",))


def alone(c):
    """What is told of a line that is this byte; none where it is good."""
    if c in BLANKS + b"\n#":
        return None
    if c not in WRITTEN:
        return no_byte(c)
    one = {
        ord("b"): Told("This assembler has no macros. Instead of `b` write `beq $zero, $zero, x`, and `nop` after it.", b"b"),
        ord("j"): operands(1, 1, 0),
        ord(":"): Told("`` is no label.", b"", ("A label is a letter or `_`, and then at most 31 letters, digits and `_`.",)),
    }
    return one.get(c, no_mnemonic(bytes([c])))


def directly_after(c):
    """What is told of `nop` and this byte; a colon makes it a label."""
    if c in BLANKS + b"\n#:":
        return None
    return no_mnemonic(b"nop" + bytes([c])) if c in WRITTEN else no_byte(c)


def after_a_blank(c):
    """What is told of `nop`, a blank and this byte."""
    if c in BLANKS + b"\n#":
        return None
    if c == ord(":"):
        return Told("A blank stands before the colon. Write `nop:`.", b"nop")
    text = bytes([c])
    return Told(f"`{quoted(text)}` stands after the statement.", text, ("A line has one statement, and a comment begins with `#`.",)) if c in WRITTEN else no_byte(c)


def cut_off(line):
    """What is told of a line that may be cut off."""
    front = re.sub(rb"^[a-z_]+:", b"", line.split(b"#")[0]).strip()
    word, _, rest = front.partition(b" ")
    if not front:
        return None
    if word == b"b":
        return alone(ord("b"))
    if word not in KINDS:
        return no_mnemonic(word)
    kinds, found = KINDS[word], rest.count(b",") + 1 if rest else 0
    if word == b"jalr" and found == 1:
        kinds = kinds[1:]
    if found != len(kinds):
        of_word = Told(f"The statement wants 1 operands, and has {found}.", b"", ("Write each number in a line of its own: `.word 1`, and `.word 2` below it.",))
        return of_word if word == b".word" else operands(1 if word == b"jalr" else len(kinds), len(kinds), found)
    for number, (kind, operand) in enumerate(zip(kinds, rest.split(b",")), 1):
        text = operand.strip()
        if not re.fullmatch(FORMS[kind], text):
            is_named = kind == "a register" and text.startswith(b"$")
            return Told(f"There is no register `{quoted(text)}`.", text, REGISTERS) if is_named else Told(f"Operand {number}, `{quoted(text)}`, is to be {kind}.", text, (WANTED[kind],))
    return None


def listed(line, told):
    """All lines that `dsmon list` tells of a line that is a source by itself, or none where it is good."""
    if told is None:
        return None
    said = line.split(b"#")[0]  # what is quoted has its place before the comment, where it has one
    place = said.find(told.quote) if 1 <= len(told.quote) <= 40 else -1
    place = None if place < 0 or not told.is_byte and said.find(told.quote, place + 1) >= 0 else place
    return [f"3 Syntax one.s 1: {told.first}".encode(), *shown(line, 1, None if place is None else line[:place]), *map(str.encode, told.mending)]


def escaped(text):
    """A text as a table has it."""
    return "".join(chr(c) if 32 <= c <= 126 and c != 92 else f"\\x{c:02X}" for c in text)


def where_it_breaks_off(text):
    """The line and the column where the library says that a good document is none which is cut off here: at its end, or at a value that is no value yet, as `0x`."""
    cut = re.search(rb" (0x|t|tr|tru)$", text)
    return text.count(b"\n") + 1, len(text.split(b"\n")[-1]) + 1 - (len(cut[1]) if cut else 0)


BYTES = {  # where the library says that a policy is no document that has another byte at a place, by the end of a case's name
    # before `frames = 16` in line 3: a table's name or a text may begin
    "before a root key": lambda c: (3, 9) if c == ord("[") else (3, 13) if c in b"\"'" else (3, 1),
    # for the 0 in line 6: a text ends with its line, and an array or a table goes on in the next
    "for the number of a line": lambda c: (6, 9) if c in b" \t\"'" else (7, 3) if c == ord("[") else (7, 1) if c == ord("{") else (6, 8),
    # in `address = 0x00410000` in line 20: a byte that may stand in a number makes the whole of it none
    "for the last digit of an address": lambda c: (20, 11) if c in LETTERS + UPPER + DIGITS + b"+-.:_" else (20, 20),
    # in `right = "write"` in line 21: a backslash takes the quotation mark into the text, which the line ends
    "for the last letter of a right": lambda c: (21, 15) if c == ord('"') else (21, 16) if c == ord("\\") else (21, 14)}
SOURCES = {"alone": alone, "after a statement": directly_after, "after a statement and a blank": after_a_blank}


def of_a_byte(rules, title):
    """What a rule says by a byte in digits, with which a case's name begins."""
    digits, _, place = title.partition(" ")
    return rules[place](int(digits, 16))


# Of each table a function from a case's name and its text to the lines that are told, or none.
TABLES = {
    "source_bytes": lambda title, text: listed(text[:-1], of_a_byte(SOURCES, title)),
    "source_prefixes": lambda title, text: listed(text[:-1], cut_off(text[:-1])),
    "policy_bytes": lambda title, text: policy_told(text, of_a_byte(BYTES, title)),
    **dict.fromkeys(("policy_prefixes", "array_prefixes", "ending_prefixes"), lambda title, text: policy_told(text, where_it_breaks_off(text))),
    # The library tells that the second line is no TOML; a source's label is a key, without what has to stand behind one.
    "policy": lambda title, text: policy_told(text, (2, 6 if title == "a source in the place of a policy" else 1)),
    **dict.fromkeys(("input", "input_bytes", "input_prefixes"), lambda title, text: input_told(text, PAGES)),
}


def renewed(told, found):
    """A case with what is told of it."""
    title, text, stands = found.groups()
    lines = told(title.decode(), without_escapes(text)) or [b"ok"]
    if without_escapes(re.sub(rb"(?m)^(-- |\| )", b"", stands)) != b"".join(it + b"\n" for it in lines):
        stands = "".join(f"{mark} {escaped(it)}\n" for mark, it in zip(["--", *"|" * len(lines)], lines)).encode()
    return b"== %s\n%s%s" % (title, text, stands)


def files():
    for name, told in TABLES.items():
        path = DATA / f"{name}.cases"
        yield path, CASE.sub(lambda found: renewed(told, found), path.read_bytes())


if __name__ == "__main__":
    sys.exit(case_files.main(files))
