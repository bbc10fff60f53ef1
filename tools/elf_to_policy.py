#!/usr/bin/env python3
"""Writes a policy and sources that run linked programs in dsmon, a process for each file in their order.

A file is a static executable for MIPS I, little-endian, as an ELF linker writes it. Its bytes go into sources with a
`.word` for each word, 16 pages to a source. A page that may be written has the right write, another one the right read,
which is for fetching too. Pages of zeros have no source. Each process has a stack that ends at 80000000. With --data each process
may read the bytes of a file in pages of its own, and with --keys a file comes in as keys.

What cannot run is refused in one line on standard error, with status 2, and nothing is written. docs/c.md explains each
refusal, and how C is compiled for dsmon.
"""
import argparse
import os
import re
import shlex
import struct
import sys
from pathlib import Path
from types import SimpleNamespace

from elf_program import MAY_RUN, MAY_WRITE, MOST_ENTRIES, MOST_PAGES, PAGE, Program, Refused, program_of, refuse, words_of
from guest_files import MOST_TICKS, check_data, data_of, keys_text
from later_instructions import COPROCESSOR, FLOATING_POINT, coprocessor

PARTS = 16  # pages in a source
MOST_RULES, MOST_PROCESSES = 999, 100
LINES = 4
PACE = 100_000  # ticks for 64 keys, which is far more than a program takes that reads them
MOST_WRITTEN = 10_000_000  # bytes on consoles and log, so that a program that puts without end does not fill the memory
HEAD = "# Written by tools/elf_to_policy.py"  # how each file begins that this script may write anew


def places_of(program):
    """Where the bytes of each page stand that has some: the name of a source and the part."""
    full = [at for at, page in program.pages.items() if any(page.data)]
    return {at: (f"{program.name}-{k // PARTS + 1}.s", k % PARTS) for k, at in enumerate(full)}


def source_text(program, places, source):
    """A source: each of its pages with its address, its words, and the zeros up to the next page."""
    what = "an executable" if isinstance(program, Program) else "a file"
    lines, zeros = [f"{HEAD} of {program.name}: pages of {what}, a word in a line."], 0
    for at in (it for it in places if places[it][0] == source):
        words = [it[0] for it in struct.iter_unpack("<I", program.pages[at].data)]
        used = max(k for k, word in enumerate(words, 1) if word)
        lines += [f".space {zeros}"] if zeros else []
        lines += [f"# {at:08X}", *(f".word 0x{it:08X}" for it in words[:used])]
        zeros = PAGE - 4 * used
    return "\n".join(lines) + "\n"


def add_process(bundle, program, line, give, earlier):
    """Adds a process with its pages and rules. Of one that runs the same file as an earlier one, those that are read are the earlier one's."""
    number, places = len(bundle.processes) + 1, places_of(program)
    bundle.processes.append(f"{{ start = 0x{program.start:08X}, line = {line} }}, # {number}: {program.name}")
    add_sources(bundle, program, places)
    for at, page in program.pages.items():
        owner = earlier if earlier and page.right == "read" else number
        name = f"p{owner}a{at:08x}"
        if owner == number:
            bundle.pages.append(page_row(name, places, at))
        may_give = ", give = true" if give and page.right == "write" else ""
        bundle.rules.append(f'{{ process = {number}, address = 0x{at:08X}, right = "{page.right}", page = "{name}"{may_give} }},')
    bundle.warnings += [f"{program.name}: {it}" for it in warnings_of(program)]


def add_data(bundle, number, data):
    """Adds the pages of data, which each process may read."""
    places = places_of(data)
    add_sources(bundle, data, places)
    for at in data.pages:
        name = f"d{number}a{at:08x}"
        bundle.pages.append(page_row(name, places, at))
        for process in range(1, len(bundle.processes) + 1):
            bundle.rules.append(f'{{ process = {process}, address = 0x{at:08X}, right = "read", page = "{name}" }},')


def add_sources(bundle, program, places):
    """Adds the sources of a program or of data."""
    for source in dict.fromkeys(source for source, _ in places.values()):
        text = source_text(program, places, source)
        if bundle.sources.setdefault(source, text) != text:
            raise Refused(f"two files are called {program.name}, and their sources would have one name")


def page_row(name, places, at):
    """A page of the policy, with its place in a source where it has bytes."""
    source = ', source = "{}", part = {}'.format(*places[at]) if at in places else ""
    return f'{{ name = "{name}"{source} }},'


def warnings_of(program):
    """What may be meant otherwise."""
    both = [at for at, page in program.pages.items() if page.flags & MAY_RUN and page.flags & MAY_WRITE]
    if both:
        yield f"pages that may be executed and written: {len(both)}, from {both[0]:08X}; they have the right write"
    for whose, advice in [(FLOATING_POINT, "; -msoft-float compiles without them"), (COPROCESSOR, "")]:
        found = [address for address, word in words_of(program.code) if coprocessor(word) == whose]
        if found:
            yield f"instructions of {whose}: {len(found)}, from {found[0]:08X}; each stops its process{advice}"


def policy_text(bundle):
    """The policy, which has a frame for as many copies as fit into the station."""
    lines = [f"{HEAD}, which writes it anew each time. To keep a change, take this line away.", "version = 1", f"frames = {MOST_PAGES}"]
    for key, rows in (("process", bundle.processes), ("page", bundle.pages), ("rule", bundle.rules)):
        lines += [f"{key} = [", *(f"    {it}" for it in rows), "]"]
    return "\n".join(lines) + "\n"


def bundle_of(programs, datas, lines, give):
    """All that is to be written for these programs, in their order, with this data."""
    bundle, firsts = SimpleNamespace(sources={}, processes=[], pages=[], rules=[], warnings=[]), {}
    for number, program in enumerate(programs, 1):
        add_process(bundle, program, lines[min(number, len(lines)) - 1], give, firsts.get(program.name))
        firsts.setdefault(program.name, number)
    for number, data in enumerate(datas, 1):
        add_data(bundle, number, data)
    refuse(len(bundle.pages) > MOST_PAGES, f"{len(bundle.pages)} pages in all: a policy may have {MOST_PAGES}")
    refuse(len(bundle.rules) > MOST_RULES, f"{len(bundle.rules)} rules in all: a policy may have {MOST_RULES}")
    return bundle


def programs_of(paths, stack):
    """The programs of these files. A file may be named again; two files of one name are refused."""
    found, places = [], {}
    for path in map(Path, paths):
        name = re.sub(r"[^A-Za-z0-9._-]", "_", path.stem)[:40]
        try:
            if places.setdefault(name, os.path.realpath(path)) != os.path.realpath(path):
                raise Refused(f"another file is called {name} too, and their sources would have one name")
            refuse(not path.is_file(), "no file of this name")
            found.append(program_of(name, path.read_bytes(), stack))
        except Refused as why:
            raise Refused(f"{path}: {why}") from None
    return found


def write_all(folder, texts):
    """Writes texts by their names, each over nothing or over what this script wrote. Where one may not be written, none is."""
    for name in texts:
        path = folder / name
        if path.exists() and not (path.is_file() and path.read_bytes().startswith(HEAD.encode())):
            raise Refused(f"{path}: it is there already, and not written by this script")
    for name, text in texts.items():
        (folder / name).write_text(text, "ascii")


def number_between(low, high):
    def read(word):
        if not re.fullmatch(r"[0-9]{1,10}", word) or not low <= int(word) <= high:
            raise argparse.ArgumentTypeError(f"{word!r} is no number from {low} to {high}")
        return int(word)
    return read


def options(words):
    parser = argparse.ArgumentParser(description=__doc__, formatter_class=argparse.RawDescriptionHelpFormatter)
    parser.add_argument("files", metavar="FILE", nargs="+", help="an executable; its process is numbered as it stands, from 1")
    parser.add_argument("--stack", type=number_between(0, MOST_ENTRIES), default=4, metavar="N", help="pages of each stack (4)")
    parser.add_argument("--line", type=lambda it: [*map(number_between(0, LINES - 1), it.split(","))], default=[0], metavar="L[,L..]", help="the console line of each process; the last one is that of the rest (0)")
    parser.add_argument("--give", action="store_true", help="each process may give away the pages that it may write")
    parser.add_argument("--data", action="append", default=[], metavar="FILE@ADDRESS", help="each process may read the bytes of the file, in pages from this address on")
    parser.add_argument("--keys", type=Path, metavar="FILE", help="the bytes of the file come in on the line of process 1, and control D after them")
    parser.add_argument("--pace", type=number_between(1, MOST_TICKS), default=PACE, metavar="N", help=f"ticks from 64 of these bytes to the next ({PACE})")
    parser.add_argument("--into", type=Path, default=Path("."), metavar="FOLDER", help="where the files go, made where it is not there (here)")
    return parser.parse_args(words)


def texts_of(wanted):
    """The texts to be written by their names, the policy first, and what is to be warned of."""
    refuse(len(wanted.files) > MOST_PROCESSES, f"{len(wanted.files)} files: a policy may have {MOST_PROCESSES} processes")
    programs, datas = programs_of(wanted.files, wanted.stack), [data_of(it) for it in wanted.data]
    check_data(datas, programs, wanted.stack)
    bundle = bundle_of(programs, datas, wanted.line, wanted.give)
    name = programs[0].name
    keys = {f"{name}.input": keys_text(wanted.keys, wanted.line[0], wanted.pace, HEAD)} if wanted.keys else {}
    return {f"{name}.toml": policy_text(bundle), **bundle.sources, **keys}, bundle.warnings


def main(words):
    wanted = options(words)
    try:
        texts, warnings = texts_of(wanted)
        name = next(iter(texts)).removesuffix(".toml")
        wanted.into.mkdir(exist_ok=True)
        write_all(wanted.into, texts)
        keys = wanted.into / f"{name}.input"
        if not keys.exists():
            keys.write_text("# What comes in while the program runs, such as: 10 key 0 68656C6C6F\n", "ascii")
    except (Refused, OSError) as why:
        print(f"elf_to_policy: {why}", file=sys.stderr)
        return 2
    for it in warnings:
        print(f"elf_to_policy: warning: {it}", file=sys.stderr)
    # (a run is over where its processes have ended, so it is given as many ticks as there may be; its summary says where they have not)
    there = "" if wanted.into == Path(".") else f"cd {shlex.quote(str(wanted.into))}\n"
    print(f"{there}dsmon check {name}.toml\ndsmon run {name}.toml {name}.input {MOST_TICKS} --summary --most {MOST_WRITTEN}")
    return 0


if __name__ == "__main__":
    sys.exit(main(sys.argv[1:]))
