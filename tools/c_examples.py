#!/usr/bin/env python3
"""Compiles examples/c/ and writes the policies and sources there anew, or with --check says whether they are the same.

It needs `make` and the compiler, Debian's gcc-mipsel-linux-gnu. With --check nothing is written; where there is no compiler, or
another than the one that is noted in examples/c/compiler, that is said, and the status is 0. It is 1 where the noted
compiler makes other words.
"""
import shutil
import subprocess
import sys
import tempfile
from pathlib import Path

import elf_to_policy
from rooms import said

TOP = Path(__file__).resolve().parent.parent
EXAMPLES = TOP / "examples" / "c"
COMPILER, LINKER = "mipsel-linux-gnu-gcc", "mipsel-linux-gnu-ld"
POLICIES = [  # the options and programs of each
    ([], ["sieve"]),
    ([], ["editor"]),
    (["--give", "--line", "0,1"], ["sender", "receiver"]),
    (["--keys", f"{EXAMPLES}/calculator.txt", "--pace", "20000"], ["calculator"]),
    (["--keys", f"{EXAMPLES}/words.txt", "--pace", "20000"], ["words"]),
    (["--data", f"{EXAMPLES}/letters.txt@00500000"], ["letters"]),
    ([], ["library"]),
]


def tools_here():
    """The first lines that the compiler and the linker tell of themselves, or None where one is missing."""
    if not all(map(shutil.which, ("make", COMPILER, LINKER))):
        return None
    told = [subprocess.run([it, "--version"], capture_output=True, text=True, check=True).stdout for it in (COMPILER, LINKER)]
    return "".join(f"{it.splitlines()[0]}\n" for it in told)


def written(folder):
    """The texts in a folder that elf_to_policy wrote and may write anew, by their names."""
    texts = {it.name: it.read_text("ascii") for it in folder.iterdir() if it.suffix in (".toml", ".s", ".input")}
    return {name: text for name, text in texts.items() if text.startswith(elf_to_policy.HEAD)}


def made():
    """The policies, sources and keys that come of the programs as the compiler makes them, by their names."""
    with tempfile.TemporaryDirectory(prefix="c-examples-") as room:
        built = subprocess.run(["make", "-C", str(EXAMPLES), f"BUILD={room}"], capture_output=True, text=True)
        if built.returncode:
            sys.exit(f"c_examples: {built.stderr.strip()}")
        into = Path(room, "policies")
        into.mkdir()
        for words, programs in POLICIES:
            status, _, why = said(elf_to_policy.main, [*words, "--into", str(into), *(f"{room}/{it}.elf" for it in programs)])
            if status:
                sys.exit(f"c_examples: {' '.join(programs)} can't be made a policy: {why}")
        return written(into)


def different(texts):
    """The names whose texts are not those of examples/c/, and those there that no text has."""
    there = written(EXAMPLES)
    return sorted(it for it in texts.keys() | there.keys() if texts.get(it) != there.get(it))


def main(words):
    here, noted, is_check = tools_here(), (EXAMPLES / "compiler").read_text("ascii"), words == ["--check"]
    if words and not is_check:
        sys.exit(__doc__)
    if here is None:
        print(f"c_examples: no {COMPILER}" + (", so nothing is compared" if is_check else ": apt-get install make gcc-mipsel-linux-gnu"))
        return 0 if is_check else 1
    texts = made()
    others = different(texts)
    if is_check:
        print(f"c_examples: {', '.join(others)}: other words" if others else "c_examples: the same words")
        print(f"c_examples: they were made by\n{noted}and compiled by\n{here}" if others and here != noted else "", end="")
        return 1 if others and here == noted else 0
    for name in others:
        (EXAMPLES / name).write_text(texts[name], "ascii") if name in texts else (EXAMPLES / name).unlink()
    (EXAMPLES / "compiler").write_text(here, "ascii")
    print(f"c_examples: {len(texts)} files")
    return 0


if __name__ == "__main__":
    sys.exit(main(sys.argv[1:]))
