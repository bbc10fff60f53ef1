"""The LLVM module of the program: of the proved one, whose object file has to come out as it is, or of an unproved build.

`rt` hands one module of the whole program to the clang of its kit. A kit that is made here is the kit itself, by links, but for that clang: it puts a copy of
the module aside, and then is the kit's own clang.
"""
import contextlib
import os
import shutil
import subprocess
from pathlib import Path

from page import files

PROGRAM = ("dsmon", "dsmon.o", "dsmon.stamp")
KEEPING_CLANG = """\
#!/bin/sh
for word in "$@"; do
    case $word in *.bc) cp "$word" '{kept}';; esac
done
exec '{clang}' "$@"
"""


class Refused(Exception):
    """Why no page is made."""


def installed():
    """The folder of the kit whose `rt` is on the path."""
    command = shutil.which("rt")
    if not command:
        raise FileNotFoundError("the toolchain's command rt is not on the path (docs/crates.md names the kit)")
    return Path(command).resolve().parent.parent


def linked(kit, folder, kept):
    """Makes the kit of links in a new folder, and returns its command `rt`. Its clang copies each module that it is given to `kept`."""
    links(kit, folder, besides={"bin", "toolchain"})
    links(kit / "toolchain", folder / "toolchain", besides={"bin"})
    links(kit / "toolchain/bin", folder / "toolchain/bin", besides={"clang"})
    clang = folder / "toolchain/bin/clang"
    clang.write_text(KEEPING_CLANG.format(kept=kept, clang=kit / "toolchain/bin/clang"), "utf-8")
    clang.chmod(0o755)
    # The scripts find their kit from where they stand, so they are copies.
    scripts = {"rt", *(it.name for it in (kit / "bin").glob("*.py"))}
    links(kit / "bin", folder / "bin", besides=scripts)
    for name in scripts:
        shutil.copy(kit / "bin" / name, folder / "bin" / name)
    return folder / "bin/rt"


def links(source, folder, besides):
    """Fills a new folder with links to what another one has, besides these names."""
    folder.mkdir(parents=True)
    for it in source.iterdir():
        if it.name not in besides:
            os.symlink(it, folder / it.name)


def proved(top, installed, room):
    """The module from which the program was built that `rt run` has proved, and the sum of its object file."""
    crate = top / "crates/dsmon"
    wanted = crate / "out/dsmon.o"
    if not wanted.is_file():
        raise Refused("crates/dsmon/out has no proved program: make it by (cd crates/dsmon && rt run -- demo), or take --try")
    with set_aside(crate / "out", room / "aside"):
        module = built(crate, installed, room, "run")
        known, made = files.sum_of(room / "aside/dsmon.o"), files.sum_of(wanted)
    if known != made:
        raise Refused(f"another program came out than the proved one: dsmon.o has the sum {made}, and had {known}")
    return module, made


def built(crate, installed, room, command):
    """Builds the program with a kit whose clang keeps what it is given, and returns the module that it kept."""
    module = room / "module.bc"
    rt = linked(installed, room / "kit", module)
    done = subprocess.run([rt, command, "--", "demo"], cwd=crate, stdin=subprocess.DEVNULL, stdout=subprocess.PIPE, stderr=subprocess.STDOUT, errors="replace")
    if done.returncode or not module.is_file():
        raise Refused(f"rt {command} does not build the program:\n{done.stdout}")
    return module


@contextlib.contextmanager
def set_aside(folder, aside):
    """The program's files are elsewhere for a while, so that it is built anew. They come back, whatever happens."""
    aside.mkdir()
    moved = [it for it in PROGRAM if (folder / it).is_file()]
    for it in moved:
        shutil.move(folder / it, aside / it)
    try:
        yield
    finally:
        for it in moved:
            shutil.copy2(aside / it, folder / it)
