#!/usr/bin/env python3
"""Makes the web page of dsmon from the program's own LLVM module (docs/page.md).

    tools/page.py TO         of the proved program, which `rt run` in crates/dsmon has made before
    tools/page.py --try TO   of a build without a proof, in some minutes; the page says so

TO gets the page's files with `dsmon.wasm` and its twin `dsmon32.wasm` for engines whose memories have 32 bits, the one file
`dsmon.html`, which opens from a disk, and `MADE`: of what they were made, and their sums. The twin is made by wasm-opt of the
Debian package binaryen; without it the twin is left out, and the one file has the other module.
"""
import argparse
import shutil
import subprocess
import sys
import tempfile
from pathlib import Path

from page import examples, files, program, wasm

TOP = Path(__file__).resolve().parent.parent


def make(to, unproved, top=TOP):
    """Makes the whole page in a folder that is empty, or has a page that was made before."""
    installed = program.installed()
    commit = subprocess.run(["git", "describe", "--always", "--dirty", "--abbrev=12"], cwd=top, capture_output=True, text=True).stdout.strip()
    made = {"kit": (installed / "KIT-ID").read_text("utf-8").strip(), "commit": commit or "unknown", "proved": "no" if unproved else "yes"}
    with tempfile.TemporaryDirectory(prefix="dsmon-page-") as folder:
        room = Path(folder)
        if unproved:
            module = program.built(top / "crates/dsmon", installed, room, "try")
        else:
            module, made["dsmon.o"] = program.proved(top, installed, room)
        made["module.bc"] = files.sum_of(module)
        to.mkdir(parents=True, exist_ok=True)
        wasm.compiled(installed, module, room, carried := to / "dsmon.wasm")
    (to / "dsmon32.wasm").unlink(missing_ok=True)
    if wasm_opt := shutil.which("wasm-opt"):
        wasm.lowered(wasm_opt, carried, carried := to / "dsmon32.wasm")
    else:
        print("wasm-opt is not installed (package binaryen): dsmon32.wasm is left out, and the page runs only where memories of 64 bits do")
    files.copied(top / "page", to)
    (to / "examples.js").write_text(examples.script(top), "utf-8")
    (to / "made.js").write_text(files.made_script(made), "utf-8")
    (to / "dsmon.html").write_text(files.one_file(to, carried), "utf-8")
    (to / "MADE").write_text(files.made_text(made, to), "utf-8")


def main(words, top=TOP):
    parser = argparse.ArgumentParser(description=__doc__, formatter_class=argparse.RawDescriptionHelpFormatter)
    parser.add_argument("--try", dest="unproved", action="store_true", help="of a build without a proof")
    parser.add_argument("to", metavar="TO", type=Path, help="the folder of the page")
    asked = parser.parse_args(words)
    if asked.to.is_dir() and any(asked.to.iterdir()) and not (asked.to / "MADE").is_file():
        print(f"{asked.to} has other files than a page: name an empty folder")
        return 1
    try:
        make(asked.to.resolve(), asked.unproved, top)
    except (program.Refused, FileNotFoundError) as why:
        print(why)
        return 1
    except subprocess.CalledProcessError as failed:
        print(f"{Path(failed.cmd[0]).name} failed with status {failed.returncode}")
        return 1
    print((asked.to / "MADE").read_text("utf-8"), end="")
    return 0


if __name__ == "__main__":
    sys.exit(main(sys.argv[1:]))
