#!/usr/bin/env python3
"""Makes the archive of a release, `dsmon-VERSION-x86_64-linux.tar.gz`, of the commit that is checked out (docs/release.md).

    tools/release.py TO [--page FOLDER] [--candidate]

It clones the commit, runs the gate `.ci/run` in that clone, and takes the program that was proved and built there; so nobody has to say that the gate passed.
TO gets the archive, and all that the gate said as `gate-COMMIT.log`. Of a tree that isn't clean, or whose gate doesn't pass, there is no release: one line says
why, and the status is 2. `--page` has a folder that `tools/page.py` made of the same commit. With `--candidate` the gate is `rt ci` alone: all proofs, tests and
stored runs, but neither the wrong bodies nor the tests of the scripts, and the archive is called a candidate.
"""
import argparse
import hashlib
import re
import subprocess
import sys
import tempfile
from pathlib import Path

from release import Refused
from release.contents import File, archive, contents, documents, page
from release.licences import kit_here, licences, linked
from release.manual import manual, section
from release.tree import GATE, PROOFS, cloned, commit_of, passed

TOP = Path(__file__).resolve().parent.parent
OF_THE_SYSTEM = re.compile(r"linux-vdso|libc\.so|ld-linux")  # what the program may ask the system for: the C library and its loader


def said_by(program, *words):
    """What the program says of itself, on standard error and with status 1."""
    done = subprocess.run([program, *words], stdin=subprocess.DEVNULL, capture_output=True, text=True, timeout=60)
    if done.returncode != 1 or not done.stderr:
        raise Refused(f"`{' '.join(['dsmon', *words])}` has status {done.returncode}, and help has 1")
    return done.stderr


def helps_of(program):
    """What the program says of itself and of each of its commands, by their names."""
    whole = said_by(program, "--help")
    names = re.findall(r"^  (\w+) ", whole.partition("\nCommands:\n")[2].partition("\n\n")[0], re.MULTILINE)
    return {"": whole, **{it: said_by(program, it, "--help") for it in names if it != "help"}}


def libraries(program):
    """What the program asks the system for, as the loader tells."""
    done = subprocess.run(["ldd", program], stdin=subprocess.DEVNULL, capture_output=True, text=True)
    if done.returncode:
        raise Refused(f"the program is none of this machine: {(done.stdout + done.stderr).strip()}")
    return [it.split()[0] for it in done.stdout.splitlines() if it.strip()]


def release(tree, commit, version, gate, of_page):
    """The files of the archive: those of the tree, the program with its manual page and its licences, and how all was made."""
    program, (kit, line) = tree / "crates/dsmon/out/dsmon", kit_here()
    if not program.is_file():
        raise Refused("the gate left no program in crates/dsmon/out")
    told = said_by(program, "--version").split()[-1]
    if told != version:
        raise Refused(f"the program calls itself {told}, and CHANGELOG.md begins with {version}")
    if more := [it for it in libraries(program) if not OF_THE_SYSTEM.search(it)]:
        raise Refused(f"the program needs {more[0]}, and the C library alone is promised")
    glibc = max((tuple(map(int, it.split(b"."))) for it in re.findall(rb"GLIBC_(\d+\.\d+)", program.read_bytes())), default=())
    needed = "the C library" + (f", glibc {'.'.join(map(str, glibc))} or later" if glibc else "")
    own, of_kit = linked(tree, kit, "dsmon")
    texts = documents(tree)
    files = contents(tree, texts)
    files |= {f"page/{name}": File(held) for name, held in of_page.items()}
    files |= {f"licences/{name}": File(held) for name, held in licences(kit, line, of_kit).items()}
    files |= {"dsmon": File(program.read_bytes(), runs=True), "dsmon.1": File(manual(helps_of(program), texts, version, commit.day).encode())}
    head = [f"dsmon {version} for x86-64 Linux; it needs {needed}", f"commit {commit.name} of {commit.day}", f"kit {line}", *gate,
            f"proved: the crates {', '.join(own)}; docs/theorems.md says what, and docs/believe.md on which definitions it rests",
            f"with the kit's crates {', '.join(of_kit)}", "each file has its sum below: sha256sum -c MADE"]
    sums = (f"{hashlib.sha256(it.held).hexdigest()}  {path}\n" for path, it in sorted(files.items()))  # as `sha256sum -c` reads it
    return {**files, "MADE": File("".join([*(f"# {it}\n" for it in head), *sums]).encode())}


def try_out(held, name, readme):
    """Refuses an archive that doesn't run the first commands of README.md, unpacked into an empty folder, with the system's own programs alone."""
    look = re.search(r"(?:^    .*\n)+", section({"README.md": readme}, "README.md", "A first look"), re.MULTILINE)[0].splitlines()
    with tempfile.TemporaryDirectory(prefix="dsmon-release-") as room:
        Path(room, f"{name}.tar.gz").write_bytes(held)
        for line in [f"tar xzf {name}.tar.gz", f"cd {name} && sha256sum --quiet -c MADE", *(f"cd {name} && {it.strip()}" for it in look)]:
            done = subprocess.run(["env", "-i", "PATH=/usr/bin:/bin", "sh", "-c", line], cwd=room, stdin=subprocess.DEVNULL, capture_output=True, text=True, errors="replace")
            if done.returncode:
                raise Refused(f"in the archive `{line}` has status {done.returncode}: {(done.stdout + done.stderr).strip()}")


def make(to, folder, candidate, top):
    """Makes a release of the commit that is checked out at the top."""
    commit, found = commit_of(top), re.search(r"^## (\S+)", (top / "CHANGELOG.md").read_text("utf-8"), re.MULTILINE)
    version = found[1] if found else ""
    if not re.fullmatch(r"\d+\.\d+\.\d+", version):
        raise Refused("CHANGELOG.md begins with no version, such as `## 1.0.0`")
    of_page = page(folder, commit) if folder else {}
    command, log = PROOFS if candidate else GATE, to / f"gate-{commit.name[:12]}.log"
    with tempfile.TemporaryDirectory(prefix="dsmon-release-") as room:
        tree = cloned(top, commit, Path(room, "tree"))
        to.mkdir(parents=True, exist_ok=True)
        print(f"release: `{' '.join(command)}` over {commit.name[:12]}, to {log}", flush=True)
        gate = [f"gate `{' '.join(command)}`: {it}" for it in passed(tree, command, log)]
        name = f"dsmon-{version}{'-candidate' if candidate else ''}-x86_64-linux"
        held = archive(name, release(tree, commit, version, gate, of_page), commit.seconds)
        try_out(held, name, (tree / "README.md").read_text("utf-8"))
        path = to / f"{name}.tar.gz"
        if path.exists() and path.read_bytes() != held:  # (a release with other bytes stays as it is)
            raise Refused(f"{path} is there already, with other bytes")
        path.write_bytes(held)
        print(f"{hashlib.sha256(held).hexdigest()}  {path}")


def main(words, top=TOP):
    parser = argparse.ArgumentParser(description=__doc__, formatter_class=argparse.RawDescriptionHelpFormatter)
    parser.add_argument("to", metavar="TO", type=Path, help="the folder of the archive")
    parser.add_argument("--page", type=Path, metavar="FOLDER", help="the web page, as tools/page.py made it of this commit")
    parser.add_argument("--candidate", action="store_true", help="the gate is `rt ci` alone, and the archive is called a candidate")
    asked = parser.parse_args(words)
    try:
        make(asked.to.resolve(), asked.page and asked.page.resolve(), asked.candidate, top)
    except (Refused, OSError) as why:
        print(f"release: {why}", file=sys.stderr)
        return 2
    return 0


if __name__ == "__main__":
    sys.exit(main(sys.argv[1:]))
