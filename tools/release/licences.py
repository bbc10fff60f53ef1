"""The crates that are linked into the program, and their licences as they lie in the kit."""
import re
import subprocess
from pathlib import Path

from release import Refused

NAMES = ("LICEN", "COPYING", "UNLICENSE", "NOTICE")  # how files begin that hold a licence


def kit_here():
    """The folder of the kit, and its line."""
    try:
        first, line = (subprocess.run(["rt", it], stdin=subprocess.DEVNULL, capture_output=True, text=True, check=True).stdout.strip() for it in ("doc", "version"))
    except (OSError, subprocess.CalledProcessError):
        raise Refused("no toolchain: `rt version` doesn't say which kit is here") from None
    return Path(first).resolve().parent, line


def used_by(kit, name):
    """The crates of the kit that one of them uses."""
    try:
        return re.findall(r"^dep (\w+)$", (kit / "rlibs" / f"{name}.rlib" / "format").read_text("utf-8", errors="replace"), re.MULTILINE)
    except OSError:
        raise Refused(f"the kit has no crate {name}") from None


def linked(tree, kit, program):
    """The crates that a program is made of: those of the repository, and those of the kit."""
    lines = [it.partition(":") for it in (tree / "crates.txt").read_text("utf-8").splitlines() if it.strip() and not it.startswith("#")]
    uses, found, wait = {name.split()[0]: its.split() for name, _, its in lines}, {}, [program, "std"]
    while wait:
        name = wait.pop()
        if name not in found:
            found[name] = name in uses
            wait += uses[name] if name in uses else used_by(kit, name)
    return sorted(it for it in found if found[it]), sorted(it for it in found if not found[it])


def texts_of(kit, name):
    """The licences of a crate of the kit, by the names of their files: those beside it, else those at the heads of its sources."""
    if beside := sorted(it for it in (kit / "rattle" / name).glob("*") if it.name.startswith(NAMES)):
        return {it.name: it.read_bytes() for it in beside}
    folder = kit / "rattle" / name / "src"
    heads = {it: re.match(r"(?://.*\n)*", it.read_text("utf-8", errors="replace"))[0] for it in sorted(folder.rglob("*.rt"))}
    return {f"LICENSE-of-{'-'.join(it.relative_to(folder).with_suffix('').parts)}": text.replace("// ", "").replace("//", "").encode()
            for it, text in heads.items() if "ermission is hereby granted" in text}


def licences(kit, line, names):
    """The licences of crates of the kit, by their paths in the archive, with a list of them."""
    texts = {name: texts_of(kit, name) for name in names}
    lacking = [it for it in names if not texts[it] or all(name.startswith("LICENSE-of-") for name in texts[it])]
    text = ["dsmon itself is under the licence in `LICENSE`, a folder above. The program has code of these crates too, which are",
            f"the toolchain's, `{line}`. Of each the folder of its name has the licence as it lies in the toolchain.", ""]
    text += [f"- {name}: {', '.join(texts[name])}" for name in names if texts[name]]
    if lacking:
        text += ["", "These are the toolchain's own. It has no licence text for them, but for what is listed above (SPDX: NOASSERTION); its makers have it:", "", f"- {', '.join(lacking)}"]
    text += ["", "The C library is not in the archive: the program takes that of the system."]
    return {"README": ("\n".join(text) + "\n").encode(), **{f"{name}/{file}": held for name in names for file, held in texts[name].items()}}
