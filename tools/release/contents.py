"""The archive, whose bytes depend on nothing but its files, their names and one time; and what it holds besides the program: documents, examples without their answers,
scripts, the web page."""
import gzip
import hashlib
import io
import re
import tarfile
from collections import namedtuple
from pathlib import Path, PurePath

from release import Refused
from release.tree import files_in

OF_MAKERS = {"architecture.md", "DECISIONS.md", "figures.md", "gate.md", "log.md"}  # documents for those who work on the code
COMPARED = {".expected", ".told", ".run", ".cases", ".check"}  # how files end that the gate compares with
ANSWERS = {"answers", "answers.md"}  # what answers to questions are called, folders and files
SCRIPTS = ["elf_program.py", "elf_to_policy.py", "guest_files.py", "later_instructions.py"]  # what docs/c.md has a user run
SUM_LINE = re.compile(r"([0-9a-f]{64})  (\S+)")
File = namedtuple("File", "held runs", defaults=(False,))  # of the archive


def documents(tree):
    """The documents that a user reads, by their paths, README.md first."""
    docs = [f"docs/{it.name}" for it in sorted((tree / "docs").glob("*.md")) if it.name not in OF_MAKERS]
    return {it: (tree / it).read_text("utf-8") for it in ("README.md", *docs, "CHANGELOG.md", "LICENSE")}


def examples(tree):
    """The examples and the labs, without what the gate compares with, and without any answer to a question of the labs or a course."""
    names, place = files_in(tree, "examples")
    return {it: (place / it).read_bytes() for it in names if Path(it).suffix not in COMPARED and not ANSWERS & {*Path(it).parts}}


def page(folder, commit):
    """The files of a web page that `tools/page.py` made of the proved program of this commit."""
    if not (folder / "MADE").is_file():
        raise Refused(f"{folder} has no page: there is no MADE, as tools/page.py writes it")
    made = (folder / "MADE").read_text("utf-8").splitlines()
    said = dict(it.split(" ", 1) for it in made if " " in it)  # (the kit's commit stands there too, before that of the tree)
    if not commit.name.startswith(said.get("commit", "-")):
        raise Refused(f"the page in {folder} is of another commit: {said.get('commit', 'it names none')}")
    if said.get("proved") != "yes":
        raise Refused(f"the page in {folder} is not of the proved program")
    sums = {it[2]: it[1] for it in map(SUM_LINE.fullmatch, made) if it}
    files = {it.name: it.read_bytes() for it in sorted(folder.iterdir())}
    wrong = [it for it in files.keys() | sums.keys() if it != "MADE" and (it not in files or hashlib.sha256(files[it]).hexdigest() != sums.get(it))]
    if wrong:
        raise Refused(f"the page in {folder} is not as it was made: {min(wrong)}")
    return files


def contents(tree, texts):
    """The files of the archive that are files of the repository."""
    files = {path: File(text.encode()) for path, text in texts.items()}
    files |= {f"examples/{path}": File(held) for path, held in examples(tree).items()}
    return files | {f"tools/{it}": File((tree / "tools" / it).read_bytes(), runs=it == "elf_to_policy.py") for it in SCRIPTS}


def archive(folder, files, seconds):
    """A folder with files as the bytes of a gzipped archive, its names in order, with the same owner and time for each."""
    files = {f"{folder}/{name}": it for name, it in files.items()}
    folders, out = {str(up) for name in files for up in PurePath(name).parents} - {"."}, io.BytesIO()
    with gzip.GzipFile("", "wb", 9, out, mtime=0) as packed, tarfile.open(fileobj=packed, mode="w", format=tarfile.USTAR_FORMAT) as to:
        for name in sorted(files.keys() | folders):
            it, head = files.get(name), tarfile.TarInfo(name)
            head.mtime, head.mode = seconds, 0o644 if it and not it.runs else 0o755
            head.type, head.size = (tarfile.REGTYPE, len(it.held)) if it else (tarfile.DIRTYPE, 0)
            to.addfile(head, it and io.BytesIO(it.held))
    return out.getvalue()
