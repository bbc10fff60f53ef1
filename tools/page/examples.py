"""The examples of the repository, as the page offers them: those that the rows of crates/rows run, each with what its document says of it."""
import json
import re
from pathlib import Path

FOLDERS = {"examples": "Examples", "examples/labs": "Labs", "examples/c": "Programs in C", "examples/bare": "The bare machine"}
DATA = "crates/rows/data"
ENTRIES = "--entries"
SECTION = re.compile(r"^## (.*)\n+((?:.+\n)+)", re.M)
COMMAND = re.compile(r"dsmon \w+ (\w+)\.toml")
# A run that goes on until its guests have ended takes as many ticks as it may: the page offers the next power of ten.
MOST_TICKS = 1_000_000


def examples(top):
    """All of them, in the order of the rows, by their names."""
    found = {}
    for line in Path(top, DATA, "rows").read_text("utf-8").splitlines():
        folder, status, expected, command, *words = line.split(" ")
        if folder in FOLDERS and status == "0" and command in ("run", "trace", "bare"):
            made = example(Path(top, DATA, folder), folder, command == "bare", expected, words)
            # A row of a trace has the flags that the example is about; `--entries` is the page's own.
            if made["name"] not in found or (command == "trace" and ENTRIES not in words):
                found[made["name"]] = made
    return list(found.values())


def example(place, folder, is_bare, expected, words):
    """An example of the bare machine, or one that runs a policy, from the words of its row."""
    first, *more = words
    text, stem = (place / first).read_text("utf-8"), Path(first).stem
    given, ticks, flags = ("", int(more[0]), []) if is_bare else (more[0], int(more[1]), more[2:])
    if ticks >= MOST_TICKS and (time := re.search(rb"^time (\d+)$", (place / expected).read_bytes(), re.M)):
        ticks = 10 ** len(time[1])
    in_c = place / f"{stem}.c"
    sources = [first] if is_bare else [it for it in dict.fromkeys(re.findall(r'source = "([^"]+)"', text)) if (place / it).is_file()]
    return {
        "name": f"{folder}/{stem}".removeprefix("examples/"),
        "group": FOLDERS[folder],
        "about": not is_bare and (told(place / "README.md").get(stem) or in_c.is_file() and of_a_comment(in_c.read_text("utf-8"), "//")) or of_a_comment(text),
        "command": "bare" if is_bare else "trace",
        "policy": "" if is_bare else text,
        "sources": {it: (place / it).read_text("utf-8") for it in sources},
        "input": (place / given).read_text("utf-8") if given else "",
        "ticks": ticks,
        "flags": " ".join(it for it in flags if it != ENTRIES),
    }


def told(readme):
    """The first paragraph of each section of a document, by the name of the section and by the policies that it runs."""
    if not readme.is_file():
        return {}
    text, found = readme.read_text("utf-8"), {}
    for it in SECTION.finditer(text):
        end = text.find("\n## ", it.end())
        title, about = it[1], plain(it[2])
        for name in {title, *COMMAND.findall(text, it.end(), end if end >= 0 else len(text))}:
            found[name] = about if " " not in title else f"{title.removesuffix('?')}{'?' if title.endswith('?') else '.'} {about}"
    return found


def plain(text):
    """A paragraph as one line, without the marks of its language."""
    return " ".join(text.replace("`", "").split())


def of_a_comment(text, mark="#"):
    """The comment with which a text begins."""
    lines = re.match(rf"(?:{mark} .*\n)*", text)[0]
    return plain(re.sub(rf"^{mark} ", "", lines, flags=re.M))


def script(top):
    """All examples as a script of the page."""
    return f"(globalThis.dsmon ||= {{}}).examples = {json.dumps(examples(top), ensure_ascii=False, indent=0)};\n"
