"""The page's folder and its one file: the hand-written files, the examples, and what the page was made of."""
import base64
import hashlib
import json
import re
import shutil
from pathlib import Path

SCRIPT = re.compile(r'<script src="([\w.]+)"></script>')
STYLE = re.compile(r'<link rel="stylesheet" href="([\w.]+)">')
# What a worker is made of, in this order.
WORKER = ("host.js", "worker.js")


def copied(page, to):
    for it in sorted(page.iterdir()):
        if it.suffix in (".html", ".css", ".js"):
            shutil.copyfile(it, to / it.name)


def one_file(folder, module):
    """The text of the page as one file that opens from a disk: scripts, styles and the module within it."""

    def inlined(name):
        return folder.joinpath(name).read_text("utf-8").replace("</script", "<\\/script")

    within = {"module": base64.b64encode(module.read_bytes()).decode("ascii"), "worker": "".join(folder.joinpath(it).read_text("utf-8") for it in WORKER)}
    carried = json.dumps(within).replace("</script", "<\\/script")
    text = folder.joinpath("index.html").read_text("utf-8")
    text = STYLE.sub(lambda it: f"<style>\n{inlined(it[1])}</style>", text)
    scripts = [it[1] for it in SCRIPT.finditer(text)]
    if not scripts:
        raise ValueError("index.html has no script")
    text = SCRIPT.sub(lambda it: f"<script>\n{inlined(it[1])}</script>", text)
    return text.replace("<script>", f"<script>(globalThis.dsmon ||= {{}}).within = {carried};</script>\n<script>", 1)


def made_script(made):
    """What the page was made of, as a script of the page."""
    return f"(globalThis.dsmon ||= {{}}).made = {json.dumps(made, indent=0)};\n"


def made_text(made, folder):
    """The same as lines, with the sum of each file of the folder."""
    lines = [f"{name} {value}" for name, value in made.items()]
    return "\n".join([*lines, *(f"{sum_of(it)}  {it.name}" for it in sorted(folder.iterdir()) if it.name != "MADE")]) + "\n"


def sum_of(path):
    return hashlib.sha256(Path(path).read_bytes()).hexdigest()
