"""What tests of scripts share, and scripts that call others: a folder with files, small repositories, what a call says, and a script whose name a package has too."""
import contextlib
import importlib.util
import io
import re
import tempfile
import unittest
from pathlib import Path

TOP = Path(__file__).resolve().parent.parent


def placed(folder, files):
    """Writes files below a folder, each a path with its text or its bytes."""
    for path, held in files.items():
        place = Path(folder, path)
        place.parent.mkdir(parents=True, exist_ok=True)
        place.write_bytes(held.encode() if isinstance(held, str) else held)


def toy(name, folder=""):
    """The files of tools/toys/NAME below a folder of theirs, by their paths from there. There each stands below a line `== PATH`."""
    parts = re.split(r"^== (.*)\n", (TOP / "tools" / "toys" / name).read_text("utf-8"), flags=re.M)
    return {path.removeprefix(folder): text for path, text in zip(parts[1::2], parts[2::2]) if path.startswith(folder)}


def said(call, *given, **named):
    """What a call answers, or the status with which it ends the script, and what it says on both outputs."""
    with contextlib.redirect_stdout(io.StringIO()) as out, contextlib.redirect_stderr(io.StringIO()) as err:
        try:
            answer = call(*given, **named)
        except SystemExit as end:
            answer = end.code
    return answer, out.getvalue(), err.getvalue()


def script(name):
    """The script tools/NAME.py."""
    found = importlib.util.spec_from_file_location(f"{name}_command", TOP / "tools" / f"{name}.py")
    command = importlib.util.module_from_spec(found)
    found.loader.exec_module(command)
    return command


class InARoom(unittest.TestCase):
    """Tests with a folder of their own each, and with files in it."""

    files = {}

    def setUp(self):
        folder = tempfile.TemporaryDirectory(prefix="scripts-test-")
        self.addCleanup(folder.cleanup)
        self.room = Path(folder.name)
        placed(self.room, self.files)
