"""The tree that a release is made of: its commit, a clone of it, and its gate."""
import re
import subprocess
import time
from collections import namedtuple

from release import Refused

GATE, PROOFS = [".ci/run"], ["rt", "ci"]
COUNTS = re.compile(r"^\d+ (?:passed, (\d+) failed|refused, (\d+) not refused).*$", re.MULTILINE)
Commit = namedtuple("Commit", "name seconds day")  # a commit: its forty digits, and its time


def git(top, *words):
    done = subprocess.run(["git", "-C", str(top), *words], stdin=subprocess.DEVNULL, capture_output=True, text=True, errors="replace")
    if done.returncode:
        raise Refused(f"git {words[0]}: {(done.stderr.strip() or 'it failed').splitlines()[-1]}")
    return done.stdout


def check_clean(top, what):
    """Refuses a tree that has anything else than its commit: a file that was changed, or one that git neither knows nor ignores."""
    changed = git(top, "status", "--porcelain", "--untracked-files=all").splitlines()
    if changed:
        raise Refused(f"{what} isn't clean: {changed[0][3:]}" + (f" and {len(changed) - 1} more" if len(changed) > 1 else ""))


def commit_of(top):
    """The commit of a tree that has nothing else."""
    check_clean(top, "the tree")
    name, seconds = git(top, "log", "-1", "--format=%H %ct").split()
    return Commit(name, int(seconds), time.strftime("%Y-%m-%d", time.gmtime(int(seconds))))


def cloned(top, commit, to):
    """A clone that has this commit and nothing else."""
    git(top, "clone", "--quiet", "--no-checkout", str(top), str(to))
    git(to, "checkout", "--quiet", "--detach", commit.name)
    return to


def files_in(tree, folder):
    """The files of a folder that the commit has, by their paths from there."""
    place = (tree / folder).resolve()
    return sorted(it for it in git(place, "ls-files", "-z", ".").split("\0") if it), place


def passed(tree, command, log):
    """Runs the gate in a tree, and returns the last line of each of its parts. A log gets all that it says, as it comes."""
    try:
        with open(log, "wb") as to:
            status = subprocess.run(command, cwd=tree, stdin=subprocess.DEVNULL, stdout=to, stderr=subprocess.STDOUT).returncode
    except OSError as why:
        raise Refused(f"the gate can't be run: {why}") from None
    text = log.read_text("utf-8", errors="replace")
    counts = [it for it in COUNTS.finditer(text) if not re.match("0 .*, 0 ", it[0])]  # (the wrong bodies are counted once more, and none tried)
    if status or not counts or any(int(it[1] or it[2]) or "not the gate" in it[0] for it in counts):
        last = text.rstrip().splitlines()[-1:] or ["nothing"]
        raise Refused(f"the gate didn't pass: status {status}, and it said at last: {last[0]}\n{log} has all of it")
    check_clean(tree, "the gate changed files, so that its clone")
    return [it[0] for it in counts]
