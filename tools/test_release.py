"""Tests of tools/release.py, over a toy repository with a toy gate, a stand-in for the program, and a toy kit."""
import hashlib
import io
import os
import shutil
import subprocess
import sys
import tarfile
from unittest import mock

from release import Refused, contents, licences
from release.contents import File, archive
from release.manual import SECTIONS, formatted, manual, section
from rooms import TOP, InARoom, placed, said, script, toy

COMMAND = script("release")

HELPS = {name.replace("dsmon", ""): text for name, text in toy("release", "help/").items()}
KIT = toy("release", "kit/")
FILES = toy("release", "top/") | {f"tools/{it}": "#!/usr/bin/env python3\n" for it in contents.SCRIPTS}
README, GATE, PROGRAM = (FILES[it] for it in ("README.md", ".ci/run", "program"))
ARCHIVE = "dsmon-1.2.3-x86_64-linux"
FAILED = [  # what a gate does, and how that is told
    ("echo '1 passed, 1 failed'; exit 1", "status 1, and it said at last: 1 passed, 1 failed"),
    ("echo '1 passed, 1 failed'", "status 0, and it said at last: 1 passed, 1 failed"),
    ("echo '5 passed, 0 failed'; echo '4 refused, 1 not refused'", "status 0, and it said at last: 4 refused, 1 not refused"),
    ("echo '5 passed, 0 failed'; exit 3", "status 3, and it said at last: 5 passed, 0 failed"),
    ("true", "status 0, and it said at last: nothing"),
    ("echo '0 passed, 0 failed'", "status 0, and it said at last: 0 passed, 0 failed"),
    ("echo '2 passed, 0 failed (low alone: not the gate)'", "status 0, and it said at last: 2 passed, 0 failed (low alone: not the gate)"),
]
REFUSED = [  # other files than those of the toy, and what is told then
    *(({".ci/run": f"#!/bin/sh\n{gate}\n"}, f"the gate didn't pass: {why}") for gate, why in FAILED),
    ({".ci/run": GATE + "echo more >> README.md\n"}, "the gate changed files, so that its clone isn't clean: README.md"),
    ({".ci/run": None}, "the gate can't be run: [Errno 2] No such file or directory: '.ci/run'"),
    ({".ci/run": "#!/bin/sh\necho '5 passed, 0 failed'\n"}, "the gate left no program in crates/dsmon/out"),
    ({"program": PROGRAM.replace("1.2.3", "0.1.0")}, "the program calls itself 0.1.0, and CHANGELOG.md begins with 1.2.3"),
    *(({"CHANGELOG.md": changes}, "CHANGELOG.md begins with no version, such as `## 1.0.0`") for changes in ("# Changelog\n", "# Changelog\n\n## Next\n\n## 1.2.3\n")),
    ({"README.md": README.replace("hello.s", "hello.t")}, f"in the archive `cd {ARCHIVE} && (cd examples && cat hello.t)` has status 1: cat: hello.t: No such file or directory"),
    ({"program": PROGRAM.replace("exit 0", "exit 4")}, f"in the archive `cd {ARCHIVE} && ./dsmon demo` has status 4: A"),
    ({"docs/formats.md": "# Formats\n\n## What is written\n\nIt.\n"}, "docs/formats.md has no section Statuses of the program, and the manual page has it"),
]
PAGES = [  # what `MADE` of a page says, with other files than it has the sum of, and what is told then
    ("commit 012345678901\nproved yes", {}, "is of another commit: 012345678901"),
    ("commit COMMIT-dirty\nproved yes", {}, "is of another commit: COMMIT-dirty"),
    ("proved yes", {}, "is of another commit: it names none"),
    ("commit COMMIT\nproved no", {}, "is not of the proved program"),
    ("commit COMMIT\nproved yes", {"more.js": ""}, "is not as it was made: more.js"),
    ("commit COMMIT\nproved yes", {"index.html": "<b>"}, "is not as it was made: index.html"),
]


class Tests(InARoom):
    files = {f"kit/{path}": text for path, text in KIT.items()}

    def setUp(self):
        super().setUp()
        self.top, self.to = self.room / "top", self.room / "to"

    def git(self, *words):
        who = {f"GIT_{it}_{what}": value for it in ("AUTHOR", "COMMITTER") for what, value in [("NAME", "A"), ("EMAIL", "a@b.c"), ("DATE", "2026-11-29T12:00:00Z")]}
        return subprocess.run(["git", "-C", self.top, "-c", "commit.gpgsign=false", *words], env={**os.environ, **who}, check=True, capture_output=True, text=True).stdout

    def committed(self, **changed):
        """A toy repository with a commit, by whose first digits it is named; a file may be another, or none."""
        shutil.rmtree(self.top, ignore_errors=True)
        placed(self.top, {path: text for path, text in {**FILES, **changed}.items() if text is not None})
        if (self.top / ".ci/run").exists():
            (self.top / ".ci/run").chmod(0o755)
        (self.top / "examples").symlink_to("crates/rows/data/examples")
        for words in ("init --quiet", "add --all", "commit --quiet --message All."):
            self.git(*words.split())
        return self.git("rev-parse", "HEAD")[:12]

    def said(self, *words, to=None, needs=("libc.so.6",)):
        """The status of the script, what it said, and of what it complained."""
        with mock.patch.multiple(COMMAND, kit_here=lambda: (self.room / "kit", "toy kit"), libraries=lambda program: [*needs]):
            return said(COMMAND.main, [str(to or self.to), *words], self.top)

    def assert_refused(self, why, *words, **how):
        """The script refuses, and tells why in its first line; there is no archive then."""
        status, _, err = self.said(*words, **how)
        self.assertEqual((2, f"release: {why}", []), (status, err.splitlines()[0], [*self.to.glob("*.tar.gz")]))

    def packed(self, name=ARCHIVE):
        """The members of the archive by their names in its folder."""
        with tarfile.open(self.to / f"{name}.tar.gz") as it:
            return {member.name.removeprefix(f"{name}/"): (member, it.extractfile(member).read()) for member in it if member.isfile()}

    def test_a_release_has_what_a_user_wants_and_says_of_what_and_by_which_gate(self):
        self.committed()
        status, out, err = self.said()
        self.assertEqual((0, ""), (status, err))
        files = self.packed()
        self.assertEqual({"README.md", "CHANGELOG.md", "LICENSE", "MADE", "dsmon", "dsmon.1", "docs/policy.md", "docs/formats.md", "docs/refusals.md", "examples/hello.s",
                          "examples/labs/README.md", *(f"tools/{it}" for it in contents.SCRIPTS), "licences/README", "licences/memchr/LICENSE-MIT",
                          "licences/itoa/LICENSE", "licences/core/LICENSE-of-text-mod"}, set(files))
        self.assertEqual({"dsmon", "tools/elf_to_policy.py"}, {name for name, (it, _) in files.items() if it.mode & 0o111})
        self.assertIn(hashlib.sha256((self.to / f"{ARCHIVE}.tar.gz").read_bytes()).hexdigest(), out)
        lines = files["MADE"][1].decode().splitlines()
        head = [it[2:] for it in lines if it.startswith("# ")]
        self.assertEqual("dsmon 1.2.3 for x86-64 Linux; it needs the C library", head[0])
        self.assertRegex(head[1], r"^commit [0-9a-f]{40} of 2026-11-29$")
        self.assertEqual(["kit toy kit", *(f"gate `.ci/run`: {it}" for it in ("2 passed, 0 failed", "7 refused, 0 not refused", "3 passed, 0 failed"))], head[2:6])
        self.assertTrue(head[6].startswith("proved: the crates dsmon, low, middle;") and head[7] == "with the kit's crates core, itoa, memchr, std")
        self.assertEqual({f"{hashlib.sha256(held).hexdigest()}  {name}" for name, (_, held) in files.items() if name != "MADE"}, set(lines[len(head):]))

    def test_the_same_commit_gives_the_same_bytes_and_a_release_with_others_stays(self):
        self.committed()
        self.said()
        path = self.to / f"{ARCHIVE}.tar.gz"
        first = path.read_bytes()
        (self.top / "README.md").touch()
        was = os.umask(0o077)
        self.addCleanup(os.umask, was)
        self.assertEqual([0, 0], [self.said(to=self.room / "elsewhere")[0], self.said()[0]])
        self.assertEqual(first, (self.room / "elsewhere" / path.name).read_bytes())
        with tarfile.open(path) as it:
            self.assertEqual({(0, 0, "", 1795953600)}, {(one.uid, one.gid, one.uname, one.mtime) for one in it})
            self.assertEqual(sorted(it.getnames()), it.getnames())
        path.write_bytes(b"other")
        self.assertEqual((2, f"release: {path} is there already, with other bytes\n"), self.said()[::2])
        self.assertEqual(b"other", path.read_bytes())

    def test_a_tree_that_is_not_clean_or_has_no_commit_has_no_release(self):
        self.committed()
        (self.top / "README.md").write_text("other", "utf-8")
        self.assert_refused("the tree isn't clean: README.md")
        (self.top / "more").touch()
        self.assert_refused("the tree isn't clean: README.md and 1 more")
        shutil.rmtree(self.top / ".git")
        self.assertRegex(self.said()[2], "^release: git status: fatal: not a git repository")

    def test_what_makes_no_release_is_told(self):
        for changed, why in REFUSED:
            with self.subTest(why):
                self.committed(**changed)
                self.assert_refused(why)
                self.assertLessEqual(len([*self.to.glob("gate-*.log")]), 1)
                shutil.rmtree(self.to, ignore_errors=True)

    def test_a_candidate_is_called_so_and_names_its_gate(self):
        self.committed()
        with mock.patch.object(COMMAND, "PROOFS", ["sh", "-c", ".ci/run >&2 && echo '9 passed, 0 failed' && test -f crates/dsmon/out/dsmon"]):
            self.assertEqual(0, self.said("--candidate")[0])
        self.assertIn(b"9 passed, 0 failed\n", self.packed("dsmon-1.2.3-candidate-x86_64-linux")["MADE"][1])

    def test_the_program_may_need_the_c_library_of_this_machine_alone(self):
        self.committed(program=PROGRAM + "# GLIBC_2.9 GLIBC_2.34 GLIBC_2.4\n")
        self.assert_refused("the program needs libm.so.6, and the C library alone is promised", needs=["linux-vdso.so.1", "libm.so.6", "libc.so.6"])
        self.assertEqual(0, self.said(needs=["linux-vdso.so.1", "libc.so.6", "/lib64/ld-linux-x86-64.so.2"])[0])
        self.assertIn(b"it needs the C library, glibc 2.34 or later", self.packed()["MADE"][1])
        with self.assertRaisesRegex(Refused, "^the program is none of this machine: "):
            COMMAND.libraries(__file__)

    def test_a_page_of_the_same_commit_comes_along_and_another_is_refused(self):
        commit, page = self.committed(), self.room / "page"

        def placed_page(said, more):
            shutil.rmtree(page, ignore_errors=True)
            placed(page, {"index.html": "<p>", **more, "MADE": f"{said.replace('COMMIT', commit)}\n{hashlib.sha256(b'<p>').hexdigest()}  index.html\n"})
        for told, more, why in PAGES:
            placed_page(told, more)
            self.assert_refused(f"the page in {page} {why.replace('COMMIT', commit)}", "--page", str(page))
        self.assert_refused(f"{self.room} has no page: there is no MADE, as tools/page.py writes it", "--page", str(self.room))
        placed_page("kit toy\ncommit 2d87c71a\ncommit COMMIT\nproved yes", {})
        self.assertEqual(0, self.said("--page", str(page))[0])
        self.assertEqual({"page/MADE", "page/index.html"}, {it for it in self.packed() if it.startswith("page/")})


class Parts(InARoom):
    def test_no_answer_of_today_goes_along(self):
        names = set(contents.examples(TOP))
        self.assertLessEqual({"labs/README.md", "labs/stopped.s", "hello.s"}, names)
        self.assertFalse([it for it in names if "answers" in it or it.endswith((".told", ".expected"))])

    def test_the_scripts_need_no_others(self):
        for it in contents.SCRIPTS:
            shutil.copy(TOP / "tools" / it, self.room)
        done = subprocess.run([sys.executable, self.room / "elf_to_policy.py", "--help"], capture_output=True, text=True)
        self.assertEqual((0, ""), (done.returncode, done.stderr))

    def test_documents_of_today_have_the_sections_of_the_manual_page(self):
        texts = contents.documents(TOP)
        for _, path, heading in SECTIONS:
            if path:
                formatted(section(texts, path, heading))

    def test_a_crate_that_the_kit_has_not_is_told(self):
        placed(self.room, {"crates.txt": "dsmon: nothing_like_it\n", **Tests.files})
        with self.assertRaisesRegex(Refused, "^the kit has no crate nothing_like_it$"):
            licences.linked(self.room, self.room / "kit", "dsmon")

    def test_crates_without_a_licence_are_listed(self):
        placed(self.room, KIT)
        files = licences.licences(self.room, "toy kit", ["core", "itoa", "std"])
        said = files["README"].decode()
        self.assertIn("- itoa: LICENSE\n", said)
        self.assertIn("- core: LICENSE-of-text-mod\n", said)
        self.assertIn("\n- core, std\n", said)
        self.assertEqual(b"Reads.\nPermission is hereby granted, free of charge.\n", files["core/LICENSE-of-text-mod"])

    def test_an_archive_has_its_folders_before_their_files(self):
        with tarfile.open(fileobj=io.BytesIO(archive("it", {"b/c/d": File(b"1"), "a": File(b"2", True)}, 5))) as it:
            self.assertEqual([("it", 0o755), ("it/a", 0o755), ("it/b", 0o755), ("it/b/c", 0o755), ("it/b/c/d", 0o644)], [(one.name, one.mode) for one in it])


class Pages(InARoom):
    def page(self, helps=HELPS):
        texts = {path: text for path, text in FILES.items() if path.endswith(".md") and "labs" not in path}
        return manual(helps, texts, "1.2.3", "2026-11-29")

    def test_the_page_has_what_the_program_says_and_the_documents(self):
        page = self.page()
        self.assertTrue(page.startswith('.TH DSMON 1 "2026-11-29" "dsmon 1.2.3"\n.SH NAME\ndsmon \\- runs a station\n.SH SYNOPSIS\n.B dsmon run [OPTIONS] <POLICY>\n'))
        for part in (".TP\n\\fB\\-\\-random <R>\\fP\nWhere it starts\n", ".TP\n0\ndone\n", ".TP\n1\nName: \\fBBadRandom\\fP; Status: 2\n", ".IP \\(bu 2\ntwo lines.\n",
                     ".nf\na = 1\n.fi\n", ".TP\n\\fBT key\\fP\na key\n", ".nf\nExample:\n  dsmon run a.toml\n.fi\n", "\\fIdocs/policy.md\\fP"):
            self.assertIn(part, page)

    def test_another_help_is_another_page(self):
        self.assertIn("\\fB\\-\\-quiet\\fP", self.page({**HELPS, "run": HELPS["run"].replace("--random <R>", "--quiet")}))

    def test_signs_of_the_formatter_are_escaped(self):
        self.assertEqual([".PP", "\\&.start \\fBa\\-b \\e \\(aq\\fP c\\ed, link"], formatted(".start `a-b \\ '` c\\d, [link](x.md)\n"))
        self.assertEqual([".PP", ".RS 4", ".nf", "\\&.word 0x1", "", "b", ".fi", ".RE"], formatted("    .word 0x1\n\n    b\n"))

    def test_a_bar_in_a_cell_stays(self):
        self.assertEqual([".TP", "a|b", "c"], formatted("| A | B |\n|---|---|\n| a\\|b | c |\n"))

    def test_formatters_have_nothing_to_say_of_it(self):
        page = self.room / "dsmon.1"
        page.write_text(self.page(), "utf-8")
        for words in (["mandoc", "-Tlint", "-W", "warning", page], ["groff", "-k", "-man", "-ww", "-z", "-Tutf8", page]):
            if shutil.which(words[0]):
                done = subprocess.run(words, capture_output=True, text=True)
                self.assertEqual("", done.stdout + done.stderr)
