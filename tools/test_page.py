"""Tests of tools/page.py and of the page: what it is made of, and, where node is installed, the page's own scripts (tools/page/*_test.js)."""
import base64
import contextlib
import shutil
import subprocess
import unittest
from unittest import mock

from page import examples, files, program, wasm
from rooms import TOP, InARoom, placed, said, script, toy

COMMAND = script("page")
NODE = shutil.which("node")
TESTS = sorted((TOP / "tools/page").glob("*_test.js"))
if not NODE:
    print("skipped: node is not installed")
# The module of a program, and a kit whose `rt` builds an object file of what stands in the crate's folder, by its clang.
MODULE, RT, CLANG = toy("page").values()


class Made(InARoom):
    files = {
        "top/crates/dsmon/module.bc": "a module", "top/crates/dsmon/out/dsmon.stamp": "a stamp",
        "kit/bin/rt": RT, "kit/bin/rtlib.py": "", "kit/bin/rattle": "", "kit/toolchain/bin/clang": CLANG, "kit/KIT-ID": "a kit\n",
    }

    def setUp(self):
        super().setUp()
        self.top, self.kit, self.room = (self.room / it for it in ("top", "kit", "room"))
        self.crate = self.top / "crates/dsmon"
        for it in (self.room, self.kit / "toolchain/lib"):
            it.mkdir()
        for it in self.kit.glob("**/bin/*"):
            it.chmod(0o755)

    def test_a_kit_of_links_keeps_what_its_clang_is_given(self):
        rt = program.linked(self.kit, self.room / "kit", self.room / "kept.bc")
        subprocess.run([rt, "run"], cwd=self.crate, check=True)
        for it in (self.room / "kept.bc", self.crate / "out/dsmon.o"):
            self.assertEqual("a module", it.read_text("utf-8"))
        self.assertEqual([True, False], [(self.room / "kit/bin" / it).is_symlink() for it in ("rattle", "rt")])
        self.assertEqual(CLANG, (self.kit / "toolchain/bin/clang").read_text("utf-8"))

    def test_the_module_of_the_proved_program_has_its_sum(self):
        placed(self.crate, {"out/dsmon.o": "a module"})
        module, made = program.proved(self.top, self.kit, self.room)
        self.assertEqual(("a module", files.sum_of(module)), (module.read_text("utf-8"), made))
        self.assertEqual(("run -- demo\n", "a stamp"), ((self.crate / "said").read_text("utf-8"), (self.crate / "out/dsmon.stamp").read_text("utf-8")))

    def test_without_the_proved_program_no_page_is_made_and_that_program_stays(self):
        for number, (held, rt, why) in enumerate([(None, RT, "rt run -- demo"), ("another module", RT, "another program"), ("a module", "#!/bin/sh\necho why\nexit 1\n", "(?s)does not build.*why")]):
            placed(self.crate, {"out/dsmon.o": held} if held else {})
            placed(self.kit, {"bin/rt": rt})
            (self.room / f"{number}").mkdir()
            with self.assertRaisesRegex(program.Refused, why):
                program.proved(self.top, self.kit, self.room / f"{number}")
            self.assertEqual(held is not None, (self.crate / "said").exists())
            self.assertEqual(held or "", (self.crate / "out/dsmon.o").read_text("utf-8") if held else "")

    def test_a_try_needs_no_proved_program(self):
        self.assertEqual("a module", program.built(self.crate, self.kit, self.room, "try").read_text("utf-8"))
        self.assertEqual("try -- demo\n", (self.crate / "said").read_text("utf-8"))

    def test_a_folder_with_other_files_is_refused(self):
        placed(self.room, {"mine": ""})
        status, out, _ = said(COMMAND.main, [str(self.room)], self.top)
        self.assertEqual(1, status)
        self.assertIn("other files", out)


class Whole(InARoom):
    """The whole tool over a module that is made up."""

    files = {"KIT-ID": "a kit\n", "module.bc": "a module"}

    def made(self, wasm_opt):
        """Makes the page with a `wasm-opt` of this name, and returns what is said, and the text of each file by its name."""
        to = self.room / "to"
        stand_ins = {
            "page.program.installed": lambda: self.room, "page.program.built": lambda *_: self.room / "module.bc",
            "page.wasm.compiled": lambda kit, module, room, to: to.write_bytes(b"64 bits"), "page.wasm.lowered": lambda wasm_opt, module, to: to.write_bytes(b"32 bits"),
            "shutil.which": lambda name: wasm_opt}
        with contextlib.ExitStack() as now:
            for what, value in stand_ins.items():
                now.enter_context(mock.patch(what, value))
            status, out, _ = said(COMMAND.main, ["--try", str(to)])
        self.assertEqual(0, status)
        return out, {it.name: it.read_text("utf-8") for it in to.iterdir()}

    def test_the_folder_has_the_page_and_of_what_it_was_made_and_is_the_same_again(self):
        _, made = self.made("wasm-opt")
        self.assertEqual({it.name for it in (TOP / "page").iterdir()} | {"examples.js", "made.js", "dsmon.wasm", "dsmon32.wasm", "dsmon.html", "MADE"}, set(made))
        for line in ("kit a kit\n", "proved no\n", f"{files.sum_of(self.room / 'to/dsmon.html')}  dsmon.html\n"):
            self.assertIn(line, made["MADE"])
        self.assertIn(base64.b64encode(b"32 bits").decode(), made["dsmon.html"])
        self.assertEqual(made, self.made("wasm-opt")[1])

    def test_without_wasm_opt_the_twin_is_left_out_and_that_is_told(self):
        self.made("wasm-opt")
        out, made = self.made(None)
        self.assertIn("binaryen", out)
        self.assertNotIn("dsmon32.wasm", made)
        self.assertIn(base64.b64encode(b"64 bits").decode(), made["dsmon.html"])


class ForWasm(unittest.TestCase):
    def test_five_things_are_changed_and_all_else_stays_as_it_is(self):
        text = wasm.for_wasm(MODULE)
        kept = [it for it in MODULE.splitlines() if it.startswith(("define i32 @\"", "  %r", "  ret i32 %r", "attributes #1", "attributes #2", "attributes #3"))]
        for part in (
            wasm.LAYOUT, wasm.TRIPLE, *kept,
            # start stands in the place of main, and makes its call
            'define i32 @start() #100000 {\n  %r = call i32 @"std+start"()\n  ret i32 %r\n}', 'attributes #100000 = { nounwind "wasm-export-name"="start" }',
            # each function of C is an import, and keeps its attributes
            "declare i32 @open(ptr, i32, ...) #100001\n", 'attributes #100001 = { nounwind willreturn "wasm-import-module"="env" "wasm-import-name"="open" }',
            "declare i32 @rattle_errno() #100002\n", 'attributes #100002 = { nounwind "wasm-import-module"="env" "wasm-import-name"="rattle_errno" }',
            "declare ptr @memcpy(ptr, ptr, i64) #2\n", "declare void @llvm.trap() #3\n",
        ):
            self.assertIn(part, text)
        for word in ("x86", "probe-stack", "target-cpu", "@main", "__sysv_signal"):
            self.assertNotIn(word, text)

    def test_a_module_that_names_no_target_is_refused(self):
        with self.assertRaises(ValueError):
            wasm.for_wasm(MODULE.replace("target triple", "; target triple"))


class Examples(unittest.TestCase):
    def test_each_policy_and_each_bare_guest_of_the_examples_is_there_once_with_its_texts(self):
        found = {it["name"]: it for it in examples.examples(TOP)}
        wanted = {f"{folder}/{it.stem}".removeprefix("examples/") for folder in examples.FOLDERS for it in (TOP / examples.DATA / folder).glob("*.s" if folder.endswith("bare") else "*.toml")}
        self.assertEqual(sorted(wanted), sorted(it["name"] for it in examples.examples(TOP)))
        for it in found.values():
            with self.subTest(it["name"]):
                self.assertGreater(len(it["about"]), 20)
                self.assertNotIn("`", it["about"])
                self.assertTrue(it["sources"] and all(it["sources"].values()))
                self.assertEqual(it["command"] == "trace", bool(it["policy"]))
                self.assertLessEqual(it["ticks"], examples.MOST_TICKS)
        self.assertEqual(["apart.s", "apart_busy.s"], list(found["apart_busy"]["sources"]))
        self.assertEqual((20, "trace"), (found["denied_store"]["ticks"], found["denied_store"]["command"]))
        self.assertIn("--only denials", found["labs/reach"]["flags"])


class OneFile(InARoom):
    def test_scripts_stand_whole_and_nothing_is_fetched(self):
        files.copied(TOP / "page", self.room)
        placed(self.room, {"examples.js": examples.script(TOP), "made.js": files.made_script({"proved": "no"}), "a.wasm": bytes(range(256))})
        text = files.one_file(self.room, self.room / "a.wasm")
        self.assertNotRegex(text, r"<script src|<link |https?://(?!www\.w3\.org/2000/svg)")
        self.assertEqual(text.count("<script>"), text.count("</script>"))
        self.assertGreater(text.count("<script>"), 15)
        self.assertIn("globalThis.dsmon ||= {}).within = ", text)

    def test_each_file_of_the_page_is_in_it_and_is_short(self):
        index = (TOP / "page/index.html").read_text("utf-8")
        named = {*files.SCRIPT.findall(index), *files.STYLE.findall(index), "index.html", "worker.js"} - {"examples.js", "made.js"}
        self.assertEqual(sorted(named), sorted(it.name for it in (TOP / "page").iterdir()))
        for it in (TOP / "page").iterdir():
            self.assertLess(len(it.read_text("utf-8").splitlines()), 400, it.name)


class Scripts(unittest.TestCase):
    @unittest.skipUnless(NODE, "node is not installed")
    def test_the_scripts_of_the_page_pass_their_tests(self):
        done = subprocess.run([NODE, "--test", "--test-reporter=spec", *TESTS], stdin=subprocess.DEVNULL, capture_output=True, text=True, errors="replace")
        self.assertEqual(0, done.returncode, done.stdout + done.stderr)
