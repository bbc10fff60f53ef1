"""Tests of tools/believe.py, over a toy crate: what a clause rests on, and what is told of a name, a page or a document that is wrong."""
from pathlib import Path

from believe.page import Asked, named_by, page
from believe.repository import Repository
from rooms import InARoom, placed, said, script, toy

COMMAND = script("believe")
FILES = toy("believe")
RUN, FAULT = "crates/toy/src/run.rt", "crates/toy/src/fault.rt"
HIGH, LOW, INNER, THEOREMS, GLOSSARY = "crates/toy/specs/Top.antt", "crates/toy/specs/Low.antt", "crates/toy/specs/Inner/Low.antt", "docs/theorems.md", "docs/glossary.md"
LISTS = [Asked("What is shown.", ["nothing"], RUN, "run", ["ok"]), Asked("The rest.", [], RUN, "run", ["err"])]
NEEDED = {"Holds", "Spot", "Parts", "Way", "turned", "straight", "Mood", "WORDS", "table", "firsts", "Place", "Fault", "Cause"}
COUNT = "\nabbrev pub count : Way → ℕ\ncount North = 0\ncount (South n) = n\n"
SHOWN_BELOW = "    // what is shown\n    run ensures ok { IfOk result (λ shown. Holds shown\n        place.now) }\n    // the rest\n    run ensures err { n ≡ n }\n"
OTHER = "-- Others.\nuse Rattle.std.specs.Prelude.{ℕ}\nuse Rattle.toy.specs.Low.{Way}\n\nabbrev pub turned : Way → ℕ\nturned way = 2\n"
AGAIN = "-- Again.\nuse Rattle.std.specs.Prelude.{◌+◌, ℕ}\nuse Rattle.toy.specs.Low.{Way, North, South}\n\n"
IMPORT = "use Rattle.toy.specs.Low as low\n"
TWO_TURNED = [(HIGH, "  pub glad", "  pub two : first_of.turned way ≡ 2\n  pub glad"), (HIGH, IMPORT, IMPORT + "use Rattle.toy.specs.Other as first_of\n"), ("crates/toy/specs/Other.antt", "", OTHER)]
# Edits, each of a file with what stands in it once and what takes its place, or of a file that is new; and what the page can't be written for then.
TOLD = [
    ([], []),
    ([(HIGH, "spot.parts.first", "spot.parts.second")], [f"{HIGH}:13: no type has the field `second`"]),
    ([(LOW, "abbrev pub straight : ℕ → ℕ\nstraight n", "abbrev pub plain : ℕ → ℕ\nplain n")], [f"{HIGH}:13: `Rattle.toy.specs.Low` has no `straight`"]),
    ([(LOW, "turned North = 0", "turned North = nothing")], [f"{LOW}:20: `nothing` leads nowhere"]),
    ([(FAULT, "    Glad,\n", "")], [f"{HIGH}:15: crates/toy/src declares no `fault.Mood.TheVariants.Glad`"]),
    ([(FAULT, "    Of(Cause),", "    Of(Reason),")], [f"{FAULT}:8: `Reason` leads nowhere"]),
    ([(RUN, "    ensures err { n ≡ n }\n", "    ensures err { n ≡ n }\n    ensures more { n ≡ n }\n")], [f"{RUN}: clause `more` of `run` is in no list of tools/believe/lists.toml"]),
    ([(RUN, "    ensures err { n ≡ n }\n", "    ensures error { n ≡ n }\n")],
     [f"{RUN}: `run` has no clause `err`", f"{RUN}: clause `error` of `run` is in no list of tools/believe/lists.toml"]),
    ([(LOW, "-- a way, turned", "-- no list has it\nabbrev pub odd : ℕ\nodd = 1\n\n-- a way, turned")], [f"{LOW}:19: `odd` is in no list, and stands neither below Inner nor below Rows"]),
    ([(LOW, "shown (Some hidden) = hidden", "shown (Some other) = hidden")], [f"{INNER}:6: `hidden` is in a list, and stands below Inner or Rows"]),
    (TWO_TURNED, [f"`turned` stands for several things, and not in docs/glossary.md, Homonyms: {LOW}:19, crates/toy/specs/Other.antt:5"]),
    ([*TWO_TURNED, (GLOSSARY, "", "**Holds.** What holds.\n\n**Homonyms.** On purpose: `turned`.\n\n**Spot.** A `Spot`.\n")], []),
    ([*TWO_TURNED, (GLOSSARY, "", "**Homonyms.** On purpose: `turned` and `straight`.\n")], ["docs/glossary.md: `straight` of Homonyms doesn't stand for several things"]),
    # A definition that is there twice is one thing.
    ([(HIGH, "≡ low.straight", "≡ second.turned way + low.straight"), (HIGH, IMPORT, IMPORT + "use Rattle.toy.specs.Again as second\n"), (HIGH, "{◌≡◌,", "{◌≡◌, ◌+◌,"),
      ("crates/toy/specs/Again.antt", "", AGAIN + FILES[LOW][FILES[LOW].index("-- a way, turned"):FILES[LOW].index("-- a number as it is")])], []),
]
# Edits, and what `ok` rests on then: all of these, and none of those.
RESTS = [
    ([], NEEDED, {"unneeded", "hidden", "Unneeded"}),
    ([(HIGH, "turned way ≡ low.straight", "0 ≡ low.straight")], {"Way"}, ()),
    ([(HIGH, "pub way : Road", "pub way : turned North ≡ 0")], {"Way"}, ()),
    ([(HIGH, "  pub glad : mood.Glad ≡ mood.Glad\n", "")], NEEDED - {"Mood"}, {"Mood"}),
    ([(HIGH, "turned way ≡ low.straight", "spare ≡ low.straight")], {"unneeded", "hidden"}, ()),
    ([(LOW, "shown (Some hidden) = hidden", "shown (Some other) = hidden")], {"hidden"}, ()),
]
# Edits of the document and of the sources after the page was written, what is told, and whether writing it anew puts the document right.
SHOWN = [
    ([], "docs/believe.md has the definitions on which 2 lists of clauses rest\n", ()),
    ([(THEOREMS, "Holds shown\n        place.now) }", "Holds shown place) }")], f"docs/theorems.md:3: clause `ok` of `run` is not as {RUN} has it\n", FILES[THEOREMS]),
    ([(THEOREMS, FILES[THEOREMS], SHOWN_BELOW)], "docs/believe.md has the definitions on which 2 lists of clauses rest\n", SHOWN_BELOW),
    ([(THEOREMS, FILES[THEOREMS], SHOWN_BELOW.replace("n ≡ n", "n ≡ m"))], f"docs/theorems.md:5: clause `err` of `run` is not as {RUN} has it\n", SHOWN_BELOW),
    ([(THEOREMS, "    run ensures err { n ≡ n }\n", "    run ensures more { n ≡ n }\n")],
     "docs/theorems.md: clause `err` of `run` is not shown\ndocs/theorems.md:8: no `run` of the lists has a clause `more`\n", ()),
]


class Believe(InARoom):
    files = FILES

    def put(self, edits=()):
        """Writes all files of the toy anew, with these edits."""
        files = dict(FILES)
        for path, old, new in edits:
            self.assertEqual(1 if old else 0, files.get(path, "").count(old) if old else path in files, (path, old))
            files[path] = files[path].replace(old, new) if old else new
        for it in {path for edits, _ in TOLD for path, *_ in edits} - FILES.keys():
            Path(self.room, it).unlink(missing_ok=True)
        placed(self.room, files)

    def reached(self, *clauses):
        repository = Repository(self.room)
        return {it.name: it for it in repository.rests_on(named_by(repository, RUN, "run", clauses)[1].found.values()).values()}

    def main(self, *words):
        return said(COMMAND.main, list(words), self.room, LISTS)[:2]

    def test_a_clause_rests_on_what_it_names_and_on_nothing_else(self):
        self.assertEqual(NEEDED, set(self.reached("ok")))
        self.assertEqual({"Place", "Fault", "Cause", "Spot", "Parts"}, set(self.reached("err")))
        for edits, wanted, others in RESTS:
            self.put(edits)
            found = set(self.reached("ok"))
            self.assertEqual((set(), set()), (wanted - found, found.intersection(others)), edits)

    def test_what_the_page_cannot_be_written_for_is_told(self):
        for edits, wanted in TOLD:
            self.put(edits)
            self.assertEqual(wanted, page(Repository(self.room), LISTS)[1], edits)
        self.put([(LOW, "turned North = 0", "turned North = nothing")])
        status, told = self.main("--check")
        self.assertEqual(1, status)
        self.assertIn(f"{LOW}:20: `nothing` leads nowhere", told)

    def test_lines_are_those_of_definitions_with_their_comments(self):
        found = {name: (it.line, len(it.own), it.comments) for name, it in self.reached("ok").items()}
        wanted = {"Holds": (10, 7, 2), "turned": (19, 4, 1), "straight": (24, 10, 1), "Fault": (5, 6, 2), "WORDS": (18, 2, 1)}
        self.assertEqual(wanted, {name: found[name] for name in wanted})
        place = self.reached("ok")["Place"]  # (a value with a model is known by its value alone)
        self.assertEqual((4, 1, 5), (len(place.own), place.comments, place.own[1]))

    def test_the_page_has_what_each_list_has_besides_those_before_it(self):
        text, _ = page(Repository(self.room), LISTS)
        for line in ("| 1. `run` | `ok` | 6 | 24 | 7 | 23 | 24 |", "| 2. `run` | `err` | 0 | 0 | 0 | 0 | 24 |", "On 2 of the definitions rests a worked row.",
                     "| `toy` | 5 | 1 | 13 |"):  # nothing needs unneeded twice, hidden, count and with_all
            self.assertIn(line, text)
        self.assertNotIn("`count`", text)
        self.assertLess(text.index("specs/Top.antt"), text.index("specs/Low.antt"))

    def test_laws_are_functions_that_do_nothing(self):
        self.put([(INNER, COUNT, ""), (LOW, "-- a way, turned", COUNT[1:] + "\n-- a way, turned"), ("crates/toy/src/laws.rt", "specs.Inner.Low", "specs.Low")])
        text, told = page(Repository(self.room), [*LISTS, Asked("What is true.", [], laws=["toy"])])
        self.assertEqual([], told)
        self.assertIn("| 3. The laws of `toy` | one law | 1 | 3 | 0 | 0 | 27 |", text)

    def test_a_page_that_differs_is_told_until_it_is_written(self):
        self.assertEqual((1, "docs/believe.md lacks lines\nrun tools/believe.py\n"), self.main("--check"))
        self.assertEqual([0, 0], [self.main()[0], self.main("--check")[0]])
        self.put([(HIGH, "-- it is shown\n", "-- it is\n-- shown\n")])
        self.assertEqual(1, self.main("--check")[0])

    def test_a_clause_that_is_shown_otherwise_or_not_is_told_and_written_anew(self):
        self.main()
        for edits, told, mended in SHOWN:
            self.put(edits)
            self.assertEqual((int("has the" not in told), told), self.main("--check"))
            if mended:
                self.main()
                self.assertEqual(mended, (self.room / THEOREMS).read_text("utf-8"))

    def test_any_function_is_told_by_its_file(self):
        status, told = self.main("--of", RUN, "run", "err")
        self.assertEqual(0, status)
        self.assertIn(f"{LOW}:6: Spot, 3 lines\n", told)
        self.assertEqual((1, f"{RUN}: has no function `walk`\n"), self.main("--of", RUN, "walk"))
