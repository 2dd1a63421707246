"""What the ledger names is there, and says what it said: tests/ledger, and what it sees."""

import contextlib
import io
import os
import re
import shutil

from base import PROGRAM, TOP, ToolTest, script

ROWS, WORKED = "cache_core/proofs/WindowRows.antt", "worked_examples/src/profiles.rt"
EDIT = "crates/sweep_core/must-fail/named_row_again.edit"
READ, TASK, LAWS = "trace_core/src/io.rt", "trace_core/specs/Task.antt", "sweep_core/src/laws.rt"
# the ledger, and what it imports
PARTS = [f"tests/{name}" for name in (
    "ledger common.py contracts.py documents.py facts.py facts_of_code.py facts_of_measures.py "
    "figures.py limits_memory.py").split()]
AGAIN = "after a look, tests/ledger --write"
FLUSHED = "  pub flushes : sink'.flushes ≡ one_more sink.flushes\n"


class TheLedger(ToolTest):
    def test_as_it_stands(self):
        ran = self.run_command(TOP / "tests/ledger")
        self.assertEqual(ran.returncode, 0, ran.stdout.decode()[-2000:])

    def copy(self):
        """A copy of the contracts, the ledger, and what it counts."""
        ignored = shutil.ignore_patterns("out")
        for name in ("crates", "tests/cases", "tests/measured", "tests/mutants", "docs", "examples",
                     "tools/lab"):
            shutil.copytree(TOP / name, self.folder / name, ignore=ignored, dirs_exist_ok=True)
        for name in (*PARTS, "tests/limits", "README.md", "HANDLES", "Makefile", ".ci/run",
                     "tests/names", "tests/sums"):
            (self.folder / name).parent.mkdir(exist_ok=True)
            shutil.copy(TOP / name, self.folder / name)
        self.write("tests/try-mutants", "")
        self.assertEqual(self.ledger("--write")[0], 0)

    def ledger(self, *words):
        """Its status and what it writes."""
        ran = self.run_command(self.folder / "tests/ledger", *words)
        return ran.returncode, ran.stdout.decode()

    @contextlib.contextmanager
    def changed(self, file, old, new):
        """One change, which is undone."""
        path = self.folder / file
        before = path.read_text()
        changed = re.sub(old, new, before, count=1, flags=re.S)
        self.assertNotEqual(changed, before)
        path.write_text(changed)
        try:
            yield
        finally:
            path.write_text(before)

    def fails_after(self, file, old, new, text):
        """One change, which must be seen and told so."""
        with self.subTest(file=file, old=old), self.changed(f"crates/{file}", old, new):
            status, told = self.ledger()
            self.assertEqual(status, 1)
            self.assertRegex(told, text)

    def test_changes_of_contracts(self):
        self.copy()
        passed, again = r"ensures passed \{ ReadConsumes", AGAIN
        self.fails_after(READ, passed, "ensures moved { ReadConsumes",
                         "FAILED FromRead::read.passed: there is no")
        self.fails_after(TASK, re.escape(FLUSHED), FLUSHED.replace("≡", "≤"),
                         f"FAILED trace_core::Finished.flushes: {again}")
        law, pages = "sweep_core::laws::pages", r"pub fn pages\(\)"
        for old, new, text in (
            (rf"{pages}\n    ensures \{{", r"\g<0> 1 ≡ 2 →", f"FAILED {law}: {again}"),
            (rf"{pages}\n", r"\g<0>    requires { 1 ≡ 2 }\n", rf"{law} \(requires\)"),
            (pages, "pub fn pages_of()", f"FAILED {law}: there is no such law"),
        ):
            self.fails_after(LAWS, old, new, text)
        self.fails_after("cache_core/specs/Windows.antt", r"nat_lt \(", "nat_le (",
                         f"FAILED cache_core.Windows: {again}")

    def test_names_without_a_clause(self):
        """A function, a record or a definition that a row names, and that has another name now."""
        self.copy()
        told = "there is no such function, record or definition"
        for file, old, new, name in (
            ("src/feeding.rt", r"fn catch_up\(", "fn catch_all_up(", "catch_up"),
            ("src/space/configs.rt", r"fn next\(", "fn following(", "Configs::next"),
            ("specs/SweepText.antt", r"\bsweep_task :", "task_of_sweep :", "sweep_task"),
        ):
            self.fails_after(f"sweep_core/{file}", old, new, f"FAILED {name}: {told}")

    def test_changes_of_what_clauses_cite(self):
        """A clause's words may mean another thing: by a view, a constant, an import, a comment."""
        self.copy()
        self.fails_after(READ, r"W\.contents s\.writer else None", "None else None",
                         f"FAILED trace_core.io: {AGAIN}")
        self.fails_after("trace_core/src/limits.rt", "1_099_511_627_776", "1_099_511_627_775",
                         r"FAILED trace_core.limits MAX_LINES: .*\n"
                         r"    was: 1_099_511_627_776\n    is: 1_099_511_627_775\n")
        some = r"OnOk}\nuse Rattle.trace_core.proofs.Runs.{IfSome}"
        self.fails_after(TASK, r"IfSome, OnOk\}", some, "FAILED trace_core.Task: IfSome")
        self.fails_after(READ, "^", "ghost use Rattle.trace_core.proofs.Runs.{a_lemma};\n",
                         "FAILED trace_core.io: a_lemma of ")
        self.fails_after("sweep_core/specs/Space.antt", "nat_lt, nat_le,",
                         "nat_le as nat_lt, nat_le,", "Space: nat_le as nat_lt of ")
        self.fails_after("callers/proofs/readers/all_entries/Invariants.antt", "^",
                         "use Rattle.trace_core.proofs.Runs.{a_lemma}\n",
                         "FAILED callers.readers.all_entries.Invariants: a_lemma of ")
        work = r"(    ensures work \{.*?\}\n)\{"
        self.fails_after("sweep_core/src/sweep.rt", work, r"    /*\n\1    */\n{",
                         "FAILED sweep.work: there is no such clause")
        size = r" +ensures \{ result ≡ size_of self\.now \}\n"
        self.fails_after("cache_core/src/geometry.rt", size, "", r"cache_core::Geometry::size: .*\n"
                         r"    was: result ≡ size_of self.now\n    is: nothing\n")

    def test_a_mutant_that_cannot_be_tried(self):
        self.copy()
        told = "print('low half: (FAILED: it is gone)\\nlow third: good')\n"
        self.write("tests/try-mutants", f"{told}raise SystemExit(1)\n")
        status, told = self.ledger()
        self.assertEqual(status, 1)
        self.assertIn("FAILED tests/try-mutants --list: low half: (FAILED: it is gone)\n", told)
        self.assertNotIn("third", told)

    def test_clauses_that_no_row_names(self):
        """They are as they were, those of a function that nobody may call from outside too."""
        self.copy()
        for file, old, name in (
            ("profile_core/src/profile.rt", r"ensures value \{ result ≡ held_of [^}]*\}\n",
             "profile_core.profile"),
            ("cache_core/src/simulation.rt", r"ensures counted \{[^}]*\}\n",
             "cache_core.simulation"),
            ("trace_core/src/line.rt", r"ensures meant \{[^}]*\}\n", "trace_core.line"),
        ):
            self.fails_after(file, old, "", f"FAILED {name}: {AGAIN}")
        self.fails_after("callers/src/policies.rt", r"ensures ", "requires ",
                         f"FAILED callers.policies: {AGAIN}")

    def test_what_is_counted(self):
        """A file of cases, a case, a worked row of each kind, an edit, a control, a command of a
        document are missed."""
        self.copy()
        for name, of in (("tests/cases/log.cases",) * 2, (EDIT, "crates/sweep_core")):
            path = self.folder / name
            path.rename(self.folder / "away")
            status, told = self.ledger()
            self.assertEqual(status, 1)
            self.assertIn(f"FAILED {of}: {AGAIN} {of} ", told)
            (self.folder / "away").rename(path)
        out_of_it = "\n\n<!-- not run: slow -->\n\n    $ "
        for file, old, new, told in (
            ("tests/cases/din.cases", r"== \S+\n.*?\n\n(?===)", "",
             r"was: \d+ cases\n    is: \d+ cases"),
            (EDIT, "^(.*)right: .*?\n", r"\1", r"FAILED crates/sweep_core: (?s:.*)is: \d+ edits"),
            ("docs/cookbook.md", r"\n\n    \$ ", out_of_it, "FAILED docs/cookbook.md: "),
            (f"crates/{ROWS}", r"nine_held : .*?refl\n", "", "FAILED crates/cache_core: "),
            (f"crates/{WORKED}", r"#\[test\]\n", "", "FAILED crates/worked_examples: "),
            ("tests/mutants/options.edits", "goal: ", "none: ",
             r"was: \d+ mutants\n    is: \d+ mutants"),
        ):
            self.fails_after(f"../{file}", old, new, told)

    def test_numbers(self):
        """None that is compared is lost, and none comes that isn't; the other way round it may."""
        self.copy()
        for file, old, new in (
            ("docs/speed.md", "A C run for each", "One C run of each"),
            ("docs/cookbook.md", "A trace has a fetch", "In 3 days a trace has a fetch"),
        ):
            told = rf"\d+ of \d+ numbers are compared: \d+ of \d+ were: {AGAIN} {file}"
            self.fails_after(f"../{file}", old, new, f"FAILED {file}: {told} keeps what is")
        with self.changed("docs/cookbook.md", "Tracing takes 10 to 30 ns", "Tracing takes some ns"):
            self.assertEqual(self.ledger()[0], 0)

    def test_what_is_promised(self):
        """The words of a promise, of a definition, of what the gate runs are shown."""
        self.copy()
        for file, old, new, told in (
            ("docs/proofs.md", r"Feeding never fails \|.*?\n", "", "was: Feeding never fails"),
            ("README.md", "exactly one row", "one row", "is: a sweep .* header, and one row for"),
            ("docs/definitions.md", "below E\\.", "up to E.", "is: .* has a distance up to E"),
            ("HANDLES", "none", "Threads", "is: Handles allowed: Threads"),
            (".ci/run", "exec make .*", "exec tests/run", "is: cd .* exec tests/run"),
            ("Makefile", "python3 tests/all", "true tests/all", "is: test: kit; @true tests/all"),
        ):
            self.fails_after(f"../{file}", old, new, rf"FAILED {re.escape(file)}: (?s:.*){told}")

    def test_harmless_changes(self):
        """A comment, a word of a page, what moves, another name: these need no second file."""
        self.copy()
        moved = r"(\n\}\n)(.*?fn finest_size.*?\n\}\n)(.*)\Z"
        for file, old, new in (
            ("crates/cache_core/src/geometry.rt", "/// ", "/// Not "),
            ("crates/cache_core/specs/Geometry.antt", "-- the size in", "-- no size in"),
            ("crates/cache_core/CALLING.md", "16 bytes for each line", "15 bytes for each line"),
            ("crates/sweep_core/src/feeding.rt", moved, r"\1\3\2"),
            ("crates/sweep_core/src/pass.rt", "fn feed_item", "fn feed_an_item"),
            (f"crates/{WORKED}", "fn ", "fn other_"), ("tests/limits", "# ", "# Some "),
            ("tests/cases/din.cases", "== (?=din)", "== another-"),
            ("docs/speed.md", "ways", "associativity"), ("docs/PERF.md", "a", "an"),
            ("docs/definitions.md", "reference hits if", "reference\nhits if"),
            ("Makefile", "puts it, tools", "puts tools"), (EDIT, "old: ", "old:  "),
        ):
            with self.subTest(file=file), self.changed(file, old, new):
                status, told = self.ledger()
                self.assertEqual(status, 0, told[-500:])

    def test_a_change_is_acknowledged(self):
        """Only what is named is renewed, and shown; without a name all."""
        self.copy()
        path = self.folder / "crates" / TASK
        text = path.read_text().replace(FLUSHED, FLUSHED.replace("≡", "≤"))
        path.write_text(text)
        readme = self.folder / "README.md"
        readme.write_text(readme.read_text().replace("exactly one row", "one row"))
        status, told = self.ledger("--write", "trace_core")
        self.assertEqual(status, 1)
        flushed = "trace_core::Finished.flushes: sink'.flushes"
        self.assertIn(f"\n-{flushed} ≡ one_more sink.flushes\n", told)
        self.assertIn(f"\n+{flushed} ≤ one_more sink.flushes\n", told)
        self.assertEqual(re.findall("FAILED .*?:", told), ["FAILED README.md:"])
        self.assertIn(f"{flushed} ≤", (self.folder / "tests/clauses").read_text())
        self.assertEqual(self.ledger("--write", "README", "docs/")[0], 0)
        self.assertEqual(self.ledger()[0], 0)
        ran = self.run_command(self.folder / "tests/ledger", "--write", "readme")
        self.assertEqual(ran.returncode, 2)
        self.assertIn(b"no line begins with readme", ran.stderr)


class Sums(ToolTest):
    """As many cases as a script of the gate has run before, and under the same names."""

    def setUp(self):
        super().setUp()
        self.common = script("common.py")
        self.common.SUMS, self.common.NAMES = self.folder / "sums", self.folder / "names"
        self.common.LEFT = self.folder / "out"

    def ended(self, *names, failed=0, script="limits"):
        """The status of a script that has run cases of these names."""
        total = self.common.Sum()
        for name in names:
            total.judge(name, True, is_shown=False)
        total.add(0, failed)
        with contextlib.redirect_stdout(io.StringIO()) as told:
            status = total.end(script)
        return status, told.getvalue()

    def test_a_case_that_is_lost(self):
        status, told = self.ended("one", "at most 2")
        self.assertEqual(status, 1)
        self.assertIn("FAILED tests/limits: after a look, tests/ledger --write tests/limits keeps "
                      "what is\n    was: nothing\n    is: 2 cases\n    is: at most 2\n", told)
        shutil.copy(self.folder / "out/limits", self.folder / "names")
        self.assertEqual(self.ended("at most 2", "one"), (0, "2 passed, 0 failed\n"))
        for names in ("one",), ("one", "at most 2", "three"), ("one", "at most 3"), ("one",) * 2:
            self.assertEqual(self.ended(*names)[0], 1)
        self.assertEqual(self.ended(), (1, "FAILED: nothing was tested\n0 passed, 1 failed\n"))
        # of several cases of a name one has another name, which others have too
        for names, status in ((["one", "one", "two"], 1), (["one", "one", "two"], 0),
                              (["one", "two", "two"], 1)):
            self.assertEqual(self.ended(*names)[0], status)
            shutil.copy(self.folder / "out/limits", self.folder / "names")
        # of a run of some cases, or one that has failed, nothing is compared or left
        shutil.rmtree(self.folder / "out")
        self.assertEqual(self.ended("one", script=None)[0], 0)
        self.assertEqual(self.ended("one", failed=1), (1, "1 passed, 1 failed\n"))
        self.assertFalse((self.folder / "out").exists())

    def test_a_program_that_is_older(self):
        """Than a source or a definition; not than a proof, or what is not built."""
        self.common.TOP = self.folder
        program = self.write("program", "")
        for name, is_older in (
            ("low/proofs/a/Answers.antt", False), ("worked_rows/src/rows.rt", False),
            ("callers/src/readers.rt", False), ("low/specs/in/Sets.antt", True),
            ("low/src/in/sets.rt", True),
        ):
            path = self.folder / "crates" / name
            path.parent.mkdir(parents=True)
            self.write(path, "")
            os.utime(program, (path.stat().st_mtime - 1,) * 2)
            self.assertEqual(self.common.changed_since(program), path if is_older else None)
            os.remove(path)

    def test_scripts_are_compared(self):
        """Where a line of tests/sums is another one, the run fails, and tests/ledger mends it."""
        for name in ("tests/spec-names", "tests/run", *PARTS):
            (self.folder / "tests").mkdir(exist_ok=True)
            shutil.copy(TOP / name, self.folder / "tests")
        shutil.copytree(TOP / "tests/measured", self.folder / "tests/measured")
        self.write("tests/try-mutants", "")
        self.write("tests/sums", "tests/run: 3 cases\ntests/limits: 9 cases\n")
        self.write("tests/names", "tests/run: three\ntests/limits: nine\n")
        (self.folder / "tests/cases/inputs").mkdir(parents=True)
        self.write("tests/cases/one.cases", "== one\n$ cachesim --help\n>~ sweep\n")
        for name in ("examples", "docs", ".ci"):
            (self.folder / name).mkdir()
        for name in ("README.md", "Makefile", "HANDLES", ".ci/run", "docs/definitions.md"):
            shutil.copy(TOP / name, self.folder / name)
        self.write("docs/proofs.md", "## Promises\n")
        run = self.folder / "tests/run", "--program", PROGRAM
        ran = self.run_command(*run)
        self.assertEqual(ran.returncode, 1)
        told = ("FAILED tests/run: after a look, tests/ledger --write tests/run keeps what is\n"
                "    was: 3 cases\n    was: three\n    is: 1 cases\n    is: one\n"
                "1 passed, 1 failed\n")
        self.assertEqual(ran.stdout.decode(), told)
        ledger = self.folder / "tests/ledger", "--write"
        self.assertEqual(self.run_command(*ledger).returncode, 0)
        for name, kept in (("sums", ["tests/limits: 9 cases", "tests/run: 1 cases"]),
                           ("names", ["tests/limits: nine", "tests/run: one"])):
            self.assertEqual((self.folder / "tests" / name).read_text().splitlines()[:2], kept)
        self.assertEqual(self.run_command(*run).returncode, 0)
        self.assertEqual(self.run_command(*run, "one").returncode, 0)
        # what another script left, perhaps of a change that is no more, waits until it is asked for
        self.write("out/sums/limits", "tests/limits: 8 cases\ntests/limits: eight\n")
        for name, count in (("tests/run", 9), ("tests/limits", 8)):
            self.good(self.run_command(*ledger, name))
            sums = (self.folder / "tests/sums").read_text()
            self.assertIn(f"tests/limits: {count} cases\n", sums)
        # another case of the same file in its place
        self.write("tests/cases/one.cases", "== two\n$ cachesim --help\n>~ sweep\n")
        self.assertEqual(self.run_command(*run).returncode, 1)
