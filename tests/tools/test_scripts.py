"""The scripts of tests/: which of them the gate runs, and what the quickest finds."""

import os
import re

import base
from test_tables import table

# Its cost is seconds, but make test is to need no package beyond Python and a C compiler
ELSEWHERE = {"against_cachegrind"}


class Scripts(base.ToolTest):
    def test_the_gate_runs_what_is_quick(self):
        """Each script that takes seconds, by the table of tests/README.md, which has all."""
        rows = table((base.TOP / "tests/README.md").read_text(), "Script")
        scripts = [path.name for path in (base.TOP / "tests").iterdir()
                   if path.is_file() and os.access(path, os.X_OK) and not path.suffix]
        self.assertEqual(sorted(name.strip("`") for name, *_ in rows), sorted(scripts))
        quick = {name.strip("`"): run_by for name, run_by, _, takes in rows
                 if re.fullmatch("seconds|a second|half a minute", takes)}
        self.assertGreater(len(quick), 5)
        elsewhere = {name for name, run_by in quick.items() if "`make test`" not in run_by}
        self.assertEqual(elsewhere, ELSEWHERE)

    def test_spec_names_reads_all(self):
        """As many names as the ledger finds definitions."""
        names = base.script("spec-names").definitions()
        self.assertEqual(set(names), base.script("ledger").Contracts().defined)

    def test_spec_names(self):
        """A name that two modules define is found."""
        modules = self.folder / "crates/low/specs"
        modules.mkdir(parents=True)
        base.copy_scripts(self.folder, "spec-names", "common.py")
        (modules / "One.antt").write_text("abbrev pub half : ℕ → ℕ\nhalf n = n / 2\n\n"
                                          "abbrev pub third : ℕ\nthird = 3\n")
        (modules / "Other.antt").write_text("pub record half : Type 0 where\n")
        ran = self.run_command(self.folder / "tests/spec-names")
        told = "FAILED half: defined in low.One and low.Other\n1 passed, 1 failed\n"
        self.assertEqual((ran.stdout.decode(), ran.returncode), (told, 1))

    def test_what_is_tried_of_tests(self):
        """Of a tool's own tests try-tests leaves none out."""
        check, others = base.script("check"), base.script("try-tests").OTHERS
        own = {file for name in check.tools() for file in check.tests_of(name)}
        self.assertGreater(len(own), 20)
        self.assertEqual(own & {*others}, set())

    def test_from_which_growth_a_test_passes(self):
        """By refusals-library: it is refused until then, and never again."""
        least = base.script("refusals-library").least
        for answers, growth in ((["ok"], 1), (["refused", "refused", "ok", "ok"], 3),
                                (["refused", "ok", "refused"], None), (["ok", "refused"], None),
                                (["refused", "a fault", "ok"], None)):
            self.assertEqual(least(answers), growth, answers)
