"""What a change needs before a commit, by tests/check."""

import re
import sys

from base import PROGRAM, TOP, ToolTest, copy_scripts, script

# what is asked of each tool
OF_EACH = "failures_packages.Tools named_options check.Check.test_each_test_is_there"
# what is tried of a change of a file, beside the ledger
TRIED = {
    "crates/cache_core/src/cache.rt": "in crates/cache_core, rt check --jobs 1|tests/spec-names|"
                                      "test-tools --plain documents.Callers",
    "crates/cache_core/specs/Geometry.antt": "in crates/cache_core, rt check --jobs 1|"
                                             "tests/spec-names|"
                                             "test-tools --plain documents.Definitions",
    "crates/cache_core/proofs/Lists.antt": "in crates/cache_core, rt check --jobs 1|"
                                           "tests/spec-names",
    "crates/cache_core/CALLING.md": "test-tools --plain links documents.Callers",
    "crates/cache_core/proofs/WindowRows.antt": "in crates/cache_core, rt check --jobs 1|"
                                                "tests/spec-names|test-tools --plain worked_rows",
    "tools/best": f"test-tools --plain best {OF_EACH} style",
    "tools/by-line": f"test-tools --plain by_line by_line_hand by_line_names {OF_EACH} style",
    "tools/lib/by_line/elf.py": "test-tools --plain by_line by_line_hand by_line_names style",
    "tools/lib/to-din.c": "test-tools --plain to_din style",
    "tools/lib/paging.py": "test-tools --plain din_table sweep_parallel style",
    "tools/lib/tool.py": "test-tools --plain tool unexpected outputs waiting style",
    "tools/lab/replay": f"test-tools --plain replay {OF_EACH} style",
    "package/install.py": "test-tools --plain make completion package.Version style",
    "docs/cookbook.md": "test-tools --plain links facts named_options style "
                        "documents.Documents.test_docs_cookbook",
    "docs/manual.md": "tests/run docs/manual.md|test-tools --plain from_dinero tables man links "
                      "facts named_options style documents.Documents.test_docs_manual",
    "tests/cases/din.cases": "tests/run|test-tools --plain wrong_models",
    "tests/tools/test_best.py": "test-tools --plain --list|test-tools --plain worked_rows best "
                                "style",
    "tests/mutants/options.edits": "test-tools --plain mutants",
    "tests/bundles.py": "test-tools --plain bundles mutants style",
    "Makefile": "test-tools --plain gate make scripts",
    "absent.c": "",
}
STAND_IN = """\
import sys

print("tried", *sys.argv)
print("0 passed, 1 failed" if "{0}" in sys.argv[0] else "2 passed, 0 failed")
"""


class Check(ToolTest):
    def listed(self, *files):
        """What would be run of these files, without the ledger."""
        words = [TOP / "tests/check", "--list", *(TOP / file for file in files)]
        lines = self.good(self.run_command(*words, env={"RT": "rt"})).splitlines()
        self.assertIn("== python3 tests/ledger", lines)
        said = [re.sub("^== (python3 )?(tests/(?=test-tools))?", "", line) for line in lines]
        return "|".join(line for line in said if line != "tests/ledger")

    def test_what_is_tried(self):
        for file, tried in TRIED.items():
            self.assertEqual(self.listed(file), tried, file)
        # each thing once
        both = self.listed("tools/best", "tests/tools/test_best.py", "docs/definitions.md")
        self.assertEqual(both, f"test-tools --plain --list|test-tools --plain best {OF_EACH} style "
                         "worked_rows documents.Definitions links facts "
                         "documents.Documents.test_docs_definitions")
        self.assertEqual(self.listed("tests/edits.py", "docs/proofs.md").count("mutants"), 1)

    def test_each_test_is_there(self):
        """Those that are named, and some of each tool and each part of one."""
        check = script("check")
        names = {name for tests in check.TRIED_BY.values() for name in tests} | {*check.OF_MANY}
        for name in names:
            file, _, test = name.partition(".")
            text = (TOP / f"tests/tools/test_{file}.py").read_text()
            self.assertTrue(f"class {test}(" in text if test else text, name)
        self.assertGreater(len(check.tools()), 12)
        code = [path for path in (TOP / "tools").rglob("*.py") if path.name != "__init__.py"]
        for path in (*check.tools().values(), *code):
            file = str(path.relative_to(TOP))
            self.assertNotEqual(check.tests_of_tool(file), [], f"{file} has no tests")

    def copy(self, failing="nothing", status=0):
        """A copy in which all that is called is a stand-in, and git tells two files."""
        for folder in ("tests/tools", "tests/cases", "crates/low/src"):
            (self.folder / folder).mkdir(parents=True, exist_ok=True)
        copy_scripts(self.folder, "check", "steps.py", "common.py")
        for name in ("ledger", "test-tools", "spec-names", "run"):
            self.write(f"tests/{name}", STAND_IN.format(failing))
        self.write("tests/cases/new one.cases", "")
        self.write("crates/low/src/lib.rt", "")
        # a new file is told only where git is asked for all, and each name as it is only by -z
        told = r"printf ' M crates/low/src/lib.rt\0'"
        new = r"[[ $* != *' --untracked-files=all'* ]] || printf '?? tests/cases/new one.cases\0'"
        self.executable("bin/git", "[[ $1 = status && $* = *' -z'* ]] || exit 1", told, new)
        self.executable("bin/rt", 'echo "tried rt $* in $PWD"', f"exit {status}")
        return self.run_command(sys.executable, self.folder / "tests/check", env={
            "PATH": f"{self.folder}/bin:{PROGRAM.parent}", "RT": str(self.folder / "bin/rt")})

    def test_what_was_changed(self):
        """By git, a new file too. Each step is told with its time, and the sum is that of all."""
        text = self.good(self.copy())
        calls = re.findall("(?m)^tried (.*)", text)
        self.assertEqual(calls, [
            f"rt check --jobs 1 in {self.folder}/crates/low", "tests/spec-names", "tests/ledger",
            "tests/run", "tests/test-tools --plain documents.Callers wrong_models"])
        self.assertEqual(len(re.findall(r"(?m)^== ok \(\d+ s\)$", text)), 5)
        self.assertTrue(text.endswith("\n9 passed, 0 failed\n"), text)

    def test_each_failure_counts(self):
        for failing in ("ledger", "test-tools", "spec-names", "run"):
            ran = self.copy(failing)
            self.assertEqual(ran.returncode, 1)
            self.assertTrue(ran.stdout.endswith(b"\n7 passed, 1 failed\n"), ran.stdout)
        ran = self.copy(status=1)
        self.assertEqual((ran.returncode, ran.stdout[-20:]), (1, b"\n8 passed, 1 failed\n"))
