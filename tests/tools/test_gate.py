"""The gate, tests/all, and what else starts tests: each part is run, and its failure counts."""

import contextlib
import io
import re
import shutil
import subprocess
import sys
from unittest import mock

from base import TOP, ToolTest, script
from test_make import MakeTest, put_program

CRATES = len(list(TOP.glob("crates/*/src")))
EDITS = len(list(TOP.glob("crates/*/must-fail/*.edit")))
ALL = f"{CRATES + EDITS} passed, 0 failed"
# A script of tests/ that notes how it is called. It fails by its status, or by its sum alone
SCRIPT = """\
import os
import sys

called = " ".join([os.path.basename(sys.argv[0]), *sys.argv[1:]])
with open(f"{os.environ['STAND_IN']}/ran", "a", encoding="utf-8") as file:
    print(called, file=file)
is_failing = os.environ["FAILS"] == called
print("0 passed, 1 failed" if is_failing and os.environ["HOW"] == "sum" else "1 passed, 0 failed")
sys.exit(is_failing and os.environ["HOW"] == "status")
"""
GATE_RT = """\
#!/bin/bash
[ "$1" = ci ] || exit 0
cat -- "$STAND_IN/ci"
exit "$(cat -- "$STAND_IN/status")"
"""


class Gate(ToolTest):
    def test_sums(self):
        """The gate's, by the lines and the status of rt ci. Each edit is to be refused: one that is
        taken for refused is told by some kits, and one that was not tried is seen by the sum. A
        failure counts once."""
        self.assertGreater(EDITS, 0)
        gate, both, told = script("all"), CRATES + EDITS, "rt: ok; must-fail edits: {} refused{}"
        for lines, status, wanted in (
            (["1 passed, 0 failed", "rt: ok", ALL], 0, (both, 0)),
            ([told.format(EDITS, ""), ALL], 0, (both, 0)),
            ([told.format(EDITS - 1, ", 1 not compiled"), ALL], 0, (both, 1)),
            ([f"{both - 1} passed, 0 failed"], 0, (both - 1, 1)),
            (["rt: FAILED: sweep_core", f"{CRATES} passed, 1 failed"], 1, (CRATES, 1)),
            (["rt: FAILED: sweep_core"], 1, (0, 1)), ([ALL], 1, (both, 1)),
        ):
            stand_in = mock.patch.object(gate, "shown", lambda _, got=(lines, status): got)
            with self.subTest(lines), stand_in, contextlib.redirect_stdout(io.StringIO()):
                self.assertEqual(gate.gate(), wanted)

    def ended(self, **others):
        """The status of the whole gate, where each of its parts passes, and what it says."""
        gate, removed = script("all"), []
        gate.common.LEFT = self.folder

        class Program(type(TOP)):
            def unlink(self, **_):
                removed.append(self.name)

        stand_ins = {"judged": lambda *_: (1, 0), "gate": mock.Mock(return_value=(2, 0)),
                     "PROGRAM": Program(gate.PROGRAM), "SECOND": Program(gate.SECOND), **others}
        stand_ins["gate"].__name__ = "gate"
        told = io.StringIO()
        with mock.patch.multiple(gate, **stand_ins), mock.patch.object(sys, "argv", ["all"]):
            with contextlib.redirect_stdout(told):
                status = gate.main()
        # what an earlier run left is not what this one proves
        self.assertEqual(removed, [gate.PROGRAM.name, gate.SECOND.name])
        return status, told.getvalue().splitlines()

    def test_a_part_that_is_left_out(self):
        """Its parts are those that tests/sums keeps, with their arguments and their program."""
        self.assertEqual(self.ended()[0], 0)
        scripts = script("all").SCRIPTS
        fewer = [["fuzz", "--cases", "9999"] if name == "fuzz" else [name, *words]
                 for name, *words in scripts]
        for wrong in (scripts[1:], fewer):
            status, lines = self.ended(SCRIPTS=wrong)
            self.assertEqual(status, 1)
            self.assertIn("FAILED tests/all: ", "\n".join(lines))


class TheGate(MakeTest):
    """What starts the tests runs all that tests/README.md says, and fails where one of it does."""

    # each target that runs tests, and how it calls the scripts
    CALLED = {
        "make check": ["check"], "make mutants": ["try-mutants"], "make test-tools": ["test-tools"],
        "make refusals": ["refusals", "refusals-library"],
        "make strain": ["refusals", "refusals-library", "fuzz --cases 100000",
                        "forms", "against_cachegrind", "against_c", "try-tests"],
        "make test": ["spec-names", "ledger", "run --program TOP/SECOND", "run --program TOP/FIRST",
                      "fuzz --program TOP/FIRST --cases 10000",
                      "forms --program TOP/FIRST --lines 5000", "refusals --program TOP/FIRST",
                      "devices --program TOP/FIRST", "limits --program TOP/FIRST",
                      "test-tools --program TOP/FIRST --plain"],
    }
    PLACES = {"SECOND": "crates/cachesim/out/cachesim.by-rattle",
              "FIRST": "crates/cachesim/out/cachesim"}

    def setUp(self):
        super().setUp()
        readme = (TOP / "tests/README.md").read_text()
        table = readme.partition("\nScript | Run by | ")[2].partition("\n\n")[0].splitlines()[2:]
        self.rows = {row.split("`")[1]: row.split(" | ")[1] for row in table}
        put_program(self.top)
        for name in self.rows:
            self.write(self.top / "tests" / name, f"#!/usr/bin/env python3\n{SCRIPT}").chmod(0o755)
        for name in ("tests/all", "tests/common.py", "tests/steps.py", "tests/sums", "tests/names",
                     ".ci/run"):
            (self.top / name).parent.mkdir(exist_ok=True)
            shutil.copy(TOP / name, self.top / name)
        edit = self.top / "crates/trace_core/must-fail/one.edit"
        edit.parent.mkdir()
        edit.touch()
        self.crates = len(list(self.top.glob("crates/*/src")))
        self.write("bin/rt", GATE_RT)
        self.refuse(1)

    def refuse(self, edits):
        """What rt ci says where it refuses so many edits."""
        told = f"rt: ok; must-fail edits: {edits} refused"
        self.write("ci", f"{told}\n{self.crates + 1} passed, 0 failed\n")

    def started(self, command, fails="", how="status"):
        """The status of a command, and the calls of scripts that it made; one of these may fail."""
        (self.folder / "ran").unlink(missing_ok=True)
        words = [*command.split(), "-C", self.top] if " " in command else [self.top / command]
        given = {"cwd": self.folder, "stdin": subprocess.DEVNULL, "capture_output": True}
        ran = subprocess.run(words, env=self.known({"FAILS": fails, "HOW": how}), check=False,
                             timeout=120, **given)
        calls = (self.folder / "ran").read_text().replace(f"{self.top}/", "TOP/").splitlines()
        return ran.returncode, calls

    def calls_of(self, command):
        called = self.CALLED["make test" if command == ".ci/run" else command]
        for sign, place in self.PLACES.items():
            called = [call.replace(f"TOP/{sign}", f"TOP/{place}") for call in called]
        return called

    def test_what_is_run(self):
        """By the table, and by the calls above."""
        for command in (*self.CALLED, ".ci/run"):
            self.assertEqual(self.started(command), (0, self.calls_of(command)), command)
        for name, run_by in self.rows.items():
            told = {*re.findall("`(make [a-z-]+)`", run_by)}
            wanted = {command for command, calls in self.CALLED.items()
                      if name in {call.split()[0] for call in calls}}
            self.assertEqual(told, {"make test"} if name == "all" else wanted, name)
        self.assertGreater(len(self.rows), 12)

    def test_each_failure_counts(self):
        """Of each script that is run, by its status, or in make test by its sum alone."""
        for command in self.CALLED:
            for at, call in enumerate(self.calls_of(command)):
                own = call.replace("TOP/", f"{self.top}/")
                how = "sum" if command == "make test" and at % 2 else "status"
                self.assertNotEqual(self.started(command, own, how)[0], 0, (command, call))
        self.assertNotEqual(self.started(".ci/run", "ledger")[0], 0)

    def test_a_failure_of_rt_ci(self):
        """By its status, its sum, or an edit that it doesn't refuse."""
        for command in "make test", ".ci/run":
            self.refuse(0)
            self.assertNotEqual(self.started(command)[0], 0)
            self.refuse(1)
            self.stand_in("", status=1)
            self.assertNotEqual(self.started(command)[0], 0)
            self.stand_in("")
            self.write("ci", f"{self.crates} passed, 1 failed\n")
            self.assertNotEqual(self.started(command)[0], 0)
            self.refuse(1)
            self.assertEqual(self.started(command)[0], 0)
