"""The runners of cases and of tests, tests/run and tests/test-tools: what fails and what passes."""

import re
import sys

from base import PROGRAM, TOP, ToolTest, copy_scripts, script

EMPTY = "$ cachesim sweep --bsize 16 --sets 1 --assoc 1 --size 16\n"
HEADER, ROW = "> bsize,sets,assoc,size,hits,misses,evictions\n", "> 16,1,1,16,0,0,0\n"
FAULT = "$ cachesim sweep --bsize 16 --sets 1 --assoc 1 --size x\n"
PASS = {
    "whole": EMPTY + HEADER + ROW, "beginning": EMPTY + ">^ bsize,\n",
    "line": EMPTY + ">~ ,0,0,0\n", "fault": FAULT + "! cachesim: --size: bad value\n? 2\n",
}
FAIL = {
    "row-is-missing": EMPTY + HEADER, "row-too-many": EMPTY + HEADER + ROW + ROW,
    "other-beginning": EMPTY + ">^ sets,\n", "no-such-line": EMPTY + ">~ 0,0,0,0,0\n",
    "output-not-mentioned": EMPTY, "status": FAULT + "! cachesim: --size: bad value\n",
    "other-status": FAULT + "! cachesim: --size: bad value\n? 1\n",
    "fault-not-mentioned": FAULT + "? 2\n", "whole-beside-a-line": EMPTY + ">~ ,0,0,0\n" + HEADER,
    "no-command": "> x\n", "no-such-mark": EMPTY + "% x\n",
    "beginning-of-nothing": EMPTY + ">^ \n", "line-of-nothing": EMPTY + ">~\n",
    "text-for-a-folder": EMPTY + HEADER + ROW + "@ folder/\n< x\n",
}


class InPart(ToolTest):
    # long outputs, and a message that ends in a blank
    KNOWN = {"blocks-verbose", "log-of-sort", "trace-without-a-name"}

    def test_what_is_compared_in_part(self):
        """Texts of the library that reads the arguments alone: a case has all that is written."""
        run, cases = script("run"), TOP / "tests/cases"
        found = {case.name for case, _ in run.read_all(cases, cases / "inputs")
                 if any(it.begins or it.has for it in case.streams.values())
                 and not case.is_beyond_the_model}
        self.assertEqual(found, self.KNOWN)


class Missing(ToolTest):
    def test_packages_are_named(self):
        for name, *commands in (("against_c", "cc"), ("against_cachegrind", "cc", "valgrind"),
                                ("devices", "cc")):
            few = self.folder / name
            few.mkdir()
            (few / "python3").symlink_to(sys.executable)
            words = (TOP / "tests" / name, "--program", PROGRAM)
            for command in commands:
                ran = self.run_command(*words, env={"PATH": str(few)})
                package = "gcc" if command == "cc" else command
                told = f"{command} is missing: apt-get install {package}\n0 passed, 1 failed\n"
                self.assertEqual((ran.stdout.decode(), ran.returncode), (told, 1))
                (few / command).symlink_to("/bin/true")


class Run(ToolTest):
    def run_cases(self, program, text):
        (self.folder / "cases").mkdir()
        self.write("cases/a.cases", text)
        return self.run_command(TOP / "tests/run", "--program", program, "--cases", "cases")

    def test_what_fails_and_what_passes(self):
        cases = (f"== {name}\n{case}" for name, case in {**PASS, **FAIL}.items())
        ran = self.run_cases(PROGRAM, "".join(cases))
        told = ran.stdout.decode()
        failed = re.findall(r"(?m)^FAILED (\S+)", told)
        self.assertEqual((failed, ran.returncode), (list(FAIL), 1), told)
        self.assertTrue(told.endswith(f"\n{len(PASS)} passed, {len(FAIL)} failed\n"), told)

    def test_what_the_model_lacks(self):
        taken = f"== taken\n{EMPTY}{HEADER}{ROW}"
        lacking = "== lacking\n$ cachesim sweep --x\n!~ cachesim: error: x\n? 2\n"
        ran = self.run_cases(TOP / "tests/model.py", taken + lacking)
        self.assertEqual(ran.returncode, 0, ran.stdout)
        self.assertRegex(ran.stdout.decode(), r"^1 cases? .*left out.*\n1 passed, 0 failed\n$")


def copied(folder):
    """The words by which a copy of the runner is called, which has no tests yet."""
    copy_scripts(folder, "test-tools", "common.py")
    (folder / "tests/tools").mkdir(exist_ok=True)
    return folder / "tests/test-tools", "--program", "/bin/true"


class TestTools(ToolTest):
    """The runner of the tests of the tools."""

    def run_tests(self, *names):
        return self.run_command(TOP / "tests/test-tools", "--program", PROGRAM, *names)

    def test_a_name_with_a_dash(self):
        told = self.good(self.run_tests("worked-rows.WorkedRows.test_what_is_found"))
        self.assertIn("ok test_worked_rows.WorkedRows.test_what_is_found\n", told)
        self.assertTrue(told.endswith("\n1 passed, 0 failed\n"), told)

    def test_an_error_counts(self):
        """Of a test that ends in an exception, one that is left out, and one that is passed. They
        know the program, and whether those are left out that need a package."""
        given = copied(self.folder)
        self.write("tests/tools/test_bad.py", """\
import os
import unittest

print(os.environ["CACHESIM"], os.environ["CACHESIM_PLAIN_TESTS"], "told")


class Bad(unittest.TestCase):
    def test_error(self):
        raise KeyError(1)

    @unittest.skip("it needs what is not there")
    def test_left_out(self):
        pass

    def test_passed(self):
        pass


class Fails(Bad):
    @classmethod
    def setUpClass(cls):
        raise KeyError(2)


@unittest.skip("it needs what is not there")
class LeftOut(Bad):
    pass
""")
        for option, plain, failed in ((), "", 8), (("--plain",), "1", 3):
            words = (*given, *option, "bad")
            ran = self.run_command(*words)
            self.assertEqual(ran.returncode, 1)
            self.assertIn(f"/bin/true {plain} told\n", ran.stdout.decode())
            last = f"\n1 passed, {failed} failed\n"
            self.assertTrue(ran.stdout.decode().endswith(last), ran.stdout)
        # of those that would be run, --plain leaves some out; a part is none of the gate
        listed = self.good(self.run_command(*words, "--list"))
        self.assertNotIn("test_bad.Bad.test_left_out\n", listed)
        self.assertTrue(listed.endswith("test_bad.Fails.test_passed\n4 tests\n"), listed)
        self.assertFalse((self.folder / "out").exists())
        ran = self.run_command(*given[:2], "/absent", "bad")
        told = "no program /absent: make builds it\n0 passed, 1 failed\n"
        self.ends(ran, 1, "", told)

    def test_names_are_compared(self):
        """Of a whole run without what needs packages, with those that are kept."""
        words = copied(self.folder)
        self.write("tests/tools/test_one.py", "import unittest\n\n\nclass One(unittest.TestCase):\n"
                   "    def test_one(self):\n        pass\n")
        names = "tests/test-tools: One.test_one\n"
        for count, kept, status in ((1, names, 0), (2, names, 1), (1, names * 2, 0), (1, "", 1),
                                    (1, names.replace("one", "two"), 1)):
            self.write("tests/sums", f"tests/test-tools: {count} cases\n")
            self.write("tests/names", kept)
            ran = self.run_command(*words, "--plain")
            self.assertEqual(ran.returncode, status, ran.stdout)
            told = b"\nFAILED tests/test-tools: after a look" in ran.stdout
            self.assertEqual(told, bool(status))
            self.assertEqual(self.run_command(*words, "--plain", "--list").returncode, status)
            self.assertEqual(self.run_command(*words).returncode, 0)

    def test_a_name_without_tests(self):
        ran = self.run_tests("table", "by-lime", "absent.Reading")
        self.refused(ran, 2, "test-tools: no tests of by-lime or absent.Reading; ")


# tests that end the process that they run in, that meet while both run, that fail when all have
# passed, and that find the others at their end
SEVERAL = """\
import os
import pathlib
import sys
import time
import unittest

HERE = pathlib.Path(__file__).parent


def meets(own, other):
    (HERE / own).touch()
    until = time.monotonic() + 60
    while not (HERE / other).exists() and time.monotonic() < until:
        time.sleep(0.001)
    return (HERE / other).exists()


class Dying(unittest.TestCase):
    def test_before(self):
        pass

    def test_dies(self):
        print("it dies", flush=True)
        print("it says so", file=sys.stderr, flush=True)
        os.kill(os.getpid(), 9)

    def test_never(self):
        pass


class Early(unittest.TestCase):
    def test_ends(self):
        print("ok test_several.Early.test_ends", "1 passed, 0 failed", sep="\\n", flush=True)
        os._exit(1)


class First(unittest.TestCase):
    def test_meets(self):
        self.assertTrue(meets("first", "second"))


class Last(unittest.TestCase):
    def test_passes(self):
        pass

    @classmethod
    def tearDownClass(cls):
        raise KeyError("at its end")


class Measured(unittest.TestCase):
    measures = True

    def test_alone(self):
        self.assertTrue((HERE / "ended").exists())


class Second(unittest.TestCase):
    takes_long = True

    def test_meets(self):
        self.assertTrue(meets("second", "first"))
        time.sleep(0.2)
        (HERE / "ended").touch()
"""
TOLD = """\
ok test_several.Second.test_meets
ok test_several.Dying.test_before
it dies
it says so
FAILED test_several.Dying: of 3 tests 1 have passed, and the process ended with status -9
ok test_several.Early.test_ends
1 passed, 0 failed
FAILED test_several.Early: of 1 tests 1 have passed, and the process ended with status 1
ok test_several.First.test_meets
ok test_several.Last.test_passes
FAILED tearDownClass (test_several.Last)
1 passed, 1 failed
FAILED test_several.Last: of 1 tests 1 have passed, and the process ended with status 1
ok test_several.Measured.test_alone
6 passed, 4 failed
"""


class SideBySide(ToolTest):
    """Each class of tests has a process, and the sum is that of all."""

    def run_several(self, text, *words):
        """The lines that tell of tests, and the status."""
        given = copied(self.folder)
        self.write("tests/tools/test_several.py", text)
        ran = self.run_command(*given, *words)
        self.assertEqual(ran.stderr, b"")
        text = re.sub(r" \(\d+ s\)$", "", ran.stdout.decode(), flags=re.M)
        told = re.findall(r"^(?:ok |FAILED |it |\d+ passed).*\n", text, re.M)
        return "".join(told), ran.returncode

    def test_what_is_told(self):
        """First what takes long, then the others in the order of their names, and at the end what
        must be alone. A process that dies has passed no more than it says, and one must end as it
        says."""
        self.assertEqual(self.run_several(SEVERAL, "--jobs", 2), (TOLD, 1))

    def test_those_that_meet(self):
        """Two classes run at once, each in its process; with one job no class does."""
        both = "several.First", "several.Second"
        told = "ok test_several.Second.test_meets\nok test_several.First.test_meets\n"
        self.assertEqual(self.run_several(SEVERAL, "--jobs", 2, *both),
                         (f"{told}2 passed, 0 failed\n", 0))
        alone = SEVERAL.replace("+ 60", "+ 0.1")
        self.folder /= "another"
        self.folder.mkdir()
        self.assertIn("\n1 passed, 1 failed\n", self.run_several(alone, "--jobs", 1, *both)[0])

    def test_a_file_that_cannot_be_read(self):
        told, status = self.run_several("import absent\n")
        self.assertEqual((told.splitlines()[-1], status), ("0 passed, 1 failed", 1))
        self.write("tests/tools/test_few.py", SEVERAL)
        told, status = self.run_several("import absent\n", "--jobs", 2, "several", "few.Last",
                                        "few.Absent", "few.Measured")
        self.assertEqual((told.splitlines()[-1], status), ("1 passed, 3 failed", 1))
