"""What the tests of the tools judge by fails where it must: else a test could see nothing."""

import subprocess
import unittest
from unittest import mock

import base


def ran(out="", told="", status=0):
    return subprocess.CompletedProcess([], status, out.encode(), told.encode())


class Judges(base.ToolTest):
    def test_runs_and_lists(self):
        bad, lines = ran("out", "told", 1), ["a", "b"]
        self.assertEqual(self.good(ran("out")), "out")
        self.ends(bad, 1, "told", "out")
        self.refused(ran("", "told", 1), 1, "to", "ld")
        self.same(lines, ["a", "b"])
        for judge, *given in (
            (self.good, ran("", "told")), (self.good, ran(status=1)),
            (self.ends, bad, 0, "told", "out"), (self.ends, bad, 1, "", "out"),
            (self.ends, bad, 1, "told"), (self.refused, bad, 1, "told"),
            (self.refused, ran("", "told", 1), 2, "told"),
            (self.refused, ran("", "told", 1), 1, "told", "more"),
            (self.same, lines, ["a"]), (self.same, ["a"], lines), (self.same, lines, ["a", "c"]),
        ):
            with self.subTest(judge.__name__, given=given):
                self.assertRaises(AssertionError, judge, *given)

    def test_a_full_device(self):
        self.executable("tool", 'echo "$1" >&2', 'exit "$2"')
        told = "tool: standard output: write failed"
        with mock.patch.object(base, "TOOLS", self.folder):
            self.on_full_device("tool", told, "1")
            for words in (told, "0"), ("tool: write failed", "1"):
                self.assertRaises(AssertionError, self.on_full_device, "tool", *words)

    def test_processes(self):
        """One that sleeps is there, and one that has ended is not."""
        with subprocess.Popen(["sleep", "60"], start_new_session=True) as sleeping:
            with base.ended(sleeping):
                self.assertEqual(base.processes(sleeping.pid), [f"{sleeping.pid} (sleep"])
        self.assertEqual(base.processes(sleeping.pid), [])

    def test_what_comes_for_a_moment(self):
        """What is true once is not asked again, and what never is, is not."""
        answers = iter((False, True, False))
        self.assertIs(base.comes(lambda: next(answers)), True)
        self.assertIs(next(answers), False)
        self.assertIs(base.comes(lambda: [], seconds=0), False)

    def test_a_package_that_is_missing(self):
        """Its tests fail and name it, or are left out where that is asked for."""
        for plain, failed, left_out in (False, 1, 0), (True, 0, 1):
            one = type("One", (unittest.TestCase,), {"test": lambda self: None})
            with mock.patch.dict(base.PACKAGES, absent="/absent"):
                with mock.patch.object(base, "PLAIN", plain):
                    marked, result = base.needs("absent", "gcc")(one), unittest.TestResult()
            marked("test").run(result)
            self.assertEqual((len(result.failures), len(result.skipped)), (failed, left_out))
            for _, told in result.failures:
                self.assertIn("missing: apt-get install absent\n", told)
