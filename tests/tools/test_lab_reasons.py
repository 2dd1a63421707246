"""What `grade` says of right simulators with one mistake each, which reasons.edits puts in."""

import re
import subprocess

from lab_base import STUDENTS, StudentTest, traces

NAMES = "order.trace", "mixed.trace", "wide.trace", "rows.trace"


def edits():
    """What is said of each mistake, and its pairs of old and new lines."""
    text = (STUDENTS / "reasons.edits").read_text()
    for case in text.split("\n== ")[1:]:
        said, *lines = case.rstrip().splitlines()
        pairs = re.findall(r"((?:-.*\n)+)((?:\+.*\n)+)", "".join(f"{line}\n" for line in lines))
        yield said, [tuple(map(unmarked, pair)) for pair in pairs]


def unmarked(lines):
    """Lines without what they are marked with, as text that may go on in the last one."""
    return "\n".join(line[1:] for line in lines.splitlines())


class Reasons(StudentTest):
    takes_long = True

    def setUp(self):
        super().setUp()
        traces.write(self.folder)
        self.right = (STUDENTS / "csim.c").read_text()

    def made(self, pairs):
        """The program with a mistake."""
        text = self.right
        for old, new in pairs:
            self.assertEqual(text.count(old), 1, old)
            text = text.replace(old, new)
        program, source = self.folder / "csim", self.write("csim.c", text)
        subprocess.run(["cc", "-w", "-O1", "-o", program, source], check=True)
        return program

    def grade(self, program):
        ran = self.run_tool("lab/grade", "--verbose-lines=no", program, *NAMES, seconds=600)
        return ran.stdout.decode()

    def test_without_a_mistake(self):
        self.assertEqual(self.grade(self.made([])), "60 of 60 right\n")

    def test_each(self):
        cases = list(edits())
        self.assertGreaterEqual(len(cases), 40)
        for words, pairs in cases:
            with self.subTest(words):
                said = self.grade(self.made(pairs))
                self.assertIn(words, "".join(re.findall("^why: (.*)", said, re.M)), said)
