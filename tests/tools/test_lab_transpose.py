"""Part B of the cache lab. The counts of whole functions are those that the lab's driver writes, as
its handout and many course pages print them."""

import re

from base import PROGRAM, needs
from lab_base import LAB, STUDENTS, LabTest, comes, running

TRANS = STUDENTS / "trans.c"
# by function and size
WANTED = {
    ("row by row", "32x32"): "hits:870 misses:1183 evictions:1151  0.0 of 8 points",
    ("row by row", "64x64"): "hits:3474 misses:4723 evictions:4691  0.0 of 8 points",
    ("row by row", "61x67"): "hits:3756 misses:4423 evictions:4391  0.0 of 10 points",
    ("in blocks", "32x32"): "hits:1766 misses:287 evictions:255  8.0 of 8 points",
}


class Transpose(LabTest):
    def transpose(self, *arguments, **env):
        env = {"TMPDIR": str(self.private), **env}
        return self.run_tool("lab/lab-transpose", *arguments, env=env)

    def counts(self, ran):
        """By function and size the summary, and the rows of the arrays."""
        found, function, size = {}, "", ""
        for line in ran.stdout.decode().splitlines():
            if not line.startswith(" "):
                function = line
            elif line[4] != " ":
                size, _, summary = line.strip().partition("  ")
                found[function, size] = [summary]
            else:
                found[function, size].append(line.split())
        return found

    @needs("valgrind")
    def test_the_labs_own_numbers(self):
        ran = self.transpose(TRANS)
        self.assertEqual((ran.stderr, ran.returncode), (b"", 1))
        found = self.counts(ran)
        self.assertEqual(len(found), 9)
        for (function, size), summary in WANTED.items():
            with self.subTest((function, size)):
                self.assertEqual(found[function, size][0], summary)
        for (_, size), (summary, *rows) in found.items():
            hits, misses, evictions = (int(word.partition(":")[2]) for word in summary.split()[:3])
            self.assertEqual([row[0] for row in rows[-3:]], ["A", "B", "others"])
            numbers = [list(map(int, row[1:])) for row in rows[-3:]]
            columns = [sum(column) for column in zip(*numbers)]
            self.assertEqual(columns[:3], [hits + misses, hits, misses])
            self.assertEqual(sum(columns[3:]), evictions)
            if len(rows) == 4:
                edge, other = map(int, size.split("x"))
                self.assertEqual([row[0] for row in numbers], [edge * other] * 2 + [5])
        self.assertEqual(list(self.private.iterdir()), [])

    @needs("valgrind")
    def test_a_wrong_result(self):
        """It is told, and has no points; a size of one's own has none to give."""
        found = self.counts(self.transpose("--size", "32x32", "--size", "4x4", TRANS))
        summary, told, *_ = found["\\x1b[31mwrong", "32x32"]
        self.assertTrue(summary.endswith("  0.0 of 8 points"), summary)
        self.assertEqual(" ".join(told), "the result is not the transpose of A")
        self.assertNotIn("points", found["row by row", "4x4"][0])

    @needs("valgrind")
    def test_the_accesses_are_kept(self):
        ran = self.transpose("--size", "32x32", "--keep", "new/kept", TRANS)
        self.assertEqual(ran.returncode, 1)
        names = sorted(path.name for path in (self.folder / "new/kept").iterdir())
        self.assertEqual(names, [f"32x32-{number}.trace" for number in (1, 2, 3)])
        words = ["csim", "-s", 5, "-E", 1, "-b", 5, "-t", "new/kept/32x32-1.trace"]
        summary = self.good(self.run_command(PROGRAM, *words))
        self.assertEqual(summary, "hits:870 misses:1183 evictions:1151\n")

    @needs("valgrind")
    def test_faults(self):
        (self.folder / "bad.c").write_text("no C\n")
        (self.folder / "none.c").write_text("void other(void) {}\n")
        for source, env, text in (
            ("absent.c", {}, "lab-transpose: absent.c: no such file\n"),
            ("bad.c", {}, "lab-transpose: bad.c can't be compiled\n"),
            ("none.c", {}, "lab-transpose: none.c can't be compiled\n"),
            (TRANS, {"CC": "/nowhere/cc"}, "lab-transpose: /nowhere/cc: No such file or dire"),
            (STUDENTS / "failing.c", {"CC": "cc -DREGISTERS_BADLY"},
             "registering its functions: it ended by signal 6: Aborted\n"),
            (TRANS, {"CACHESIM": "/absent"}, "lab-transpose: /absent is no program"),
        ):
            with self.subTest(text):
                self.refused(self.transpose(source, **env), 2, text)
                self.assertEqual(list(self.private.iterdir()), [])
        for word in ("32", "0x4", "257x1"):
            self.refused(self.transpose("--size", word, TRANS), 2, "invalid size value")

    @needs("valgrind")
    def test_functions_that_fail(self):
        """Each is named with what it did and has no points; the good ones beside it keep theirs."""
        ran = self.transpose("--size", "32x32", "--keep", "kept", STUDENTS / "failing.c")
        self.assertEqual((ran.stderr, ran.returncode), (b"", 1))
        told = {}
        for line in ran.stdout.decode().splitlines():
            if not line.startswith(" "):
                name = line
            elif not re.match("        (array|A|B|others)  ", line):
                told.setdefault(name, []).append(" ".join(line.split()))
        counts = "32x32 hits:870 misses:1183 evictions:1151 0.0 of 8 points"
        for name, *lines in (
            ("before", counts), ("after", counts),
            ("exits", "32x32 it has ended the program (ended with status 0) 0.0 of 8 points"),
            ("crashes", "32x32 it ended by signal 11: Segmentation fault 0.0 of 8 points"),
        ):
            self.assertEqual(told[name], lines)
        for name, line in (("changes", "A is changed"),
                           ("beyond B", "it writes beyond B: B[32][1]"),
                           ("beyond A", "it writes beyond A: A[-1][30]"),
                           ("before B", "it writes beyond B: B[-1][31]"),
                           ("child", "the result is not the transpose of A")):
            self.assertEqual(told[name][1:], [line])
        self.assertEqual(len(told["prints @ 0"]), 1)
        kept = sorted(path.stem for path in (self.folder / "kept").iterdir())
        self.assertEqual(kept, sorted(f"32x32-{number}" for number in (1, *range(4, 11))))
        self.assertEqual(list(self.private.iterdir()), [])

    @needs("valgrind")
    def test_functions_without_an_end(self):
        """By the time, and where A and B are used for ever by the number of accesses."""
        ran = self.transpose("--size", "4x4", "--seconds", 4, STUDENTS / "failing.c",
                             CC="cc -DSPINS")
        self.assertEqual(ran.stdout.decode(), "spins\n    4x4  it has no end within 4 s\n")
        ran = self.transpose("--size", "4x4", "--seconds", 300, TRANS, CC="cc -DLOOPS")
        said = ran.stdout.decode()
        self.assertTrue(said.endswith("wrong\n    4x4  it makes more than 1,000,000 accesses\n"))
        self.assertIn("row by row\n    4x4  hits:15 misses:22 evictions:20\n", said)
        self.assertTrue(comes(lambda: not running(), 60))

    @needs("valgrind")
    def test_an_interrupt(self):
        """As lab-trace is started for a function that loops."""
        self.interrupted([LAB / "lab-transpose", "--size", "4x4", TRANS],
                         lambda: any(self.private.rglob("report")),
                         CACHESIM=str(PROGRAM), CC="cc -DLOOPS")
