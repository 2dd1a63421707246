"""What caches send to the next level."""

import itertools
import re

import base
import log_base
from log_base import LABELS, MODIFIES, SORT, TRANSPOSE, shape

LAST = b"second-level failed: what stands above is not all\n"
SPLIT = [*shape("l1-i", 16, 8, 1), *shape("l1-d", 16, 4, 2)]


class SecondLevel(log_base.Filtering, base.ToolTest):
    TOOL = "second-level"
    FULL = "write failed: No space left on device"
    MARK = LAST

    def judge(self, text, *options):
        """Compares with what the machines of the model send to memory, and with the flushes."""
        lines = []
        for place, event, _ in log_base.arrivals(text, options):
            if place == "memory":
                lines.append(f"{LABELS[event.access]} {event.addr:x}\n")
            elif not place:
                lines.append("4 0\n")
        answer = self.good(self.run_on("-", *options, stdin=text))
        self.assertEqual(answer, "".join(lines), options)
        return answer

    def test_examples(self):
        for text, format in ((SORT, "d"), (TRANSPOSE, "l"), (MODIFIES, "l")):
            for mode in "an":
                options = (*shape("l1-u", 16, 4, 2), "-l1-uwback", mode, "-informat", format)
                answer = self.judge(text, *options)
                self.assertEqual("\n1 " in answer, mode == "n" or text != MODIFIES)

    def test_random(self):
        """Caches of all shapes, policies and write modes, in one level and two, and flushes."""
        for text, options, _ in log_base.cases(5):
            self.judge(text, *options)

    def test_flushes(self):
        """Each is sent once, whatever caches there are; what it copies back is not."""
        text = b"4 0\n1 10\n2 10\n4 0\n4 0\n0 10\n"
        for names in log_base.PLANS:
            options = [word for name in names for word in shape(name, 16, 1, 1)]
            self.assertEqual(self.judge(text, *options).count("4 0\n"), 3)

    def compare(self, text, first, second, *more):
        """Compares a full sweep of the second level with `cachesim din` of both, in all its
        counts."""
        stream = self.good(self.run_on("-", *first, *more, stdin=text))
        bsize, sets, ways = second
        space = ["--bsize", bsize, "--sets", sets, "--assoc", ways, "--size", bsize * sets * ways]
        row = self.sweep("--full", *space, stdin=stream.encode()).split("\n")[1].split(",")
        words = ("din", *first, *shape("l2-u", *second), *more)
        report = self.good(self.run_command(base.PROGRAM, *words, stdin=text))
        counted = re.findall(r"(\S+)=(\d+)", report.split("l2-u")[1].split("\n")[0])
        counted = {name: int(count) for name, count in counted}
        references = sum(counted[word] for word in ("fetches", "reads", "writes"))
        kinds = [counted[word] for word in ("fetch-misses", "read-misses", "write-misses")]
        misses = sum(kinds)
        wanted = [references - misses, misses, counted["evictions"], *kinds, counted["copybacks"]]
        self.assertEqual(list(map(int, row[4:])), wanted, (first, second))
        return misses

    def test_both_levels(self):
        flushed = b"".join(line + b"4 0\n" * (number % 900 == 0)
                           for number, line in enumerate(SORT.splitlines(keepends=True)))
        for (text, format), more, second in itertools.product(
            ((SORT, "d"), (flushed, "d"), (TRANSPOSE, "l")),
            ("", "-l1-dwback n", "-l1-drepl f -l1-dwalloc n", "-l1-drepl r --seed 7"),
            ((16, 16, 2), (32, 4, 4), (64, 1, 8)),
        ):
            words = (*more.split(), "-informat", format)
            self.assertGreater(self.compare(text, SPLIT, second, *words), 0)

    def wrong(self, body):
        """A program whose log is what the body writes."""
        return self.executable("wrong", f"[ $1 = log ] || exec '{base.PROGRAM}' \"$@\"", body)

    def test_no_table_of_a_part(self):
        """A sweep behind the pipe fails too, also if the program ends in the middle of a line."""
        self.write("bad", SORT + b"7 10\n")
        self.write("trace", SORT)
        space = "--bsize 16 --sets 1 --assoc 1 --size 16".split()
        program = self.wrong(f"'{base.PROGRAM}' \"$@\" | head -c 70001\nexit 1")
        for trace, env in (("bad", {}), ("trace", {"CACHESIM": str(program)})):
            ran = self.run_on(trace, *SPLIT, env=env)
            self.assertEqual((ran.returncode, ran.stdout.endswith(b"\n" + LAST)), (1, True))
            self.assertGreater(ran.stdout.count(b"\n"), 100)
            swept = self.run_command(base.PROGRAM, "sweep", *space, stdin=ran.stdout)
            self.refused(swept, 1, "bad label")

    def test_what_is_no_log(self):
        wrong = self.wrong("head -c 200000 /dev/zero")
        ran = self.run_on("-", *SPLIT, env={"CACHESIM": str(wrong)})
        self.assertEqual((ran.returncode, ran.stdout), (1, LAST))
        self.assertRegex(ran.stderr, rb"\Asecond-level: what cachesim writes is not a log\n")
