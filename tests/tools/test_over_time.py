"""Misses over time, in steps of N references."""

import random

import base
import log_base
from log_base import MODIFIES, SORT, TRANSPOSE, shape

HEADER = "first,last,misses,percent\n"


class OverTime(log_base.Filtering, base.ToolTest):
    TOOL = "over-time"
    OWN = "--each", "50"
    HEADER = HEADER

    def judge(self, text, each, *options, cache=None):
        """Compares with the machines of the model: what comes to a cache, or to the first level."""
        counts = [missed for place, _, missed in log_base.arrivals(text, options)
                  if place.startswith(cache or "l1")]
        rows = []
        for first in range(0, len(counts), each):
            step = counts[first : first + each]
            share = 100 * sum(step) / len(step)
            rows.append(f"{first + 1},{first + len(step)},{sum(step)},{share:.3f}\n")
        words = [*[f"--cache={cache}"] * bool(cache), *options, "--each", each]
        answer = self.good(self.run_tool("over-time", "-", *words, stdin=text))
        self.assertEqual(answer, HEADER + "".join(rows), (options, cache))

    def test_steps(self):
        for each in (1, 7, 1000, 2923, 5846, 5847, 10**9):
            self.judge(SORT, each, *shape("l1-u", 16, 16, 2))
        # a step ends between the read and the write of a modify
        for each in (1, 2, 3, 4):
            self.judge(MODIFIES, each, *shape("l1-d", 16, 1, 1), "-informat", "l")
            self.judge(MODIFIES, each, *shape("l1-u", 16, 1, 1), "-informat", "l")
        self.judge(TRANSPOSE, 100, *shape("l1-d", 32, 8, 2), "-informat", "l")

    def test_random(self):
        """Caches of all shapes, policies and write modes, in both levels; flushes; each cache."""
        drawn = random.Random(3)
        for text, options, names in log_base.cases(4, 2):
            for cache in (None, *names):
                self.judge(text, drawn.choice((10, 37, 100)), *options, cache=cache)

    def test_by_hand(self):
        text = b"0 0\n0 10\n0 0\n0 10\n2 0\n0 20\n0 20\n"
        # empty after a flush, which is no reference
        flushed = text.replace(b"2 0", b"4 0") + b"0 0\n"
        for trace, last in (text, "5,6,1,50.000\n"), (flushed, "5,7,2,66.667\n"):
            words = ("-", *shape("l1-d", 16, 1, 2), "--each=4")
            answer = self.good(self.run_tool("over-time", *words, stdin=trace))
            self.assertEqual(answer, HEADER + "1,4,2,50.000\n" + last)

    def test_own_options(self):
        for words, fault in (
            ([], "--each must be a number of references above 0; 'over-time --help' explains the "
             "arguments\n"),
            (["--each"], "argument --each: expected one argument"),
            (["--each", "0"], "--each must be"),
            (["--each=1k"], "--each must be"),
            (["--each=1", "--cache", "l1"], "argument --cache/--at: invalid choice: 'l1'"),
            (["--each=1", "--cache"], "argument --cache/--at: expected one argument"),
            (["--each=1", "--at", "l1"], "argument --cache/--at: invalid choice: 'l1'"),
            (["--each=1", "--cache=l2-u"], "no option is of l2-u; "),
        ):
            ran = self.run_tool("over-time", "-", *self.CACHE, *words)
            self.refused(ran, 2, f"over-time: {fault}")
