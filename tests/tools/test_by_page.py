"""Misses by page of memory."""

import collections
import random

import base
import log_base
from log_base import SORT, TRANSPOSE, shape

HEADER = "page,references,misses,percent,share\n"


class ByPage(log_base.Filtering, base.ToolTest):
    TOOL = "by-page"
    HEADER = HEADER

    def judge(self, text, page, size, *options, cache=None):
        """Compares with the model: by page what comes to a cache, or else to the first level."""
        references, misses = collections.Counter(), collections.Counter()
        for place, event, missed in log_base.arrivals(text, options):
            if place.startswith(cache or "l1"):
                references[event.addr // size] += 1
                misses[event.addr // size] += missed
        rows, total = [], misses.total() or 1
        for number in sorted(references, key=lambda number: (-misses[number], number)):
            came, missed = references[number], misses[number]
            rows.append(f"{number * size:x},{came},{missed},{100 * missed / came:.3f},"
                        f"{100 * missed / total:.3f}\n")
        named = ["--cache", cache] if cache else []
        answer = self.good(self.run_tool("by-page", "-", *page, *options, *named, stdin=text))
        self.assertEqual(answer, HEADER + "".join(rows), (options, cache))

    def test_sizes_of_pages(self):
        cache = shape("l1-d", 16, 8, 2)
        self.judge(SORT, [], 4096, *cache)
        for page, size in (("1", 1), ("2", 2), ("64", 64), ("0512", 512), ("8K", 8192),
                           ("1m", 1 << 20), ("1073741824", 1 << 30)):
            self.judge(SORT, ["--page", page], size, *cache)
        self.judge(TRANSPOSE, ["--page=256"], 256, *cache, "-informat", "l")

    def test_addresses_of_all_lengths(self):
        drawn = random.Random(2)
        places = [drawn.randrange(1 << drawn.choice((1, 5, 9, 13, 31, 40, 64))) for _ in range(800)]
        text = "".join(f"{drawn.choice('012')} {place:x}\n" for place in places)
        text, cache = text.encode() + b"0 ffffffffffffffff\n0 0\n", shape("l1-u", 16, 8, 2)
        for page, size in (("1", 1), ("8", 8), ("16", 16), ("4k", 4096), ("32k", 32768),
                           ("512m", 1 << 29), ("1g", 1 << 30)):
            self.judge(text, ["--page", page], size, *cache)

    def test_random(self):
        """Caches of all shapes, policies and write modes, in one level and two, with flushes."""
        for text, options, names in log_base.cases(8, 2):
            for cache in (None, *names):
                self.judge(text, ["--page", "64"], 64, *options, cache=cache)

    def test_by_hand(self):
        # 1018 alone finds its block in a cache of one
        text = b"0 10\n0 1010\n0 1018\n0 10\n0 2000\n0 10\n"
        answer = self.good(self.run_tool("by-page", "-", *shape("l1-d", 16, 1, 1), stdin=text))
        rows = "0,3,3,100.000,60.000\n1000,2,1,50.000,20.000\n2000,1,1,100.000,20.000\n"
        self.assertEqual(answer, HEADER + rows)

    def test_own_options(self):
        page, power = "argument --page:", "is no page size: no power of two"
        for words, fault in (
            (["--page", "3k"], f"{page} '3k' {power}; 'by-page --help' explains the arguments\n"),
            (["--page", "0"], f"{page} '0' {power}"),
            (["--page", "2g"], f"{page} '2g' is a page of more than 1g"),
            (["--page=1073741825"], f"{page} '1073741825' is a page of more than 1g"),
            (["--page", "536870912g"], f"{page} '536870912g' is a page of more than 1g"),
            (["--page", "x"], f"{page} 'x' is no page size such as 4k"),
            (["--page", "9999999999g"], f"{page} '9999999999g' is no page size such as 4k"),
            (["--page="], f"{page} '' is no page size such as 4k"),
            (["--page"], f"{page} expected one argument"),
            (["--cache", "memory"], "argument --cache/--at: invalid choice: 'memory'"),
            (["--cache", "l1-i"], "no option is of l1-i; "),
        ):
            self.refused(self.run_tool("by-page", "-", *self.CACHE, *words), 2, f"by-page: {fault}")
