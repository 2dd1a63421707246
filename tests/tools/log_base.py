"""What tests of the tools that filter the log share: caches, what comes to them, traces, faults."""

import random

import base
import reading_base
from reading_base import SORT

LABELS = {"read": 0, "write": 1, "fetch": 2}
TRANSPOSE = (base.EXAMPLES / "transpose.lackey").read_bytes()
MODIFIES = b" M 20,4\n L 40,1\n M 20,4\nI  20,4\n M 60,8\n S 61,1\n L 20,4\n"
PLANS = [tuple(plan.split()) for plan in (
    "l1-u", "l1-d", "l1-i", "l1-i l1-d", "l1-u l2-u", "l1-d l2-u", "l1-i l1-d l2-u")]


def steps(text, options):
    """Each reference, and what comes to each cache and to memory then, by the machines of the
    model: the place, the reference, and whether it misses. Nothing comes of what no first-level
    cache takes; None stands for a flush, which empties all caches. The options are those of din."""
    job = base.model.parse(["din", *map(str, options)])[1]
    caches = base.model.machines_of(job)
    for event in base.references(text, job["format"]):
        if event is base.model.FLUSH:
            for cache in caches.values():
                cache.flush()
            yield event, None
            continue
        first = "l1-u", "l1-i" if event.access == "fetch" else "l1-d"
        first = [name for name in first if name in caches]
        came, arrived = [event] if first else [], []
        for name in [*first, *(["l2-u"] if "l2-u" in caches else [])]:
            sent = []
            for reference in came:
                sent += caches[name].step(reference)
                arrived.append((name, reference, caches[name].went != "hit"))
            came = sent
        yield event, arrived + [("memory", reference, False) for reference in came]


def arrivals(text, options):
    """The same one by one; a flush has no place."""
    for event, arrived in steps(text, options):
        yield from [("", event, False)] if arrived is None else arrived


def shape(name, bsize, sets, ways):
    """Options of din for a cache."""
    return [f"-{name}size", bsize * sets * ways, f"-{name}bsize", bsize, f"-{name}assoc", ways]


def random_options(drawn, names):
    """Options of din for caches of any shape and policies, in any order and spelling."""
    options, least = [], 1
    for name in names:
        bsize = max(least, drawn.choice((1, 4, 16, 64, 512)))
        least = max(least, bsize) if names[-1] == "l2-u" else 1
        words = shape(name, bsize, drawn.choice((1, 2, 8, 64)), drawn.choice((1, 2, 4, 8)))
        options += list(zip(words[::2], words[1::2]))
        for word, values in (("repl", "lfr"), ("walloc", "an"), ("wback", "an")):
            options.append((f"-{name}{word}", drawn.choice(values)))
    drawn.shuffle(options)
    seed = ["--seed", drawn.randrange(9)] * drawn.randrange(2)
    spelt = (drawn.choice(((name, value), (f"-{name}={value}",))) for name, value in options)
    return [*seed, *(word for words in spelt for word in words)]


def random_trace(drawn, length=600):
    """References, flushes and skipped lines, at addresses of all lengths."""
    lines = []
    for _ in range(length):
        place = drawn.choice((0, 0x123, 0x8FFF7, 0xFFFFFF00, 0xFFFF800000000000))
        place += drawn.randrange(1 << drawn.choice((4, 8, 12, 16)))
        lines.append(f"{drawn.choice('0000111222' * 9 + '34')} {place:x}\n")
    return "".join(lines).encode()


class Filtering(reading_base.Reading):
    """Tests of any of these tools: TOOL has OWN options, and begins its answer by a HEADER."""

    CACHE = tuple(shape("l1-d", 16, 4, 2))
    OWN = ()
    HEADER = ""

    def words(self, trace):
        return [trace, *self.OWN, *map(str, self.CACHE)]

    def run_on(self, trace, *options, **given):
        return self.run_tool(self.TOOL, trace, *self.OWN, *options, **given)

    def test_nothing(self):
        """Traces without a reference to the cache."""
        for text in (b"", b"3 1\n\n", b"2 10\n"):
            self.assertEqual(self.good(self.run_on("-", *self.CACHE, stdin=text)), self.HEADER)

    def test_format(self):
        expected = self.good(self.run_on("-", *self.CACHE, "-informat", "l", stdin=TRANSPOSE))
        self.assertGreater(expected.count("\n"), 1)
        for words in (["--informat=l"], ["--informat", "l"], ["--format", "l"], ["--format=l"]):
            got = self.good(self.run_on("-", *words, *self.CACHE, stdin=TRANSPOSE))
            self.assertEqual(got, expected)
        (self.folder / "-t").write_bytes(TRANSPOSE)  # which is no option where a trace is wanted
        self.assertEqual(self.good(self.run_on("-t", *words, *self.CACHE)), expected)

    def test_faults_of_arguments(self):
        """They are told before a line of the trace is read."""
        tool, own, cache = self.TOOL, ["-", *self.OWN], ["-", *self.OWN, *self.CACHE]
        needed = f"{tool}: a trace and the options of 'cachesim din' are needed; '{tool} --help'"
        first = f"{tool}: the trace is the first argument, and not given by -t; "
        size = "cachesim: -l1-dsize: bad value\n"
        for arguments, status, fault in (
            ([], 2, f"{needed} explains"),
            ([*self.CACHE, "-"], 2, f"{tool}: a trace and the options"),
            ([*cache, "-t", "x"], 2, first),
            (own, 2, "cachesim: no first-level cache\n"),
            ([*cache, "-l1-dassoc", "3"], 2, "cachesim: error: "),
            ([*own, "-l1-dsize", "48k", "-l1-dbsize", "64"], 2, size),
            ([*cache, "--unified", "16,1,1"], 2, "cachesim: error: "),
            ([*cache, "-"], 2, "cachesim: error: "),
        ):
            ran = self.run_tool(tool, *arguments)
            got = ran.returncode, ran.stdout
            self.assertEqual(got, (status, self.MARK), (arguments, ran.stderr))
            self.assertTrue(ran.stderr.decode().startswith(fault), (arguments, ran.stderr))

    def test_help(self):
        for word in ("-h", "--help"):
            text = self.good(self.run_tool(self.TOOL, "trace", word))
            self.assertTrue(text.startswith(f"{self.TOOL} TRACE "), text)
            self.assertIn("those of\n`cachesim din`, except -t", text)


def cases(seed, count=3):
    """Traces with their format, and options: each plan with random caches, by turns all formats."""
    drawn = random.Random(seed)
    for names in PLANS * count:
        options = random_options(drawn, names)
        texts = ((random_trace(drawn), "d"), (SORT, "d"), (TRANSPOSE, "l"), (MODIFIES, "l"))
        text, format = drawn.choice(texts)
        yield text, [*options, "-informat", format], names
