"""Numbers, options and statuses that documents tell, against what they are of."""

import importlib
import itertools
import operator
import os
import re
import sys
import unittest

import base
import facts
import figures
from facts import constant

MANUAL = (base.TOP / "docs/manual.md").read_text()
# a row of a table of options, '`--kind` `u`, `d` or `i` | which references ..'
ROW = re.compile(r"^`(-[\w-]+)` ?(.*?) \| (.*)", re.M)
HELP = re.compile(r"^ +(-\w|--[\w-]+)(?: <.+?>)? {2,}(.*?)(?: \[default: (\w+)\])?$", re.M)


def section(text, heading):
    """What stands below a heading of a document."""
    return text.split(f"\n## {heading}\n")[1].split("\n## ")[0]


def flat(name):
    """The text of a document without its line breaks."""
    return " ".join((base.TOP / name).read_text().split())


class Facts(unittest.TestCase):
    """Each number that a fact names is what it must be."""

    MOST = 500

    def test_each(self):
        """A page says it once; what several say in the same words, at least one."""
        self.assertGreater(len(facts.FACTS), 90)
        for fact in facts.FACTS:
            with self.subTest(fact.sentence.pattern):
                found = [(page, it.groups()) for page in facts.pages()
                         for it in fact.found(page, (base.TOP / page).read_text())]
                self.assertTrue(found)
                if not fact.is_of_each:
                    self.assertEqual([page for page, _ in found], list(fact.pages))
                if isinstance(fact.wanted, str):
                    self.assertTrue((base.TOP / fact.wanted).exists() or operator.attrgetter(
                        fact.wanted)(sys.modules[__name__]))
                    continue
                wanted = fact.wanted()
                for page, numbers in found:
                    if fact.is_of_each:
                        self.assertLessEqual({*numbers}, {*wanted}, page)
                    else:
                        self.assertEqual([*numbers], [*wanted], page)

    def test_how_many(self):
        """Few numbers, and half of them compared, besides what was measured once (PERF.md)."""
        told = [it for it in figures.told() if it[0] != "docs/PERF.md"]
        count, of_them = (sum(it[at] for it in told) for at in (2, 1))
        self.assertLessEqual(count, self.MOST)
        self.assertGreaterEqual(2 * of_them, count)

    def test_what_is_a_number(self):
        text = """\
# A page of 1 line

In 1970 it took 3.5 s, 1,024 bytes (2^10), and [one](x.md#2) of `4` in x86-64.

1. Of 5, 6 and 7.
<!-- 8 -->

    cachesim 9

    $ cachesim 10
    11 12
"""
        seen = figures.NUMBER.findall(figures.masked(text))
        self.assertEqual(seen, ["3.5", "1,024", "2^10", "5,", "6", "7"])
        self.assertEqual(len(figures.masked(text)), len(text))
        self.assertEqual(figures.shown_by(text), 2)

    def test_what_was_measured(self):
        """Each file says when, at which commit, by which command; a document uses it."""
        files = sorted((base.TOP / "tests/measured").iterdir())
        self.assertGreater(len(files), 4)
        code = (base.TOP / "tests/facts_of_measures.py").read_text()
        for path in files:
            first, *rest = path.read_text().splitlines()
            self.assertRegex(first, r"^# 20\d\d-\d\d-\d\d [0-9a-f]{8,}(-dirty)?: \S+", path)
            self.assertGreater(len(rest), 3)
            self.assertIn(f'measured("{path.name}")', code)


class Measure(base.ToolTest):
    """tests/measure, in a copy."""

    def measure(self, *words, env=None):
        (self.folder / "tests/measured").mkdir(parents=True, exist_ok=True)
        for name in ("measure", "steps.py", "common.py"):
            (self.folder / "tests" / name).write_bytes((base.TOP / "tests" / name).read_bytes())
        self.executable("bin/git", "echo 0123abcd-dirty")
        path = {"PATH": f"{self.folder}/bin:{os.environ['PATH']}"}
        return self.run_command("python3", self.folder / "tests/measure", *words, env=path)

    def test_the_call_of_the_readme(self):
        """It keeps again what it kept: the name and the command are those of a kept file."""
        text = (base.TOP / "tests/README.md").read_text()
        (name, command), = re.findall(r"^    tests/measure (\S+) (.+)$", text, re.M)
        kept = base.TOP / "tests/measured" / name
        self.assertRegex(kept.read_text().split("\n")[0], rf": {re.escape(command)}$")

    def test_what_is_kept(self):
        self.executable("tests/one", "echo '1 s'", "echo 2 s")
        self.assertEqual(self.good(self.measure("one", "tests/one", "a b")), "1 s\n2 s\n")
        kept = (self.folder / "tests/measured/one").read_text()
        begin = r"# 20\d\d-\d\d-\d\d 0123abcd-dirty: "
        self.assertRegex(kept, rf"\A{begin}tests/one 'a b'\n1 s\n2 s\n\Z")
        # a failure leaves it
        self.executable("tests/one", "echo 3 s", "exit 1")
        self.ends(self.measure("one", "tests/one"), 1, "",
                  "3 s\nnot kept: tests/one ended with status 1\n")
        self.assertEqual((self.folder / "tests/measured/one").read_text(), kept)
        self.refused(self.measure("one"), 2, "a NAME and a COMMAND are needed")


class Manual(base.ToolTest):
    def test_options(self):
        """Those of a command, their letters and their defaults are those of its help; of the caches
        of din the manual shows one."""
        others = re.compile("--l1-[id]|--l2|--help")
        for command in ("sweep", "csim", "din"):
            text = self.good(self.run_command(base.PROGRAM, command, "--help"))
            asked = {name: rest for name, *rest in HELP.findall(text) if not others.match(name)}
            told = {name: rest for name, *rest in ROW.findall(section(MANUAL, command))}
            self.assertGreater(len(told), 4)
            one, other = ({name.lstrip("-") for name in names} for names in (told, asked))
            self.assertEqual(one, other)
            for name, (meaning, default) in asked.items():
                value, said = told[name if name in told else name[1:]]
                letters = re.findall(r"\b([a-z]) [\w-]", meaning.rpartition(": ")[2])
                letters = letters if "`" in value else []
                self.assertEqual(re.findall("`(.)`", value), letters, name)
                if letters or default.isdigit():
                    self.assertIn("the default" if letters else f"{default} by default", said, name)

    def test_memory(self):
        """The pages of the libraries tell what the manual tells, which tests/limits measures."""
        limits, page = importlib.import_module("limits_memory"), "CALLING.md"
        cost = section((base.TOP / "crates/profile_core" / page).read_text(), "Cost")
        rows = re.findall(r"^(?:.*? \| ){2}(.*) \| (.*)$", section(MANUAL, "Limits"), re.M)[1:]
        plain, full = map("\n".join, zip(*rows))
        told, said = (re.findall(limits.FORMULA, it) for it in (plain, cost))
        self.assertEqual(len(told), 5)
        self.assertEqual(sorted(said), sorted(told))
        of_full = re.findall(limits.FORMULA, re.sub(f"late {limits.FORMULA}", "", full))
        cost = section((base.TOP / "crates/full_profile" / page).read_text(), "Cost")
        self.assertEqual(sorted(re.findall(limits.FORMULA, cost)), sorted(of_full))
        caches = limits.told_by_the_manual(limits.CACHES)
        line, set_, ways, *indexed = caches
        self.assertEqual(ways, constant("cache_core", "cache/chosen.rt", "INDEXED_WAYS"))
        in_order, random = (
            f"{of_line:g}{{}} for each line, {of_set:g} for each set and {more:g} more"
            for of_line, of_set, more in (indexed[:3], indexed[3:]))
        text, lists = flat(f"crates/cache_core/{page}"), flat(f"crates/deep_list/{page}")
        for part in (
            f"{line:g} bytes for each line and {set_:g} for each set",
            f"{ways:g} ways or more takes {in_order.format(' bytes')}, and under random "
            f"replacement {random.format('')}",
        ):
            self.assertIn(part, text)
        [far] = {it for it in told if re.search(r"\d\.\d+\*S\*A", it)}
        self.assertIn(f"at most {far.split('*')[0]} bytes per block", lists)


class Sentences(base.ToolTest):
    """What sentences of the manual say, and what the program does."""

    def says(self, *sentences, name="docs/manual.md"):
        text = flat(name)
        for sentence in sentences:
            self.assertEqual(text.count(sentence), 1, f"{name}: {sentence}")

    def test_no_rows(self):
        """With --rows 0 the trace is checked, and the header written."""
        self.says("`--rows 0` only checks the trace and writes the header.")
        told = {path.name for path in sorted((base.TOP / "docs").glob("*.md"))
                if "--rows 0" in path.read_text()}
        self.assertEqual(told, {"manual.md", "proofs.md"}, "sentences that nothing compares")
        words = "--bsize", "16", "--sets", "1", "--assoc", "1", "--size", "16", "--rows", "0"
        header = "bsize,sets,assoc,size,hits,misses,evictions\n"
        self.assertEqual(self.sweep(*words, stdin=b"0 10\n"), header)
        ran = self.run_command(base.PROGRAM, "sweep", *words, stdin=b"0 10\nx\n")
        self.ends(ran, 1, "cachesim: line 2: bad label\n")

    ONE = "--bsize 16 --sets 1 --assoc 1 --size 16".split()
    # a sentence, and runs with a trace, with their status and what they write
    RUNS = {
        "Labels 3 and 4 also need an address, which is ignored.": (
            (["sweep", *ONE], b"3 f\n4 f\n", 0, "16,1,1,16,0,0,0\n"),
            (["sweep", *ONE], b"3\n", 1, "line 1: bad address"),
            (["sweep", *ONE], b"4\n", 1, "line 1: bad address")),
        "Options come in any order, each at most once, with full names.": (
            (["sweep", *ONE[4:], *ONE[:4]], b"", 0, "16,1,1,16,0,0,0\n"),
            (["sweep", *ONE, "--size", "16"], b"", 2, "cannot be used multiple times"),
            (["sweep", *ONE, "--row", "1"], b"", 2, "unexpected argument '--row'")),
        "a flush always takes effect": (
            (["sweep", *ONE, "--kind", "i"], b"2 0\n4 0\n2 0\n", 0, "16,1,1,16,0,2,0\n"),
            (["sweep", *ONE, "--kind", "d"], b"0 0\n4 0\n0 0\n", 0, "16,1,1,16,0,2,0\n")),
        "only the rows after this triple, which need not be a row; no header": (
            ("sweep --bsize 16 --sets 1-2 --assoc 1 --size 16-32 --after 16,1,7".split(), b"", 0,
             "16,2,1,32,0,0,0\n$"),),
        "a flush of every cache; it counts as no eviction": (
            (["sweep", *ONE], b"0 0\n4 0\n0 0\n", 0, "16,1,1,16,0,2,0\n"),),
        "at most one of `k K m M g G`, for 2^10, 2^20 or 2^30:": (
            ("sweep --bsize 1m --sets 1k --assoc 1 --size 1g".split(), b"", 0,
             f"{2**20},{2**10},1,{2**30},0,0,0\n"),),
        "lines per set, 1 by default; with a size a power of two": (
            ("din -l1-usize 16 -l1-ubsize 16".split(), b"0 0\n0 10\n", 0, "evictions=1 "),
            ("din -l1-usize 48 -l1-ubsize 16 -l1-uassoc 3".split(), b"", 2,
             "-l1-usize: bad value"),
            ("din -l1-usize 64 -l1-ubsize 16 -l1-uassoc 3".split(), b"", 2, "l1-u: bad geometry"),
            ("din -l1-usets 4 -l1-ubsize 16 -l1-uassoc 3".split(), b"", 0, "l1-u fetches=0 ")),
        "`csim -v` and `log` have written the lines before, without the summary (`hits:..`)": (
            ("csim -v -s 0 -E 1 -b 4 -t /dev/stdin".split(), b" L 10,1\nx\n", 1, "L 10,1 miss\n$"),
            ("log -l1-usize 16 -l1-ubsize 16".split(), b"0 10\nx\n", 1,
             "l1-u 0 10 miss\nmemory 0 10\n$")),
    }

    def test_what_is_read(self):
        """Where the end of what is written is told, a '$' stands for it."""
        self.says(*self.RUNS)
        for sentence, runs in self.RUNS.items():
            for words, trace, status, wanted in runs:
                ran = self.run_command(base.PROGRAM, *words, stdin=trace)
                self.assertEqual(ran.returncode, status, (sentence, words, ran.stderr))
                seen = f"{ran.stdout.decode()}${ran.stderr.decode()}"
                self.assertIn(wanted, seen, (sentence, words))

    def test_statuses(self):
        """Of help, the manual and the program."""
        self.says("0: done, or help (`-h`, `--help`), which goes to standard output. 1: a fault of "
                  "the run. 2: a fault of the arguments.",
                  "Faults of the arguments (exit status 2), in the order of the checks, before any "
                  "file is opened:", "Faults of the run (exit status 1):")
        line = ("Exit status: 0 done or help, 1 the trace, the output or the memory failed, "
                "2 wrong arguments.")
        for command in ([], ["sweep"], ["csim"], ["din"], ["log"]):
            text = self.good(self.run_command(base.PROGRAM, *command, "--help"))
            self.assertEqual(re.findall("(?i).*exit status.*", text), [line])
        for words, status in (("-h", 0), ("log --help", 0), ("log", 2), ("swep", 2),
                              ("din -l1-usize 16 -l1-ubsize 16 -t /", 1),
                              ("csim -s 1 -E 1 -b 1 -t /absent", 1)):
            ran = self.run_command(base.PROGRAM, *words.split())
            self.assertEqual((ran.returncode, bool(ran.stdout)), (status, not status), words)

    def test_what_is_checked_before_a_file_is_opened(self):
        """To open this file would take until somebody writes to it."""
        os.mkfifo(self.folder / "trace")
        cache = "-l1-usize 16 -l1-ubsize 16"
        for words in ("swep", "sweep --bsize 16", f"din {cache} -l1-urepl x", f"log {cache} 1",
                      "csim -s 21 -E 1 -b 0", f"din {cache} -l2-usize 8 -l2-ubsize 8",
                      "sweep --bsize 3 --sets 1 --assoc 1 --size 1"):
            ran = self.run_command(base.PROGRAM, *words.split(), "-t", "trace", seconds=20)
            self.assertEqual((ran.stdout, ran.returncode), (b"", 2), words)


class Times(unittest.TestCase):
    """What the documents tell of times, against the measurements in docs/speed.md."""

    def test_of_the_build(self):
        """How many minutes make takes, on every page that says so."""
        pages = {name: flat(name) for name in ("README.md", "Makefile")}
        minutes = re.search(r"make # (\w+) minutes on four processors", pages["README.md"])[1]
        self.assertIn(f"proves and builds the program ({minutes} minutes on four processors)",
                      pages["Makefile"].replace("# ", ""))
        self.assertIn(f"{minutes} minutes on four processors", flat("package/build.py"))


class Thresholds(unittest.TestCase):
    def test_both_sides_of_each(self):
        """Random cases stand on both sides of each size at which the code works in another way."""
        places = set(importlib.import_module("thresholds").PLACES)
        for crate, source, name, command, what, sides in (
            ("profile_core", "profile/kept_profile.rt", "SLOTTED_FROM", "sweep", "ways", (-1, 0)),
            ("profile_core", "profile/kept_profile.rt", "SLOTTED_TO", "sweep", "ways", (0, 1)),
            ("profile_core", "profile/kept_profile.rt", "MANY_WAYS", "sweep", "ways", (-1, 0)),
            ("profile_core", "profile/kept_profile.rt", "MANY_WAYS", "sweep", "ways of 8,192 sets",
             (-1, 0)),
            ("profile_core", "profile/kept_profile.rt", "MANY_SETS", "sweep", "sets", (0, 4096)),
            ("profile_core", "set_lists/long_lists.rt", "ROW", "sweep", "ways", (-1, 0)),
            ("profile_core", "set_lists/long_lists.rt", "DEEP", "sweep", "ways", (-1, 0)),
            ("sweep_core", "batch.rt", "BATCH", "sweep", "references", (-1, 0, 1)),
            ("cache_core", "cache/chosen.rt", "INDEXED_WAYS", "csim", "ways", (-1, 0)),
            ("cache_core", "cache/chosen.rt", "INDEXED_WAYS", "din", "ways", (-1, 0)),
            ("cache_core", "cache/chosen.rt", "INDEXED_WAYS", "log", "ways", (-1, 0)),
        ):
            size = constant(crate, source, name)
            self.assertLessEqual({(command, what, size + side) for side in sides}, places, name)

    def test_each_policy(self):
        """Each letter of a policy that random arguments have stands at them, in din and log."""
        letters = [it for word, it in base.script("fuzz").LETTERS_OF if word == "repl"]
        wanted = {(command, "policy", it) for command in ("din", "log") for it in letters}
        found = {it for it in importlib.import_module("thresholds").KINDS if it[1] == "policy"}
        self.assertEqual((found, len(letters)), (wanted, 3))


class Others(base.ToolTest):
    def test_first_random_numbers(self):
        """Of the seed that the definitions name."""
        text = (base.TOP / "docs/definitions.md").read_text()
        stream = constant("cache_core", "replacement.rt", "STREAM")
        self.assertIn(f"stream {stream}.", text)
        told = re.search(r"With seed (\d+) the first are ((?:[0-9a-f]{8}(?:, )?)+)", text)
        numbers = itertools.islice(base.model.random_words(int(told[1])), 4)
        self.assertEqual(told[2].split(", "), [f"{number:08x}" for number in numbers])

    def test_the_default_page(self):
        """Of by-page, as its help tells it."""
        text = self.good(self.run_tool("by-page", "--help"))
        told = re.search(r"(\w+) without this option", text)[1]
        arguments = base.EXAMPLES / "sort.din", *base.cache(256, 16, "-l1-dassoc", 2)
        named = self.good(self.run_tool("by-page", *arguments, "--page", told))
        self.assertEqual(self.good(self.run_tool("by-page", *arguments)), named)
        self.assertNotEqual(named, self.good(self.run_tool("by-page", *arguments, "--page", "8k")))
