"""Tables of documents, against what they speak of: the code, help, and what the program writes."""

import collections
import re
import unittest

import base
from facts import constant
from facts_of_measures import full_spaces
from test_facts import MANUAL, section

# what the code writes at a place, and what the manual has there
PLACES = {
    "line": "N", "limit": "N", "option": "OPT", "cache": "CACHE", "which": "WHICH", "0": "NAME",
}
# what the manual has at a place, in a message
MEANT = {
    "N": r"\d+", "NAME": ".*", "OPT": "-[-A-Za-z0-9]+", "WHICH": "(bsize|sets|assoc|size)",
    "CACHE": "l[12]-[idu]",
}
# A trace has too many lines at 2^40; tests/refusals and tests/devices have the others
WITHOUT_CASE = {"more than N lines", "out of memory", "write failed"}


def cells(line):
    return [cell.strip() for cell in re.sub(r"^\| | \|$", "", line).split(" | ")]


def head(text, heading):
    """The cells of the head of a document's table, given the first of them."""
    return cells(re.search(rf"^(?:\| )?{re.escape(heading)} \|.*$", text, re.M)[0])


def table(text, heading):
    """The rows below it."""
    after = re.search(rf"^(?:\| )?{re.escape(heading)} \|.*\n[-|]+\n", text, re.M).end()
    return [cells(line) for line in text[after:].split("\n\n")[0].splitlines()]


def faults():
    """The texts of the manual's faults, each with the status that it ends with."""
    of_arguments, of_a_run = section(MANUAL, "Faults").split("\nFaults of the run")
    for text, status in ((of_arguments, 2), (of_a_run, 1)):
        for cell, *_ in table(text, "Text"):
            if cell.startswith("`"):
                yield cell.strip("`"), status


def faults_of_code():
    """The same of the code: where a text has a cause in it, one for each cause."""
    found = {}
    for path in base.TOP.glob("crates/*/src/**/*.rt"):
        for text in re.findall(r'#\[error\("(.*)"\)\]', path.read_text()):
            found.setdefault(path.stem, []).append(text)
    texts = {text for of_file in found.values() for text in of_file} - {"{0}", "{text}"}
    causes = {"{line}: {fault}": found["line"], "{which}: {cause}": found["space"]}
    for text in texts:
        ending = next((ending for ending in causes if text.endswith(ending)), None)
        for cause in causes[ending] if ending else [""]:
            if cause and "{" in cause:
                continue
            front = text.rpartition(": ")[0] + ": " if ending else text
            whole = front + cause
            limit = constant("trace_core", "limits.rt", "MAX_LINE")
            whole = whole.replace("{MAX_LINE}", str(limit))
            yield re.sub(r"\{(\w+)\}", lambda place: PLACES[place[1]], whole)


class Faults(base.ToolTest):
    def test_they_are_those_of_the_code(self):
        causes = {"bad label", "bad address", "bad size"}
        causes |= {"not a power of two", "out of limits", "reversed range"}
        self.assertEqual({text for text, _ in faults()}, set(faults_of_code()) - causes)

    def test_each_is_wanted_by_a_case_with_its_status(self):
        """And no other is."""
        wanted = {}
        for path in base.TOP.glob("tests/cases/*.cases"):
            for case in path.read_text(errors="replace").split("\n== "):
                message = re.search(r"^!\^? cachesim: (.*)$", case, re.M)
                if message and not message[1].startswith("error:"):
                    status = re.search(r"^\? (\d)$", case, re.M)
                    wanted.setdefault(message[1], set()).add(int(status[1]))
        told = dict(faults())
        found = {}
        for message, statuses in wanted.items():
            text = self.text_of(message, told)
            found.setdefault(text, set()).update(statuses)
        self.assertEqual(found, {text: {told[text]} for text in told if text not in WITHOUT_CASE})

    def text_of(self, message, told):
        """The text of the manual that a message is one of."""
        fits = [text for text in told if re.fullmatch(self.pattern(text), message)]
        self.assertEqual(len(fits), 1, message)
        return fits[0]

    def pattern(self, text):
        return re.sub("|".join(map(r"\b{}\b".format, MEANT)), lambda found: MEANT[found[0]], text)


class Reports(base.ToolTest):
    CACHES = "-l1-usize 16 -l1-ubsize 16 -l2-usize 32 -l2-ubsize 16".split()

    def report(self, trace, *caches):
        return self.good(self.run_command(base.PROGRAM, "din", *caches, stdin=trace))

    def test_words_of_din(self):
        """The table has those of a report, in its order; `..` stands for all that end so."""
        report = self.report(b"1 0\n0 10\n4 0\n", *self.CACHES)
        lines = [re.findall(r"([a-z-]+)=", line) for line in report.splitlines()]
        told = [re.findall("`(.*?)`", word) for word, _ in table(section(MANUAL, "din"), "Word")]
        misses = [name for name in lines[0] if name.endswith(told[1][0].partition("-")[2])]
        plain, *others = told[0], told[2], told[3]
        pairs = [name for each in zip(plain, misses) for name in each]
        self.assertEqual(lines[0], pairs + sum(others, []))
        self.assertEqual(lines[1], lines[0])
        self.assertEqual([["memory"], lines[3]], told[4:])
        self.assertTrue(report.splitlines()[2].startswith("memory "))

    def test_what_din_counts(self):
        """A dirty block that stays, one that is evicted, one that is flushed, and a clean one."""
        meant = {word: said for word, said in table(section(MANUAL, "din"), "Word")}
        self.assertIn("evicted or flushed", meant["`copybacks`"])
        self.assertIn("dirty blocks of flushes", meant["`memory`"])
        traces = {b"1 0\n": 0, b"1 0\n0 10\n": 1, b"1 0\n4 0\n": 1, b"0 0\n4 0\n": 0}
        for trace, copybacks in traces.items():
            report = self.report(trace, *self.CACHES[:4])
            self.assertIn(f" copybacks={copybacks}\n", report)
            self.assertIn(f" writes={copybacks}\n", report)

    def test_fields_of_log(self):
        first, _, outcomes = table(section(MANUAL, "log"), "Field")
        places, words = re.findall("`(.*?)`", first[1]), re.findall("`(.*?)`", outcomes[1])
        self.assertEqual(places, [*base.model.CACHES, "memory", "bypassed"])
        trace = b"1 0\n1 0\n0 10\n"
        log = self.good(self.run_command(base.PROGRAM, "log", *self.CACHES, stdin=trace))
        lines = [line.split() for line in log.splitlines()]
        self.assertLessEqual({line[0] for line in lines}, set(places))
        told = {word for word in " ".join(words).split()}
        self.assertEqual({word for line in lines for word in line[3:]} - {"0"}, told)


class Speed(base.ToolTest):
    TEXT = (base.TOP / "docs/speed.md").read_text()

    def test_spaces(self):
        """Of the script that measures, with as many rows; the ratios are those of the times."""
        spaces = base.script("against_c").SPACES
        rows = table(self.TEXT, "Space")
        self.assertEqual([row[0] for row in rows], list(spaces))
        titles = head(self.TEXT, "Space")
        for name, arguments, count, *measured in rows:
            written = arguments.strip("`").split()
            shown = self.sweep(*written)
            asked = zip(("--bsize", "--sets", "--assoc", "--size"), spaces[name])
            self.assertEqual(self.sweep(*(word for pair in asked for word in pair)), shown, name)
            self.assertEqual(len(shown.splitlines()) - 1, int(count.replace(",", "")))
            self.judge_ratios(titles[3:], measured)

    def test_full_tables(self):
        """Of the same spaces, once they are measured; the last ratio is to sweeps of that day."""
        heading = "With `--full`"
        self.assertEqual(f"\n{heading} |" in self.TEXT, bool(full_spaces()))
        if full_spaces():
            self.judge_full_tables(heading)

    def judge_full_tables(self, heading):
        rows, above = table(self.TEXT, heading), table(self.TEXT, "Space")
        self.assertEqual([row[0] for row in rows], [row[0] for row in above])
        titles = head(self.TEXT, heading)
        for _, *measured, longer in rows:
            self.judge_ratios(titles[1:-1], measured)
            self.assertRegex(longer, r"^\d+\.\d+$")

    def judge_ratios(self, titles, measured):
        """A ratio is that of the first time to the time before it."""
        self.assertEqual(titles[0], "cachesim")
        for at, title in enumerate(titles):
            if title.startswith("Ratio"):
                ours, theirs = (float(measured[it].removesuffix(" s")) for it in (0, at - 1))
                told = float(measured[at].partition(" ")[0])
                self.assertAlmostEqual(told, ours / theirs, delta=0.05)
            else:
                self.assertRegex(measured[at], r"^\d+\.\d+ s$")

    def test_shapes(self):
        """Each row has as many cells as its head; times are in seconds, memory in KiB."""
        for heading in ("Space", "Command", "What"):
            for row in table(self.TEXT, heading):
                self.assertEqual(len(row), len(head(self.TEXT, heading)), row)
        for _, _, time, memory in table(self.TEXT, "Command"):
            self.assertRegex(time, r"^\d+\.\d+ s$")
            self.assertRegex(memory, r"^(\d+,\d+ KiB)?$")

    def test_gains(self):
        """What PERF.md tells of a workload's gain is that of its times, by medians of each."""
        rows = table((base.TOP / "docs/PERF.md").read_text(), "Workload")
        self.assertEqual(len(rows), 6)
        for name, before, now, gain in rows:
            self.assertAlmostEqual(float(before) / float(now), float(gain), delta=0.03, msg=name)


class Examples(unittest.TestCase):
    def test_what_they_hold(self):
        """As many references of each kind as examples/README.md tells, and no others."""
        rows = table((base.EXAMPLES / "README.md").read_text(), "File")
        self.assertEqual(len(rows), 3)
        for name, format, held in rows:
            lines = (base.EXAMPLES / name.strip("`")).read_text().splitlines()
            kinds = dict(reads="0", writes="1", fetches="2") if format == "din" else dict(
                loads="L", stores="S", fetches="I")
            told = {kinds[kind]: int(count.replace(",", ""))
                    for count, kind in re.findall(rf"([\d,]+) ({'|'.join(kinds)})\b", held)}
            self.assertEqual(collections.Counter(line.split()[0] for line in lines), told, name)

    def test_what_the_small_program_does(self):
        """As often as its page tells it fetches, reads and writes, by what Valgrind wrote."""
        text = " ".join((base.EXAMPLES / "formats/README.md").read_text().split())
        told = re.search(r"executes (\d+) instructions, reads (\d+) times and writes (\d+) times",
                         text)
        lines = (base.EXAMPLES / "formats/lackey.txt").read_text().splitlines()
        kinds = collections.Counter(line.split()[0] for line in lines if line[:1] in (" ", "I"))
        wanted = [sum(kinds[kind] for kind in kinds_of) for kinds_of in ("I", "LM", "SM")]
        self.assertEqual([int(count) for count in told.groups()], wanted)


class Scripts(base.ToolTest):
    def test_arguments_of_tools(self):
        """What a table tells of a tool's arguments is in the usage of its help."""
        for folder in ("tools", "tools/lab"):
            rows = table((base.TOP / folder / "README.md").read_text(), "Tool")
            called = [cell.strip("`") for cell, *_ in rows if not cell.endswith("/`")]
            self.assertGreater(len(called), 4)
            for name, *arguments in (words.split(maxsplit=1) for words in called):
                told = self.good(self.run_command(base.TOP / folder / name, "--help"))
                words, usage = self.words("".join(arguments)), self.usage(name, told)
                if arguments and arguments[0].endswith(" .."):
                    usage = usage[: len(words)]
                self.assertEqual(words, usage, name)

    def usage(self, name, told):
        """The words in capitals after a tool's name in its help, without those of options."""
        until = r" {3,}[a-z]|\n *\n"
        found = re.search(rf"^(?:usage:| *) ?{name} ((?:.|\n(?! *\n))*?)(?:{until})", told, re.M)
        return self.words(re.sub(r"\[-[^]]*\]|-t FILE", "", found[1]))

    def words(self, text):
        once = re.sub(r"\b([A-Z]+) \[\1 ", r"\1 [", text)  # 'TABLE [TABLE ...]'
        words = re.findall(r"(?<![-\w])[A-Z]{2,}\b(?!-)", once)
        return [word for word in words if word not in ("OPTION", "OPTIONS")]


if __name__ == "__main__":
    unittest.main()
