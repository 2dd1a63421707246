"""The tests of the program fail on programs that are wrong, and name what is wrong.

So a test that is disarmed is seen here. The programs are the right one with the mistakes of
wrong_program.c.
"""

import contextlib
import importlib
import io
import itertools
import math
import re
import subprocess
import unittest
from concurrent.futures import ThreadPoolExecutor
from unittest import mock

import base
import common

# what passed and what failed, without what was seen
SEEN = r": (?:wanted |at most |as the manual|no refusal|\(|\d+ KiB|\d+\.\d+ s|\d+ growths).*"
NAMED = re.compile(rf"^(ok|FAILED) (.*?)(?:{SEEN})?$", re.M)
SUM = re.compile(r"(\d+) passed, (\d+) failed\n\Z")


class Wrong(base.ToolTest):
    """Tests that run scripts on wrong programs."""

    def program(self, *mistakes):
        """The program with these mistakes."""
        source = base.TOP / "tests/tools/wrong_program.c"
        library, program = self.folder / "wrong.so", self.folder / "wrong"
        strict = ["cc", "-O1", "-Wall", "-Wextra", "-Werror"]
        named = [f"-D{mistake}" for mistake in mistakes]
        paths = [f'-DRIGHT="{base.PROGRAM}"', f'-DLIBRARY="{library}"']
        subprocess.run([*strict, "-shared", "-fPIC", *named, "-o", library, source], check=True)
        # static, so that what a test puts in front of the program's library is not in this one
        subprocess.run([*strict, "-static", *paths, "-o", program, source], check=True)
        return program

    def fails(self, script, mistakes, *arguments, env=None):
        """What a script writes of a program with these mistakes: it must have failed."""
        command = [base.TOP / "tests" / script, "--program", self.program(*mistakes), *arguments]
        ran = self.run_command(*command, env=env, seconds=900)
        text = ran.stdout.decode(errors="replace")
        self.assertEqual((ran.returncode, ran.stderr), (1, b""), text)
        return text

    def failed(self, text):
        """How many failed, by the last line."""
        return int(SUM.search(text)[2])


class Fuzz(Wrong):
    CASES = 15

    def wanted(self, command, run_as=None):
        """What the model makes of the first cases of a command, which may be run as another."""
        fuzz = base.script("fuzz")
        cases = [fuzz.case(1, index, [command]) for index in range(self.CASES)]
        return [fuzz.by_model([run_as or words[0], *words[1:]], text) for words, text in cases]

    def test_of_log(self):
        """Each case whose output, message or status differs is found, and no other."""
        wanted = self.wanted("log")
        # of a fault of the arguments the model has the first words alone
        faults = [message if message != "cachesim: error:" else "" for _, message, _ in wanted]
        for mistake, stream, is_wrong in (
            ("BYTE", "stdout", [re.search("[0-9]", out) for out, *_ in wanted]),
            ("LAST", "stdout", [re.search("[0-9]", out) for out, *_ in wanted]),
            ("MESSAGE", "stderr", [message for _, message, _ in wanted]),
            ("WORD", "stderr", [re.search("[a-z]$", fault.strip()) for fault in faults]),
            ("LINE", "stderr", [re.search("[0-9]", fault) for fault in faults]),
            ("STATUS", "status", [True] * self.CASES),
        ):
            words = "--commands", "log", "--cases", self.CASES
            text = self.fails("fuzz", [mistake], *words, env={"WRONG_COMMAND": "log"})
            found = {index for index in range(self.CASES) if is_wrong[index]}
            self.assertGreater(len(found), 2)
            self.assertEqual(self.failed(text), len(found), text)
            told = set(map(int, re.findall(r"^FAILED case (\d+) of seed 1$", text, re.M)))
            self.assertEqual(len(told), min(10, len(found)))
            self.assertLessEqual(told, found)
            self.assertEqual(text.count(f"    {stream} of the model "), len(told))

    def test_of_each_command(self):
        for command in ("sweep", "csim", "din"):
            index = next(at for at, (out, *_) in enumerate(self.wanted(command)) if "1" in out)
            text = self.fails("fuzz", ["BYTE"], "--commands", command, "--only", index)
            self.assertIn(f"FAILED case {index} of seed 1\n", text)
            self.assertEqual(self.failed(text), 1)

    WRONG_AT_17 = (
        r'[[ " $* " =~ (assoc|-E)\ ([0-9]+-)?17\  ]] || exec "$CACHESIM" "$@"',
        r""""$CACHESIM" "$@" | sed -zE 's/9([^0-9]*)$/0\1/; t; s/[0-8]([^0-9]*)$/9\1/'""",
        'exit "${PIPESTATUS[0]}"',
    )

    def case_of(self, command, ways):
        """The number of a case at a threshold, whose words name its ways."""
        fuzz, places = base.script("fuzz"), importlib.import_module("thresholds").PLACES
        for at in range(places.index((command, "ways", ways)), 500, len(places)):
            index = (at + 1) * fuzz.THRESHOLD_EACH - 1
            words = " ".join(fuzz.case(1, index, fuzz.COMMANDS)[0])
            if re.search(rf"(assoc|-E) ([0-9]+-)?{ways}\b", words):
                return index

    def test_of_thresholds(self):
        """What is wrong with 17 ways alone is found of each command, in a case of 17 ways and in
        none of 16. It is the last digit that is written."""
        wrong = self.executable("wrong", *self.WRONG_AT_17)
        for command, ways in itertools.product(base.script("fuzz").COMMANDS, (16, 17)):
            with self.subTest((command, ways)):
                words = ["--program", wrong, "--only", self.case_of(command, ways)]
                ran = self.run_command(base.TOP / "tests/fuzz", *words)
                failed = self.failed(ran.stdout.decode())
                self.assertEqual((failed, ran.returncode), (int(ways == 17),) * 2)

    def test_of_places(self):
        """Each threshold has cases by what the model makes of them, and too few are told."""
        fuzz, thresholds = base.script("fuzz"), importlib.import_module("thresholds")
        variety, total = fuzz.Variety(), common.Sum()
        variety.random, variety.bad, variety.seeds = 10000, 5000, set(range(500))
        variety.high = 1000
        variety.stood.update(dict.fromkeys(thresholds.PLACES, 2))
        variety.stood.update(dict.fromkeys(thresholds.KINDS, 4))
        variety.letters.update(dict.fromkeys(fuzz.LETTERS_OF, 500))
        with contextlib.redirect_stdout(io.StringIO()) as told:
            variety.judge(total)
            self.assertEqual((total.passed, total.failed), (6, 0))
            variety.stood[thresholds.PLACES[0]] = 1
            variety.stood[thresholds.KINDS[0]] = 3
            variety.high = 800
            variety.letters["walloc", "n"] = 499
            variety.judge(total)
        self.assertEqual((total.passed, total.failed), (8, 4))
        self.assertIn("[('walloc', 'n')]", told.getvalue())
        self.assertIn("[('sweep', 'ways', 11)]", told.getvalue())
        self.assertIn("[('sweep', 'step', 1)]", told.getvalue())

    def test_of_kinds(self):
        """By a case's arguments and trace: the policies of its large caches, and what lies between
        its blocks."""
        thresholds = importlib.import_module("thresholds")
        words = "-l1-usets 2 -l1-ubsize 16 -l1-uassoc 128 -l1-urepl".split()
        for command, step, kinds in (
            (["din", *words, "f"], 3, {("din", "policy", "f"), ("din", "step", 3)}),
            (["log", *words, "r"], 570_123, {("log", "policy", "r"), ("log", "step", 570_123)}),
            (["din", *words[:5], "8"], 1024, {("din", "step", 1)}),
            (["csim", *"-s 1 -E 17 -b 4 -t x".split()], 130_064, {("csim", "step", 8_129)}),
            (["sweep", *"--bsize 16-64 --sets 2 --assoc 17 --size 0-1g".split()], 7, set()),
        ):
            line = " L {:x},1\n" if command[0] == "csim" else "0 {:x}\n"
            # two sets in turns
            text = "".join(line.format((at * step * 2 + set_) << 4)
                           for at in range(20) for set_ in range(2))
            self.assertEqual(thresholds.kinds_of(command, text.encode()), kinds)

    def test_of_high_addresses(self):
        high = base.script("fuzz").HIGH
        for text, is_high in (b"0 fffffffffffff000\n1 0xFFFFFFFFFFFFFFFF\n", True), (
                b"0 fffffffffffff000\n1 ffffffffffff0fff\n", False), (b"0 10\n", False):
            self.assertEqual(bool(high.search(text)), is_high)

    def test_a_report_that_does_not_count_the_log(self):
        """Where din alone is wrong, in the name of a cache, it is found of each that is reached.
        The wrong name is that of the second level: if this has the same counts, nothing is
        wrong."""
        reports = self.wanted("log", run_as="din")
        reached = []
        for report, *_ in reports:
            counts = [line.partition(" ")[2] for line in report.splitlines()[:-2]]
            if re.match("l1.*=[1-9]", report) and len(set(counts)) == len(counts):
                reached.append(report)
        self.assertGreater(len(reached), 2)
        arguments = ["--commands", "log", "--cases", self.CASES]
        text = self.fails("fuzz", ["BYTE"], *arguments, env={"WRONG_COMMAND": "din"})
        self.assertEqual(self.failed(text), len(reached))


class Run(Wrong):
    takes_long = True

    def setUp(self):
        super().setUp()
        self.run_script, inputs = base.script("run"), base.TOP / "tests/cases/inputs"
        found = [case for case, _ in self.run_script.read_all(inputs.parent, inputs)]
        self.cases = {case.name: case for case in found if not hasattr(case, "command")}
        self.examples = {case.name: case for case in found if hasattr(case, "command")}

    def told(self, mistake):
        """The cases that fail of a program with this mistake, all that there are."""
        text = self.fails("run", [mistake])
        told = re.findall(r"^FAILED (\S+) \(", text, re.M)
        self.assertEqual(self.failed(text), len(told))
        return {*told}

    def written(self, stream, sign):
        """The cases that want this in a stream, of which they have all."""
        texts = ((name, case.streams[stream].whole) for name, case in self.cases.items())
        return {name for name, text in texts if re.search(sign, text or b"")}

    def test_cases(self):
        """Each that wants a digit, a message or a status sees another one, and each that ends well
        sees a message behind its last word."""
        good = {name for name, case in self.cases.items() if not case.status}
        for mistake, wanted in (
            ("BYTE", self.written("stdout", rb"\d")), ("LAST", self.written("stdout", rb"\d")),
            ("MESSAGE", self.written("stderr", rb"^c")), ("LINE", self.written("stderr", rb"\d")),
            ("WORD", self.written("stderr", rb"[a-z]\n\Z")), ("WARNS", good),
            ("STATUS", {*self.cases}),
        ):
            with self.subTest(mistake):
                self.assertGreater(len(wanted), 20)
                self.assertEqual(wanted - self.told(mistake), set())

    def test_examples_of_documents(self):
        """Each with a digit sees another one, and each a message that is not shown."""
        shown = {name for name, it in self.examples.items()
                 if re.search(r"\d", "\n".join(it.command.wanted))}
        self.assertGreater(len(shown), 5)
        # what is behind a pipe may be another digit, or a text of no digit
        self.assertGreater(2 * len(shown & self.told("BYTE")), len(shown))
        good = {name for name, it in self.examples.items() if "2>&1" not in it.command.text}
        self.assertEqual(good - self.told("WARNS"), set())

    def test_a_program_that_ends_late(self):
        """It is not waited for longer than a case may take, and no case takes that for right."""
        run, late = self.run_script, self.executable("late", "exec sleep 100")
        run.SECONDS = run.documents.SECONDS = 0.1
        cases = [*self.cases.values(), *self.examples.values()]
        with ThreadPoolExecutor(8) as pool:
            for case, wrong in zip(cases, pool.map(lambda case: case.run(str(late)), cases)):
                self.assertIn("not done after 0.1 seconds", "\n".join(wrong), case.name)


class Others(Wrong):
    takes_long = True

    def named(self, script, mistakes, *arguments):
        """The names of what passed, and of what failed."""
        told = NAMED.findall(self.fails(script, mistakes, *arguments))
        return [[name for word, name in told if word == each] for each in ("ok", "FAILED")]

    def test_devices_of_a_program_whose_bytes_are_wrong(self):
        """Nothing passes but help, of which nothing comes out."""
        mistakes = ["BYTE", "MESSAGE", "KEEPS"]
        good, bad = self.named("devices", mistakes, "--commands", "din")
        self.assertEqual(good, ["help: a full device changes nothing"])
        self.assertGreater(len(bad), 70)

    def test_devices_of_a_program_that_does_not_heed_failures(self):
        """What fails is each write that it doesn't heed, and the end of its input."""
        devices = base.script("devices")
        din = devices.COMMANDS["din"]
        calls = [{"WRITE_MOST": 1, "WRITE_FAILS": at + 1} for at in range(len(din.text))]
        calls.append({"READ_MOST": 1, "READ_FAILS": len(din.trace) + 2})
        outputs = ["a full device", "a pipe that nobody reads", "stream 1 is closed"]
        bad = self.named("devices", ["SILENT", "AGAIN"], "--commands", "din")[1]
        wanted = [f"din, {' '.join(call)}: {call}" for call in calls]
        wanted += [f"din: {output}" for output in outputs]
        self.assertEqual(bad, wanted)

    def test_refusals(self):
        """Nothing passes but what is compared with itself: growths of runs that read the same."""
        refusals = base.script("refusals")
        good, bad = self.named("refusals", ["MESSAGE", "KEEPS", "PIECES"])
        self.assertEqual([name[:9] for name in good], ["four rows"] * 3 + ["each faul"])
        lengths = {letters: len(word) for letters, word in refusals.WORDS.items()}
        self.assertEqual(lengths, {6_000: 6_000, 100_000: 100_000})
        for _, arguments in refusals.of_a_word("w" * 100_000):
            self.assertGreaterEqual(max(map(len, arguments)), 100_000)
        words = len(refusals.WORDS) * len([*refusals.of_a_word("")])
        told = len(refusals.FAULTS) + words
        self.assertEqual(len(bad), 2 * len(refusals.RUNS) + 5 + 2 + 5 + told)

    def test_a_program_that_crashes(self):
        """Where a signal ends it behind its last word, all that it does is wrong; of two runs on
        endless traces the end isn't waited for."""
        for script, *arguments in (("devices", "--commands", "din"), ("limits", "--tries", 1),
                                   ("run", "csim", "help", "examples.cases", "manual.md"),
                                   ("fuzz", "--cases", 15, "--commands", "log,din")):
            with self.subTest(script):
                text = self.fails(script, ["CRASH"], *arguments)
                passed = 2 if script == "devices" else 0
                self.assertEqual(int(SUM.search(text)[1]), passed, text[-2000:])
                self.assertEqual(text.count(" without end, and at most "), passed)
        # the run without a refusal is as wrong as the others
        text = self.fails("refusals", ["CRASH"], "csim", "help")
        self.assertRegex(text, "(?m)^    N = 0: .*'signal 9'")

    def test_limits(self):
        """Each kind of limit is found: of tables, times, memory and calls; and what is taken
        late."""
        for mistakes, parts, *names in (
            ("BYTE GREEDY PIECES SLOW", "tables,times,ratios,bytes_asked,memory,calls",
             "441 pairs of block size and set count", "65536 associativities",
             "100,000 verbose lines, and none", "plain lines, and lines with every check",
             "a sweep of eight block sizes and 2^20 sets", "din with 2^20 sets",
             "a sweep of eight block sizes and 2^20 sets, in all", "din with 2^20 sets, in all",
             "csim with 2^20 sets, in all", "csim with 2^20 sets", "a table of 65,536 rows",
             "20,000 references of log", "csim with S = 1048576 and A = 1, replacement l"),
            ("KEEPS PIECES", "bytes_asked,written", "bytes that din asks for after its first read",
             "a sweep with S = 8192 and A = 255: two blocks in each set"),
        ):
            bad = self.named("limits", mistakes.split(), "--tries", 1, "--parts", parts)[1]
            self.assertEqual({*names} - {*bad}, set())


class Judging(unittest.TestCase):
    """What tests/limits makes of numbers on both sides of each bound."""

    def judged(self, name, *given, **measured):
        """Whether a judgement is good, where the limits measure this."""
        limits = base.script("limits")
        total = limits.Limits("program", 1)
        for what, value in measured.items():
            setattr(total, what, value if callable(value) else lambda *_, of=value: of)
        with contextlib.redirect_stdout(io.StringIO()):
            getattr(total, name)("name", *given)
        self.assertEqual(total.passed + total.failed, 1)
        return not total.failed

    def judge_each(self, right, wrong, judged):
        """Which numbers are found right, of these that are and of those that are not."""
        self.assertEqual([it for it in (*right, *wrong) if judged(it)], [*right])

    def of_runs(self, here, there):
        """Measures one run so, and the other so."""
        return lambda arguments, *_: here if arguments == "run" else there

    def test_bytes_that_are_asked_for(self):
        """As many as the manual tells, neither more nor less, or at most, and not much less."""
        run, small = ("run", 1000), ("small", 10)
        for few, right, wrong in (((), (1000, 1000.5), (1001, 999, math.nan)),
                                  ((0.5, 0.9), (1000, 900), (1001, 899))):
            self.judge_each(right, wrong, lambda seen, few=few: self.judged(
                "takes", run, small, {}, *few, beside_words=self.of_runs(seen, 10)))

    def test_memory(self):
        slack = base.script("limits").SLACK
        most = base.script("limits").ANY_RUN
        self.judge_each((0, slack, -slack), (slack + 1, -slack - 1, math.nan), lambda more: (
            self.judged("memory", "run", "small", 5000, {}, peak=self.of_runs(9000 + more, 4000))))
        self.judge_each((0,), (1, math.nan), lambda more: self.judged(
            "memory_in_all", "run", 5000, {}, peak=5000 + most + more))

    def test_times(self):
        both = ("run", b""), ("other", b"")
        self.judge_each((2.0, 2.1), (2.2,), lambda here: self.judged(
            "no_slower", *both, seconds=self.of_runs(here, 0.1)))
        self.judge_each((2.0,), (2.1,), lambda here: self.judged(
            "in_ratio", *both, 2, seconds=self.of_runs(here, 1.0)))

    def test_a_refusal_that_changes_nothing(self):
        """It is right only where a library looks for a similar word, and only of a single call."""
        refusals = base.script("refusals")

        def run(_program, _variables, _arguments, at, _after=False):
            return (b"the same", b"", 0), at in (1, 2)

        with mock.patch.object(refusals, "run", run):
            for name, after in itertools.product(refusals.RUNS, (False, True)):
                _, wrong, least = refusals.refuse_each("program", {}, name, after)
                is_harmless = name in refusals.LOOK_FOR_SIMILAR_WORDS and not after
                self.assertEqual((len(wrong), least), (0 if is_harmless else 2, 3), (name, after))


if __name__ == "__main__":
    unittest.main()
