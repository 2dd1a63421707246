"""The tools for the cache lab of CS:APP. What they must say is from the handout, or by hand."""

import os
import re
import shutil
import signal
import subprocess
import time

from base import EXAMPLES, HANDOUT, PROGRAM, STOPPED_SOON, catches, ended, needs
from lab_base import LAB, STUDENTS, LabTest, StudentTest, comes, is_running, running

ONE = "-s 4 -E 1 -b 4 -t"
LAST = "lab-trace failed: what stands above is not all\n"
TRACES = {
    "yi.trace": HANDOUT.read_text(),
    "order.trace": "I  400,3\n L 10,1\n L 20,1\nI  403,2\n L 10,1\n S 30,8\n L 20,1\n",
    "wide.trace": " L 10,1\n L 100000010,1\n",
}
LAB_LINE = re.compile(r"(I  | [LSM] )[0-9a-f]+,[0-9]+")


def mistakes():
    """The cases in mistakes.cases: names of mistakes, arguments, and what is to be written."""
    text = (STUDENTS / "mistakes.cases").read_text().replace("\n>+", "")
    for case in text.split("\n== ")[1:]:
        lines = case.splitlines()
        arguments = next(line[2:] for line in lines if line.startswith("$ "))
        said = "".join(f"{line[2:]}\n" for line in lines if line.startswith("> "))
        yield lines[0].split(), arguments.split(), said


class Grade(StudentTest):
    """What is said of programs that are right, and of those that are not."""

    def setUp(self):
        super().setUp()
        for name, text in TRACES.items():
            (self.folder / name).write_text(text)

    def grade(self, *arguments, env=None):
        env = {"TMPDIR": str(self.private), **(env or {})}
        return self.run_tool("lab/grade", *arguments, env=env, seconds=40)

    def says(self, ran, text, status):
        """A run that must end with this status, and leave nothing but this output."""
        self.ends(ran, status, "", text)
        self.assertEqual(list(self.private.iterdir()), [])

    def test_the_labs_caches_are_among_those_tried(self):
        said = self.good(self.grade("--all", self.student(), "yi.trace")).splitlines()
        self.assertEqual((len(said), said[-1]), (16, "15 of 15 right"))
        for cache in "1 1 1, 4 2 4, 2 1 4, 2 1 3, 2 2 3, 2 4 3, 5 1 5".split(", "):
            self.assertIn("right: -s {} -E {} -b {} -t yi.trace".format(*cache.split()), said)

    def test_mistakes(self):
        cases = list(mistakes())
        self.assertEqual(len(cases), 14)
        for names, arguments, said in cases:
            with self.subTest(names):
                program = self.student(*names)
                words = (program if word == "CSIM" else word for word in arguments[1:])
                self.says(self.grade(*words), said, 1)
                self.assertTrue(comes(lambda: not running()))

    def test_numbers_are_compared_whole(self):
        """Those wanted are 720, 1328 and 1312."""
        options = "--geometry", "4,1,4", "--points", "--verbose-lines", "no"
        for numbers in ((7200, 1328, 1312), (72, 1328, 1312), (720, 328, 1312), (720, 1328, 11312)):
            summary = "hits:{} misses:{} evictions:{}".format(*numbers)
            program = self.executable("csim", f"echo {summary}")
            ran = self.grade(*options, program, EXAMPLES / "blocks.lackey")
            last = ran.stdout.decode().splitlines()[-1]
            self.assertEqual((ran.returncode, last), (1, "0 of 1 right, 2 of 3 points"))

    def test_what_plays_no_part(self):
        """Other output, what is left behind, an emptied copy of the trace, a process left."""
        for mistake in ("CHATTY", "JUNK", "LEAVES_CHILD", "LEAVES_DAEMON"):
            self.says(self.grade(self.student(mistake), "order.trace"), "15 of 15 right\n", 0)
            self.assertTrue(comes(lambda: not running()))
        traces = {path.name: path.read_text() for path in self.folder.glob("*.trace")}
        self.assertEqual(traces, TRACES)
        self.assertEqual(len(list(self.folder.iterdir())), len(TRACES) + 1)

    def test_notes(self):
        self.write("odd.trace", " L 10,1\nI  400,3\n==1== a message\n")
        none = "no .csim_results was written; the lab's printSummary would have done so"
        odd = "line 3 of odd.trace isn't in the lab's form; a program may rightly misread it"
        for mistakes, trace, note in ((["NO_RESULTS"], "yi.trace", none), ([], "odd.trace", odd)):
            ran = self.grade("--geometry", "4,1,4", self.student(*mistakes), trace)
            self.says(ran, f"note: {note}\n1 of 1 right\n", 0)

    def test_odd_names(self):
        """Of a program, and of traces, one of which isn't UTF-8."""
        shutil.copy(self.student("FIFO"), self.folder / "-my csim")
        names = ["-a trace", os.fsdecode(b"tr\xffce")]
        for name in names:
            (self.folder / name).write_text(TRACES["order.trace"])
        ran = self.grade("--geometry=0,2,4", "--verbose-lines=no", "--", "-my csim", *names)
        said = ["wrong: -s 0 -E 2 -b 4 -t -a trace", "    wanted hits:1 misses:4 evictions:2",
                "    got    hits:2 misses:3 evictions:1",
                "wrong in the same way as -s 0 -E 2 -b 4 -t -a trace, with s,E,b:",
                r"    0,2,4 -t tr\xffce",
                "0 of 1 right on -a trace", r"0 of 1 right on tr\xffce", "0 of 2 right"]
        self.says(ran, "".join(f"{line}\n" for line in said), 1)

    def test_nothing_to_judge(self):
        self.write("bad.trace", " L 10,1\n X 10,1\n")
        self.write("text", "no program\n").chmod(0o755)
        self.write("csim.c", "int main(void) { }\n")
        self.write("text.c", "no program\n").chmod(0o755)
        one = [self.student(), "yi.trace"]
        for arguments, message in (
            (["absent", "yi.trace"], "absent: no such file\n"),
            (["private", "yi.trace"], "private: no such file\n"),
            (["yi.trace", "yi.trace"], f"{self.folder}/yi.trace: Permission denied\n"),
            (["text", "yi.trace"], f"{self.folder}/text: Exec format error\n"),
            (["csim.c"], "csim.c is no program: compile it first\n"),
            (["text.c", "yi.trace"], f"{self.folder}/text.c: Exec format error\n"),
            ([*one, "absent"], "absent: no such file\n"),
            ([*one, "bad.trace"], "-s 1 -E 1 -b 1 -t bad.trace: line 2: bad label\n"),
            (["--geometry", "21,1,1", *one], "-s 21 -E 1 -b 1 -t yi.trace: bad geometry\n"),
            (["--geometry", "4,1", *one], "argument --geometry: invalid geometry value: '4,1'; "),
            (["--keep", "yi.trace", one[0]], "yi.trace: File exists\n"),
            (["--seconds", "0", *one], "argument --seconds: invalid seconds value: '0'; "),
            (["--verbose-lines", "some", *one], "argument --verbose-lines: invalid choice"),
            ([], "the following arguments are required: CSIM; 'grade --help' explains the "
             "arguments\n"),
        ):
            self.refused(self.grade(*arguments), 2, f"grade: {message}")
        ran = self.grade(*one, env={"CACHESIM": "/absent"})
        self.refused(ran, 2, "grade: /absent is no program that can be run\n")

    def test_an_interrupt(self):
        student = self.student("LOOPS")
        command = [LAB / "grade", "--seconds", "30", student, HANDOUT]
        self.interrupted(command, lambda: is_running(student))

    def test_an_interrupt_as_a_run_begins(self):
        """The program itself sends it, several times since it need not come at the worst moment."""
        for _ in range(10):
            self.says(self.grade(self.student("STOPS_GRADE"), "yi.trace"), "", 143)
            self.assertTrue(comes(lambda: not running()))

    def test_a_signal_just_before_a_wait(self):
        """Python takes note of it, and waits all the same: as of one that another thread got."""
        ran = self.run_python(
            *STOPPED_SOON,
            "from parts.student import Limited",
            "from lib.signals import stop_at_signals",
            "stop_at_signals()",
            "with Limited(['sleep', '60'], 1 << 26, 50) as run:",
            "    threading.Thread(target=stop).start()",
            "    run.status()", folder=LAB)
        self.ends(ran, 143, "")
        self.assertTrue(comes(lambda: not running()))


class Trace(LabTest):
    """A trace of a program, in the lab's form."""

    def trace(self, *arguments, **given):
        return self.run_tool("lab/lab-trace", *arguments, **given)

    @needs("valgrind")
    def test_a_program_and_its_child(self):
        """Ten stores of the program, and none of its child; and its words, input and status."""
        flags = "-O1", "-o", self.folder / "-a program"
        self.good(self.run_command("cc", *flags, STUDENTS / "stores.c"))
        ran = self.trace("--", "./-a program", stdin=b"input\n")
        address, *arguments = ran.stderr.decode().split()
        self.assertEqual((arguments, ran.returncode), (["input", "L", "77,1"], 7))
        lines = ran.stdout.decode().splitlines()
        odd = [line for line in lines if not LAB_LINE.fullmatch(line) or line == " L 77,1"]
        self.assertEqual((odd, lines.count(f" S {int(address, 16):08x},8")), ([], 10))
        self.good(self.run_command(PROGRAM, "csim", *ONE.split(), "/dev/stdin", stdin=ran.stdout))

    @needs("valgrind")
    def test_statuses(self):
        ran = self.trace("sh", "-c", "kill -ABRT $$")
        self.assertEqual((ran.stderr, ran.returncode), (b"", 134))
        self.assertTrue(ran.stdout)
        for program, status, told in (("absent", 127, "absent: command not found"),
                                      ("/etc/passwd", 126, "/etc/passwd: Permission denied")):
            ran = self.trace(program)
            self.assertEqual((ran.returncode, ran.stdout.decode()), (status, LAST))
            self.assertIn(told, ran.stderr.decode())
            csim = self.run_command(PROGRAM, "csim", *ONE.split(), "/dev/stdin", stdin=ran.stdout)
            self.refused(csim, 1, "cachesim: line 1: bad label\n")

    @needs("valgrind")
    def test_outputs_that_fail(self):
        message = "lab-trace: the trace can't be written\n"
        for place in ("> /dev/full", "| :"):
            call = f"set -o pipefail; '{LAB}/lab-trace' true {place}"
            self.ends(self.run_command("bash", "-c", call), 125, message)

    def test_a_failure_of_valgrind(self):
        """With one that writes what the real one does at an instruction unknown to it, and with
        some that write no line of a trace."""
        log = r"I  0400d7d4,8\n\nhost stacktrace:\n==1== at 0\n"
        self.executable("valgrind", "for word; do [[ $word = --log-fd=* ]] && to=${word#*=}; done",
                        f"printf '{log}' >&$to", "exit 1")
        env = {"PATH": f"{self.folder}:{os.environ['PATH']}", "TMPDIR": str(self.private)}
        ran = self.trace("true", env=env)
        said = "lab-trace: Valgrind itself failed; the trace ends there\n"
        said = f"\nhost stacktrace:\n==1== at 0\n{said}"
        self.ends(ran, 125, said, f"I  0400d7d4,8\n{LAST}")
        self.assertEqual(list(self.private.iterdir()), [])

        for end, status, told in (("exit 1", 1, 1), ("exit 0", 125, 0), ("kill -KILL $$", 137, 137),
                                  ("exit 127", 127, 127)):
            ran = self.trace("true", env=self.stand_in("valgrind", end))
            said = f"lab-trace: valgrind ended with status {told}, and there is no trace\n"
            self.ends(ran, status, said, LAST)

    def test_a_signal_as_the_program_begins(self):
        """To the tool alone, which does not wait for the program's end."""
        env = {**self.stand_in("valgrind", "exec sleep 60"), "TMPDIR": str(self.private)}
        given = {"env": {**os.environ, **env}, "stdout": subprocess.DEVNULL}
        for step in range(40):
            command = [LAB / "lab-trace", "true"]
            with subprocess.Popen(command, start_new_session=True, **given) as tool:
                self.assertTrue(comes(lambda: catches(tool.pid, signal.SIGTERM)))
                time.sleep(0.0005 * step)
                tool.terminate()
                self.assertIn(tool.wait(20), (143, -15))
            self.assertTrue(comes(lambda: not running()))
            self.assertEqual(list(self.private.iterdir()), [])

    def test_wrong_arguments_and_a_missing_valgrind(self):
        message = "lab-trace: no program; 'lab-trace --help' explains the arguments\n"
        self.ends(self.trace(), 125, message, LAST)
        ran = self.trace("--all", "ls")
        self.assertEqual((ran.returncode, ran.stdout.decode()), (125, LAST))
        self.assertIn("lab-trace: --all is no option; ", ran.stderr.decode())
        self.assertTrue(self.good(self.trace("--help")).startswith("lab-trace PROGRAM ARGS.. "))
        message = "lab-trace: valgrind is missing: apt-get install valgrind\n"
        self.ends(self.trace("ls", env={"PATH": str(self.private)}), 125, message, LAST)

    @needs("valgrind")
    def test_a_signal_ends_what_the_program_has_started(self):
        """Also where the tool alone gets it; and the trace ends in a line that is none of one."""
        script = "(sleep 60 & sleep 60) & echo begun >&2; sleep 60"
        for number in (signal.SIGTERM, signal.SIGHUP, signal.SIGINT):
            command = [LAB / "lab-trace", "sh", "-c", script]
            given = {**self.in_folder(), "stderr": subprocess.PIPE, "start_new_session": True}
            with open(self.folder / "trace", "wb") as trace:
                tool = subprocess.Popen(command, stdout=trace, **given)
            with ended(tool):
                self.assertTrue(comes(lambda: len(running()) >= 4, 60))
                tool.send_signal(number)
                self.assertEqual(tool.wait(timeout=20), -number)
                self.assertTrue(comes(lambda: not running()))
            self.assertTrue((self.folder / "trace").read_text().endswith(LAST))
