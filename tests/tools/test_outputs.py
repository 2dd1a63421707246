"""What tools do where their output fails, or ends before it is whole: no byte is lost that was
there before, and no part of a trace looks like the whole."""

import contextlib
import itertools
import os
import re
import resource
import shutil
import signal
import subprocess
import time

from base import EXAMPLES, HANDOUT, PROGRAM, TOOLS, ToolTest, comes, ended, needs
from trace_base import FAKE, QEMU, TRACED, program_of

SPACE = "--bsize 16-64 --sets 1-16 --assoc 1-4 --size 16-4k".split()
ROOM = 4096  # bytes of a file that may not grow further
FULL = "No space left on device"
# tools that write lines: the words of each, its status, and that for a fault
RUNS = {
    "best": (["table.csv", "--rows", "99"], 0, 1),
    "lab/grade": (["students/ann/csim", "yi.trace", "--geometry", "1,1,4", "--all"], 1, 2),
    "lab/grade-class": (["--geometry", "1,1,4", "--trace", "yi.trace", "students/ann"], 0, 2),
    "lab/replay": ("-s 1 -E 2 -b 4 -t yi.trace".split(), 0, 1),
    "sweep-parallel": (["--pages", "2", *SPACE], 0, 1),
    "plot": (["table.csv", "-"], 0, 1),
}
# those that write more than there is room for
LONG = "lab/replay", "plot"


class Outputs(ToolTest):
    def setUp(self):
        super().setUp()
        self.write("table.csv", self.sweep(*SPACE, "-t", EXAMPLES / "sort.din"))
        shutil.copy(HANDOUT, self.folder / "yi.trace")
        (self.folder / "students/ann").mkdir(parents=True)
        self.executable("students/ann/csim", "echo hits:1 misses:2 evictions:3")

    def by_bash(self, tool, line):
        """What a tool writes, tells and ends with that a line of bash runs."""
        words = "bash", "-c", f"set -o pipefail; {line}", TOOLS / tool, *RUNS[tool][0]
        ran = self.run_command(*words, env={"COLUMNS": "150", "LINES": "40"})  # of text pictures
        return ran.stdout, ran.stderr.decode(), ran.returncode

    def test_all_is_written(self):
        for tool, (_, wanted, _) in RUNS.items():
            with self.subTest(tool):
                said, told, status = self.by_bash(tool, '"$0" "$@"')
                self.assertEqual((told, status), ("", wanted))
                self.assertEqual(len(said) > ROOM, tool in LONG, len(said))
                self.assertTrue(said.endswith(b"\n"))

    def test_a_full_device(self):
        for tool, (_, _, status) in RUNS.items():
            with self.subTest(tool):
                name = tool.rpartition("/")[2]
                got = self.by_bash(tool, '"$0" "$@" > /dev/full')
                self.assertEqual(got, (b"", f"{name}: standard output: {FULL}\n", status))

    def test_room_for_a_part(self):
        for tool in LONG:
            with self.subTest(tool):
                got = self.by_bash(tool, f'ulimit -f {ROOM // 1024}; "$0" "$@" > cut')
                told = f"{tool.rpartition('/')[2]}: standard output: File too large\n"
                self.assertEqual(got, (b"", told, 1))

    def test_a_reader_that_goes(self):
        for tool in RUNS:
            with self.subTest(tool):
                self.assertEqual(self.by_bash(tool, '"$0" "$@" | true'), (b"", "", 141))


CACHE = "-l1-dsize 128 -l1-dbsize 16".split()
COUNT = 20000
ADDRESSES = [0x10000 + 0x1000 * number for number in range(COUNT)]
DIN = "".join(f"0 {address:x}\n" for address in ADDRESSES)
LACKEY = "".join(f" L {address:x},8\n" for address in ADDRESSES)
# tools that write a trace: their words, what they read, and what they write then; trace has steps
# of its stand-in for QEMU, which wait at the end
STEPS = ["./program", f"many:{COUNT}", "call"]
MANY = "".join(f"0 {number:x}\n" for number in range(COUNT))
TRACES = {
    "to-din": (["addresses", "-"], DIN.replace("0 ", "", 1).replace("\n0 ", "\n"), DIN),
    "second-level": (["-", *CACHE], DIN, DIN),
    "lab/lab-trace": (["true"], LACKEY, LACKEY),
    "trace": (STEPS, "", MANY),
    "trace lackey": (["--with", "lackey", "--kind", "d", "true"], LACKEY * 8, DIN * 8),
}
SIGNALS = [getattr(signal, f"SIG{name}") for name in
           "HUP INT QUIT USR1 USR2 ALRM TERM STKFLT XCPU VTALRM PROF IO PWR RTMIN RTMAX".split()
           if hasattr(signal, f"SIG{name}")]
PASSED_ON = {signal.SIGHUP, signal.SIGINT, signal.SIGQUIT, signal.SIGUSR1, signal.SIGUSR2,
             signal.SIGTERM}  # to a program that is traced: a file is good until there
BEFORE = "# what the user had\n" * 300000
# how a tool comes to write behind what a file has: it appends, or its file stands at its end
WAYS = '"$0" "$@" >> {}', '{{ cat <&3 > /dev/null; "$0" "$@" >&3 3>&-; }} 3<> {}'


def without_core():
    resource.setrlimit(resource.RLIMIT_CORE, (0, 0))


class CutTraces(ToolTest):
    def setUp(self):
        super().setUp()
        shutil.copy(shutil.which("true"), self.folder / "program")
        lackey = self.executable(
            "bin/valgrind", 'for word; do case $word in --log-fd=*) log=${word#*=} ;; esac; done',
            'exec cat >&"$log"')
        (lackey.parent / QEMU).symlink_to(program_of(TRACED / "fake_qemu.c", "-rdynamic"))
        self.env = self.in_folder(PATH=f"{lackey.parent}:{os.environ['PATH']}", **FAKE)
        for tool in ("to-din", "second-level", "trace"):
            self.run_tool(tool, "--build")

    def words(self, tool):
        return [TOOLS / tool.split()[0], *TRACES[tool][0]]

    @contextlib.contextmanager
    def waiting(self, tool, output):
        """A tool that has written a part, and waits for more."""
        words = [*self.words(tool), *["wait"] * (tool == "trace")]
        with ended(subprocess.Popen(words, stdin=subprocess.PIPE, stdout=output, **self.env,
                                    stderr=subprocess.PIPE, preexec_fn=without_core)) as running:
            running.stdin.write(TRACES[tool][1].encode())
            running.stdin.flush()
            yield running

    def lines_before(self, tool, text, last):
        """What a cut trace has is whole lines of it, and a last one that no simulator takes."""
        body, found = re.subn(rf"(?:{last})\n\Z", "", text)
        self.assertEqual(found, 1, (tool, text[-200:]))
        self.assertTrue(TRACES[tool][2].startswith(body) and body[-1:] in ("", "\n"), body[-99:])

    def test_each_signal(self):
        """In a file, where a part is there as it comes. It ends in the mark, behind a whole line;
        what can't be caught ends within a line."""
        for tool in TRACES:
            for sent in SIGNALS:
                if tool.startswith("trace") and sent in PASSED_ON:
                    continue
                with self.subTest(tool=tool, sent=sent), open(self.folder / "cut", "wb") as cut:
                    with self.waiting(tool, cut) as running:
                        self.assertTrue(comes(lambda: os.fstat(cut.fileno()).st_size))
                        running.send_signal(sent)
                        _, told = running.communicate(timeout=60)
                        self.assertEqual((told, running.returncode), (b"", -sent))
                    last = "[a-z-]+ failed: what .* not all|trace: a signal ended it: .* not all"
                    self.lines_before(tool, (self.folder / "cut").read_text(), last)

    def test_a_kill(self):
        """It can't be caught: the last line is one that no simulator takes, also where a write is
        cut."""
        for tool, most in itertools.product(TRACES, (1, 20000, 70000)):
            with self.subTest(tool, most=most), open(self.folder / "cut", "wb") as cut:
                with self.waiting(tool, cut) as running:
                    until = time.monotonic() + 60
                    while os.fstat(cut.fileno()).st_size < most and time.monotonic() < until:
                        pass  # the moment counts
                    running.kill()
                    running.wait()
                text = (self.folder / "cut").read_text()
                self.assertGreaterEqual(len(text), most)
                whole, _, cut_off = text.partition("\0")
                self.assertTrue(TRACES[tool][2].startswith(whole))
                self.assertRegex(cut_off, r"\A\0*.?\Z")
                self.assert_refused(text)

    def assert_refused(self, text):
        form = "l" if text.startswith(" ") else "d"
        swept = self.run_command(PROGRAM, "sweep", *SPACE, "--format", form, "-t", "/dev/stdin",
                                 stdin=text.encode())
        self.refused(swept, 1, "cachesim: line ")

    def no_room(self, tool, line, before, seconds=60):
        """A line of bash runs a tool that writes to a file which has no room for all. What stands
        there then, behind what stood there before, which is as it was."""
        self.write("cut", before)
        ran = self.run_command("bash", "-c", line, *self.words(tool), seconds=seconds,
                               stdin=TRACES[tool][1].encode(), env=self.env["env"])
        told = ran.stderr.decode()
        self.assertEqual((ran.returncode, told.count("\n")),
                         (125 if "trace" in tool else 1, 1), told)
        text = (self.folder / "cut").read_text()
        self.assertTrue(text.startswith(before), (tool, len(text)))
        return text[len(before):], told

    def test_a_file_that_may_not_grow(self):
        """The mark takes the place of this run's own last lines; where there are too few, nothing
        of it stands there, and the message says so."""
        for tool, way in itertools.product(TRACES, WAYS):
            blocks = 4000 if tool == "trace" else 64  # which shares memory
            line = f"ulimit -f {blocks}; {way.format('cut')}"
            with self.subTest(tool, way=way):
                text, _ = self.no_room(tool, line, BEFORE[:1024 * blocks - 5000])
                self.lines_before(tool, text, r"[a-z-]+ failed: what stands above is not all *")
                for length in (1024 * blocks - 20, 1024 * blocks, 1024 * blocks + 99):
                    text, told = self.no_room(tool, line, BEFORE[:length])
                    self.assertEqual(text, "")
                    self.assertIn("; none of it is kept\n", told)

    @needs("bubblewrap")
    def test_a_full_device(self):
        """The same on a device of its own."""
        for place in ("small", "out"):
            (self.folder / place).mkdir()
        for tool, way in itertools.product(TRACES, WAYS):
            line = ('exec bwrap --dev-bind / / --size 65536 --tmpfs "$PWD/small" --bind "$PWD" '
                    f'"$PWD/out" bash -c \'cat out/cut > small/cut; {way.format("small/cut")}; '
                    'status=$?; cat small/cut > out/cut; exit $status\' "$0" "$@"')
            last = r"[a-z-]+ failed: what stands above is not all *"
            with self.subTest(tool, way=way):
                text, told = self.no_room(tool, line, BEFORE[:50000])
                self.assertIn("No space left" if tool != "lab/lab-trace" else "written", told)
                self.lines_before(tool, text, last)

    def test_another_that_appends(self):
        """What it wrote is left, also where the mark finds no place."""
        for tool in ("to-din", "second-level", "lab/lab-trace"):
            with self.subTest(tool):
                self.write("cut", BEFORE[:1000])
                limit = self.executable("limited", 'ulimit -f 256; exec "$@"')
                with open(self.folder / "cut", "ab") as cut, ended(subprocess.Popen(
                        [limit, *self.words(tool)], stdin=subprocess.PIPE, stdout=cut,
                        stderr=subprocess.PIPE, **self.env)) as running:
                    half = TRACES[tool][1].encode()
                    running.stdin.write(half)
                    running.stdin.flush()
                    self.assertTrue(comes(lambda: os.fstat(cut.fileno()).st_size > 1000))
                    with open(self.folder / "cut", "ab") as other:
                        other.write(b"# another's\n")
                    _, told = running.communicate(half * 2, timeout=60)
                    self.assertNotEqual(running.returncode, 0, told)
                text = (self.folder / "cut").read_text()
                self.assertTrue(text.startswith(BEFORE[:1000]))
                self.assertIn("# another's\n", text)
                self.assertRegex(text, r"\n[a-z-]+ failed: what stands above is not all *\n\Z")

    def test_a_parents_alarm(self):
        """It ends a tool as it ends `cat`."""
        alarm = "import os, signal, sys; signal.alarm(2); os.execv(sys.argv[1], sys.argv[1:])"
        for tool in TRACES:
            words = [*self.words(tool), *["wait"] * (tool == "trace")]
            with self.subTest(tool), ended(subprocess.Popen(
                    ["/usr/bin/python3", "-c", alarm, *words], **self.env, stdin=subprocess.PIPE,
                    stdout=subprocess.PIPE)) as running:
                self.assertEqual(running.wait(60), -signal.SIGALRM)  # also where nobody reads
                last = rb"(trace: a signal ended it|[a-z-]+ failed): what stands above is not all\n"
                self.assertRegex(running.stdout.read(), last + rb"\Z")
