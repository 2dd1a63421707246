"""A tool that a signal ends at some moment, or that finds no room: what its output had before stays
as it was, no part of its output looks whole, and it leaves no traceback, no process and no file.

The plain tests, which are of the gate, draw some of the runs."""

import concurrent.futures
import contextlib
import itertools
import multiprocessing
import os
import pathlib
import random
import shutil
import signal
import subprocess
import tempfile
import time

from base import (EXAMPLES, HANDOUT, PLAIN, PROGRAM, TOOLS, WRITES_A_TRACE, ToolTest, adopt_orphans,
                  catches, comes, needs)
from lab_base import STUDENTS, TRANS, running
from trace_base import FAKE, QEMU, TRACED, program_of

SPACE = "--bsize 16-64 --sets 1-64 --assoc 1-8 --size 16-8k".split()
CACHE = "-l1-dsize 128 -l1-dbsize 16 -l1-dassoc 2 -l1-isize 16 -l1-ibsize 16".split()
# what each tool is given; behind a blank stands what sets a run apart, as that of a stand-in for
# QEMU. These need Python, a C compiler and bash, ..
RUNS = {
    "any-index": ["long.din", *"--bsize 16 --sets 99 --assoc 1-2".split()],
    "best": ["table.csv", "--rows", "999"],
    "by-page": ["long.din", *CACHE],
    "din-table": ["2", "long.din", *CACHE[2:], "-l1-dsize", "128,256"],
    "lab/grade": ["./csim", "handout.lackey", "--geometry", "1,1,4", "--geometry", "2,1,4"],
    "lab/grade-class": ["students/ann", "students/bob", "--trace", "handout.lackey",
                        "--geometry", "1,1,4"],
    "lab/replay": "-s 1 -E 2 -b 4 -t handout.lackey".split(),
    "optimal": ["long.din", *SPACE],
    "over-time": ["long.din", *CACHE, "--each", "50"],
    "plot": ["table.csv", "-"],
    "prefetch": ["long.din", *CACHE],
    "second-level": ["long.din", *CACHE],
    "sweep-parallel": ["2", "long.din", *SPACE],
    "three-c": ["long.din", *SPACE],
    "to-din": ["lackey", "long.lackey"],
    "trace fake": ["./program", "many:600000"],
    "warm": ["9", "long.din.gz", *SPACE],
}
# .. and these a package
OF_PACKAGES = {
    "by-line": ["long.din", *CACHE],
    "lab/lab-trace": ["./program"],
    "lab/lab-transpose": ["--size", "8x8", "trans.c"],
    "profile fake": [*CACHE, "--by", "object", "./program", "many:600000"],
    "trace": ["./program"],
    "trace lackey": ["--with", "lackey", "./program"],
}
WRITES_BY_AND_BY = "lab/grade", "lab/grade-class"  # what is judged, line by line
VARIES = "lab/lab-trace", "trace", "trace lackey"  # the stack is elsewhere in each run
SIGNALS = "HUP INT QUIT TERM USR1 USR2 ALRM XCPU PIPE KILL".split()
# which trace passes on to its program: in a file the trace is good until this has ended by it
PASSED_ON = SIGNALS[:6]
PLACES = "appended to", "new", "a pipe"
# the bytes of a file that may not grow further
LIMIT = 1 << 20
DEVICE = 128 << 10  # and those of a device
# how many bytes less a file has that is appended to; one has more already
ROOMS = -4096, 0, 7, 45, 3000
MOST = 40  # runs of the plain tests


def drawn(runs):
    """All runs in some order, the same at each time; in the plain tests the first of them."""
    runs = [*runs]
    random.Random(1).shuffle(runs)
    return runs[:MOST] if PLAIN else runs


def former(size):
    """What a file had before: a good trace of so many bytes."""
    return b"0 10".ljust(4 + size % 5, b"0") + b"\n" + b"0 10\n" * (size // 5 - 1)


class Place:
    """A folder with what the tools read, and the environment in which they run there."""

    def __init__(self, folder):
        self.folder = folder

    def fill(self):
        folder = self.folder
        shutil.copy(HANDOUT, folder)
        (folder / "long.din").write_bytes((EXAMPLES / "sort.din").read_bytes() * 4)
        (folder / "long.lackey").write_bytes((EXAMPLES / "transpose.lackey").read_bytes() * 90)
        subprocess.run(["gzip", "-k", folder / "long.din"], check=True)
        shutil.copy(shutil.which("true"), folder / "program")
        for name in ("csim", "students/ann/csim", "students/bob/csim"):
            (folder / name).parent.mkdir(parents=True, exist_ok=True)
            shutil.copy(program_of(STUDENTS / "student.c"), folder / name)
        (folder / "trans.c").write_text(TRANS)
        sweep = [PROGRAM, "sweep", *SPACE, "-t", EXAMPLES / "sort.din"]
        (folder / "table.csv").write_bytes(subprocess.check_output(sweep))
        fake = program_of(TRACED / "fake_qemu.c", "-rdynamic")
        (folder / "fake").mkdir()
        (folder / "fake" / QEMU).symlink_to(fake)

    def given(self, tool, private):
        fake = f"{self.folder}/fake:" if tool.endswith(" fake") else ""
        own = {"CACHESIM": PROGRAM, "PATH": f"{fake}{os.environ['PATH']}", "TMPDIR": private}
        env = {**os.environ, **{name: str(value) for name, value in own.items()}, **FAKE}
        return {"cwd": self.folder, "env": env, "stdin": subprocess.DEVNULL,
                "start_new_session": True}


class Run:
    """A run of a tool whose output goes to a place that had something before."""

    def __init__(self, place, tool, words, before=b"", is_piped=False):
        self.place, self.tool, self.words, self.before = place, tool, words, before
        self.is_piped, self.status = is_piped, None
        self.allowed = {"nothing"}  # what is no fault of this run: nothing, a part, a rest, ..

    def reader(self, file):
        """What puts into the file what comes through a pipe, and its pipe; or else the file."""
        if not self.is_piped:
            return None, file
        reader = subprocess.Popen(["cat"], stdin=subprocess.PIPE, stdout=file)
        return reader, reader.stdin

    def run(self, during):
        """Runs the tool, and meanwhile does something with its process. Takes note of all that it
        leaves."""
        self.folder = pathlib.Path(tempfile.mkdtemp(dir=self.place.folder))
        private, self.file = self.folder / "private", self.folder / "output"
        private.mkdir()
        self.file.write_bytes(self.before)
        given = self.place.given(self.tool, private)
        with open(self.file, "ab") as file, open(self.folder / "told", "wb") as told:
            reader, output = self.reader(file)
            process = subprocess.Popen(self.words, stdout=output, stderr=told, **given)
            output.close()
            during(process)
            with contextlib.suppress(subprocess.TimeoutExpired):
                self.status = process.wait(60)
            self.end_others()
            for each in filter(None, (process, reader)):
                each.wait()
        self.private = [path.name for path in private.iterdir()]
        self.told = (self.folder / "told").read_text(errors="replace")
        written = self.file.read_bytes()
        self.kept = len(os.path.commonprefix([written, self.before]))
        self.written = written[len(self.before):]
        shutil.rmtree(self.folder)
        return self

    def end_others(self):
        """Notes what has not ended with the tool, and ends it."""
        self.left = [] if comes(lambda: not running()) else running()
        while left := running():
            for number in left:
                with contextlib.suppress(ProcessLookupError):
                    os.kill(int(number), signal.SIGKILL)

    def faults(self, whole):
        """What is wrong with how it ended, each in a few words."""
        if self.status is None:
            yield "it doesn't end"
        if self.kept < len(self.before):
            yield f"{len(self.before) - self.kept} bytes of what was there are lost"
        elif self.status == 0 and not self.is_whole(whole):
            yield "status 0, and its output is not the whole"
        elif self.status and not ("a part" in self.allowed or self.is_whole(whole)
                                  or self.is_seen_to_be_cut(whole)):
            yield f"what it wrote looks whole, and ends in {self.written[-40:]!r}"
        if "Traceback" in self.told and "a traceback" not in self.allowed:
            yield f"a traceback: {self.told.strip()[-200:]!r}"
        if (self.private or self.left) and "a rest" not in self.allowed:
            yield f"it leaves the files {self.private}, the processes {self.left}"

    def is_whole(self, whole):
        if self.tool in VARIES:
            return abs(len(self.written) / len(whole) - 1) < 0.01
        return self.written == whole

    def is_seen_to_be_cut(self, whole):
        """By a simulator, which refuses it, or since its last line has no end."""
        if not self.written:
            return "nothing" in self.allowed or self.tool.split()[0] not in WRITES_A_TRACE
        if self.tool in WRITES_BY_AND_BY:
            return whole.startswith(self.written)
        if self.tool.split()[0] not in WRITES_A_TRACE:
            return not self.written.endswith(b"\n")
        form = "l" if self.tool == "lab/lab-trace" else "d"
        sweep = [PROGRAM, "sweep", *SPACE[:6], "--size", "16", "--format", form, "-t", "/dev/stdin"]
        text = (b"\n" + self.written)[-4096:].partition(b"\n")[2]  # whole lines of the end
        return subprocess.run(sweep, input=text, capture_output=True, check=False).returncode != 0


def whole_of(place, tool, words):
    """All that a tool writes, and how long it takes."""
    began = time.monotonic()
    ran = Run(place, tool, words).run(lambda _: None)
    assert ran.status == 0 and ran.written and not ran.told, f"{tool}: {ran.status}: {ran.told}"
    return ran.written, time.monotonic() - began


def signalled(place, tool, words, whole, seconds, where, name, moment):
    """What is wrong with a run that a signal ends at a moment, part of the time that it takes."""
    before, number = former(99990) if where == "appended to" else b"", signal.Signals[f"SIG{name}"]
    run = Run(place, tool, words, before, where == "a pipe")
    if name == "KILL":
        run.allowed.add("a rest")
    if tool.startswith("trace") and where != "a pipe" and name in PASSED_ON:
        run.allowed.add("a part")

    def end(process):
        time.sleep(moment * seconds)
        caught = [catches(process.pid, each) for each in (number, signal.SIGINT, signal.SIGTERM)]
        process.send_signal(number)
        if caught == [True, True, False]:  # Python has only begun, and catches it itself
            run.allowed.add("a traceback")
        elif caught[0]:
            run.allowed.remove("nothing")

    run.run(end)
    what = f"{tool}, its output {where}, {name} after {moment * seconds:.3f} s"
    return [f"{what}: {fault}" for fault in run.faults(whole)]


def without_room(place, tool, words, whole, _, around, size, room):
    """The same of a run whose output has so much room, where there can be no more than a size."""
    run = Run(place, tool, [*around, *words], former(size - room))
    run.run(lambda _: None)
    return [f"{tool}, room for {room} bytes: {fault}" for fault in run.faults(whole)]


class EndedTest(ToolTest):
    runs = RUNS

    @classmethod
    def setUpClass(cls):
        """Each of several processes makes runs, and adopts what these leave behind."""
        for tool in ("by-line", "optimal", "over-time", "second-level", "to-din", "trace"):
            subprocess.run([TOOLS / tool, "--build"], check=True)
        folder = pathlib.Path(tempfile.mkdtemp(prefix="cachesim-ended-"))
        cls.addClassCleanup(shutil.rmtree, folder, ignore_errors=True)
        cls.place = Place(folder)
        cls.place.fill()
        cls.pool = concurrent.futures.ProcessPoolExecutor(
            mp_context=multiprocessing.get_context("fork"),
            initializer=adopt_orphans)
        cls.addClassCleanup(cls.pool.shutdown)
        words = {tool: [TOOLS / tool.split()[0], *words] for tool, words in cls.runs.items()}
        wholes = {tool: cls.pool.submit(whole_of, cls.place, tool, words[tool]) for tool in words}
        cls.known = {tool: (tool, words[tool], *whole.result()) for tool, whole in wholes.items()}

    def judge(self, tasks):
        tasks = [self.pool.submit(*task) for task in tasks]
        faults = [fault for task in tasks for fault in task.result()]
        if faults:
            self.fail("\n".join(faults))


def without_traces(runs):
    """Of a tool that writes a trace and finds no room test_outputs asks more."""
    return [tool for tool in runs if tool.split()[0] not in WRITES_A_TRACE]


class Ended(EndedTest):
    def test_signals(self):
        moments = random.Random(2)
        runs = drawn(itertools.product(self.runs, PLACES, SIGNALS))
        self.judge((signalled, self.place, *self.known[tool], where, name, 1.1 * moments.random())
                   for tool, where, name in runs)

    def test_no_room_in_a_file(self):
        """Which may not grow beyond a size."""
        around = ["bash", "-c", f'ulimit -f {LIMIT >> 10}; exec "$@"', "bash"]
        self.judge((without_room, self.place, *self.known[tool], around, LIMIT, room)
                   for tool, room in drawn(itertools.product(without_traces(self.runs), ROOMS)))


of_packages = needs("binutils", "bubblewrap", "llvm", "qemu-user", "valgrind")


@of_packages
class EndedOfPackages(Ended):
    runs = OF_PACKAGES


@of_packages
class FullDevice(EndedTest):
    runs = {**RUNS, **OF_PACKAGES}

    def test_no_room_on_a_device(self):
        """A small one in memory, to which the output is copied before, and from it at the end."""
        full = self.place.folder / "full"
        full.mkdir()
        script = f"""cat /proc/$$/fd/1 > {full}/it; "$@" >> {full}/it; status=$?
                     : > /dev/stdout; cat {full}/it; exit $status"""
        around = ["bwrap", "--dev-bind", "/", "/", "--size", str(DEVICE), "--tmpfs", full,
                  "bash", "-c", script, "bash"]
        self.judge((without_room, self.place, *self.known[tool], around, DEVICE, room)
                   for tool, room in itertools.product(without_traces(self.runs), ROOMS[1:]))
