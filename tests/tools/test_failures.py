"""A tool that ends with status 0 has given its whole answer, whatever failed on the way: each
command that it runs, its standard streams, and its limits. It ends soon, without a traceback, and
leaves no process and no file. System folders are read-only in all runs, where bubblewrap is there.

What needs no package is among the plain tests, of which `some` leaves out a part."""

import concurrent.futures
import os
import pathlib
import shutil
import subprocess
import tempfile

from base import (EXAMPLES, HANDOUT, OVER_A_TRACE, PLAIN, PROGRAM, SPACE, TOOLS, WRITES_A_TRACE,
                  ToolTest, comes, copy_tools, processes)
from lab_base import STUDENTS
from trace_base import FAKE, QEMU, TRACED, program_of

# what each tool is given: files, and in the place of INPUT a trace, and of MAIN how far a function
# is behind the start of the code. Behind a blank stands what it is asked for beside its usual work,
# by options that call other commands. Those that need packages are in test_failures_packages.py
RUNS = {
    **{tool: words for tool, words in OVER_A_TRACE.items() if tool != "by-line"},
    "best": ["table.csv"],
    "cluster/submit": ["run", "2", "INPUT", *SPACE],
    "lab/grade": ["./csim", "handout.lackey", "--geometry", "1,1,4"],
    "lab/grade-class": ["students/ann", "--trace", "handout.lackey", "--geometry", "1,1,4"],
    "lab/replay": "-s 1 -E 2 -b 4 -t handout.lackey --text".split(),
    "plot": ["table.csv", "-"],
    "to-din": ["lackey", "handout.lackey"],
    "trace": ["./program", "2:1", "many:100"],
}
UNPACKS = [tool for tool, words in RUNS.items() if "INPUT" in words and tool != "cluster/submit"]
OWN_COMMANDS = "optimal", "second-level", "to-din"  # parts in C
TO_A_FILE = {"plot page", "plot png"}  # which is all that they write
OF_VALGRIND = ("lab/lab-trace", "lab/lab-transpose", "trace lackey")  # no room in some limits
# what they run is limited as they are, and judged
OF_STUDENTS = ("lab/grade", "lab/grade-class", "lab/lab-transpose")
# all that they run; a command that is not here is not found
COMMANDS = "addr2line cc gzip llvm-addr2line nm readelf valgrind xz zstd".split()
# stand-ins for those of a cluster, which do nothing
OF_CLUSTERS = {"sbatch": "echo 7", "scancel": "", "squeue": "exit 1"}
# counts the calls of a command, and fails in that one which the environment names, by a status or
# by a signal, as if another process had sent it
STAND_IN = """\
#!/bin/bash
set -o noclobber
for ((at = 1; at < 99; at++)); do { : > "$CALLS/${0##*/}.$at"; } 2> /dev/null && break; done
if [ "${0##*/}.$at" = "${FAILING-}" ]; then
    case $WAY in [0-9]*) exit $WAY ;; *) kill -$WAY $$ ;; esac
fi
exec -a "${0##*/}" REAL "$@"
"""
WAYS = "1", "3", "KILL", "PIPE"
# how a tool is started
PIPES = {"stdout": subprocess.PIPE, "stderr": subprocess.PIPE, "start_new_session": True}


def some(values):
    """Of several limits or places all; in the plain tests, which are of the gate, every third."""
    return [*values][::3] if PLAIN else [*values]


class FailureTest(ToolTest):
    runs, packed, main = RUNS, ("trace.gz",), ""

    @classmethod
    def setUpClass(cls):
        """A copy of the tools with stand-ins for all commands, and a folder with what they read."""
        cls.place = pathlib.Path(tempfile.mkdtemp(prefix="cachesim-failures-"))
        cls.place.chmod(0o755)  # for another user
        cls.addClassCleanup(shutil.rmtree, cls.place, ignore_errors=True)
        cls.tools, cls.commands, cls.given = (
            cls.place / name for name in ("tools", "commands", "given"))
        for tool in ("by-line", "optimal", "over-time", "second-level", "to-din", "trace"):
            subprocess.run([TOOLS / tool, "--build"], check=True)
        copy_tools(cls.tools, *(path.name for path in TOOLS.iterdir() if path.is_file()))
        for folder in ("cluster", "lab"):
            shutil.copytree(TOOLS / folder, cls.tools / folder)
        (cls.tools / "out").mkdir()
        # after the end of trace-run nothing is left that could mark the end of the trace
        for name in ("by-line", "log-counts", "trace-plugin.so", "trace-run", "to-din"):
            shutil.copy(TOOLS / "out" / name, cls.tools / "out")
        cls.commands.mkdir()
        real = {name: path for name in COMMANDS if (path := shutil.which(name))}
        real |= {"cachesim": PROGRAM, QEMU: program_of(TRACED / "fake_qemu.c", "-rdynamic")}
        cls.scripts = cls.place / "scripts"
        cls.scripts.mkdir()
        for name, line in {**OF_CLUSTERS, "cc": f'PATH=/usr/bin {real["cc"]} "$@"'}.items():
            real[name] = cls.scripts / name
            real[name].write_text(f"#!/bin/bash\n{line}\n")
            real[name].chmod(0o755)
        cls.system = cls.place / "system"  # students' programs find no folder that has cachesim
        cls.system.mkdir()
        for name in ("env", "stdbuf"):
            (cls.system / name).symlink_to(shutil.which(name))
        for name, path in real.items():
            cls.replace(cls.commands / name, path)
        for name in OWN_COMMANDS:
            cls.replace(cls.tools / "out" / name, TOOLS / "out" / name)

        given = cls.given
        given.mkdir()
        lines = (EXAMPLES / "sort.din").read_bytes().splitlines(keepends=True)
        (given / "trace.din").write_bytes(b"".join(lines[:2000]))
        with open(given / "trace.gz", "wb") as file:
            subprocess.run(["gzip", "-c", given / "trace.din"], stdout=file, check=True)
        shutil.copy(HANDOUT, given)
        shutil.copy(shutil.which("true"), given / "program")
        (given / "students/ann").mkdir(parents=True)
        for name in ("csim", "students/ann/csim"):
            shutil.copy(program_of(STUDENTS / "student.c"), given / name)
        sweep = [PROGRAM, "sweep", *SPACE, "-t", given / "trace.din"]
        (given / "table.csv").write_bytes(subprocess.check_output(sweep))
        cls.around = cls.confined()

    @staticmethod
    def confined():
        """What keeps a run from writing to the system's folders; nothing where it doesn't work."""
        folder = tempfile.gettempdir()
        words = ["bwrap", *"--ro-bind / / --dev-bind /dev /dev --proc /proc".split(),
                 "--bind", folder, folder, "--die-with-parent", "--"]
        tried = subprocess.run(["env", *words, "true"], capture_output=True, check=False)
        return [shutil.which("bwrap"), *words[1:]] if tried.returncode == 0 else []

    @staticmethod
    def replace(path, real):
        path.write_text(STAND_IN.replace("REAL", f"'{real}'"))
        path.chmod(0o755)

    def words(self, tool, trace="trace.din"):
        words = (trace if word == "INPUT" else word.replace("MAIN", self.main)
                 for word in {**RUNS, **self.runs}[tool])
        return [str(self.tools / tool.split()[0]), *words]

    def environment(self, calls, **more):
        private = calls / "private"
        for folder in (calls, private):
            folder.mkdir()
            folder.chmod(0o777)  # also where umask is another
        own = {"PATH": f"{self.commands}:{self.system}",
               "CACHESIM": self.commands / "cachesim", "CALLS": calls}
        own = {name: str(path) for name, path in {**own, "TMPDIR": private}.items()}
        return {**own, "LC_ALL": "C.UTF-8", "PYTHONDONTWRITEBYTECODE": "1", **FAKE, **more}

    def run_in(self, name, words, before="", after="", **more):
        """Runs a tool in a folder of its own. The folder `name` tells which commands it called."""
        calls = self.folder / name
        env = self.environment(calls, **more)
        folder = calls / "in"
        shutil.copytree(self.given, folder)
        given = {"env": env, "cwd": folder, "stdin": subprocess.DEVNULL, **PIPES}
        folder.chmod(0o777)
        command = ["/bin/bash", "-c", f'{before} "$@" {after}', "bash", *words]
        command = [*self.around, *command]
        with subprocess.Popen(command, **given) as running:
            out, told = self.end_of(running)
        out = out.replace(str(folder).encode(), b"its folder")
        if (made := folder / words[-1]).suffix in (".html", ".png") and made.exists():
            out = made.read_bytes()
        ran = subprocess.CompletedProcess(words, running.returncode, out, told)
        self.assertTrue(comes(lambda: not processes(running.pid)), f"{name} leaves a process")
        ran.private = [path.name for path in (calls / "private").iterdir()]
        ran.calls = sorted(path.name for path in calls.iterdir() if path.is_file())
        ran.is_at_begin = bool(before or after)  # there may be no output that can be marked
        shutil.rmtree(calls)
        return ran

    def whole(self, tool, trace="trace.din"):
        """The whole answer, and each call of a command as its name and number."""
        ran = self.run_in("whole", self.words(tool, trace))
        self.assertEqual((ran.stderr, ran.returncode), (b"", 0))
        self.assertNotEqual(ran.stdout, b"")
        return ran.stdout, ran.calls

    def judge(self, tool, ran, whole, what):
        """A run that ended well has the whole answer. One that failed has no part of it; or a
        trace that no simulator takes."""
        self.assertNotIn("Traceback", what)
        if ran.returncode == 0 and tool in OF_VALGRIND:  # whose stack is elsewhere in each run
            self.assertTrue(whole[-9:].endswith(b"\n") and b"failed" not in ran.stdout, what)
            self.assertAlmostEqual(len(ran.stdout) / len(whole), 1, delta=0.1, msg=what)
        elif ran.returncode == 0:
            self.assertEqual(ran.stdout, whole, what)
        elif tool in OF_STUDENTS and ran.returncode == 1:
            pass  # an answer too: something is wrong with what they judge
        elif tool.split()[0] not in WRITES_A_TRACE:
            self.assertIn(ran.stdout, (b"", whole), what)
        elif ran.stdout != whole and (ran.stdout or not ran.is_at_begin):
            self.assert_no_trace(ran.stdout, what)

    def assert_no_trace(self, text, what):
        form = ["--format", "l"] if text.startswith((b"I ", b" ")) else []
        sweep = [PROGRAM, "sweep", *SPACE, *form, "-t", "/dev/stdin"]
        swept = subprocess.run(sweep, input=text, capture_output=True, check=False)
        self.assertNotEqual(swept.returncode, 0, what)

    def each(self, tool, whole, runs):
        """Judges runs side by side: of each what it is of, and its arguments."""
        def ran(run):
            what, words, more = run
            return what, self.run_in(f"{tool} {what}".replace("/", ""), *words, **more)

        with concurrent.futures.ThreadPoolExecutor(os.cpu_count()) as pool:
            for what, got in pool.map(ran, runs):
                told = got.stderr.decode(errors="replace")
                self.judge(tool, got, whole, f"{tool}: {what}: status {got.returncode}: {told}")
                yield what, got


class Commands(FailureTest):
    def test_each_command_in_turn(self):
        """In the plain tests only the first call of each."""
        for tool in self.runs:
            with self.subTest(tool):
                self.judge_commands(tool)
        for tool in UNPACKS:
            for trace in self.packed:
                with self.subTest(tool=tool, trace=trace):
                    self.judge_commands(tool, trace)

    def judge_commands(self, tool, trace="trace.din"):
        """A command that fails or is killed is named."""
        whole, calls = self.whole(tool, trace)
        calls = [call for call in calls if not PLAIN or call.endswith(".1") and (
            trace == "trace.din" or call.startswith("gzip"))]
        runs = [(f"{call} {way}", (self.words(tool, trace),), {"FAILING": call, "WAY": way})
                for call in calls for way in WAYS]
        for what, ran in self.each(tool, whole, runs):
            command, told = what.rpartition(".")[0], ran.stderr.decode()
            if ran.returncode and command not in ("valgrind", QEMU):  # the program's own status
                # some have told themselves why they failed
                named = f"{command}|no job|compiled" if what[-1].isdigit() else command
                self.assertRegex(told, rf"(?m)\A.*({named}|page \d|the run of|row).*$", what)

    def test_each_command_missing(self):
        """It is named with its package."""
        for tool in self.runs:
            whole, calls = self.whole(tool)
            called = {call.rpartition(".")[0] for call in calls}
            for command in called - {"cachesim", *OWN_COMMANDS}:
                few = self.folder / f"few {tool} {command}".replace("/", "")
                few.mkdir()
                for path in self.commands.iterdir():
                    if path.name != command:
                        (few / path.name).symlink_to(path)
                path = f"{few}:{self.system}"
                runs = [(f"without {command}", (self.words(tool),), {"PATH": path})]
                for what, ran in self.each(tool, whole, runs):
                    told = ran.stderr.decode()
                    self.assertIn(f"{command} is missing: apt-get install", told, (tool, what))


class Surroundings(FailureTest):
    def test_closed_streams(self):
        for tool in self.runs:
            with self.subTest(tool):
                whole, _ = self.whole(tool)
                places = some([">&-", "<&-", "2>&-", "<&- >&- 2>&-", "<&- 2>&-"])
                runs = [(place, (self.words(tool), "", place), {}) for place in places]
                for place, ran in self.each(tool, whole, runs):
                    if ">&-" in place.replace("2>&-", "") and tool not in TO_A_FILE:
                        self.assertNotEqual(ran.returncode, 0, f"{tool} {place}")

    def test_few_descriptors(self):
        # under Valgrind the program itself ends with a status for want of them: its trace is whole
        limits = some([5, 6, 7, 8, 9, 10, 12, 14, 17])  # with fewer Python doesn't begin
        for tool in (tool for tool in self.runs if tool not in OF_VALGRIND):
            with self.subTest(tool):
                whole, _ = self.whole(tool)
                runs = [(f"{most} descriptors", (self.words(tool), f"ulimit -n {most};"), {})
                        for most in limits]
                for what, ran in self.each(tool, whole, runs):
                    self.assertEqual(ran.private, [], f"{tool} {what}")


class Limits(FailureTest):
    """What the system may refuse: sizes of files, memory, processes, processor time, room."""

    def judge_limits(self, limits, others=()):
        for tool in (tool for tool in self.runs if tool not in (*OF_STUDENTS, *others)):
            with self.subTest(tool):
                whole, _ = self.whole(tool)
                runs = [(limit, (self.words(tool), limit), {}) for limit in some(limits)]
                for what, ran in self.each(tool, whole, runs):
                    self.assertEqual(ran.private, [], f"{tool} {what}")

    def test_sizes_of_files(self):
        self.judge_limits(f"ulimit -f {blocks};" for blocks in (1, 0, 4))

    def test_memory(self):
        limits = [f"ulimit -v {size};" for size in (40000, 30000, 60000, 120000)]
        self.judge_limits(limits, OF_VALGRIND)

    def test_processes(self):
        """As another user, for whom there is a limit: no tool waits for one that isn't there."""
        user = "setpriv --reuid 65534 --clear-groups --" if os.geteuid() == 0 else ""
        path = f"PATH=$PATH:{os.path.dirname(shutil.which('setpriv'))}"
        limits = some(f"ulimit -u {most};" for most in (3, 1, 2, 4, 6))
        for tool in self.runs:
            with self.subTest(tool):
                whole, _ = self.whole(tool)
                line = f'{path}; exec {user} /bin/bash -c \'{{}} exec "$@"\' bash'
                runs = [(limit, (self.words(tool), line.format(limit)), {}) for limit in limits]
                for _ in self.each(tool, whole, runs):
                    pass

    def test_outputs_that_fail(self):
        """A full device, which one line tells of; and a reader that goes where signals are ignored,
        as after `trap '' PIPE`."""
        ignored = "trap '' PIPE; PATH=$PATH:/usr/bin; set -o pipefail;"
        for tool in self.runs.keys() - TO_A_FILE:
            for before, after, least in ("", "> /dev/full", 1), (ignored, "| true", 0):
                with self.subTest(tool=tool, after=after):
                    ran = self.run_in("output", self.words(tool), before, after)
                    told = ran.stderr.decode()
                    self.assertTrue(ran.returncode or after == "| true", told)
                    self.assertTrue(least <= told.count("\n") <= 1, told)
                    self.assertNotIn("Traceback", told)
